//! Files that are read as a leap-seconds.list: notable ones in order, and random ones.

use crate::chance::Chance;

/// The list as it was published (data/README.md).
pub const PUBLISHED: &[u8] = include_bytes!("../data/leap-seconds.list");

/// The records of the published list, with lines and blanks of every kind.
const SHORT: &[u8] = b"#$\t3960835200\n#@\t3991593600\n\n2272060800 10\n2287785600\t11\n2303683200      12      # 1973
2335219200 13\n2366755200 14#\n2398291200 15\t\n \t\n2429913600 16\n2461449600 17\n2492985600 18\n2524521600 19 # GPS
2571782400 20\n2603318400 21\n2634854400 22\n2698012800 23\n2776982400 24\n2840140800 25\n2871676800 26\n#
2918937600 27\n2950473600 28\n2982009600 29\n3029443200 30\n3076704000 31\n3124137600 32\n3345062400 33
3439756800 34\n3550089600 35\n3644697600 36\n3692217600 37\n#h\t49db2447\n";

const LF: u8 = b'\n';
/// The NTP second of the GPS epoch, and that of the offset 19.
const EPOCH: i128 = 2_524_953_600;
const FIRST: i128 = 2_524_521_600;
/// The last TAI second that begins within 64 bits of nanoseconds.
const LAST_SECOND: i128 = 18_446_744_073;
const GREATEST_OFFSET: i128 = i32::MAX as i128;

/// Files with one thing to see in each.
const NOTABLE: [&[u8]; 68] = [
    b"",
    b"\n",
    b"\r\n",
    b"#",
    b"#\r",
    b"#\r#",
    b" #",
    b" 0 19",
    b"0",
    b"0 ",
    b"0 19",
    b"0 19\n\n\n",
    b"0\t19\t#",
    b"0 19#\0\xff\r.",
    b"0 19\r\n",
    b"0 19 \r",
    b"0 19 20",
    b"0\x0b19",
    b"+0 19",
    b"0 -19",
    b"0 19.",
    b"0 18",
    b"0 20\n1 19",
    b"0 18\n1 19\n2 20",
    b"0 19\n2524953580 20",
    b"0 19\n2524953581 20",
    b"18446744073709551615 19",
    b"18446744073709551616 19",
    b"00000000000000000000 00000000000000000019",
    b"000000000000000000000 19",
    b"0 000000000000000000019",
    b"99999999999999999999 19",
    b"0 19\n20971697653 20\n",
    b"0 19\n20971697654 20\n",
    b"0 19\n0 2147483647\n",
    b"0 2147483648\n0 19\n",
    b"0 2147483647\n1 19\n",
    b"0 2147483647\n0 19\n",
    b"#@",
    b"#@ ",
    b"#@1\n0 19",
    b"#@ 2524953581\n0 19",
    b"#@ 2524953580\n0 19",
    b"#@\t 2524953581 \t\n0 19",
    b"0 19\n#@ 2524953581",
    b"0 18\n1 19\n2524953581 20\n#@ 2524953580",
    b"0 18\n1 19\n2524953581 20\n#@ 2524953579",
    b"#@ 20971697654\n0 19",
    b"#@ 20971697655\n0 19",
    b"#@ 18446744073709551615\n0 19",
    b"#@ 18446744073709551616\n0 19",
    b"#@ 00000000003991593600\n0 19",
    b"#@ 000000000003991593600\n0 19",
    b"#@ 3991593600\r\n0 19",
    b"#@ 3991593600#\n0 19",
    b"#@ 3991593600 # 28 June 2026\n0 19",
    b"#@ 3991593600 1\n0 19",
    b"#@ x\n0 19",
    b"#@ -1\n0 19",
    b"#@\x0b3991593600\n0 19",
    b"#@ 3991593600\n#@ 3991593600\n0 19",
    b"#@ 3991593600\n0 19\n#@ x",
    b"#@ 3991593600\n0 19\nx\n#@ 3991593600",
    b"# @ 1\n ##@ 1\n0 19",
    b"##@ 1\n0 19",
    b"#@ 0\n",
    b"#@ 0\n0 18",
    b"#@ 0\n0 19\n0 20",
];

/// Files in order: the notable ones, tiny ones, every beginning of the two lists, lists of about as many entries as a
/// table has, and files that are about as long as can be.
pub fn in_order() -> impl Iterator<Item = Vec<u8>> {
    let beginnings = |list: &'static [u8]| (0..=list.len()).map(|end| list[..end].to_vec());
    let notable = NOTABLE.into_iter().map(<[u8]>::to_vec);
    notable.chain(tiny()).chain(beginnings(SHORT)).chain(beginnings(PUBLISHED)).chain(full()).chain(long())
}

/// Lists of 63 to 66 entries, each with a record before them or none, and with a last threshold that fits or not; then
/// the same with an expiry that fits or not, and with a last threshold that fits.
fn full() -> impl Iterator<Item = Vec<u8>> {
    let list = |entries: i128, dropped: i128, last: i128| {
        let offsets = 19 - dropped..18 + entries;
        let lines = offsets.map(|offset| (FIRST + 40_000_000 * (offset - 19), offset));
        let lines = lines.chain([(EPOCH - 18 - entries + last, 18 + entries)]);
        lines.map(|(ntp, offset)| format!("{ntp} {offset}\n")).collect::<String>()
    };
    let expiring = move |entries: i128, dropped: i128, tai: i128| {
        format!("#@ {}\n{}", EPOCH - 18 - entries + tai, list(entries, dropped, LAST_SECOND))
    };
    let near = [-1, 0, 1];
    let lists = (63..=66).flat_map(move |entries| [(entries, 0), (entries, 1)]).flat_map(move |(entries, dropped)| {
        let lasts = near.map(|near| list(entries, dropped, LAST_SECOND + near));
        let early = near.map(|near| expiring(entries, dropped, near));
        let late = near.map(|near| expiring(entries, dropped, LAST_SECOND + near));
        [lasts, early, late].concat()
    });
    lists.map(String::into_bytes)
}

/// Every file of up to six of the bytes that a small list is made of, and a list after every line of up to four of the
/// bytes that follow `#@`.
fn tiny() -> impl Iterator<Item = Vec<u8>> {
    let expiries = (0..=4).flat_map(|length| of_bytes(b"09 \t#@\r\n", length));
    let with_expiry = expiries.map(|after: Vec<u8>| [b"#@", &after[..], b"\n2524953590 19\n"].concat());
    (0..=6).flat_map(|length| of_bytes(b"19 \t#\n\r", length)).chain(with_expiry)
}

/// Every file of a length that has these bytes alone.
fn of_bytes(bytes: &'static [u8], length: u32) -> impl Iterator<Item = Vec<u8>> {
    let byte = |number: usize, place: u32| bytes[number / bytes.len().pow(place) % bytes.len()];
    (0..bytes.len().pow(length)).map(move |number| (0..length).map(|place| byte(number, place)).collect())
}

/// Files around the greatest length.
fn long() -> impl Iterator<Item = Vec<u8>> {
    [65_535, 65_536, 65_537].into_iter().flat_map(|length: usize| {
        let comment = |length: usize| [b"#".repeat(length - 1), b"\n".to_vec()].concat();
        let rest = length - PUBLISHED.len();
        [
            b"#".repeat(length),
            b"\n".repeat(length),
            b"#\n".repeat(length)[..length].to_vec(),
            b"7".repeat(length),
            [b"\n".repeat(length - 1), b"x".to_vec()].concat(),
            [b"#".repeat(length - 1), b"\r".to_vec()].concat(),
            [comment(rest), PUBLISHED.to_vec()].concat(),
            [PUBLISHED.to_vec(), comment(rest)].concat(),
            [PUBLISHED, &b"#\n".repeat(rest)[..rest]].concat(),
        ]
    })
}

/// A random file: records written as lines, with a line for the expiry or none, or one of the two lists; with some of
/// its bytes or lines changed, or none.
pub fn draw(chance: &mut Chance) -> Vec<u8> {
    let mut file = match chance.below(256) {
        0 => PUBLISHED.to_vec(),
        1..=39 => SHORT.to_vec(),
        _ => {
            let records = records(chance);
            let lines = written(&records, chance);
            with_expiry(lines, &records, chance)
        }
    };
    for _ in 0..chance.below(5).saturating_sub(2) {
        change(&mut file, chance);
    }
    file
}

/// An NTP second and an offset. They may be no numbers of a list: negative, or too large.
type Record = (i128, i128);

/// Records that are a table, with up to two changes.
fn records(chance: &mut Chance) -> Vec<Record> {
    let dropped = chance.below(4).min(chance.below(10)) as i128;
    let more = if chance.below(24) == 0 { chance.within(62, 65) } else { chance.within(0, 7) };
    let mut ntp = FIRST - 40_000_000 * dropped;
    let mut records = Vec::new();
    for offset in 19 - dropped..=19 + more {
        records.push((ntp, offset));
        ntp += if offset < 19 { 40_000_000 } else { 500_000 + chance.of_length_up_to(26).abs() };
    }
    for _ in 0..chance.below(3) {
        twist(&mut records, chance);
    }
    records
}

/// Puts a record next to a limit, or takes it out of its row.
fn twist(records: &mut Vec<Record>, chance: &mut Chance) {
    if records.is_empty() {
        return;
    }
    let place = chance.below(records.len() as u64) as usize;
    let (ntp_before, offset_before) = records[place.saturating_sub(1)];
    let near = chance.within(-2, 2);
    let (ntp, offset) = records[place];
    match chance.below(12) {
        0 => records[place].0 = ntp_before + near,
        1 => records[place].1 = offset_before + near,
        2 => records[place].1 = 19,
        3 => records[place].0 = EPOCH - offset + near,
        4 => records[place].0 = EPOCH - offset + LAST_SECOND + near,
        5 => records[place].0 = (1 << 64) + near,
        6 => records[place].1 = GREATEST_OFFSET + near,
        7 => rise_to_the_greatest(&mut records[..=place]),
        8 => records[place].0 = chance.of_length_up_to(64).abs(),
        9 => records.insert(place, (ntp + near, offset)),
        10 => records.retain(|(_, offset)| *offset != 19),
        _ => records.truncate(place),
    }
}

/// The offsets up to a record, so that the record's is the greatest.
fn rise_to_the_greatest(records: &mut [Record]) {
    records.iter_mut().rev().zip(0..).for_each(|(record, below)| record.1 = GREATEST_OFFSET - below);
}

/// The lines of records, with comments and blank lines here and there.
fn written(records: &[Record], chance: &mut Chance) -> Vec<u8> {
    const BLANKS: [&str; 4] = [" ", "\t", "      ", "\t \t"];
    const ENDS: [&str; 8] = ["", "", "", " ", "#", "# 1 Jan", " # 1 Jan 2017", "\t #\r#"];
    const BETWEEN: [&str; 6] = ["\n", " \t\n", "#\n", "# 0 19\n", "#$\t3960835200\n", "#\r#\0\n"];
    let (blanks, end) = (BLANKS[chance.below(4) as usize], ENDS[chance.below(8) as usize]);
    let digits = if chance.below(16) == 0 { chance.within(18, 21) as usize } else { 1 };
    let mut text = String::new();
    for (ntp, offset) in records {
        if chance.below(8) == 0 {
            text += BETWEEN[chance.below(6) as usize];
        }
        text += &format!("{ntp:0digits$}{blanks}{offset:0digits$}{end}\n");
    }
    text.into_bytes()
}

/// Puts a line for the expiry among those of a file, in two of three; now and then another one, or a malformed one.
fn with_expiry(file: Vec<u8>, records: &[Record], chance: &mut Chance) -> Vec<u8> {
    let mut lines: Vec<Vec<u8>> = file.split_inclusive(|byte| *byte == LF).map(<[u8]>::to_vec).collect();
    let expiries = [0, 1, 1, 1, 1, 1, 1, 1, 0, 0, 0, 2][chance.below(12) as usize];
    for _ in 0..expiries {
        let place = if chance.below(2) == 0 { 0 } else { chance.below(lines.len() as u64 + 1) as usize };
        lines.insert(place, expiry_line(records, chance));
    }
    lines.concat()
}

/// A line for the expiry: mostly near the limits by the last offset, and mostly well-formed.
fn expiry_line(records: &[Record], chance: &mut Chance) -> Vec<u8> {
    const BLANKS: [&str; 6] = [" ", "\t", "\t \t", "  ", "\t", " "];
    const ENDS: [&str; 8] = ["", "", "", "", " ", "\t ", "", ""];
    const WRONG: [&str; 8] = ["", "#", " 1", "\r", " # 2026", "x", ".", "\0"];
    let near = chance.within(-2, 2);
    let last = records.last().map_or(19, |(_, offset)| *offset);
    let ntp = match chance.below(8) {
        0 | 1 => EPOCH - last + near,
        2 | 3 => EPOCH - last + LAST_SECOND + near,
        4 => (1 << 64) + near,
        5 => chance.of_length_up_to(64).abs(),
        _ => 3_991_593_600,
    };
    let digits = if chance.below(8) == 0 { chance.within(18, 21) as usize } else { 1 };
    let wrong = chance.below(8) == 0;
    let blanks = if wrong && chance.below(4) == 0 { "" } else { BLANKS[chance.below(6) as usize] };
    let end = if wrong { WRONG[chance.below(8) as usize] } else { ENDS[chance.below(8) as usize] };
    format!("#@{blanks}{ntp:0digits$}{end}\n").into_bytes()
}

/// One change of a file's bytes or lines.
fn change(file: &mut Vec<u8>, chance: &mut Chance) {
    let place = chance.below(file.len() as u64 + 1) as usize;
    match chance.below(11) {
        0 => file.insert(place, byte(chance)),
        1 if place < file.len() => file[place] = byte(chance),
        2 if place < file.len() => drop(file.remove(place)),
        3 => file.truncate(place),
        4 if file.last() == Some(&LF) => drop(file.pop()),
        5 | 6 => replace_number(file, chance),
        _ => change_lines(file, chance),
    }
}

/// A byte that lists have or could be thought to have, now and then another.
fn byte(chance: &mut Chance) -> u8 {
    const LIKELY: [u8; 20] = *b"0129 \t#\n\r-+.x\x0b\0\xff7\n@#";
    if chance.below(8) == 0 {
        chance.next() as u8
    } else {
        LIKELY[chance.below(20) as usize]
    }
}

/// Puts another number in the place of one, a limit or next to one.
fn replace_number(file: &mut Vec<u8>, chance: &mut Chance) {
    const NUMBERS: [&str; 18] = [
        "0",
        "1",
        "18",
        "19",
        "20",
        "38",
        "2147483646",
        "2147483647",
        "2147483648",
        "4294967315", // 2^32 + 19
        "2524953580",
        "20971697653",
        "18446744073709551615",
        "18446744073709551616",
        "18446744073709551635", // 2^64 + 19
        "99999999999999999999",
        "00000000000000000019",
        "000000000000000000019",
    ];
    let digit = |place: usize| file.get(place).is_some_and(u8::is_ascii_digit);
    let begins: Vec<usize> = (0..file.len()).filter(|at| digit(*at) && !(*at > 0 && digit(at - 1))).collect();
    if begins.is_empty() {
        return;
    }
    let begin = begins[chance.below(begins.len() as u64) as usize];
    let end = (begin..).find(|at| !digit(*at)).unwrap_or(begin);
    file.splice(begin..end, NUMBERS[chance.below(18) as usize].bytes());
}

/// Doubles a line, takes it out, swaps it with the next, or puts a CR before the end of one or of all.
fn change_lines(file: &mut Vec<u8>, chance: &mut Chance) {
    let mut lines: Vec<Vec<u8>> = file.split_inclusive(|byte| *byte == LF).map(<[u8]>::to_vec).collect();
    if lines.is_empty() {
        return;
    }
    let place = chance.below(lines.len() as u64) as usize;
    match chance.below(16) {
        0..=4 => lines.insert(place, lines[place].clone()),
        5..=9 => drop(lines.remove(place)),
        10..=13 if place + 1 < lines.len() => lines.swap(place, place + 1),
        14 => end_by_cr(&mut lines[place]),
        15 => lines.iter_mut().for_each(end_by_cr),
        _ => {}
    }
    *file = lines.concat();
}

fn end_by_cr(line: &mut Vec<u8>) {
    let end = line.len() - usize::from(line.last() == Some(&LF));
    line.insert(end, b'\r');
}
