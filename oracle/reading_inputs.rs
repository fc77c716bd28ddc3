//! What civil readings are tried on: tables on days and others, counts, and fields.

use crate::chance::Chance;
use crate::civil_reader::{calendar, Fields};
use crate::images::{self, image, prepared, IMAGE_BYTES};
use crate::number::{Kind, Number};
use gnss_time::{LeapEntry, LeapSeconds, RUNTIME_CAPACITY};
use std::sync::OnceLock;

const SECOND: i128 = 1_000_000_000;
const DAY_SECONDS: i128 = 86_400;
const DAY: i128 = DAY_SECONDS * SECOND;
const GREATEST: i128 = u64::MAX as i128;
/// E: 1972-01-01 to 1980-01-06.
const UTC_TO_GPS: i128 = 252_892_800 * SECOND;
const TAI_MINUS_GPS: i128 = 19 * SECOND;
/// The last midnight with a UTC count, that of 2556-07-20, in days from 1980-01-06.
const LAST_UTC_DAY: i128 = (GREATEST - UTC_TO_GPS) / DAY;
/// The last midnight that can be the threshold of a 64th entry.
const LAST_DAY: i128 = (GREATEST - (19 + 63) * SECOND) / DAY;
const MOST_EVENTS: usize = RUNTIME_CAPACITY - 1;

/// The types of the fields.
pub const KINDS: [Kind; 7] = [i32::KIND, u8::KIND, u8::KIND, u8::KIND, u8::KIND, u8::KIND, u32::KIND];

/// How far from a threshold the counts in order lie: at the ends of the two seconds on either side of it, in them, and
/// at the ends of the days on either side.
const AROUND: [i128; 20] = [
    -DAY - SECOND - 1,
    -DAY - SECOND,
    -DAY - 1,
    -DAY,
    -2 * SECOND,
    -SECOND - 1,
    -SECOND,
    -SECOND + 1,
    -SECOND / 2,
    -1,
    0,
    1,
    SECOND / 2,
    SECOND - 1,
    SECOND,
    SECOND + 1,
    2 * SECOND,
    DAY - 1,
    DAY,
    DAY + SECOND,
];

/// GPS counts around each threshold and around the ends of the ranges.
pub fn counts(entries: &[LeapEntry]) -> Vec<i128> {
    let thresholds = entries.iter().map(|entry| i128::from(entry.tai_nanos) - TAI_MINUS_GPS);
    let mut counts: Vec<i128> = thresholds.chain(ends(entries)).flat_map(|mark| AROUND.map(|far| mark + far)).collect();
    counts.retain(|gps| (0..=GREATEST).contains(gps));
    counts.sort_unstable();
    counts.dedup();
    counts
}

/// The GPS counts at the ends of 64 bits of GPS, TAI and UTC, these by the first offset and the last.
fn ends(entries: &[LeapEntry]) -> Vec<i128> {
    let offsets = entries.first().into_iter().chain(entries.last()).map(|entry| i128::from(entry.tai_minus_utc));
    let last_with_utc = offsets.map(|offset| GREATEST - UTC_TO_GPS + (offset - 19) * SECOND);
    [0, 1 << 63, GREATEST - TAI_MINUS_GPS, GREATEST].into_iter().chain(last_with_utc).collect()
}

/// A GPS count near a threshold or an end, or any.
pub fn draw_count(chance: &mut Chance, entries: &[LeapEntry]) -> i128 {
    let mark = match chance.below(8) {
        0 => chance.one_of(&ends(entries)),
        1 => i128::from(chance.next() >> chance.below(64)),
        2 => chance.within(0, LAST_DAY) * DAY,
        _ if entries.is_empty() => 0,
        _ => i128::from(entries[chance.below(entries.len() as u64) as usize].tai_nanos) - TAI_MINUS_GPS,
    };
    let gps = match chance.below(3) {
        0 => mark + AROUND[chance.below(AROUND.len() as u64) as usize],
        1 => mark + chance.within(-2 * SECOND, 2 * SECOND),
        _ => mark + chance.of_length_up_to(50),
    };
    gps.clamp(0, GREATEST)
}

const LEAST_YEAR: i128 = i32::MIN as i128;
const GREATEST_YEAR: i128 = i32::MAX as i128;

/// The numbers at which a field is tried, next to its neighbours.
const EDGES: [&[i128]; 7] = [
    &[LEAST_YEAR, -1, 0, 1971, 1972, 1979, 1980, 1981, 2016, 2017, 2556, 2557, 2564, 2565, GREATEST_YEAR],
    &[0, 1, 2, 3, 6, 7, 12, 13, 255],
    &[0, 1, 28, 29, 30, 31, 32, 255],
    &[0, 22, 23, 24, 255],
    &[0, 58, 59, 60, 255],
    &[0, 58, 59, 60, 61, 120, 255],
    &[0, 1, 999_999_999, 1_000_000_000, 1_000_000_001, u32::MAX as i128],
];

/// The same fields with one of them changed by one or to an edge.
pub fn changes(fields: Fields) -> Vec<Fields> {
    let mut changes = Vec::new();
    for (place, kind) in KINDS.iter().enumerate() {
        let neighbours = [fields[place] - 1, fields[place] + 1];
        for value in neighbours.iter().chain(EDGES[place]).filter(|value| kind.holds(**value)) {
            let mut changed = fields;
            changed[place] = *value;
            changes.push(changed);
        }
    }
    changes
}

/// What refuses fields, each with the place of its field: years without a count, fields out of range, and second 60,
/// which few minutes have. A day of 30 or 31 is out of range in some months only.
const WRONG: [(usize, &[i128]); 8] = [
    (0, &[LEAST_YEAR, 1900, 1979, 2565, GREATEST_YEAR]),
    (1, &[0, 13, 255]),
    (2, &[0, 30, 31, 32, 255]),
    (3, &[24, 255]),
    (4, &[60, 255]),
    (5, &[61, 255]),
    (5, &[60]),
    (6, &[1_000_000_000, u32::MAX as i128]),
];

/// Two fields that are wrong at once: their places, and what stands there.
pub type WrongPair = [(usize, i128); 2];

/// Every two wrong fields.
pub fn wrong_pairs() -> &'static [WrongPair] {
    static PAIRS: OnceLock<Vec<WrongPair>> = OnceLock::new();
    PAIRS.get_or_init(|| {
        let wrong = || WRONG.into_iter().flat_map(|(place, values)| values.iter().map(move |value| (place, *value)));
        let pairs = wrong().flat_map(|first| wrong().map(move |later| [first, later]));
        pairs.filter(|[first, later]| first.0 < later.0).collect()
    })
}

/// The same fields with two of them wrong.
pub fn with_wrong(mut fields: Fields, pair: WrongPair) -> Fields {
    for (place, value) in pair {
        fields[place] = value;
    }
    fields
}

/// Years of every kind: common and leap, hundreds of both, before the year 0 and at the ends of the type.
fn years() -> Vec<i128> {
    let first = [LEAST_YEAR, LEAST_YEAR + 1, -2_147_483_600, -2_147_483_500, -400, -100, -4, -1];
    let middle = [0, 1, 4, 1900, 1972, 1979, 1980, 2000, 2023, 2024, 2100, 2400, 2500, 2556, 2564];
    let last = [2_147_483_500, 2_147_483_600, GREATEST_YEAR - 3, GREATEST_YEAR];
    first.into_iter().chain(middle).chain(last).collect()
}

/// The days around the ends of the months in years of every kind, 29 February among them.
pub fn ends_of_months() -> &'static [Fields] {
    static DATES: OnceLock<Vec<Fields>> = OnceLock::new();
    let days = |year: i128| (1..=12).flat_map(move |month| [0, 1, 28, 29, 30, 31, 32].map(|day| [year, month, day]));
    let at_a_time = |[year, month, day]: [i128; 3]| [year, month, day, 12, 34, 56, 0];
    DATES.get_or_init(|| years().into_iter().flat_map(days).map(at_a_time).collect())
}

/// Fields at the ends of the ranges and at inserted seconds that only some tables have, or none.
pub fn notable_fields() -> Vec<Fields> {
    vec![
        [1972, 1, 1, 0, 0, 0, 0],
        [1979, 12, 31, 23, 59, 60, 0],
        [1980, 1, 5, 23, 59, 59, 999_999_999],
        [1980, 1, 5, 23, 59, 60, 0],
        [1980, 1, 6, 0, 0, 0, 0],
        [1980, 1, 6, 23, 59, 60, 999_999_999],
        [1981, 6, 30, 23, 59, 60, 0],
        [2000, 2, 29, 23, 59, 60, 500_000_000],
        [2016, 12, 31, 23, 59, 60, 999_999_999],
        [2017, 1, 1, 0, 0, 0, 0],
        [2023, 2, 31, 24, 60, 61, 1_000_000_000],
        [2556, 7, 19, 23, 59, 60, 0],
        [2556, 7, 20, 23, 34, 33, 709_551_615],
        [2556, 7, 20, 23, 59, 60, 0],
        [2564, 7, 24, 23, 59, 60, 0],
    ]
}

/// The first instant of the second that an entry inserts, or would if its threshold were a midnight; for a threshold in
/// the first day there is none.
fn inserted(entry: &LeapEntry) -> Option<Fields> {
    let day = usize::try_from(entry.tai_nanos / u64::narrow(DAY)).ok()?.checked_sub(1)?;
    let [year, month, day] = calendar()[day];
    Some([year, month, day, 23, 59, 60, 0])
}

/// Each second that a table inserts, past the range of counts, too.
pub fn inserted_fields(entries: &[LeapEntry]) -> Vec<Fields> {
    entries.iter().skip(1).filter_map(inserted).collect()
}

/// Random fields: those of a reading or of an inserted second, or any; two of them wrong, or up to two changed.
pub fn draw_fields(chance: &mut Chance, entries: &[LeapEntry], reading: Option<Fields>) -> Fields {
    let any_inserted = (!entries.is_empty()).then(|| &entries[chance.below(entries.len() as u64) as usize]);
    let mut fields = match (chance.below(8), reading, any_inserted.and_then(inserted)) {
        (0, _, Some(fields)) | (2.., Some(fields), _) => fields,
        _ => draw_any_fields(chance),
    };
    if chance.below(8) == 0 {
        return with_wrong(fields, wrong_pairs()[chance.below(wrong_pairs().len() as u64) as usize]);
    }
    for _ in 0..chance.below(3) {
        let place = chance.below(7) as usize;
        let value = match chance.below(3) {
            0 => chance.one_of(EDGES[place]),
            1 => fields[place] + chance.within(-2, 2),
            _ => chance.within(KINDS[place].least, KINDS[place].greatest),
        };
        fields[place] = value.clamp(KINDS[place].least, KINDS[place].greatest);
    }
    fields
}

/// Of each eight: four times a day of the calendar in its last second or the one after it, one at any time of day; one
/// near the end of a month in any year, and one in a February; one with fields of any length.
fn draw_any_fields(chance: &mut Chance) -> Fields {
    let [year, month, day] = calendar()[chance.below(calendar().len() as u64) as usize];
    let [hour, minute, second] = [23, 59, 60].map(|greatest| chance.within(0, greatest));
    let nanos = chance.within(0, SECOND - 1);
    match chance.below(8) {
        0 => KINDS.map(|kind| chance.within(kind.least, kind.greatest)),
        1 => [year, month, day, hour, minute, second, nanos],
        2 => [draw_year(chance), chance.within(1, 12), chance.within(28, 32), hour, minute, second, nanos],
        3 => [draw_year(chance), 2, chance.within(28, 30), hour, minute, second, nanos],
        _ => [year, month, day, 23, 59, chance.within(59, 60), nanos],
    }
}

/// A year of the calendar or any, in every other draw a hundred.
fn draw_year(chance: &mut Chance) -> i128 {
    let year = match chance.below(2) {
        0 => chance.within(1980, 2564),
        _ => chance.within(LEAST_YEAR, GREATEST_YEAR),
    };
    match chance.below(2) {
        0 => year,
        _ => year / 100 * 100,
    }
}

/// The table with leap seconds at the ends of these days: each is the number of the day that follows, from 1980-01-06.
fn on_days(days: &[i128]) -> Vec<LeapEntry> {
    let later = days.iter().zip(20..).map(|(day, offset)| entry(day * DAY_SECONDS + i128::from(offset), offset));
    [LeapEntry::new(0, 19)].into_iter().chain(later).collect()
}

fn entry(threshold_seconds: i128, offset: i32) -> LeapEntry {
    LeapEntry::new(u64::narrow(threshold_seconds * SECOND), offset)
}

/// The days after the leap seconds of the built-in table.
fn builtin_days() -> Vec<i128> {
    LeapSeconds::builtin().entries()[1..].iter().map(|entry| i128::from(entry.tai_nanos) / DAY).collect()
}

/// The numbers of the days with this month and day of the month, as many as a table takes, from a year on.
fn yearly(year: i128, month: i128, day: i128) -> Vec<i128> {
    let numbered = calendar().iter().zip(0..);
    let found = numbered.filter(|(date, _)| date[0] >= year && date[1..] == [month, day]);
    found.map(|(_, number)| number).take(MOST_EVENTS).collect()
}

/// The images that are tried in order: on days, almost, not regular, and all that the other calls by a table are tried
/// on.
pub fn images() -> Vec<Vec<u8>> {
    let tables = [tables_on_days(), tables_off_days(), irregular_tables()].concat();
    let others = (0..images::all()).map(|number| prepared(number as i128).bytes().to_vec());
    tables.iter().map(|entries| image(entries)).chain(others).collect()
}

/// Tables with leap seconds at the first midnights, the last ones with a UTC count and the last of all, in a row and
/// far apart, the built-in table and more, and leap seconds each year on one date.
fn tables_on_days() -> Vec<Vec<LeapEntry>> {
    let in_a_row = |first: i128, many: usize| (first..).take(many).collect::<Vec<i128>>();
    let mut all = vec![vec![], vec![1], vec![LAST_DAY], vec![1, LAST_DAY], vec![1, LAST_UTC_DAY, LAST_DAY]];
    all.extend((LAST_UTC_DAY - 2..=LAST_UTC_DAY + 3).map(|day| vec![day]));
    let firsts = [1, LAST_UTC_DAY - 62, LAST_UTC_DAY - 61, LAST_UTC_DAY - 30, LAST_DAY - 62];
    all.extend(firsts.map(|first| in_a_row(first, MOST_EVENTS)));
    let builtin = builtin_days();
    let next = builtin[builtin.len() - 1] + 1;
    let more = [vec![next], vec![next + 364], in_a_row(next, MOST_EVENTS - builtin.len())];
    all.extend(more.map(|more| [&builtin[..], &more].concat()));
    all.extend([yearly(1981, 1, 1), yearly(1981, 7, 1), yearly(2060, 3, 1), yearly(1980, 2, 29), yearly(2350, 12, 31)]);
    all.iter().map(|days| on_days(days)).collect()
}

/// Regular tables on days, with one threshold moved, or all from one on.
fn tables_off_days() -> Vec<Vec<LeapEntry>> {
    let distances = [1, SECOND - 1, SECOND, SECOND + 1, 19 * SECOND, DAY / 2, DAY - SECOND, DAY - 1];
    let mut all = Vec::new();
    for days in [vec![9_000], vec![1_000, 2_000, 3_000], builtin_days()] {
        for far in distances.into_iter().flat_map(|far| [far, -far]) {
            for place in 1..=days.len() {
                all.push(moved(on_days(&days), place..place + 1, far));
                all.push(moved(on_days(&days), place..days.len() + 1, far));
            }
        }
    }
    // exactly a day apart, which is a second less than two midnights with an inserted second between
    all.push(vec![LeapEntry::new(0, 19), entry(10 * DAY_SECONDS + 20, 20), entry(11 * DAY_SECONDS + 20, 21)]);
    all
}

/// A table with some of its thresholds moved.
fn moved(mut entries: Vec<LeapEntry>, places: std::ops::Range<usize>, far: i128) -> Vec<LeapEntry> {
    for entry in &mut entries[places] {
        let threshold = (i128::from(entry.tai_nanos) + far).clamp(0, GREATEST);
        *entry = LeapEntry::new(u64::narrow(threshold), entry.tai_minus_utc);
    }
    entries
}

/// Tables that are on days and not regular.
fn irregular_tables() -> Vec<Vec<LeapEntry>> {
    let later = on_days(&[1_000, 2_000])[1..].to_vec();
    let with_first = |first: LeapEntry| [vec![first], later.clone()].concat();
    let of_days = |offset: i32| {
        (0..3).zip(offset..).map(|(day, offset)| entry(day * 100 * DAY_SECONDS + i128::from(offset), offset))
    };
    vec![
        vec![],
        later.clone(),
        with_first(LeapEntry::new(1, 19)),
        with_first(entry(19, 19)),
        with_first(entry(DAY_SECONDS, 19)),
        // at the first midnight, and two at one midnight
        on_days(&[0]),
        on_days(&[0, 1_000]),
        on_days(&[1_000, 1_000]),
        on_days(&[1_000, 1_000, 2_000]),
        // by other offsets
        of_days(0).collect(),
        of_days(18).collect(),
        of_days(19).collect(),
        of_days(20).collect(),
    ]
}

/// Of each eight: five tables on days, one with some of its thresholds moved, one without its first entry or with one
/// midnight twice, and one with some bytes changed or of another size.
pub fn draw_image(chance: &mut Chance) -> Vec<u8> {
    let mut days = draw_days(chance);
    let table = on_days(&days);
    let place = chance.below(table.len() as u64) as usize;
    match chance.below(8) {
        0..=4 => image(&table),
        5 => {
            let any = chance.of_length_up_to(46);
            let far = chance.one_of(&[1, -1, SECOND, -SECOND, any]);
            let end = chance.within(place as i128 + 1, table.len() as i128) as usize;
            image(&moved(table, place..end, far))
        }
        6 if place > 0 && days.len() < MOST_EVENTS => {
            days.insert(place, days[place - 1]);
            image(&on_days(&days))
        }
        6 => image(&table[1..]),
        _ => draw_forgery(chance, image(&table)),
    }
}

/// Midnights in order: from some day on, or up to a day near the end of UTC or of TAI counts.
fn draw_days(chance: &mut Chance) -> Vec<i128> {
    let (wanted, bits) = (chance.below(MOST_EVENTS as u64 + 1) as usize, chance.below(16));
    let mut day = match chance.below(4) {
        0 => LAST_DAY,
        1 => LAST_UTC_DAY + chance.within(-1, 3),
        _ => chance.within(1, LAST_DAY),
    };
    let mut days = Vec::new();
    while days.len() < wanted && day >= 1 {
        days.push(day);
        day -= 1 + chance.of_length_up_to(bits).abs();
    }
    days.reverse();
    days
}

/// An image with one to three bytes changed, or with fewer bytes or more.
pub fn draw_forgery(chance: &mut Chance, mut bytes: Vec<u8>) -> Vec<u8> {
    if chance.below(4) == 0 {
        bytes.resize(chance.one_of(&[0, 776, 783, 785, 1_568]) as usize, 0);
        return bytes;
    }
    for _ in 0..=chance.below(3) {
        bytes[chance.below(IMAGE_BYTES as u64) as usize] ^= 1 << chance.below(8);
    }
    bytes
}
