//! `plaitgate_read_leap_list`, which the crate has no call for, next to the oracle's own reader (list_reader.rs): both
//! read the same files.

use crate::call::prototype_of;
use crate::chance::Chance;
use crate::images::{with_expiry, words, IMAGE_BYTES};
use crate::list_files::{self, PUBLISHED};
use crate::list_reader::{self, Reading, BAD_LIST};
use crate::number::{Number, Place};
use std::collections::BTreeMap;

extern "C" {
    fn plaitgate_read_leap_list(
        list: *const u8,
        list_bytes: usize,
        image: *mut u8,
        image_bytes: usize,
        line: *mut u64,
    ) -> u32;
    fn plaitgate_table_from_builtin(image: *mut u8, image_bytes: usize) -> u32;
}

/// The declaration that the header has to have.
pub fn prototype() -> String {
    let inputs =
        [("*list", "const uint8_t"), ("list_bytes", "size_t"), ("*image", "uint8_t"), ("image_bytes", "size_t")];
    prototype_of("read_leap_list", &inputs, &[("line", u64::KIND)])
}

/// Where Debian's package tzdata has the list.
const DEBIAN: &str = "/usr/share/zoneinfo/leap-seconds.list";
/// Random files for each random input of another call.
const FILES_FOR_EACH: u64 = 10;
const BAD_TABLE: u32 = 8;
/// What an image is filled with, and the bytes around it: as many as make it begin at an odd address.
const UNWRITTEN: u8 = 0xA5;
const AROUND: usize = 7;
const SPILLED: &str = "bytes next to the results are changed";
/// What is right before and after the bytes of a file: a reader that goes past its ends reads another number.
const BEFORE: &[u8] = b"7";
const BEHIND: &[u8] = b"7 20\n";
const DIFFERENCES_SHOWN: u64 = 5;

/// The kinds of answers, each of which has to come: the number, and whether a line is named.
const ANSWERS: [(u32, bool); 10] = [
    (0, false),
    (1, false),
    (3, false),
    (4, false),
    (5, false),
    (6, false),
    (7, false),
    (BAD_TABLE, false),
    (BAD_LIST, true),
    (BAD_LIST, false),
];

/// Reads all files by both. What there is to say of it, or why it failed.
pub fn compare(seed: u64, count: u64) -> Result<Vec<String>, String> {
    let lists = published_lists()?;
    let mut tally = Tally::default();
    for file in list_files::in_order() {
        tally.compare_once(&file);
    }
    let mut chance = Chance::of("read_leap_list", seed);
    for _ in 0..FILES_FOR_EACH * count {
        tally.compare_once(&list_files::draw(&mut chance));
    }
    Ok(vec![tally.verdict()?, lists])
}

#[derive(Default)]
struct Tally {
    files: u64,
    bytes: usize,
    differences: u64,
    answers: BTreeMap<(u32, bool), u64>,
}

impl Tally {
    /// One file through both readers; each 64th file with too few and too many bytes for the image, too.
    fn compare_once(&mut self, file: &[u8]) {
        self.compare_into(file, IMAGE_BYTES);
        if self.files % 64 == 0 {
            for image_len in [0, IMAGE_BYTES - 1, IMAGE_BYTES + 1] {
                self.compare_into(file, image_len);
            }
        }
        self.files += 1;
        self.bytes += file.len();
    }

    fn compare_into(&mut self, file: &[u8], image_len: usize) {
        let (due, port) = (due(file, image_len), port(file, image_len));
        *self.answers.entry((due.number, due.line != 0)).or_default() += 1;
        if port.as_ref() != Some(&due) {
            self.differences += 1;
            if self.differences <= DIFFERENCES_SHOWN {
                println!("DIFFERENCE {}", difference(file, image_len, &due, port.as_ref()));
            }
        }
    }

    fn verdict(&self) -> Result<String, String> {
        let Tally { files, bytes, differences, answers } = self;
        if *differences > 0 {
            return Err(format!("{differences} differences in {files} files through both readers"));
        }
        let times = |answer: &(u32, bool)| answers.get(answer).copied().unwrap_or(0);
        let each: Vec<String> = ANSWERS.iter().map(|answer| format!("{}: {}", name(*answer), times(answer))).collect();
        let each = each.join(", ");
        if ANSWERS.iter().any(|answer| times(answer) == 0) {
            return Err(format!("not every answer of a list's reader came, by number: {each}"));
        }
        let megabytes = bytes / 1_000_000;
        Ok(format!("{files} files, {megabytes} MB, through both readers, no difference; answers by number: {each}"))
    }
}

fn name((number, with_line): (u32, bool)) -> String {
    match (number, with_line) {
        (BAD_LIST, true) => format!("{number} with a line"),
        (BAD_LIST, false) => format!("{number} with line 0"),
        _ => number.to_string(),
    }
}

fn due(file: &[u8], image_len: usize) -> Reading {
    if image_len == IMAGE_BYTES {
        list_reader::read(file)
    } else {
        Reading { number: BAD_TABLE, line: 0, image: vec![UNWRITTEN; image_len] }
    }
}

/// What the port gives back and writes; none where it has changed a byte next to the image or to the line.
fn port(file: &[u8], image_len: usize) -> Option<Reading> {
    let lent = [BEFORE, file, BEHIND].concat();
    let bytes = &lent[BEFORE.len()..][..file.len()];
    let mut room = vec![UNWRITTEN; AROUND + image_len + AROUND];
    let mut line = Place::new();
    // SAFETY: the file and the image are so long and do not overlap, and the line has a place
    let number = unsafe {
        plaitgate_read_leap_list(
            bytes.as_ptr(),
            bytes.len(),
            room[AROUND..].as_mut_ptr(),
            image_len,
            line.address::<u64>(),
        )
    };
    let (before, rest) = room.split_at(AROUND);
    let (image, after) = rest.split_at(image_len);
    let spilled = [before, after].concat() != [UNWRITTEN; 2 * AROUND] || line.spilled::<u64>();
    (!spilled).then(|| Reading { number, line: line.value::<u64>() as u64, image: image.to_vec() })
}

fn difference(file: &[u8], image_len: usize, due: &Reading, port: Option<&Reading>) -> String {
    let port = port.map_or(SPILLED.to_string(), said);
    format!("b\"{}\" into {image_len} bytes\n    due:      {}\n    the port: {port}", file.escape_ascii(), said(due))
}

/// A reading as text: of the image the numbers of 8 bytes that are not 0, by the place of their first byte.
fn said(reading: &Reading) -> String {
    let Reading { number, line, image } = reading;
    let words = words(image).into_iter().enumerate().filter(|(_, word)| *word != 0);
    let words: BTreeMap<usize, i128> = words.map(|(place, word)| (8 * place, word)).collect();
    format!("{number}, line {line}, and an image of zeros except {words:?}")
}

/// The expiry of the list here: 28 June 2026 is NTP second 3,991,593,600, and the last offset is 37.
const EXPIRY_HERE: u64 = (3_991_593_600 - 2_524_953_600 + 37) * 1_000_000_000;

/// The lists as they were published, the one here and Debian's: each is the built-in table with an expiry for both
/// readers, and the one here has that of its date.
fn published_lists() -> Result<String, String> {
    const HERE: &str = "data/leap-seconds.list";
    let expiry = expiry_of_builtin_entries(HERE, PUBLISHED)?;
    if expiry != EXPIRY_HERE {
        return Err(format!("{HERE} expires at {expiry}, and not on 28 June 2026, at {EXPIRY_HERE}"));
    }
    with_cr_lf_is_refused_at_line_1()?;
    let mut lists = vec![format!("{HERE} (expiry {expiry})")];
    match std::fs::read(DEBIAN) {
        Ok(list) => lists.push(format!("{DEBIAN} (expiry {})", expiry_of_builtin_entries(DEBIAN, &list)?)),
        Err(error) if std::env::var("CI").as_deref() == Ok("true") => {
            return Err(format!("cannot read {DEBIAN} (Debian's tzdata): {error}; with CI=true it is read"));
        }
        Err(error) => println!("oracle: NOT READ: {DEBIAN} (Debian's tzdata): {error}"),
    }
    Ok(format!("the built-in table was read from {}; with CR LF the first is refused at line 1", lists.join(" and ")))
}

/// The expiry of a list, which has to be the built-in table otherwise.
fn expiry_of_builtin_entries(name: &str, list: &[u8]) -> Result<u64, String> {
    let mut image = vec![0; IMAGE_BYTES];
    // SAFETY: the image is so long
    let number = unsafe { plaitgate_table_from_builtin(image.as_mut_ptr(), image.len()) };
    let by_the_oracle = due(list, IMAGE_BYTES);
    let expiry = u64::from_le_bytes(by_the_oracle.image[IMAGE_BYTES - 8..].try_into().expect("8 bytes"));
    let builtin = Reading { number, line: 0, image: with_expiry(&image, expiry) };
    for (reader, reading) in [("the oracle's reader", Some(by_the_oracle)), ("the port", port(list, IMAGE_BYTES))] {
        if reading.as_ref() != Some(&builtin) {
            let other = reading.as_ref().map_or(SPILLED.to_string(), said);
            return Err(format!("{name} is not the built-in table with the expiry {expiry}: {reader}: {other}"));
        }
    }
    Ok(expiry)
}

fn with_cr_lf_is_refused_at_line_1() -> Result<(), String> {
    let list = String::from_utf8_lossy(PUBLISHED).replace('\n', "\r\n");
    for reading in [Some(due(list.as_bytes(), IMAGE_BYTES)), port(list.as_bytes(), IMAGE_BYTES)] {
        if reading.map(|reading| (reading.number, reading.line)) != Some((BAD_LIST, 1)) {
            return Err("the published list with CR LF is not refused with 12 at line 1".to_string());
        }
    }
    Ok(())
}
