//! A second reader of a published leap-seconds.list, written from the rules alone. It goes over the whole file for each
//! rule, in the order in which the rules refuse.

use crate::images::{image, with_expiry, NO_EXPIRY};
use gnss_time::{LeapEntry, RUNTIME_CAPACITY};

/// What a reader answers: the refusal's number or 0, the number of the malformed line or 0, and the image.
#[derive(PartialEq)]
pub struct Reading {
    pub number: u32,
    pub line: u64,
    pub image: Vec<u8>,
}

/// Why a file is no table: the refusal's number, and that of the malformed line or 0.
type Refused = (u32, u64);

/// A data line: the NTP second at which an offset begins, and the offset.
struct Record {
    ntp: u64,
    offset: i32,
}

/// A record or an entry as it is compared with the one before: a number of seconds that has to rise, and the offset.
type Step = (i128, i32);

const MOST_BYTES: usize = 65_536;
const MOST_DIGITS: usize = 20;
/// What a line begins with that gives the expiry.
const EXPIRY_MARK: &[u8] = b"#@";
const LF: u8 = 10;
const CR: u8 = 13;
/// The NTP second of the GPS epoch, 1980-01-06, which is 29,224 days after 1900-01-01.
const GPS_EPOCH_NTP: i128 = 29_224 * 86_400;
/// The offset at the GPS epoch.
const FIRST_OFFSET: i32 = 19;
const NANOS_PER_SECOND: i128 = 1_000_000_000;

const OVERFLOW: u32 = 1;
const NOT_STRICTLY_ASCENDING: u32 = 3;
const NON_UNIT_INCREMENT: u32 = 4;
const BUFFER_FULL: u32 = 5;
const EMPTY_TABLE: u32 = 6;
const OFFSET_OVERFLOW: u32 = 7;
pub const BAD_LIST: u32 = 12;

/// What is due for a file.
pub fn read(file: &[u8]) -> Reading {
    match table_of(file) {
        Ok((entries, expiry)) => Reading { number: 0, line: 0, image: with_expiry(&image(&entries), expiry) },
        Err((number, line)) => Reading { number, line, image: image(&[]) },
    }
}

/// The entries and the expiry.
fn table_of(file: &[u8]) -> Result<(Vec<LeapEntry>, u64), Refused> {
    not_too_long(file)?;
    let lines = lines_of(file);
    every_line_is_well_formed(&lines)?;
    let records: Vec<Record> = lines.iter().filter_map(|line| record_in(line)).collect();
    let first = place_of_the_first(&records)?;
    let dropped: Vec<Step> = records[..=first].iter().map(|record| (record.ntp.into(), record.offset)).collect();
    let mut kept: Vec<Step> = vec![(0, FIRST_OFFSET)];
    kept.extend(records[first + 1..].iter().map(|record| (threshold(record), record.offset)));
    every_threshold_fits(&kept)?;
    let expiry = expiry_of(&lines, &records)?;
    not_too_many(&kept)?;
    every_step_follows(&dropped)?;
    every_step_follows(&kept)?;
    let entry = |(seconds, offset): &Step| LeapEntry::new((seconds * NANOS_PER_SECOND) as u64, *offset);
    Ok((kept.iter().map(entry).collect(), expiry))
}

fn not_too_long(file: &[u8]) -> Result<(), Refused> {
    refused_if(file.len() > MOST_BYTES, BAD_LIST)
}

/// The lines without their ends; there is none after the last LF.
fn lines_of(file: &[u8]) -> Vec<&[u8]> {
    let mut lines: Vec<&[u8]> = file.split(|byte| *byte == LF).collect();
    if lines.last().is_some_and(|last| last.is_empty()) {
        lines.pop();
    }
    lines
}

/// Every line has a form, and none after the first that begins with `#@` begins so again.
fn every_line_is_well_formed(lines: &[&[u8]]) -> Result<(), Refused> {
    let of_expiry = lines.iter().position(|line| line.starts_with(EXPIRY_MARK)).unwrap_or(lines.len());
    let again = |place: usize| place > of_expiry && lines[place].starts_with(EXPIRY_MARK);
    match (0..lines.len()).find(|place| again(*place) || !well_formed(lines[*place])) {
        Some(place) => Err((BAD_LIST, place as u64 + 1)),
        None => Ok(()),
    }
}

fn well_formed(line: &[u8]) -> bool {
    let has_a_form = if line.starts_with(EXPIRY_MARK) {
        expiry_in(line).is_some()
    } else {
        is_comment(line) || is_blank(line) || record_in(line).is_some()
    };
    line.last() != Some(&CR) && has_a_form
}

fn is_comment(line: &[u8]) -> bool {
    line.first() == Some(&b'#')
}

/// The NTP second of a line that is `#@`, blanks, a number, and blanks or none.
fn expiry_in(line: &[u8]) -> Option<u64> {
    let after = line.strip_prefix(EXPIRY_MARK)?;
    if !after.first().is_some_and(blank) {
        return None;
    }
    let words: Vec<&[u8]> = after.split(blank).filter(|word| !word.is_empty()).collect();
    let [ntp] = words[..] else { return None };
    u64::try_from(number_in(ntp)?).ok()
}

/// The expiry in TAI nanoseconds: that of the file by the offset of its last record, or none.
fn expiry_of(lines: &[&[u8]], records: &[Record]) -> Result<u64, Refused> {
    let (Some(ntp), Some(last)) = (lines.iter().find_map(|line| expiry_in(line)), records.last()) else {
        return Ok(NO_EXPIRY);
    };
    let seconds = threshold(&Record { ntp, offset: last.offset });
    u64::try_from(seconds * NANOS_PER_SECOND).map_err(|_| (OVERFLOW, 0))
}

fn is_blank(line: &[u8]) -> bool {
    line.iter().all(blank)
}

fn blank(byte: &u8) -> bool {
    [b' ', b'\t'].contains(byte)
}

/// The record of a data line: two numbers with blanks between them, then blanks or none, then a comment or none.
fn record_in(line: &[u8]) -> Option<Record> {
    let data = line.split(|byte| *byte == b'#').next()?;
    if data.first().is_some_and(blank) {
        return None;
    }
    let words: Vec<&[u8]> = data.split(blank).filter(|word| !word.is_empty()).collect();
    let [ntp, offset] = words[..] else { return None };
    Some(Record { ntp: u64::try_from(number_in(ntp)?).ok()?, offset: i32::try_from(number_in(offset)?).ok()? })
}

/// The number that a word is, of 1 to 20 decimal digits.
fn number_in(word: &[u8]) -> Option<u128> {
    let digits = word.iter().all(u8::is_ascii_digit) && (1..=MOST_DIGITS).contains(&word.len());
    digits.then(|| word.iter().fold(0, |number, digit| 10 * number + u128::from(digit - b'0')))
}

/// Where the record is that becomes the entry (0, 19).
fn place_of_the_first(records: &[Record]) -> Result<usize, Refused> {
    refused_if(records.is_empty(), EMPTY_TABLE)?;
    records.iter().position(|record| record.offset == FIRST_OFFSET).ok_or((BAD_LIST, 0))
}

/// The TAI second at which a record's offset begins, before the epoch a negative number.
fn threshold(record: &Record) -> i128 {
    i128::from(record.ntp) - GPS_EPOCH_NTP + i128::from(record.offset)
}

fn every_threshold_fits(kept: &[Step]) -> Result<(), Refused> {
    refused_if(kept.iter().any(|(seconds, _)| seconds * NANOS_PER_SECOND > i128::from(u64::MAX)), OVERFLOW)
}

fn not_too_many(kept: &[Step]) -> Result<(), Refused> {
    refused_if(kept.len() > RUNTIME_CAPACITY, BUFFER_FULL)
}

fn every_step_follows(steps: &[Step]) -> Result<(), Refused> {
    steps.windows(2).try_for_each(|pair| follows(pair[0], pair[1]))
}

fn follows((seconds_before, offset_before): Step, (seconds, offset): Step) -> Result<(), Refused> {
    refused_if(seconds <= seconds_before, NOT_STRICTLY_ASCENDING)?;
    refused_if(offset_before == i32::MAX, OFFSET_OVERFLOW)?;
    refused_if(offset != offset_before + 1, NON_UNIT_INCREMENT)
}

fn refused_if(so: bool, number: u32) -> Result<(), Refused> {
    if so {
        Err((number, 0))
    } else {
        Ok(())
    }
}
