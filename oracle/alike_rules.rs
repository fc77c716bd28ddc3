//! How far two tables convert alike, written from the conversions in exact arithmetic: regular tables part at the first
//! TAI reading at which their offsets differ.

use crate::dated_rules::{self as rules, is_regular, Rule};
use gnss_time::LeapEntry;

/// The numbers of `enum plaitgate_alike`.
pub const IRREGULAR: i128 = 0;
pub const EVERYWHERE: i128 = 1;
pub const BEFORE: i128 = 2;
pub const APART: i128 = 3;

pub const OVERFLOW: u32 = 1;
const SECOND: i128 = 1_000_000_000;
const TAI_MINUS_GPS: i128 = 19 * SECOND;
/// E: 1972-01-01 to 1980-01-06.
const UTC_TO_GPS: i128 = 252_892_800 * SECOND;

/// What is told of two tables: how far, and the first GPS and UTC counts that may differ.
pub type Told = [i128; 3];

pub fn alike(old: &[LeapEntry], new: &[LeapEntry]) -> Result<Told, u32> {
    if old == new {
        return Ok([EVERYWHERE, 0, 0]);
    }
    if !(is_regular(old) && is_regular(new)) {
        return Ok([IRREGULAR, 0, 0]);
    }
    let how = if extends(old, new) || extends(new, old) { BEFORE } else { APART };
    let reading = parting(old, new);
    let (old_offset, new_offset) = (offset_at(old, reading), offset_at(new, reading));
    let event = reading - old_offset.max(new_offset) * SECOND + UTC_TO_GPS;
    let told = [how, reading - TAI_MINUS_GPS, event + SECOND];
    if told.iter().all(|number| u64::try_from(*number).is_ok()) {
        Ok(told)
    } else {
        Err(OVERFLOW)
    }
}

/// Whether the first table begins with all entries of the second.
pub fn extends(longer: &[LeapEntry], shorter: &[LeapEntry]) -> bool {
    longer.len() >= shorter.len() && longer[..shorter.len()] == *shorter
}

/// The first reading at which the offsets of two different regular tables differ. Offsets change at thresholds alone.
fn parting(old: &[LeapEntry], new: &[LeapEntry]) -> i128 {
    let readings = old.iter().chain(new).map(|entry| i128::from(entry.tai_nanos));
    readings.filter(|reading| offset_at(old, *reading) != offset_at(new, *reading)).min().expect("two different tables")
}

fn offset_at(entries: &[LeapEntry], reading: i128) -> i128 {
    rules::lookup(entries, reading).expect("a lookup has an answer").value
}

/// Whether a GPS count has the same UTC count by both tables, and whether a UTC count has the same GPS count; none where
/// one of them has no answer and the other does.
pub fn same_utc(old: &[LeapEntry], new: &[LeapEntry], gps: i128) -> Option<bool> {
    same(rules::gps_to_utc(old, gps), rules::gps_to_utc(new, gps))
}

pub fn same_gps(old: &[LeapEntry], new: &[LeapEntry], utc: i128) -> Option<bool> {
    same(rules::utc_to_gps(old, utc), rules::utc_to_gps(new, utc))
}

fn same(by_old: Rule, by_new: Rule) -> Option<bool> {
    match (by_old, by_new) {
        (Ok(old), Ok(new)) => Some(old.value == new.value),
        (Err(old), Err(new)) if old == new => Some(true),
        _ => None,
    }
}
