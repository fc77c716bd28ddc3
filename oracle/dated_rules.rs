//! The conversions by a table as the rules have them, in exact arithmetic, with the TAI reading that each looks up
//! last. The crate knows no such reading: `expiries.rs` holds the port to these.

use gnss_time::LeapEntry;

/// An answer by a table, with three TAI readings.
#[derive(Clone, Copy)]
pub struct Told {
    pub value: i128,
    /// The reading that was looked up first.
    pub first: i128,
    /// The reading that was looked up last, by which a table is stale or not.
    pub last: i128,
    /// The reading of the GPS count that is given or answered.
    pub own: i128,
}

/// An answer, or the number of the refusal.
pub type Rule = Result<Told, u32>;

const OVERFLOW: u32 = 1;
const OFFSET_RANGE: u32 = 9;
const SECOND: i128 = 1_000_000_000;
const DAY: i128 = 86_400 * SECOND;
const TAI_MINUS_GPS: i128 = 19 * SECOND;
/// From the UTC epoch to those of GPS and GLONASS, and from the Unix epoch to that of UTC.
const UTC_TO_GPS: i128 = 252_892_800 * SECOND;
const UTC_TO_GLONASS: i128 = 757_371_600 * SECOND;
const UNIX_TO_UTC_SECONDS: i128 = 63_072_000;

fn count(exact: i128) -> Result<i128, u32> {
    u64::try_from(exact).map(i128::from).map_err(|_| OVERFLOW)
}

/// The offset in force at a reading, in seconds.
fn offset_at(entries: &[LeapEntry], reading: i128) -> i128 {
    let reached = entries.iter().filter(|entry| i128::from(entry.tai_nanos) <= reading).last();
    reached.or(entries.first()).map_or(19, |entry| i128::from(entry.tai_minus_utc))
}

/// The same, where a conversion can use it.
fn usable_offset_at(entries: &[LeapEntry], reading: i128) -> Result<i128, u32> {
    let offset = offset_at(entries, reading);
    if offset < -2_147_483_629 {
        return Err(OFFSET_RANGE);
    }
    Ok(offset)
}

pub fn lookup(entries: &[LeapEntry], tai: i128) -> Rule {
    Ok(Told { value: offset_at(entries, tai), first: tai, last: tai, own: tai })
}

pub fn gps_to_utc(entries: &[LeapEntry], gps: i128) -> Rule {
    let reading = count(gps + TAI_MINUS_GPS)?;
    let offset = usable_offset_at(entries, reading)?;
    let value = count(gps - (offset - 19) * SECOND + UTC_TO_GPS)?;
    Ok(Told { value, first: reading, last: reading, own: reading })
}

/// By two lookups, at a and then at b.
pub fn utc_to_gps(entries: &[LeapEntry], utc: i128) -> Rule {
    let since_gps_epoch = utc - UTC_TO_GPS;
    let a = count(since_gps_epoch + 19 * SECOND).unwrap_or(0);
    let b = count(since_gps_epoch + offset_at(entries, a) * SECOND).unwrap_or(a);
    let offset = usable_offset_at(entries, b)?;
    let value = count(since_gps_epoch + (offset - 19) * SECOND)?;
    Ok(Told { value, first: a, last: b, own: value + TAI_MINUS_GPS })
}

/// Of a scale whose counts are `shift` nanoseconds fewer than those of GPS.
pub fn shifted_to_utc(entries: &[LeapEntry], shift: i128, shifted: i128) -> Rule {
    gps_to_utc(entries, count(shifted + shift)?)
}

/// By the later GPS count where the first is before the epoch of the scale: then by its own reading.
pub fn utc_to_shifted(entries: &[LeapEntry], shift: i128, utc: i128) -> Rule {
    let told = utc_to_gps(entries, utc)?;
    let told = if told.value < shift { later(entries, told)? } else { told };
    Ok(Told { value: count(told.value - shift)?, ..told })
}

/// The later of two GPS counts with one UTC count, a second after the first; by a table that is not regular there is
/// none.
fn later(entries: &[LeapEntry], first: Told) -> Rule {
    let later = first.value + SECOND;
    let utc_of = |gps| gps_to_utc(entries, gps).map(|told| told.value);
    let shared = utc_of(later).is_ok() && utc_of(later) == utc_of(first.value);
    if !(is_regular(entries) && shared) {
        return Err(OVERFLOW);
    }
    let reading = later + TAI_MINUS_GPS;
    Ok(Told { value: later, first: first.first, last: reading, own: reading })
}

/// Whether the table begins (0, 19) and has its thresholds at least a day apart.
pub fn is_regular(entries: &[LeapEntry]) -> bool {
    let gap = |pair: &[LeapEntry]| i128::from(pair[1].tai_nanos) - i128::from(pair[0].tai_nanos);
    entries.first() == Some(&LeapEntry::new(0, 19)) && entries.windows(2).all(|pair| gap(pair) >= DAY)
}

/// The UTC count of a GLONASS count.
pub fn utc_of_glonass(glonass: i128) -> Result<i128, u32> {
    count(glonass + UTC_TO_GLONASS)
}

/// A UTC count that was told, as a GLONASS count.
pub fn in_glonass(told: Told) -> Rule {
    Ok(Told { value: count(told.value - UTC_TO_GLONASS)?, ..told })
}

/// The UTC count of Unix seconds.
pub fn utc_of_unix(seconds: i128) -> Result<i128, u32> {
    count((seconds - UNIX_TO_UTC_SECONDS) * SECOND)
}

/// A UTC count that was told, in whole Unix seconds.
pub fn in_unix(told: Told) -> Rule {
    Ok(Told { value: told.value / SECOND + UNIX_TO_UTC_SECONDS, ..told })
}
