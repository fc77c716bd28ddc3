//! What is measured on: counts over a range.

use std::ops::Range;

const HOW_MANY: u64 = 1_000_000;
pub const SECOND: u64 = 1_000_000_000;
/// GPS counts from 1980 to 2024, so that every entry of the built-in table is met.
pub const OF_GPS: Range<u64> = 0..1_400_000_000 * SECOND;
/// The GPS count at the epoch of Galileo.
pub const GALILEO: u64 = 619_315_200 * SECOND;
/// UTC counts of the same years.
pub const OF_UTC: Range<u64> = 252_892_800 * SECOND..1_652_892_800 * SECOND;

/// An order of the counts of a range.
pub struct Order {
    pub name: &'static str,
    pub counts: fn(&Range<u64>) -> Vec<u64>,
}

pub const ORDERS: [Order; 2] = [Order { name: "rising", counts: rising }, Order { name: "shuffled", counts: shuffled }];

/// Counts from the first on, as far apart from each other.
fn rising(range: &Range<u64>) -> Vec<u64> {
    let gap = (range.end - range.start) / HOW_MANY;
    (0..HOW_MANY).map(|place| range.start + place * gap).collect()
}

/// The same counts in an order without pattern, the same in every run.
fn shuffled(range: &Range<u64>) -> Vec<u64> {
    let mut counts = rising(range);
    let mut state: u64 = 1;
    for place in (1..counts.len()).rev() {
        // the generator xorshift64
        state ^= state << 13;
        state ^= state >> 7;
        state ^= state << 17;
        counts.swap(place, (state % (place as u64 + 1)) as usize);
    }
    counts
}
