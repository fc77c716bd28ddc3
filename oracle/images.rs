//! Leap-second tables as the port takes them, in images, and as the crate has them. A call by a table has a number
//! among its inputs that picks one of the tables prepared here.

use crate::chance::Chance;
use crate::shifted::Shifted;
use gnss_time::{Beidou, Galileo, LeapEntry, LeapSeconds, RuntimeLeapSeconds, RUNTIME_CAPACITY};
use std::sync::OnceLock;

pub const IMAGE_BYTES: usize = 784;
pub const ENTRY_BYTES: usize = 12;
const THRESHOLDS_AT: usize = 8;
const OFFSETS_AT: usize = THRESHOLDS_AT + 8 * RUNTIME_CAPACITY;
const EXPIRY_AT: usize = OFFSETS_AT + 4 * RUNTIME_CAPACITY;
/// The expiry of a table that has none, as all have that the crate is asked with.
pub const NO_EXPIRY: u64 = u64::MAX;
const SECOND: u64 = 1_000_000_000;
const DAY: u64 = 86_400 * SECOND;
/// The least offset that a conversion can use.
pub const LEAST_USABLE: i32 = i32::MIN + 19;
/// The TAI readings of the epochs of Galileo and BeiDou.
const EPOCHS: [u64; 2] = [(Galileo::BEHIND_GPS_SECONDS + 19) * SECOND, (Beidou::BEHIND_GPS_SECONDS + 19) * SECOND];

/// The numbers of the tables that the recorded list is made with, which `crates/replay` builds for itself.
pub const EMPTY: i128 = 0;
pub const BUILTIN: i128 = 1;
pub const LATE: i128 = 2;
pub const NEGATIVE: i128 = 3;
pub const LEAST: i128 = 4;
pub const GREATEST: i128 = 5;
pub const TOO_LONG: i128 = 6;
/// A table of 64 entries.
pub const FULL: i128 = 7;
pub const RECORDED: usize = 8;
/// Bytes that are no image.
pub const SHORT: i128 = 8;

/// Bytes handed in as an image, and the table that the crate makes of their entries, where it takes them.
pub struct Prepared {
    /// The bytes, with one before them, so that they begin at an odd address, and some after them.
    lent: Vec<u8>,
    pub table: Option<RuntimeLeapSeconds>,
}

/// What follows the bytes.
const AFTER: [u8; 4] = [0xA5; 4];

impl Prepared {
    fn new(bytes: &[u8]) -> Prepared {
        Prepared { lent: [&[0xA5], bytes, &AFTER].concat(), table: table_in(bytes) }
    }

    pub fn bytes(&self) -> &[u8] {
        &self.lent[1..self.lent.len() - AFTER.len()]
    }

    pub fn entries(&self) -> &[LeapEntry] {
        self.table.as_ref().map_or(&[], |table| table.entries())
    }
}

static PREPARED: OnceLock<Vec<Prepared>> = OnceLock::new();

/// All tables, those of the first numbers and random ones.
pub fn prepare(seed: u64) {
    PREPARED.get_or_init(|| {
        let mut images = recorded_images();
        images.push(vec![0; IMAGE_BYTES - 1]);
        images.extend(notable_tables().iter().map(|entries| image(entries)));
        images.extend(notable_forgeries());
        images.extend(epoch_tables().iter().map(|entries| image(entries)));
        NOTABLE.get_or_init(|| images.len());
        let mut chance = Chance::of("tables", seed);
        images.extend((0..RANDOM).map(|place| random_image(place, &mut chance)));
        images.extend((0..RANDOM_AT_EPOCHS).map(|place| image(&random_at_epoch(place, &mut chance))));
        images.iter().map(|bytes| Prepared::new(bytes)).collect()
    });
}

const RANDOM: usize = 2_400;
const RANDOM_AT_EPOCHS: usize = 600;
static NOTABLE: OnceLock<usize> = OnceLock::new();

/// How many there are, and how many of them are not random.
pub fn all() -> usize {
    PREPARED.get().expect("tables are prepared first").len()
}

pub fn notable() -> usize {
    *NOTABLE.get().expect("tables are prepared first")
}

pub fn prepared(number: i128) -> &'static Prepared {
    &PREPARED.get().expect("tables are prepared first")[number as usize]
}

/// The tables of the first numbers, for the recorded list.
fn recorded_images() -> Vec<Vec<u8>> {
    let mut too_long = vec![0; IMAGE_BYTES];
    too_long[0] = RUNTIME_CAPACITY as u8 + 1;
    vec![
        image(&[]),
        image(LeapSeconds::builtin().entries()),
        image(&[LeapEntry::new(100 * SECOND, 25)]),
        image(&row(0, 1_000_000 * SECOND, -3, 6)),
        image(&row(0, 1_000_000_000 * SECOND, LEAST_USABLE - 2, 5)),
        image(&row(0, 1_000_000_000 * SECOND, i32::MAX - 1, 2)),
        too_long,
        image(&row(0, DAY, 19, RUNTIME_CAPACITY)),
    ]
}

/// So many entries, from a threshold and an offset on.
fn row(first: u64, gap: u64, offset: i32, count: usize) -> Vec<LeapEntry> {
    (0..count).map(|place| LeapEntry::new(first + gap * place as u64, offset + place as i32)).collect()
}

/// Tables at the edges of thresholds and offsets, and with entries as near as can be.
fn notable_tables() -> Vec<Vec<LeapEntry>> {
    let mut tables = Vec::new();
    let builtin = LeapSeconds::builtin().entries().to_vec();
    let last = builtin[builtin.len() - 1];
    for more in [1, 2, RUNTIME_CAPACITY - builtin.len()] {
        tables.push([builtin.clone(), row(last.tai_nanos + 1, DAY, last.tai_minus_utc + 1, more)].concat());
    }
    for offset in [i32::MIN, LEAST_USABLE - 1, LEAST_USABLE, LEAST_USABLE + 1, -1, 0, 18, 19, 20, i32::MAX] {
        tables.extend([0, 100 * SECOND, u64::MAX].map(|threshold| row(threshold, 0, offset, 1)));
    }
    for gap in [1, SECOND - 1, SECOND, 2 * SECOND, 19 * SECOND, 20 * SECOND, DAY - 1] {
        tables.push(row(0, gap, 19, 40));
        tables.push(row(u64::MAX - 39 * gap, gap, 19, 40));
        tables.push(row(252_892_800 * SECOND, gap, -20, 40));
    }
    for (offset, count) in [(i32::MIN, 40), (i32::MAX - 63, 64), (-5_000_000, 3), (2_000_000_000, 3)] {
        tables.push(row(0, u64::MAX / 64, offset, count));
        tables.push(row(7 * SECOND, 3 * SECOND, offset, count));
    }
    tables
}

/// Tables with a threshold at the epoch of Galileo or BeiDou, or up to a second and a nanosecond from it.
fn epoch_tables() -> Vec<Vec<LeapEntry>> {
    let distances = [SECOND + 1, SECOND, SECOND - 1, SECOND / 2, 1, 0];
    let thresholds = |epoch: u64| distances.into_iter().flat_map(move |far| [epoch - far, epoch + far]);
    let mut thresholds: Vec<u64> = EPOCHS.into_iter().flat_map(thresholds).collect();
    thresholds.dedup();
    thresholds.into_iter().flat_map(tables_with).collect()
}

/// Tables with a threshold: regular ones, and valid ones that are not.
fn tables_with(threshold: u64) -> Vec<Vec<LeapEntry>> {
    let rising = |offset: i32, thresholds: &[u64]| {
        thresholds.iter().zip(offset..).map(|(tai_nanos, offset)| LeapEntry::new(*tai_nanos, offset)).collect()
    };
    vec![
        rising(19, &[0, threshold]),
        // exactly a day apart, and a nanosecond less, which is not regular
        rising(19, &[0, DAY, threshold]),
        rising(19, &[0, DAY - 1, threshold]),
        rising(19, &[0, threshold - DAY, threshold]),
        rising(19, &[0, threshold - DAY + 1, threshold]),
        rising(19, &[0, threshold, threshold + DAY]),
        rising(19, &[0, threshold, threshold + DAY - 1]),
        // another first entry
        rising(18, &[0, threshold]),
        rising(20, &[0, threshold]),
        rising(19, &[1, threshold]),
        rising(19, &[threshold - DAY, threshold]),
        rising(19, &[threshold]),
    ]
}

/// Images of every kind that hold no table, and two that hold one and more after it.
fn notable_forgeries() -> Vec<Vec<u8>> {
    let builtin = image(LeapSeconds::builtin().entries());
    let full = image(&row(0, DAY, 19, RUNTIME_CAPACITY));
    let mut forgeries: Vec<Vec<u8>> =
        [0, 1, 8, 12, 520, IMAGE_BYTES + 1, 2 * IMAGE_BYTES].map(|size| vec![0; size]).into();
    forgeries.push(builtin[..IMAGE_BYTES - 1].to_vec());
    // an image of the version before, which had no expiry
    forgeries.push(builtin[..EXPIRY_AT].to_vec());
    forgeries.push([&builtin[..], &[0]].concat());
    for len in [20, 64, 65, 66, 255, 256, 1 << 32, (1 << 32) + 19, 1 << 63, u64::MAX] {
        forgeries.extend([with_len(&builtin, len), with_len(&full, len)]);
    }
    // the expiry begins with the offset that would follow the last: one who read on would find a table of 65 entries
    let one_more = with_len(&image(&row(0, 1, 19, RUNTIME_CAPACITY)), RUNTIME_CAPACITY as u64 + 1);
    forgeries.push(with_expiry(&one_more, 19 + RUNTIME_CAPACITY as u64));
    forgeries.push(vec![0xFF; IMAGE_BYTES]);
    for place in [0, 1, 9, 17, 18] {
        let at = LeapSeconds::builtin().entries()[place];
        let before = LeapSeconds::builtin().entries()[place.max(1) - 1];
        for threshold in [0, before.tai_nanos, before.tai_nanos + 1, at.tai_nanos + 1, u64::MAX] {
            forgeries.push(with_entry(&builtin, place, threshold, at.tai_minus_utc));
        }
        for offset in [at.tai_minus_utc - 1, at.tai_minus_utc + 1, i32::MIN, 0, i32::MAX] {
            forgeries.push(with_entry(&builtin, place, at.tai_nanos, offset));
        }
    }
    let greatest = image(&row(0, SECOND, i32::MAX, 1));
    for offset in [i32::MIN, 0, i32::MAX - 1, i32::MAX] {
        forgeries.push(with_len(&with_entry(&greatest, 1, SECOND, offset), 2));
    }
    forgeries.push(with_entry(&builtin, 19, 5, -5));
    forgeries.push(with_entry(&builtin, 63, u64::MAX, i32::MIN));
    forgeries
}

/// Of each five: two valid, two regular or extended from the built-in one, and one with a change or two.
fn random_image(place: usize, chance: &mut Chance) -> Vec<u8> {
    match place % 5 {
        0 | 1 => image(&random_valid(chance)),
        2 => image(&random_row(chance, vec![LeapEntry::new(0, 19)], DAY)),
        3 => image(&random_row(chance, LeapSeconds::builtin().entries().to_vec(), 1)),
        _ => random_forgery(chance),
    }
}

fn random_valid(chance: &mut Chance) -> Vec<LeapEntry> {
    let offset = match chance.below(8) {
        0 => i128::from(LEAST_USABLE) + chance.within(-19, 19),
        1 => i128::from(i32::MAX) - chance.within(0, 80),
        2 => chance.within(i32::MIN.into(), i32::MAX.into()),
        3 => chance.of_length_up_to(31),
        _ => chance.within(-50, 50),
    };
    let first = chance.of_length_up_to(64).unsigned_abs() as u64;
    random_row(chance, vec![LeapEntry::new(first, offset as i32)], 1)
}

/// Entries joined to those given, at gaps of the least and more, up to a number of up to 64 or as many as there can be;
/// now and then none.
fn random_row(chance: &mut Chance, mut entries: Vec<LeapEntry>, least_gap: u64) -> Vec<LeapEntry> {
    let wanted = chance.below(RUNTIME_CAPACITY as u64 + 1) as usize;
    let bits = 30 + chance.below(34);
    while entries.len() < wanted {
        let last = entries[entries.len() - 1];
        let gap = least_gap.checked_add(chance.of_length_up_to(bits).unsigned_abs() as u64);
        let threshold = gap.and_then(|gap| last.tai_nanos.checked_add(gap));
        let (Some(threshold), Some(offset)) = (threshold, last.tai_minus_utc.checked_add(1)) else { break };
        entries.push(LeapEntry::new(threshold, offset));
    }
    if wanted == 0 && least_gap == 1 {
        entries.clear();
    }
    entries
}

/// A table with a threshold within 3 s of an epoch. Of each three: one regular, one that begins alike and may have
/// thresholds nearer than a day, and one with another first entry.
fn random_at_epoch(place: usize, chance: &mut Chance) -> Vec<LeapEntry> {
    let epoch = EPOCHS[chance.below(2) as usize];
    let threshold = (i128::from(epoch) + chance.of_length_up_to(31)) as u64;
    let (first, least_gap) = match place % 3 {
        0 => (LeapEntry::new(0, 19), DAY),
        1 => (LeapEntry::new(0, 19), 1),
        _ => (LeapEntry::new(chance.below(DAY), chance.within(-50, 50) as i32), 1),
    };
    let mut entries = random_row(chance, vec![first], least_gap);
    entries.retain(|entry| entry.tai_nanos <= threshold - least_gap);
    entries.truncate(RUNTIME_CAPACITY - 1);
    let offset = entries.last().map_or(19, |last| last.tai_minus_utc + 1);
    entries.push(LeapEntry::new(threshold, offset));
    random_row(chance, entries, least_gap)
}

/// A valid table with one number of it changed, which may leave it valid.
fn random_forgery(chance: &mut Chance) -> Vec<u8> {
    let entries = random_valid(chance);
    let whole = image(&entries);
    let place = chance.below(entries.len() as u64 + 2).min(RUNTIME_CAPACITY as u64 - 1) as usize;
    let there = entries.get(place).copied().unwrap_or(LeapEntry::new(0, 0));
    match chance.below(4) {
        0 => with_len(&whole, chance.of_length_up_to(64).unsigned_abs() as u64),
        1 => with_len(&whole, entries.len() as u64 + chance.below(3)),
        2 => with_entry(&whole, place, chance.next() >> chance.below(64), there.tai_minus_utc),
        _ => with_entry(&whole, place, there.tai_nanos, chance.of_length_up_to(31) as i32),
    }
}

/// The image of entries, with zeros after them and no expiry.
pub fn image(entries: &[LeapEntry]) -> Vec<u8> {
    let mut bytes = vec![0; IMAGE_BYTES];
    put_entries(&mut bytes, entries);
    with_expiry(&bytes, NO_EXPIRY)
}

/// An image with this expiry in place of its own; bytes of another number are left as they are.
pub fn with_expiry(image: &[u8], expiry: u64) -> Vec<u8> {
    let mut bytes = image.to_vec();
    if bytes.len() == IMAGE_BYTES {
        bytes[EXPIRY_AT..].copy_from_slice(&expiry.to_le_bytes());
    }
    bytes
}

/// Writes entries and their number over an image, and leaves what follows them.
pub fn put_entries(bytes: &mut [u8], entries: &[LeapEntry]) {
    bytes[..8].copy_from_slice(&(entries.len() as u64).to_le_bytes());
    for (place, entry) in entries.iter().enumerate() {
        put_entry(bytes, place, entry.tai_nanos, entry.tai_minus_utc);
    }
}

fn put_entry(bytes: &mut [u8], place: usize, threshold: u64, offset: i32) {
    bytes[THRESHOLDS_AT + 8 * place..][..8].copy_from_slice(&threshold.to_le_bytes());
    bytes[OFFSETS_AT + 4 * place..][..4].copy_from_slice(&offset.to_le_bytes());
}

fn with_entry(image: &[u8], place: usize, threshold: u64, offset: i32) -> Vec<u8> {
    let mut bytes = image.to_vec();
    put_entry(&mut bytes, place, threshold, offset);
    bytes
}

fn with_len(image: &[u8], len: u64) -> Vec<u8> {
    let mut bytes = image.to_vec();
    bytes[..8].copy_from_slice(&len.to_le_bytes());
    bytes
}

/// The crate's table with the entries of an image, if it takes them.
pub fn table_in(bytes: &[u8]) -> Option<RuntimeLeapSeconds> {
    if bytes.len() != IMAGE_BYTES {
        return None;
    }
    let len = u64::from_le_bytes(bytes[..8].try_into().expect("8 bytes"));
    let len = usize::try_from(len).ok().filter(|len| *len <= RUNTIME_CAPACITY)?;
    let mut table = RuntimeLeapSeconds::new();
    for place in 0..len {
        let threshold = bytes[THRESHOLDS_AT + 8 * place..][..8].try_into().expect("8 bytes");
        let offset = bytes[OFFSETS_AT + 4 * place..][..4].try_into().expect("4 bytes");
        table.try_extend(LeapEntry::new(u64::from_le_bytes(threshold), i32::from_le_bytes(offset))).ok()?;
    }
    Some(table)
}

/// The bytes of a list of entries.
pub fn list(entries: &[LeapEntry]) -> Vec<u8> {
    let bytes = |entry: &LeapEntry| [&entry.tai_nanos.to_le_bytes()[..], &entry.tai_minus_utc.to_le_bytes()].concat();
    entries.iter().flat_map(bytes).collect()
}

/// Bytes as numbers of eight of them, low byte first, for comparison.
pub fn words(bytes: &[u8]) -> Vec<i128> {
    bytes.chunks(8).map(|word| word.iter().rev().fold(0, |number, byte| number << 8 | i128::from(*byte))).collect()
}
