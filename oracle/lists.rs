//! Lists of entries that a table is built from, or that are lent as they are. A call with a list has a number among its
//! inputs that picks one.

use crate::call::Named;
use crate::chance::Chance;
use crate::images::{self, list, prepared, BUILTIN, ENTRY_BYTES, FULL};
use crate::inputs::{combinations, Group, Trials};
use gnss_time::{LeapEntry, LeapSeconds};
use std::sync::OnceLock;

/// Bytes that are lent, and what the crate has instead.
pub struct Lent {
    /// The bytes, with one before them, so that they begin at an odd address.
    behind_one: Vec<u8>,
    /// The entries, where the bytes are a whole number of them; for good, as the crate wants them.
    pub entries: Option<&'static [LeapEntry]>,
    /// The crate's table over these entries, where it takes them; of no entries it has one too.
    pub taken: Option<LeapSeconds>,
}

impl Lent {
    fn new(bytes: &[u8]) -> Lent {
        let entries: Option<&'static [LeapEntry]> = entries_in(bytes).map(|entries| &*entries.leak());
        let taken = entries.and_then(|entries| match entries {
            [] => Some(LeapSeconds::from_slice(entries)),
            _ => LeapSeconds::try_from_slice(entries).ok(),
        });
        Lent { behind_one: [&[0xA5], bytes].concat(), entries, taken }
    }

    pub fn bytes(&self) -> &[u8] {
        &self.behind_one[1..]
    }
}

static LISTS: OnceLock<Vec<Lent>> = OnceLock::new();

/// After the tables are prepared: their entries as lists, lists of wrong lengths, long lists, and lists with something
/// changed.
pub fn prepare(seed: u64) {
    LISTS.get_or_init(|| {
        let tables = (0..images::all()).map(|number| prepared(number as i128));
        let mut lists: Vec<Vec<u8>> = tables.map(|table| list(table.entries())).collect();
        lists.extend(wrong_lengths());
        let mut chance = Chance::of("lists", seed);
        lists.extend((0..CHANGED).map(|_| changed(&mut chance)));
        lists.extend((0..LONG).map(|place| long(place, &mut chance)));
        lists.iter().map(|bytes| Lent::new(bytes)).collect()
    });
}

const CHANGED: usize = 3_000;
const LONG: usize = 1_000;
const LONGEST: u64 = 200;

fn all() -> &'static [Lent] {
    LISTS.get().expect("lists are prepared first")
}

pub fn lent(number: i128) -> &'static Lent {
    &all()[number as usize]
}

pub fn prepared_list(number: i128) -> &'static [u8] {
    lent(number).bytes()
}

/// The entries of a list, if it is a whole number of them.
pub fn entries_in(bytes: &[u8]) -> Option<Vec<LeapEntry>> {
    let entry = |bytes: &[u8]| {
        let (threshold, offset) = bytes.split_at(8);
        LeapEntry::new(
            u64::from_le_bytes(threshold.try_into().expect("8 bytes")),
            i32::from_le_bytes(offset.try_into().expect("4 bytes")),
        )
    };
    (bytes.len() % ENTRY_BYTES == 0).then(|| bytes.chunks(ENTRY_BYTES).map(entry).collect())
}

/// More than 64 entries, good ones and bad ones, and parts of entries.
fn wrong_lengths() -> Vec<Vec<u8>> {
    let full = list(prepared(FULL).entries());
    let one_more = list(&[LeapEntry::new(u64::MAX, 83)]);
    let bad = list(&[LeapEntry::new(0, 0)]);
    let mut lists = vec![[&full[..], &one_more].concat(), [&full[..], &bad].concat(), [&bad[..], &full].concat()];
    lists.push([&full[..], &full, &full, &full].concat());
    let builtin = list(prepared(BUILTIN).entries());
    lists.extend((1..40).map(|left| builtin[..builtin.len() - left].to_vec()));
    lists.extend((1..12).map(|size| vec![0; size]));
    lists.push([&full[..], &[0]].concat());
    lists
}

/// A valid list of 65 to 200 entries, and every other one with something changed.
fn long(place: usize, chance: &mut Chance) -> Vec<u8> {
    let bits = 1 + chance.below(56);
    let mut threshold = chance.next() >> 8;
    let first = chance.of_length_up_to(30) as i32;
    let count = 65 + chance.below(LONGEST - 64) as usize;
    let mut entries: Vec<LeapEntry> = (0..count)
        .map(|at| {
            threshold += 1 + (chance.next() >> (64 - bits));
            LeapEntry::new(threshold, first + at as i32)
        })
        .collect();
    if place % 2 == 1 {
        change(&mut entries, chance);
    }
    list(&entries)
}

/// A table's entries with one or two numbers changed: to those of the entry before it, or to any.
fn changed(chance: &mut Chance) -> Vec<u8> {
    let mut entries = prepared(chance.below(images::all() as u64).into()).entries().to_vec();
    for _ in 0..=chance.below(2) {
        change(&mut entries, chance);
    }
    list(&entries)
}

/// Changes one number of an entry after the first.
fn change(entries: &mut [LeapEntry], chance: &mut Chance) {
    if entries.len() < 2 {
        return;
    }
    let place = 1 + chance.below(entries.len() as u64 - 1) as usize;
    let before = entries[place - 1];
    let entry = &mut entries[place];
    match chance.below(5) {
        0 => entry.tai_nanos = before.tai_nanos,
        1 => entry.tai_nanos = chance.next() >> chance.below(64),
        2 => entry.tai_minus_utc = before.tai_minus_utc,
        3 => entry.tai_minus_utc = chance.of_length_up_to(31) as i32,
        _ => entries[place - 1].tai_minus_utc = i32::MAX,
    }
}

/// A list, and the image that the table is written over: an image of each notable kind for a good list, and each list
/// over some image.
pub fn over_images(_: &'static [Named]) -> Trials {
    let images = images::notable();
    Trials {
        groups: vec![
            Group::new(images, |image| vec![BUILTIN, image as i128]),
            Group::new(all().len(), move |list| vec![list as i128, (list * 7 % images) as i128]),
        ],
        draw: Box::new(move |chance| vec![chance.below(all().len() as u64).into(), chance.below(images as u64).into()]),
    }
}

/// A list and no more: each of them.
pub fn each(_: &'static [Named]) -> Trials {
    Trials {
        groups: vec![Group::new(all().len(), |list| vec![list as i128])],
        draw: Box::new(|chance| vec![chance.below(all().len() as u64).into()]),
    }
}

/// A list and a TAI reading: at each threshold of the list, one before and one after it, and any.
pub fn with_readings(_: &'static [Named]) -> Trials {
    let around = |number: usize| {
        let entries = lent(number as i128).entries.unwrap_or(&[]);
        Group::new(3 * entries.len() + 2, move |place| {
            let reading = match entries.get(place / 3) {
                Some(entry) => entry.tai_nanos.wrapping_add(place as u64 % 3).wrapping_sub(1),
                None => [0, u64::MAX][(place - 3 * entries.len()) % 2],
            };
            vec![number as i128, reading.into()]
        })
    };
    Trials {
        groups: (0..all().len()).step_by(5).map(around).collect(),
        draw: Box::new(|chance| {
            let number = chance.below(all().len() as u64).into();
            let entries = lent(number).entries.unwrap_or(&[]);
            let reading = match entries.len() as u64 {
                0 => chance.next() >> chance.below(64),
                many => {
                    let threshold = entries[chance.below(many) as usize].tai_nanos;
                    threshold.wrapping_add(chance.of_length_up_to(34) as u64)
                }
            };
            vec![number, reading.into()]
        }),
    }
}

/// For the recorded list: how many entries, none to three or 65, and three of them, a threshold and an offset each.
pub fn up_to_three() -> Trials {
    let [least, greatest] = [i32::MIN, i32::MAX].map(i128::from);
    let last = i128::from(u64::MAX);
    let choices = vec![
        vec![0, 1, 2, 3, 65],
        vec![0, 5, last],
        vec![least, 18, greatest],
        vec![0, 5, 6, last],
        vec![least, least + 1, 18, 19, greatest],
        vec![5, 7, last],
        vec![least + 2, 19, 20, 21],
    ];
    Trials {
        groups: vec![combinations(choices.clone())],
        draw: Box::new(move |chance| choices.iter().map(|choices| chance.one_of(choices)).collect()),
    }
}
