//! How far two tables convert alike, which the crate has no call for: `plaitgate_table_alike` is held to a second answer
//! (alike_rules.rs), and that to the conversions by both tables.

use crate::alike_rules::{self as rules, APART, BEFORE, EVERYWHERE, IRREGULAR, OVERFLOW};
use crate::call::{prototype_of, Named, Written};
use crate::chance::Chance;
use crate::dated_rules::is_regular;
use crate::images::{self, image, prepared, table_in, with_expiry, words, NO_EXPIRY};
use crate::number::{Number, Place};
use crate::original::BAD_TABLE;
use crate::reading_inputs::{draw_forgery, draw_image};
use gnss_time::{LeapEntry, LeapSeconds, RUNTIME_CAPACITY};
use std::collections::BTreeMap;

extern "C" {
    fn plaitgate_table_alike(
        old_image: *const u8,
        old_image_bytes: usize,
        new_image: *const u8,
        new_image_bytes: usize,
        how: *mut u8,
        gps: *mut u64,
        utc: *mut u64,
    ) -> u32;
}

const NAME: &str = "table_alike";
const RESULTS: &[Named] = &[("how", u8::KIND), ("gps", u64::KIND), ("utc", u64::KIND)];
const SECOND: i128 = 1_000_000_000;
const DAY: i128 = 86_400 * SECOND;
const DIFFERENCES_SHOWN: u64 = 5;

/// The declaration that the header has to have.
pub fn prototype() -> String {
    let inputs = [
        ("*old_image", "const uint8_t"),
        ("old_image_bytes", "size_t"),
        ("*new_image", "const uint8_t"),
        ("new_image_bytes", "size_t"),
    ];
    prototype_of(NAME, &inputs, RESULTS)
}

/// Compares the call on all pairs. What there is to say of it, or why it failed.
pub fn compare(seed: u64, count: u64) -> Result<Vec<String>, String> {
    let mut tally = Tally::default();
    let mut chance = Chance::of(NAME, seed);
    let notable: Vec<&[u8]> = (0..images::notable()).map(|number| prepared(number as i128).bytes()).collect();
    for old in &notable {
        notable.iter().for_each(|new| tally.compare_once(old, new, &mut chance));
    }
    for _ in 0..count {
        let [old, new] = draw_pair(&mut chance);
        tally.compare_once(&old, &new, &mut chance);
    }
    tally.verdict()
}

/// Two images. Of each eight: six of which one is made from the other, once with bytes changed; one of the same entries,
/// and one of any two.
fn draw_pair(chance: &mut Chance) -> [Vec<u8>; 2] {
    let any = match chance.below(4) {
        0 => prepared(i128::from(chance.below(images::all() as u64))).bytes().to_vec(),
        1 => image(LeapSeconds::builtin().entries()),
        _ => draw_image(chance),
    };
    let entries = table_in(&any).map(|table| table.entries().to_vec()).unwrap_or_default();
    let related = image(&relative(&entries, chance));
    let other = match chance.below(8) {
        0 => draw_image(chance),
        1 => any.clone(),
        2 => draw_forgery(chance, related),
        _ => related,
    };
    let expiries = [NO_EXPIRY, 0, chance.next()];
    let mut pair = [any, other].map(|bytes| with_expiry(&bytes, expiries[chance.below(3) as usize]));
    if chance.below(2) == 0 {
        pair.reverse();
    }
    pair
}

/// Entries that begin as those given, and then are fewer, more, or others; now and then they are no table.
fn relative(entries: &[LeapEntry], chance: &mut Chance) -> Vec<LeapEntry> {
    let place = chance.below(entries.len() as u64 + 1) as usize;
    let mut other = entries.to_vec();
    match chance.below(6) {
        0 => (),
        1 => other.truncate(place),
        2 => other.truncate(entries.len().saturating_sub(1 + chance.below(3) as usize)),
        3 => {
            other.truncate(place);
            extend(&mut other, chance);
        }
        4 => {
            let far = draw_distance(chance);
            other.iter_mut().skip(place).take(1).for_each(|entry| *entry = moved(*entry, far));
        }
        _ => {
            let far = draw_distance(chance);
            other.iter_mut().skip(place).for_each(|entry| *entry = moved(*entry, far));
        }
    }
    if chance.below(2) == 0 {
        extend(&mut other, chance);
    }
    other
}

/// How far a threshold is moved.
fn draw_distance(chance: &mut Chance) -> i128 {
    let any = chance.of_length_up_to(62);
    chance.one_of(&[1, -1, SECOND, -SECOND, DAY, -DAY, any])
}

fn moved(entry: LeapEntry, far: i128) -> LeapEntry {
    let threshold = (i128::from(entry.tai_nanos) + far).clamp(0, u64::MAX.into());
    LeapEntry::new(u64::narrow(threshold), entry.tai_minus_utc)
}

/// Joins one to three entries, most of them a day or more after the one before, as many as there is room for.
fn extend(entries: &mut Vec<LeapEntry>, chance: &mut Chance) {
    for _ in 0..=chance.below(3) {
        let any = chance.of_length_up_to(62).abs();
        let gap = chance.one_of(&[DAY, DAY + any, DAY + any, DAY + any, DAY - 1]);
        let next = match entries.last() {
            Some(last) if entries.len() < RUNTIME_CAPACITY => {
                let threshold = i128::from(last.tai_nanos) + gap;
                u64::try_from(threshold).ok().zip(last.tai_minus_utc.checked_add(1))
            }
            Some(_) => None,
            None => Some((0, 19)),
        };
        entries.extend(next.map(|(threshold, offset)| LeapEntry::new(threshold, offset)));
    }
}

fn port(old: &[u8], new: &[u8]) -> Written {
    // one byte before an image brings it to an odd address; the same bytes are handed in once, for both
    let lent = [old, new].map(|image| [&[0xA5], image].concat());
    let (old, new) = (&lent[0][1..], if old == new { &lent[0][1..] } else { &lent[1][1..] });
    let mut places = [(); 3].map(|()| Place::new());
    let [how, gps, utc] = &mut places;
    // SAFETY: the images are so long and only read, and each place outlives the call and has room for its number
    let refusal = unsafe {
        plaitgate_table_alike(
            old.as_ptr(),
            old.len(),
            new.as_ptr(),
            new.len(),
            how.address(),
            gps.address(),
            utc.address(),
        )
    };
    Written {
        refusal,
        results: vec![how.value::<u8>(), gps.value::<u64>(), utc.value::<u64>()],
        spilled: how.spilled::<u8>() || gps.spilled::<u64>() || utc.spilled::<u64>(),
    }
}

/// What has to be met in addition to the answers.
enum Met {
    NewExtends,
    OldExtends,
    ByOne,
    BadOld,
    BadNew,
    BadBoth,
    OverflowBefore,
    OverflowApart,
    SameIrregular,
    TwoExpiries,
}

const MET: [&str; 10] = [
    "where the new table extends the old one",
    "where the old one extends the new",
    "where they part by a nanosecond",
    "refused for the old image alone",
    "for the new one alone",
    "for both",
    "refused with 1 where one extends the other",
    "where neither does",
    "alike everywhere by a table that is not regular",
    "by tables with two expiries",
];

#[derive(Default)]
struct Tally {
    differences: u64,
    /// How often each number came, and how often each way of being alike.
    answers: BTreeMap<u32, u64>,
    ways: BTreeMap<i128, u64>,
    met: [u64; MET.len()],
    /// How many conversions were the same before the counts, and how many differed at them.
    kept: u64,
    parted: u64,
}

impl Tally {
    fn compare_once(&mut self, old: &[u8], new: &[u8], chance: &mut Chance) {
        let due = match self.due(old, new, chance) {
            Ok(told) => Written { refusal: 0, results: told.to_vec(), spilled: false },
            Err(refusal) => Written { refusal, results: vec![0; RESULTS.len()], spilled: false },
        };
        let port = port(old, new);
        *self.answers.entry(port.refusal).or_default() += 1;
        if port.refusal == 0 {
            *self.ways.entry(port.results[0]).or_default() += 1;
        }
        if port != due {
            self.differ(&difference([old, new], &due, &port));
        }
    }

    /// What is due of two images.
    fn due(&mut self, old: &[u8], new: &[u8], chance: &mut Chance) -> Result<rules::Told, u32> {
        let (one, other) = match (table_in(old), table_in(new)) {
            (Some(one), Some(other)) => (one, other),
            (None, None) => return self.bad(Met::BadBoth),
            (None, _) => return self.bad(Met::BadOld),
            (_, None) => return self.bad(Met::BadNew),
        };
        let due = rules::alike(one.entries(), other.entries());
        self.note(one.entries(), other.entries(), &due, chance);
        self.meet(Met::TwoExpiries, due == Ok([EVERYWHERE, 0, 0]) && words(old).last() != words(new).last());
        due
    }

    fn bad(&mut self, which: Met) -> Result<rules::Told, u32> {
        self.meet(which, true);
        Err(BAD_TABLE)
    }

    /// Notes what two tables meet, and holds what is due of them to the conversions.
    fn note(&mut self, old: &[LeapEntry], new: &[LeapEntry], due: &Result<rules::Told, u32>, chance: &mut Chance) {
        let extend = rules::extends(old, new) || rules::extends(new, old);
        match *due {
            Err(_) => self.meet(if extend { Met::OverflowBefore } else { Met::OverflowApart }, true),
            Ok([EVERYWHERE, ..]) => self.meet(Met::SameIrregular, !is_regular(old)),
            Ok([BEFORE, gps, utc]) => {
                self.meet(if new.len() > old.len() { Met::NewExtends } else { Met::OldExtends }, true);
                self.hold_to_conversions([old, new], gps, utc, chance);
            }
            Ok([APART, gps, utc]) => {
                let part = old.iter().zip(new).find(|(one, other)| one != other);
                self.meet(Met::ByOne, part.is_some_and(|(one, other)| one.tai_nanos.abs_diff(other.tai_nanos) == 1));
                self.hold_to_conversions([old, new], gps, utc, chance);
            }
            Ok(_) => (),
        }
    }

    /// By the rules, no count below these is converted otherwise by the other table, and these are.
    fn hold_to_conversions(&mut self, [old, new]: [&[LeapEntry]; 2], gps: i128, utc: i128, chance: &mut Chance) {
        let ways: [(fn(&[LeapEntry], &[LeapEntry], i128) -> Option<bool>, i128); 2] =
            [(rules::same_utc, gps), (rules::same_gps, utc)];
        for (same, end) in ways {
            let any = i128::from(chance.next()) % end;
            for count in [0, end - 1, end - SECOND, end - DAY, any].into_iter().filter(|count| *count >= 0) {
                if same(old, new, count) != Some(true) {
                    self.differ(&format!("{count} is below {end}, and is not converted alike by {old:?} and {new:?}"));
                }
                self.kept += 1;
            }
            match same(old, new, end) {
                Some(true) => self.differ(&format!("{end} is converted alike by {old:?} and {new:?}")),
                Some(false) => self.parted += 1,
                None => (),
            }
        }
    }

    fn meet(&mut self, which: Met, met: bool) {
        self.met[which as usize] += u64::from(met);
    }

    fn differ(&mut self, difference: &str) {
        self.differences += 1;
        if self.differences <= DIFFERENCES_SHOWN {
            println!("DIFFERENCE {difference}");
        }
    }

    fn verdict(&self) -> Result<Vec<String>, String> {
        let pairs: u64 = self.answers.values().sum();
        if self.differences > 0 {
            return Err(format!("{} differences in {pairs} pairs of tables", self.differences));
        }
        let numbers = said(NAME, &[0, OVERFLOW, BAD_TABLE], &self.answers)?;
        let ways = said(NAME, &[IRREGULAR, EVERYWHERE, BEFORE, APART], &self.ways)?;
        let met: Vec<String> = MET.iter().zip(self.met).map(|(what, times)| format!("{times} {what}")).collect();
        if self.met.contains(&0) || self.parted == 0 {
            return Err(format!("not all kinds of pairs came: {}", met.join(", ")));
        }
        Ok(vec![
            format!("{NAME}: {pairs} pairs of tables, no difference; answers by number: {numbers}; by how: {ways}"),
            format!("{NAME}: {}", met.join(", ")),
            format!(
                "{NAME}: by the rules {} conversions before the counts are the same by both tables, and {} at them differ",
                self.kept, self.parted
            ),
        ])
    }
}

/// How often each came, or which did not.
fn said<N: Ord + std::fmt::Display>(name: &str, due: &[N], came: &BTreeMap<N, u64>) -> Result<String, String> {
    if let Some(missing) = due.iter().find(|number| !came.contains_key(number)) {
        return Err(format!("{name} did not give {missing}"));
    }
    let each: Vec<String> = came.iter().map(|(number, times)| format!("{number}: {times}")).collect();
    Ok(each.join(", "))
}

fn difference(images: [&[u8]; 2], due: &Written, port: &Written) -> String {
    let said = |written: &Written| {
        let spilled = if written.spilled { ", and bytes next to the results" } else { "" };
        format!("{} and {:?}{spilled}", written.refusal, written.results)
    };
    let [old, new] = images.map(|bytes| {
        let words = words(bytes).into_iter().enumerate().filter(|(_, word)| *word != 0);
        let words: BTreeMap<usize, i128> = words.map(|(place, word)| (8 * place, word)).collect();
        format!("{} bytes of zeros except {words:?}", bytes.len())
    });
    format!("{NAME}({old}, {new})\n    due:      {}\n    the port: {}", said(due), said(port))
}
