//! What the conversions are tried on: tables, and counts around their thresholds and around the ends of every scale.

use crate::call::Named;
use crate::chance::Chance;
use crate::images::{self, prepared, BUILTIN};
use crate::inputs::{numbers, Group, Trials};
use crate::shifted::Shifted;
use gnss_time::LeapEntry;

const SECOND: i128 = 1_000_000_000;
const GREATEST: i128 = u64::MAX as i128;
/// From the UTC epoch to those of GPS and GLONASS, and from the Unix epoch to that of UTC.
const UTC_TO_GPS: i128 = 252_892_800 * SECOND;
const UTC_TO_GLONASS: i128 = 757_371_600 * SECOND;
const UNIX_TO_UTC_SECONDS: i128 = 63_072_000;
const TAI_MINUS_GPS_SECONDS: i128 = 19;
/// From the GPS epoch to those of Galileo and BeiDou.
const GPS_TO_GALILEO: i128 = <gnss_time::Galileo as Shifted>::BEHIND_GPS_SECONDS as i128 * SECOND;
const GPS_TO_BEIDOU: i128 = <gnss_time::Beidou as Shifted>::BEHIND_GPS_SECONDS as i128 * SECOND;
/// How far from a mark the counts in order lie.
const AROUND: [i128; 9] = [-SECOND - 1, -SECOND, -SECOND + 1, -1, 0, 1, SECOND - 1, SECOND, SECOND + 1];

#[derive(Clone, Copy, PartialEq)]
enum Scale {
    Tai,
    Gps,
    Utc,
    Glonass,
    Galileo,
    Beidou,
    /// In seconds.
    Unix,
}

use Scale::{Beidou, Galileo, Glonass, Gps, Tai, Unix, Utc};

/// The scales at whose ends counts lie: all of them for the conversions from and to Galileo and BeiDou, and for the
/// others the four that they are recorded with.
const SCALES_OF_COUNTS: &[Scale] = &[Tai, Gps, Utc, Glonass, Galileo, Beidou];
const FIRST_SCALES: &[Scale] = &[Tai, Gps, Utc, Glonass];

impl Scale {
    /// Where a count of this scale is 0, as a UTC count, while TAI minus UTC is `offset`.
    fn epoch(self, offset: i128) -> i128 {
        match self {
            Tai => UTC_TO_GPS - offset * SECOND,
            Gps => UTC_TO_GPS - (offset - TAI_MINUS_GPS_SECONDS) * SECOND,
            Utc => 0,
            Glonass => UTC_TO_GLONASS,
            Galileo => Gps.epoch(offset) + GPS_TO_GALILEO,
            Beidou => Gps.epoch(offset) + GPS_TO_BEIDOU,
            Unix => -UNIX_TO_UTC_SECONDS * SECOND,
        }
    }

    /// The number of this scale at a UTC count.
    fn at(self, utc: i128, offset: i128) -> i128 {
        let nanos = utc - self.epoch(offset);
        if self == Unix {
            nanos.div_euclid(SECOND)
        } else {
            nanos
        }
    }

    fn holds(self, number: i128) -> bool {
        if self == Unix {
            (i128::from(i64::MIN)..=i128::from(i64::MAX)).contains(&number)
        } else {
            (0..=GREATEST).contains(&number)
        }
    }

    /// The numbers at which answers by a table may change, and those around them.
    fn edges(self, entries: &[LeapEntry], scales: &[Scale]) -> Vec<i128> {
        let mut edges: Vec<i128> = marks(entries, scales)
            .into_iter()
            .flat_map(|(utc, offset)| AROUND.map(|distance| self.at(utc + distance, offset)))
            .filter(|number| self.holds(*number))
            .collect();
        if self == Unix {
            edges.extend([i64::MIN, i64::MAX].map(i128::from));
        }
        edges.sort_unstable();
        edges.dedup();
        edges
    }

    /// A number near a mark of a table, or any.
    fn draw(self, chance: &mut Chance, entries: &[LeapEntry], scales: &[Scale]) -> i128 {
        let (utc, offset) = draw_mark(chance, entries, scales);
        let distance = match chance.below(3) {
            0 => AROUND[chance.below(AROUND.len() as u64) as usize],
            1 => chance.of_length_up_to(33),
            _ => chance.of_length_up_to(64),
        };
        let number = self.at(utc + distance, offset);
        if self.holds(number) {
            number
        } else {
            i128::from(chance.next()) >> (1 + chance.below(40))
        }
    }

    /// At the epoch of a shifted scale the offset in force, and one less and one more, which may be in force a second
    /// before or after it; of another scale none.
    fn offsets_at_epoch(self, entries: &[LeapEntry]) -> Vec<i128> {
        if FIRST_SCALES.contains(&self) {
            return vec![];
        }
        let reading = self.epoch(0) - Tai.epoch(0);
        let in_force = entries.iter().rfind(|entry| i128::from(entry.tai_nanos) <= reading).or(entries.first());
        let offset = in_force.map_or(TAI_MINUS_GPS_SECONDS, |entry| i128::from(entry.tai_minus_utc));
        vec![offset - 1, offset, offset + 1]
    }
}

/// UTC counts, each with an offset to read it by: at each threshold the offsets before it and from it on, and the ends
/// and the middle of each scale by the first offset, the last, and 19; the epochs of shifted scales also by those in
/// force there.
fn marks(entries: &[LeapEntry], scales: &[Scale]) -> Vec<(i128, i128)> {
    let mut marks = Vec::new();
    for entry in entries {
        let offset = i128::from(entry.tai_minus_utc);
        for offset in [offset - 1, offset] {
            marks.push((i128::from(entry.tai_nanos) + Tai.epoch(offset), offset));
        }
    }
    let ends = entries.first().into_iter().chain(entries.last()).map(|entry| i128::from(entry.tai_minus_utc));
    for offset in ends.chain([TAI_MINUS_GPS_SECONDS]) {
        for scale in scales {
            marks.extend([0, 1 << 63, GREATEST].map(|count| (count + scale.epoch(offset), offset)));
        }
    }
    for scale in scales {
        let offsets = scale.offsets_at_epoch(entries);
        marks.extend(offsets.into_iter().map(|offset| (scale.epoch(offset), offset)));
    }
    marks
}

/// One such mark: at a threshold, or at an end of a scale by any offset of the table; the epoch of a shifted scale by
/// one in force there.
fn draw_mark(chance: &mut Chance, entries: &[LeapEntry], scales: &[Scale]) -> (i128, i128) {
    let (threshold, offset) = match entries.len() {
        0 => (0, TAI_MINUS_GPS_SECONDS),
        many => {
            let entry = entries[chance.below(many as u64) as usize];
            (i128::from(entry.tai_nanos), i128::from(entry.tai_minus_utc) - chance.within(0, 1))
        }
    };
    let scale = scales[chance.below(scales.len() as u64) as usize];
    let at_epoch = scale.offsets_at_epoch(entries);
    match chance.below(6) {
        0 if at_epoch.is_empty() => (scale.epoch(offset), offset),
        0 => {
            let offset = chance.one_of(&at_epoch);
            (scale.epoch(offset), offset)
        }
        1 => (GREATEST + scale.epoch(offset), offset),
        _ => (threshold + Tai.epoch(offset), offset),
    }
}

/// A table and a count of a scale: the notable tables with all their edges, then random ones.
fn by_table(scale: Scale, scales: &'static [Scale], tables: usize, random: usize) -> Trials {
    let in_order = |table: usize| {
        let edges = scale.edges(prepared(table as i128).entries(), scales);
        Group::new(edges.len(), move |place| vec![table as i128, edges[place]])
    };
    Trials {
        groups: (0..tables).map(in_order).collect(),
        draw: Box::new(move |chance| {
            let table = chance.below(random as u64).into();
            vec![table, scale.draw(chance, prepared(table).entries(), scales)]
        }),
    }
}

/// A count of a scale for the built-in table: its edges among those of the type.
fn by_builtin(scale: Scale, scales: &'static [Scale], inputs: &'static [Named]) -> Trials {
    let entries = prepared(BUILTIN).entries();
    let edges = scale.edges(entries, scales);
    let Trials { mut groups, draw } = numbers(inputs);
    groups.push(Group::new(edges.len(), move |place| vec![edges[place]]));
    let draw = move |chance: &mut Chance| match chance.below(2) {
        0 => draw(chance),
        _ => vec![scale.draw(chance, entries, scales)],
    };
    Trials { groups, draw: Box::new(draw) }
}

macro_rules! trials {
    ($scales:ident; $($scale:ident: $with_table:ident, $recorded:ident, $with_builtin:ident;)*) => {$(
        pub fn $with_table(_: &'static [Named]) -> Trials {
            by_table($scale, $scales, images::notable(), images::all())
        }
        /// Only the tables of the recorded list.
        pub fn $recorded(_: &'static [Named]) -> Trials {
            by_table($scale, $scales, images::RECORDED, images::RECORDED)
        }
        pub fn $with_builtin(inputs: &'static [Named]) -> Trials {
            by_builtin($scale, $scales, inputs)
        }
    )*};
}

trials! {
    FIRST_SCALES;
    Tai: tai, recorded_tai, builtin_tai;
    Gps: gps, recorded_gps, builtin_gps;
    Utc: utc, recorded_utc, builtin_utc;
    Glonass: glonass, recorded_glonass, builtin_glonass;
    Unix: unix, recorded_unix, builtin_unix;
}

/// For the conversions from and to Galileo and BeiDou: counts around their epochs and ends too.
pub mod with_epochs {
    use super::*;

    pub fn builtin_gps(inputs: &'static [Named]) -> Trials {
        by_builtin(Gps, SCALES_OF_COUNTS, inputs)
    }

    trials! {
        SCALES_OF_COUNTS;
        Utc: utc, recorded_utc, builtin_utc;
        Glonass: glonass, recorded_glonass, builtin_glonass;
        Galileo: galileo, recorded_galileo, builtin_galileo;
        Beidou: beidou, recorded_beidou, builtin_beidou;
    }
}

/// A table and no more: each of them.
pub fn tables(_: &'static [Named]) -> Trials {
    only_tables(images::all())
}

pub fn recorded_tables(_: &'static [Named]) -> Trials {
    only_tables(images::RECORDED)
}

fn only_tables(count: usize) -> Trials {
    Trials {
        groups: vec![Group::new(count, |table| vec![table as i128])],
        draw: Box::new(move |chance| vec![chance.below(count as u64).into()]),
    }
}

/// A table and a place: in it, at its end, and far past it.
pub fn places(_: &'static [Named]) -> Trials {
    places_in(images::notable(), images::all())
}

pub fn recorded_places(_: &'static [Named]) -> Trials {
    places_in(images::RECORDED, images::RECORDED)
}

fn places_in(tables: usize, random: usize) -> Trials {
    const FAR: [u64; 5] = [64, 65, 1 << 32, 1 << 63, u64::MAX];
    const PLACES: usize = 64 + FAR.len();
    let place_at = |place: usize| if place < 64 { place as i128 } else { FAR[place - 64].into() };
    let in_order = |table: usize| Group::new(PLACES, move |place| vec![table as i128, place_at(place)]);
    Trials {
        groups: (0..tables).map(in_order).collect(),
        draw: Box::new(move |chance| {
            vec![chance.below(random as u64).into(), place_at(chance.below(PLACES as u64) as usize)]
        }),
    }
}

/// A table and an entry for it: thresholds and offsets around its last one and at the ends of their types.
pub fn extensions(_: &'static [Named]) -> Trials {
    extensions_of(images::all())
}

pub fn recorded_extensions(_: &'static [Named]) -> Trials {
    extensions_of(images::RECORDED)
}

fn extensions_of(tables: usize) -> Trials {
    const ENTRIES: usize = 48;
    let in_order = |table: usize| {
        Group::new(ENTRIES, move |place| {
            let table = table as i128;
            let last = last_entry(table);
            extension(table, threshold(last, place / 8), offset(last, place % 8))
        })
    };
    Trials {
        groups: (0..tables).map(in_order).collect(),
        draw: Box::new(move |chance| {
            let table = chance.below(tables as u64).into();
            let last = last_entry(table);
            let tai_nanos = match chance.below(4) {
                0 => threshold(last, chance.below(6) as usize),
                1 => chance.next() >> chance.below(64),
                _ => last.tai_nanos.saturating_add(chance.next() >> (1 + chance.below(60))),
            };
            let tai_minus_utc = match chance.below(4) {
                0 => offset(last, chance.below(8) as usize),
                1 => chance.of_length_up_to(31) as i32,
                _ => last.tai_minus_utc.saturating_add(1),
            };
            extension(table, tai_nanos, tai_minus_utc)
        }),
    }
}

fn extension(table: i128, tai_nanos: u64, tai_minus_utc: i32) -> Vec<i128> {
    vec![table, tai_nanos.into(), tai_minus_utc.into()]
}

/// The last entry of a table; for one that has none, or is no table, some entry.
fn last_entry(table: i128) -> LeapEntry {
    prepared(table).entries().last().copied().unwrap_or(LeapEntry::new(1_167_264_037 * SECOND as u64, 37))
}

fn threshold(last: LeapEntry, which: usize) -> u64 {
    [0, last.tai_nanos.saturating_sub(1), last.tai_nanos, last.tai_nanos.saturating_add(1), 1 << 63, u64::MAX][which]
}

fn offset(last: LeapEntry, which: usize) -> i32 {
    let last = last.tai_minus_utc;
    [last.wrapping_add(1), last, last.saturating_sub(1), last.saturating_add(2), 0, 19, i32::MIN, i32::MAX][which]
}
