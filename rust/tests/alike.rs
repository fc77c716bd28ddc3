//! How far two tables convert alike: the answer is held to a model over the entries alone, and the conversions by both
//! tables to the answer.

use plaitgate::{
    beidou_to_glonass, beidou_to_utc, galileo_to_glonass, galileo_to_utc, glonass_to_beidou, glonass_to_galileo,
    glonass_to_gps, gps_to_glonass, gps_to_utc, utc_to_beidou, utc_to_galileo, utc_to_glonass, utc_to_gps, Alike,
    Beidou, Error, Galileo, Gps, LeapEntry, LeapTable, Result, Tai, Utc,
};
use std::collections::BTreeSet;

const SECOND: i128 = 1_000_000_000;
const DAY: i128 = 86_400 * SECOND;
const TAI_MINUS_GPS: i128 = 19 * SECOND;
/// The UTC count of 1980-01-06, where GPS counts begin.
const GPS_EPOCH_IN_UTC: i128 = 252_892_800 * SECOND;
const GREATEST: i128 = u64::MAX as i128;
/// The offset at the GPS epoch, which is the first of every regular table.
const FIRST_OFFSET: i32 = 19;
const ROOM: usize = 64;

const PAIRS: u64 = 12_000;

/// The generator splitmix64.
struct Chance(u64);

impl Chance {
    fn next(&mut self) -> u64 {
        self.0 = self.0.wrapping_add(0x9e37_79b9_7f4a_7c15);
        let mixed = (self.0 ^ (self.0 >> 30)).wrapping_mul(0xbf58_476d_1ce4_e5b9);
        let mixed = (mixed ^ (mixed >> 27)).wrapping_mul(0x94d0_49bb_1331_11eb);
        mixed ^ (mixed >> 31)
    }

    fn below(&mut self, bound: i128) -> i128 {
        i128::from(self.next()) % bound
    }

    /// A number of any length from 0 to so many bits.
    fn of_length_up_to(&mut self, bits: i128) -> i128 {
        let length = self.below(bits + 1);
        self.below(1 << length)
    }
}

/// The model: the thresholds as two sets. They part at the least threshold that one of them has alone, and there a
/// clock that does not know it shows the UTC count from which on the ways back to GPS may differ.
fn due(old: &[LeapEntry], new: &[LeapEntry]) -> Result<Alike> {
    if old == new {
        return Ok(Alike::Everywhere);
    }
    if !is_regular(old) || !is_regular(new) {
        return Ok(Alike::Irregular);
    }
    let thresholds = |entries: &[LeapEntry]| entries.iter().map(|entry| entry.tai_nanos.into()).collect();
    let (old, new): (BTreeSet<i128>, BTreeSet<i128>) = (thresholds(old), thresholds(new));
    let parting = *old.symmetric_difference(&new).next().expect("two different tables");
    let inserted_before = old.range(..parting).count() as i128 - 1;
    let offset_before = i128::from(FIRST_OFFSET) + inserted_before;
    let gps = Gps::from_nanos(count(parting - TAI_MINUS_GPS)?);
    let utc = Utc::from_nanos(count(parting - offset_before * SECOND + GPS_EPOCH_IN_UTC)?);
    let one_ends = [&old, &new].into_iter().any(|thresholds| thresholds.range(parting..).next().is_none());
    Ok(if one_ends { Alike::Before { gps, utc } } else { Alike::Apart { gps, utc } })
}

fn is_regular(entries: &[LeapEntry]) -> bool {
    let gap = |pair: &[LeapEntry]| i128::from(pair[1].tai_nanos) - i128::from(pair[0].tai_nanos);
    entries.first() == Some(&LeapEntry::new(0, FIRST_OFFSET)) && entries.windows(2).all(|pair| gap(pair) >= DAY)
}

fn count(exact: i128) -> Result<u64> {
    u64::try_from(exact).map_err(|_| Error::Overflow)
}

fn table(entries: &[LeapEntry]) -> LeapTable {
    if entries.is_empty() {
        return LeapTable::new();
    }
    LeapTable::from_entries(entries).expect("a rising list")
}

/// The regular table with leap seconds at these thresholds.
fn with_thresholds(thresholds: &[i128]) -> Vec<LeapEntry> {
    let later = thresholds.iter().zip(FIRST_OFFSET + 1..).map(|(tai, offset)| LeapEntry::new(*tai as u64, offset));
    [LeapEntry::new(0, FIRST_OFFSET)].into_iter().chain(later).collect()
}

/// Thresholds after some, up to so many more, with gaps of a day and more.
fn more(chance: &mut Chance, before: &[i128], most: i128) -> Vec<i128> {
    let mut thresholds = before.to_vec();
    for _ in 0..most {
        let last = thresholds.last().copied().unwrap_or(0);
        let threshold = last + DAY + chance.of_length_up_to(60);
        if threshold > GREATEST || thresholds.len() == ROOM - 1 {
            break;
        }
        thresholds.push(threshold);
    }
    thresholds
}

/// Thresholds to begin with; now and then the last is near those past which no UTC count is.
fn beginning(chance: &mut Chance) -> Vec<i128> {
    let many = chance.below(20);
    let mut thresholds = more(chance, &[], many);
    if chance.below(8) == 0 {
        let last = GREATEST - GPS_EPOCH_IN_UTC - 2 * DAY + chance.of_length_up_to(50);
        thresholds.retain(|threshold| *threshold <= last - DAY);
        thresholds.push(last);
    }
    thresholds
}

/// Two regular tables, of which the second has one to three entries more.
fn extended(chance: &mut Chance) -> [Vec<LeapEntry>; 2] {
    let old = beginning(chance);
    let many = 1 + chance.below(3);
    let new = more(chance, &old, many);
    [old, new].map(|thresholds| with_thresholds(&thresholds))
}

/// Two regular tables that part after a beginning in common, by a nanosecond or more.
fn apart(chance: &mut Chance) -> [Vec<LeapEntry>; 2] {
    let shared = beginning(chance);
    let first = shared.last().copied().unwrap_or(0) + DAY + chance.of_length_up_to(60);
    let bits = [0, 1, 31, 50][chance.below(4) as usize];
    let second = first + 1 + chance.of_length_up_to(bits);
    [first, second].map(|threshold| {
        let parted = [&shared[..], &[threshold.min(GREATEST)]].concat();
        let many = chance.below(3);
        with_thresholds(&more(chance, &parted, many))
    })
}

/// A valid table that is not regular: with no entry, with another first one, or with two that are too near.
fn irregular(chance: &mut Chance) -> Vec<LeapEntry> {
    let mut entries = with_thresholds(&beginning(chance));
    match chance.below(4) {
        0 => entries.clear(),
        1 => entries[0].tai_nanos = 1 + chance.below(DAY - 1) as u64,
        2 => {
            let raised = 1 + chance.below(30) as i32;
            entries.iter_mut().for_each(|entry| entry.tai_minus_utc += raised);
        }
        _ => {
            let last = entries[entries.len() - 1];
            let near = last.tai_nanos + 1 + chance.below(DAY - 1) as u64;
            entries.push(LeapEntry::new(near, last.tai_minus_utc + 1));
        }
    }
    entries
}

/// Pairs of every kind, in turns.
fn draw_pair(kind: u64, chance: &mut Chance) -> [Vec<LeapEntry>; 2] {
    let [old, new] = match kind % 8 {
        0 | 1 => extended(chance),
        2 | 3 => apart(chance),
        4 => [(); 2].map(|()| with_thresholds(&beginning(chance))),
        5 => [(); 2].map(|()| irregular(chance)),
        6 => [with_thresholds(&beginning(chance)), irregular(chance)],
        _ => {
            let same = if chance.below(2) == 0 { irregular(chance) } else { with_thresholds(&beginning(chance)) };
            [same.clone(), same]
        }
    };
    if chance.below(2) == 0 {
        [old, new]
    } else {
        [new, old]
    }
}

/// A table with an expiry or without one.
fn draw_table(entries: &[LeapEntry], chance: &mut Chance) -> LeapTable {
    let expiry = [None, Some(Tai::EPOCH), Some(Tai::from_nanos(chance.next()))][chance.below(3) as usize];
    table(entries).with_expiry(expiry)
}

fn wide<T: Into<i128>>(number: T) -> i128 {
    number.into()
}

/// Everything that a GPS count is converted to; before the epochs of Galileo and BeiDou there is nothing for these.
fn from_gps(nanos: u64, table: &LeapTable) -> Vec<Result<i128>> {
    let gps = Gps::from_nanos(nanos);
    let utc_of = |utc: Result<Utc>| utc.map(|utc| wide(utc.as_nanos()));
    vec![
        utc_of(gps_to_utc(gps, table)),
        utc_of(gps.to_utc_with(table)),
        gps_to_glonass(gps, table).map(|glonass| wide(glonass.as_nanos())),
        gps.as_unix_seconds(table).map(wide),
        utc_of(gps.to_galileo().and_then(|galileo| galileo_to_utc(galileo, table))),
        utc_of(gps.to_beidou().and_then(|beidou| beidou_to_utc(beidou, table))),
        gps.to_galileo().and_then(|galileo| galileo_to_glonass(galileo, table)).map(|count| wide(count.as_nanos())),
        gps.to_beidou().and_then(|beidou| beidou_to_glonass(beidou, table)).map(|count| wide(count.as_nanos())),
    ]
}

/// Everything that a UTC count is converted to. Unix time has whole seconds; of Galileo and BeiDou there is only what is
/// promised, where the GPS count is not before the epoch.
fn from_utc(nanos: u64, table: &LeapTable) -> Vec<Result<i128>> {
    let utc = Utc::from_nanos(nanos);
    let gps = utc_to_gps(utc, table);
    let glonass = utc_to_glonass(utc);
    let unix = if wide(nanos) % SECOND == 0 { Ok(utc.as_unix_seconds()) } else { Err(Error::Overflow) };
    let gps_of = |gps: Result<Gps>| gps.map(|gps| wide(gps.as_nanos()));
    let galileo_of = |galileo: Result<Galileo>| galileo.map(|galileo| wide(galileo.as_nanos()));
    let beidou_of = |beidou: Result<Beidou>| beidou.map(|beidou| wide(beidou.as_nanos()));
    let (in_galileo, in_beidou) = (gps.and_then(Gps::to_galileo), gps.and_then(Gps::to_beidou));
    vec![
        gps_of(gps),
        gps_of(utc.to_gps_with(table)),
        gps_of(glonass.and_then(|glonass| glonass_to_gps(glonass, table))),
        gps_of(unix.and_then(|unix| Gps::from_unix_seconds(unix, table))),
        galileo_of(in_galileo.and_then(|_| utc_to_galileo(utc, table))),
        beidou_of(in_beidou.and_then(|_| utc_to_beidou(utc, table))),
        galileo_of(in_galileo.and(glonass).and_then(|glonass| glonass_to_galileo(glonass, table))),
        beidou_of(in_beidou.and(glonass).and_then(|glonass| glonass_to_beidou(glonass, table))),
    ]
}

/// Counts before one: the least, the last three, a second and a day before, the last whole seconds, and any.
fn counts_before(end: u64, chance: &mut Chance) -> Vec<u64> {
    let end = i128::from(end);
    let whole = (end - 1) / SECOND * SECOND;
    let mut counts = vec![0, end - 1, end - 2, end - 3, end - SECOND, end - DAY, whole, whole - SECOND];
    counts.extend((0..3).map(|_| chance.below(end)));
    counts.extend((0..2).map(|_| end - 1 - chance.of_length_up_to(60)));
    counts.extend((0..2).map(|_| chance.below(end) / SECOND * SECOND));
    counts.into_iter().filter_map(|count| u64::try_from(count).ok()).collect()
}

/// Holds every conversion before the two counts to be the same by both tables, and at them to differ where both have an
/// answer. Gives back how many were the same, and how many differed.
fn hold_to(tables: &[LeapTable; 2], gps: Gps, utc: Utc, chance: &mut Chance) -> [usize; 2] {
    let [old, new] = tables;
    let ways: [(fn(u64, &LeapTable) -> Vec<Result<i128>>, u64); 2] =
        [(from_gps, gps.as_nanos()), (from_utc, utc.as_nanos())];
    let (mut same, mut different) = (0, 0);
    for (convert, end) in ways {
        for count in counts_before(end, chance) {
            assert_eq!(convert(count, old), convert(count, new), "{count}, by {old:?} and {new:?}");
            same += convert(count, old).iter().flatten().count();
        }
        let at_the_end = convert(end, old).into_iter().zip(convert(end, new));
        for (by_old, by_new) in at_the_end.filter_map(|(by_old, by_new)| Some((by_old.ok()?, by_new.ok()?))) {
            assert_ne!(by_old, by_new, "{end}, by {old:?} and {new:?}");
            different += 1;
        }
    }
    [same, different]
}

#[test]
fn random_pairs_are_told_as_the_model_has_it_and_convert_as_is_told() {
    let mut chance = Chance(20_260_101);
    let (mut met, mut same, mut different) = ([0; 5], 0, 0);
    for kind in 0..PAIRS {
        let [old, new] = draw_pair(kind, &mut chance);
        let tables = [draw_table(&old, &mut chance), draw_table(&new, &mut chance)];
        let due = due(&old, &new);
        assert_eq!(tables[0].alike(&tables[1]), due, "{old:?} and {new:?}");
        assert_eq!(tables[1].alike(&tables[0]), due, "{new:?} and {old:?}");
        let which = match due {
            Ok(Alike::Everywhere) => 0,
            Ok(Alike::Before { .. }) => 1,
            Ok(Alike::Apart { .. }) => 2,
            Ok(Alike::Irregular) => 3,
            Err(_) => 4,
        };
        met[which] += 1;
        if let Ok(Alike::Before { gps, utc } | Alike::Apart { gps, utc }) = due {
            let counted = hold_to(&tables, gps, utc, &mut chance);
            same += counted[0];
            different += counted[1];
        }
    }
    assert!(met.iter().all(|times| *times > 100), "not every answer came often: {met:?}");
    assert!(same > 500_000 && different > 40_000, "{same} the same, {different} different");
}

#[test]
fn the_table_of_2015_and_the_built_in_one() {
    let entries: Vec<LeapEntry> = LeapTable::builtin().entries().collect();
    let (old, new) = (table(&entries[..18]), LeapTable::builtin());
    // 2017 begins 16,437 days after 1972
    let (gps, utc) = (Gps::from_nanos(1_167_264_018_000_000_000), Utc::from_nanos(1_420_156_801_000_000_000));
    assert_eq!(utc.as_seconds(), 16_437 * 86_400 + 1);
    assert_eq!(old.alike(&new), Ok(Alike::Before { gps, utc }));
    assert_eq!(new.alike(&old), Ok(Alike::Before { gps, utc }));
    hold_to(&[old, new], gps, utc, &mut Chance(1));
}

#[test]
fn a_table_and_itself() {
    let expiring = LeapTable::builtin().with_expiry(Some(Tai::EPOCH));
    for same in [LeapTable::new(), LeapTable::builtin(), table(&[LeapEntry::new(5, -5)]), expiring.clone()] {
        assert_eq!(same.alike(&same), Ok(Alike::Everywhere));
        assert_eq!(same.alike(&same.clone()), Ok(Alike::Everywhere));
    }
    assert_eq!(expiring.alike(&LeapTable::builtin()), Ok(Alike::Everywhere));
}

#[test]
fn one_threshold_a_nanosecond_later() {
    let mut entries: Vec<LeapEntry> = LeapTable::builtin().entries().collect();
    entries[17].tai_nanos += 1;
    let earlier = LeapTable::builtin().entry(17).unwrap();
    let gps = Gps::from_tai(Tai::from_nanos(earlier.tai_nanos)).unwrap();
    // 2015-07-01T00:00:01, 15,887 days after 1972-01-01
    let utc = Utc::from_nanos((15_887 * 86_400 + 1) * 1_000_000_000);
    let tables = [LeapTable::builtin(), table(&entries)];
    assert_eq!(tables[0].alike(&tables[1]), Ok(Alike::Apart { gps, utc }));
    assert_eq!(tables[1].alike(&tables[0]), Ok(Alike::Apart { gps, utc }));
    hold_to(&tables, gps, utc, &mut Chance(2));
}

#[test]
fn nothing_is_said_of_a_table_that_is_not_regular() {
    let builtin: Vec<LeapEntry> = LeapTable::builtin().entries().collect();
    let near = |gap: i128| with_thresholds(&[DAY, DAY + gap]);
    let others =
        [vec![], builtin[1..].to_vec(), vec![LeapEntry::new(0, 18)], vec![LeapEntry::new(1, 19)], near(DAY - 1)];
    for irregular in others {
        assert_eq!(table(&irregular).alike(&LeapTable::builtin()), Ok(Alike::Irregular), "{irregular:?}");
        assert_eq!(LeapTable::builtin().alike(&table(&irregular)), Ok(Alike::Irregular), "{irregular:?}");
    }
    let told = table(&near(DAY)).alike(&table(&with_thresholds(&[DAY])));
    assert!(matches!(told, Ok(Alike::Before { .. })), "{told:?}");
}

#[test]
fn a_count_that_does_not_fit_is_refused_by_1() {
    // one second past the event of the entry with offset 20 is the largest UTC count
    let last = GREATEST - SECOND - GPS_EPOCH_IN_UTC + 20 * SECOND;
    let one = table(&with_thresholds(&[]));
    let gps = Gps::from_nanos((last - TAI_MINUS_GPS) as u64);
    assert_eq!(one.alike(&table(&with_thresholds(&[last]))), Ok(Alike::Before { gps, utc: Utc::MAX }));
    for threshold in [last + 1, last + SECOND, last + SECOND + 1, GREATEST] {
        let other = table(&with_thresholds(&[threshold]));
        assert_eq!(one.alike(&other), Err(Error::Overflow));
        assert_eq!(other.alike(&one), Err(Error::Overflow));
    }
    // of two that differ, only the earlier has to fit
    let [earlier, later] = [last, last + 1].map(|threshold| table(&with_thresholds(&[threshold])));
    assert_eq!(later.alike(&earlier), Ok(Alike::Apart { gps, utc: Utc::MAX }));
}

/// A second was inserted right before the epoch of BeiDou: the first of two GPS counts is before it.
#[test]
fn utc_to_beidou_may_differ_where_the_gps_count_is_before_the_epoch() {
    let entries: Vec<LeapEntry> = LeapTable::builtin().entries().collect();
    let [old, new] = [14, 15].map(|many| table(&entries[..many]));
    let midnight = Utc::from_nanos(1_073_001_600_000_000_000);
    let told = old.alike(&new);
    assert!(matches!(told, Ok(Alike::Before { utc, .. }) if utc > midnight), "{told:?}");
    assert_eq!(utc_to_gps(midnight, &old), utc_to_gps(midnight, &new));
    assert_eq!(utc_to_beidou(midnight, &old), Err(Error::Overflow));
    assert_eq!(utc_to_beidou(midnight, &new), Ok(Beidou::EPOCH));
}

/// By a table with an entry that begins no day nothing is read.
#[test]
fn civil_readings_may_differ_everywhere() {
    let old = LeapTable::builtin();
    let mut new = LeapTable::builtin();
    new.try_extend(LeapEntry::new(2_000_000_000_000_000_000, 38)).unwrap();
    let told = old.alike(&new);
    assert!(matches!(told, Ok(Alike::Before { .. })), "{told:?}");
    assert!(Gps::EPOCH.to_civil_with(&old).is_ok());
    assert_eq!(Gps::EPOCH.to_civil_with(&new), Err(Error::NotOnDays));
}
