//! The examples of the rules, each with the numbers that are written there.

use plaitgate::{
    glonass_to_gps, glonass_to_utc, gps_to_utc, CivilDateTime, DurationParts, Error, Glonass, Gps, LeapEntry,
    LeapSeconds, LeapTable, Utc,
};

const SECOND: u64 = 1_000_000_000;

fn gps(seconds: u64) -> Gps {
    Gps::from_nanos(seconds * SECOND)
}

fn utc(seconds: u64) -> Utc {
    Utc::from_nanos(seconds * SECOND)
}

#[test]
fn the_first_inserted_second_runs_through_the_next_day_s_first() {
    assert_eq!(Gps::from_nanos(46_828_800_999_999_999).to_utc(), Ok(Utc::from_nanos(299_721_600_999_999_999)));
    assert_eq!(gps(46_828_801).to_utc(), Ok(utc(299_721_600)));
}

#[test]
fn a_utc_count_of_two_instants_is_the_first() {
    assert_eq!(utc(299_721_600).to_gps(), Ok(gps(46_828_800)));
    assert_eq!(utc(299_721_601).to_gps(), Ok(gps(46_828_802)));
}

#[test]
fn gps_begins_with_1980_01_06() {
    assert_eq!(Utc::from_nanos(252_892_799_999_999_999).to_gps(), Err(Error::Overflow));
    assert_eq!(utc(252_892_800).to_gps(), Ok(Gps::EPOCH));
}

#[test]
fn the_last_gps_count_that_has_a_utc_count() {
    let last = 18_193_851_291_709_551_615;
    assert_eq!(Gps::from_nanos(last).to_utc(), Ok(Utc::MAX));
    assert_eq!(Gps::from_nanos(last + 1).to_utc(), Err(Error::Overflow));
}

#[test]
fn five_seconds_into_2017_the_second_lookup_counts() {
    assert_eq!(utc(1_420_156_805).to_gps(), Ok(gps(1_167_264_023)));
}

#[test]
fn glonass_by_way_of_utc() {
    assert_eq!(glonass_to_utc(Glonass::EPOCH), Ok(utc(757_371_600)));
    assert_eq!(glonass_to_gps(Glonass::EPOCH, LeapSeconds::builtin()), Ok(gps(504_478_810)));
    assert_eq!(glonass_to_gps(Glonass::EPOCH, &LeapTable::builtin()), Ok(gps(504_478_810)));
}

#[test]
fn a_table_of_none_and_a_table_of_one() {
    assert_eq!(gps_to_utc(Gps::EPOCH, &LeapTable::new()), Ok(utc(252_892_800)));
    let one = LeapTable::from_entries(&[LeapEntry::new(100 * SECOND, 25)]).unwrap();
    assert_eq!(gps_to_utc(Gps::EPOCH, &one), Ok(utc(252_892_794)));
}

#[test]
fn what_may_follow_the_built_in_table() {
    let last = 1_167_264_037 * SECOND;
    let mut table = LeapTable::builtin();
    assert_eq!(table.try_extend(LeapEntry::new(last, 38)), Err(Error::NotStrictlyAscending));
    assert_eq!(table.try_extend(LeapEntry::new(last + 1, 39)), Err(Error::NonUnitIncrement));
    assert_eq!(table, LeapTable::builtin());
    assert_eq!(table.try_extend(LeapEntry::new(last + 1, 38)), Ok(()));
    assert_eq!(table.len(), 20);
}

#[test]
fn the_last_civil_time() {
    let last = CivilDateTime { year: 2556, month: 7, day: 20, hour: 23, minute: 34, second: 33, nanos: 709_551_615 };
    assert_eq!(Utc::MAX.to_civil(), last);
    assert_eq!(CivilDateTime::from_utc_nanos(u64::MAX), Ok(last));
    assert_eq!(last.to_utc(), Ok(Utc::MAX));
}

#[test]
fn an_hour_of_255_is_added_like_any_other() {
    let long = CivilDateTime { year: 1972, month: 1, day: 1, hour: 255, minute: 0, second: 0, nanos: 0 };
    assert_eq!(long.to_utc_nanos(), Ok(918_000 * SECOND));
}

#[test]
fn the_last_week() {
    let tow = |seconds, nanos| DurationParts { seconds, nanos };
    assert_eq!(Gps::from_week_tow(30_500, tow(344_073, 709_551_615)), Ok(Gps::MAX));
    assert_eq!(Gps::from_week_tow(30_500, tow(344_073, 709_551_616)), Err(Error::Overflow));
    for week in [0, 30_500, u32::MAX] {
        assert_eq!(Gps::from_week_tow(week, tow(604_800, 0)), Err(Error::InvalidSeconds));
        assert_eq!(Gps::from_week_tow(week, tow(604_800, 1_000_000_000)), Err(Error::InvalidSeconds));
        assert_eq!(Gps::from_week_tow(week, tow(604_799, 1_000_000_000)), Err(Error::InvalidNanos));
    }
}

#[test]
fn day_0_of_glonass_is_a_monday() {
    assert_eq!(Glonass::EPOCH.day_of_week(), 1);
    assert!(!Glonass::EPOCH.is_weekend());
}
