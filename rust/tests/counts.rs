//! Counts, durations, weeks, days, Unix time and civil dates: answers at the edges, and the way back.

use plaitgate::{
    glonass_to_utc, utc_to_glonass, Beidou, CivilDate, CivilDateTime, Duration, DurationParts, Error, Galileo, Glonass,
    GnssTimeError, Gps, LeapSeconds, Result, Tai, Time, Utc, UNIX_EPOCH, UTC_EPOCH_UNIX_OFFSET_NS,
    UTC_EPOCH_UNIX_OFFSET_S,
};

/// The same for each scale: they share no type, so that it is said by a macro.
macro_rules! sums_of {
    ($name:ident, $Scale:ident) => {
        #[test]
        fn $name() {
            let one = Duration::ONE_NANOSECOND;
            let count = $Scale::from_nanos(18_446_744_073_000_000_007);
            assert_eq!((count.as_nanos(), count.as_seconds()), (18_446_744_073_000_000_007, 18_446_744_073));
            assert_eq!(count.as_parts(), (18_446_744_073, 7));
            assert_eq!($Scale::checked_from_seconds(18_446_744_073).map($Scale::as_seconds), Some(18_446_744_073));
            assert_eq!($Scale::checked_from_seconds(18_446_744_074), None);

            assert_eq!($Scale::MAX.checked_add(one), None);
            assert_eq!($Scale::MIN.checked_sub_duration(one), None);
            assert_eq!($Scale::MAX.try_add(one), Err(Error::Overflow));
            assert_eq!($Scale::MIN.try_sub_duration(one), Err(Error::Overflow));
            assert_eq!($Scale::MAX.saturating_add(one), $Scale::MAX);
            assert_eq!($Scale::MIN.saturating_add(Duration::MIN), $Scale::MIN);
            assert_eq!($Scale::MIN.saturating_sub_duration(one), $Scale::MIN);
            assert_eq!($Scale::MAX.saturating_sub_duration(Duration::MIN), $Scale::MAX);
            assert_eq!($Scale::MIN.checked_sub_duration(Duration::MIN), Some($Scale::from_nanos(1 << 63)));

            assert_eq!($Scale::MIN.checked_elapsed($Scale::from_nanos(1 << 63)), Some(Duration::MIN));
            assert_eq!($Scale::from_nanos(1 << 63).checked_elapsed($Scale::MIN), None);
            let later = $Scale::EPOCH.checked_add(Duration::MAX).unwrap();
            assert_eq!(later.checked_elapsed($Scale::EPOCH), Some(Duration::MAX));
            assert!(later > $Scale::EPOCH);
        }
    };
}

sums_of!(sums_of_gps_counts, Gps);
sums_of!(sums_of_utc_counts, Utc);
sums_of!(sums_of_glonass_counts, Glonass);
sums_of!(sums_of_tai_counts, Tai);
sums_of!(sums_of_galileo_counts, Galileo);
sums_of!(sums_of_beidou_counts, Beidou);

/// For each unit the largest and the least count of which the nanoseconds fit 64 bits, and the next, which is none.
#[test]
fn durations_of_each_unit_at_their_ends() {
    let units: [(fn(i64) -> Option<Duration>, i64, i64); 6] = [
        (Duration::checked_from_micros, 9_223_372_036_854_775, 1_000),
        (Duration::checked_from_millis, 9_223_372_036_854, 1_000_000),
        (Duration::checked_from_seconds, 9_223_372_036, 1_000_000_000),
        (Duration::checked_from_minutes, 153_722_867, 60_000_000_000),
        (Duration::checked_from_hours, 2_562_047, 3_600_000_000_000),
        (Duration::checked_from_days, 106_751, 86_400_000_000_000),
    ];
    for (checked_from, last, nanos) in units {
        assert_eq!(checked_from(last), Some(Duration::from_nanos(last * nanos)));
        assert_eq!(checked_from(-last), Some(Duration::from_nanos(-last * nanos)));
        assert_eq!(checked_from(last + 1), None);
        assert_eq!(checked_from(-last - 1), None);
        assert_eq!(checked_from(i64::MIN), None);
    }
    // in 64 bits this many seconds would wrap to 290,448,384 ns
    assert_eq!(Duration::checked_from_seconds(18_446_744_074), None);
}

#[test]
fn durations_at_their_ends() {
    let (least, largest, one) = (Duration::MIN, Duration::MAX, Duration::ONE_NANOSECOND);
    assert_eq!((least.abs(), least.checked_neg()), (None, None));
    assert_eq!((largest.abs(), largest.checked_neg()), (Some(largest), least.checked_add(one)));
    assert_eq!((largest.checked_add(one), least.checked_sub(one)), (None, None));
    assert_eq!((largest.try_add(one), least.try_sub(one)), (Err(Error::Overflow), Err(Error::Overflow)));
    assert_eq!((largest.saturating_add(one), least.saturating_sub(one)), (largest, least));
    assert_eq!(
        (least.as_micros(), least.as_millis(), least.as_seconds()),
        (-9_223_372_036_854_775, -9_223_372_036_854, -9_223_372_036)
    );
    assert!(least.is_negative() && largest.is_positive() && Duration::ZERO.is_zero());
}

/// Numbers that are spread over all of 64 bits, and those next to the ends.
fn spread() -> impl Iterator<Item = u64> {
    let step = 0x9e37_79b9_7f4a_7c15_u64;
    (0..2_000).map(move |k: u64| k.wrapping_mul(step)).chain([0, 1, u64::MAX - 1, u64::MAX])
}

#[test]
fn weeks_and_days_there_and_back() {
    for nanos in spread() {
        let gps = Gps::from_nanos(nanos);
        let tow = DurationParts { seconds: gps.tow_seconds().into(), nanos: gps.sub_second_nanos() };
        assert_eq!(Gps::from_week_tow(gps.week(), tow), Ok(gps));
        let glonass = Glonass::from_nanos(nanos);
        let tod = DurationParts { seconds: glonass.tod_seconds().into(), nanos: glonass.sub_second_nanos() };
        assert_eq!(Glonass::from_day_tod(glonass.day(), tod), Ok(glonass));
        assert_eq!(u32::from(glonass.day_of_week()), glonass.day() % 7 + 1);
        assert_eq!(glonass.is_weekend(), glonass.day() % 7 >= 5);
    }
}

#[test]
fn civil_times_and_unix_time_there_and_back() {
    for nanos in spread() {
        let utc = Utc::from_nanos(nanos);
        let civil = utc.to_civil();
        assert_eq!(civil.to_utc(), Ok(utc));
        assert_eq!(civil.to_utc_nanos(), Ok(nanos));
        assert_eq!(civil.is_whole_second(), civil.nanos == 0);
        let whole = Utc::checked_from_seconds(utc.as_seconds()).unwrap();
        assert_eq!(Utc::from_unix_seconds(utc.as_unix_seconds()), Ok(whole));
        if utc.as_unix_nanos() < i64::MAX {
            assert_eq!(Utc::from_unix_nanos(utc.as_unix_nanos()), Ok(utc));
        }
    }
}

#[test]
fn conversions_there_and_back() {
    for nanos in spread() {
        let gps = Gps::from_nanos(nanos);
        match gps.to_utc() {
            // none of these counts lies in an inserted second or the one after it
            Ok(utc) => assert_eq!(utc.to_gps(), Ok(gps)),
            Err(why) => assert!(why == Error::Overflow && nanos > 18_193_851_291_709_551_615),
        }
        match glonass_to_utc(Glonass::from_nanos(nanos)) {
            Ok(utc) => assert_eq!(utc_to_glonass(utc), Ok(Glonass::from_nanos(nanos))),
            Err(why) => assert_eq!(why.number(), 1),
        }
        match gps.to_tai() {
            Ok(tai) => assert_eq!(Gps::from_tai(tai), Ok(gps)),
            Err(why) => assert_eq!(why.number(), 1),
        }
    }
    assert_eq!(Gps::from_tai(Tai::from_nanos(18_999_999_999)), Err(Error::Overflow));
}

#[test]
fn the_second_inserted_at_the_end_of_2016() {
    let at = |seconds, nanos| Gps::from_week_tow(1930, DurationParts { seconds, nanos }).unwrap();
    let civil = |gps: Gps| gps.to_utc().unwrap().to_civil();
    let new_year = CivilDateTime { year: 2017, month: 1, day: 1, hour: 0, minute: 0, second: 0, nanos: 0 };
    let before = CivilDateTime { year: 2016, month: 12, day: 31, hour: 23, minute: 59, second: 59, nanos: 999_999_999 };
    assert_eq!(civil(at(16, 999_999_999)), before);
    assert_eq!(civil(at(17, 0)), new_year);
    assert_eq!(civil(at(17, 999_999_999)), CivilDateTime { nanos: 999_999_999, ..new_year });
    assert_eq!(civil(at(18, 0)), new_year);
    assert_eq!(civil(at(19, 0)), CivilDateTime { second: 1, ..new_year });
    assert_eq!(new_year.to_utc().and_then(Utc::to_gps), Ok(at(17, 0)));
    assert_eq!(CivilDateTime { second: 1, ..new_year }.to_utc().and_then(Utc::to_gps), Ok(at(19, 0)));
}

#[test]
fn unix_time_at_its_ends() {
    assert_eq!(Utc::from_unix_seconds(UTC_EPOCH_UNIX_OFFSET_S), Ok(Utc::EPOCH));
    assert_eq!(Utc::from_unix_seconds(UTC_EPOCH_UNIX_OFFSET_S - 1), Err(Error::Overflow));
    assert!(Utc::from_unix_seconds(18_509_816_073).is_ok());
    assert_eq!(Utc::from_unix_seconds(18_509_816_074), Err(Error::Overflow));
    assert_eq!(Utc::from_unix_nanos(UTC_EPOCH_UNIX_OFFSET_NS), Ok(Utc::EPOCH));
    assert_eq!(Utc::from_unix_nanos(i64::MIN), Err(Error::Overflow));
    assert_eq!(Utc::MAX.as_unix_nanos(), i64::MAX);
    assert_eq!(Utc::MAX.as_unix_seconds(), 18_509_816_073);
    assert_eq!(Gps::EPOCH.as_unix_seconds(LeapSeconds::builtin()), Ok(315_964_800));
    assert_eq!(Gps::from_unix_seconds(315_964_799, LeapSeconds::builtin()), Err(Error::Overflow));
}

#[test]
fn times_of_a_week_or_a_day_that_are_out_of_range() {
    let parts = |seconds, nanos| DurationParts { seconds, nanos };
    let week = |whole, seconds, nanos| Gps::from_week_tow(whole, parts(seconds, nanos)).map(Gps::as_nanos);
    let day = |whole, seconds, nanos| Glonass::from_day_tod(whole, parts(seconds, nanos)).map(Glonass::as_nanos);
    let calls: [(&dyn Fn(u32, u64, u32) -> Result<u64>, u64); 2] = [(&week, 604_800), (&day, 86_400)];
    for (call, unit) in calls {
        for whole in [0, u32::MAX] {
            assert_eq!(call(whole, unit, 0), Err(Error::InvalidSeconds));
            assert_eq!(call(whole, unit, 1_000_000_000), Err(Error::InvalidSeconds));
            assert_eq!(call(whole, u64::MAX, u32::MAX), Err(Error::InvalidSeconds));
            assert_eq!(call(whole, unit - 1, 1_000_000_000), Err(Error::InvalidNanos));
            assert_eq!(call(whole, 0, u32::MAX), Err(Error::InvalidNanos));
        }
        assert_eq!(call(u32::MAX, 0, 0), Err(Error::Overflow));
        assert_eq!(call(0, unit - 1, 999_999_999), Ok(unit * 1_000_000_000 - 1));
    }
    assert_eq!(DurationParts::new(u64::MAX, 999_999_999), Ok(parts(u64::MAX, 999_999_999)));
    assert_eq!(DurationParts::new(u64::MAX, 1_000_000_000), Err(Error::InvalidNanos));
}

#[test]
fn dates_that_are_not_in_the_calendar_and_dates_that_are_refused() {
    let date = CivilDate::new;
    assert_eq!(date(2023, 2, 31).days_from_unix(), date(2023, 3, 3).days_from_unix());
    assert_eq!(date(i32::MIN, 2, 1).days_from_unix(), Err(Error::Overflow));
    assert!(date(i32::MIN, 3, 1).days_from_unix().is_ok());
    assert_eq!(UNIX_EPOCH.days_until(date(2262, 4, 11)), Ok(106_751));
    assert!(UNIX_EPOCH.nanos_until(date(2262, 4, 11)).is_ok());
    assert_eq!(UNIX_EPOCH.nanos_until(date(2262, 4, 12)), Err(Error::Overflow));
    assert_eq!(date(1970, 1, 2).seconds_until(UNIX_EPOCH), Ok(-86_400));
}

#[test]
fn each_refusal_has_its_number() {
    // tools/check-refusals holds the names to README's table; here: they are 1 to a last one, and no others
    let named = |number: &u32| !matches!(Error::from(*number), Error::Other(_));
    let last = (1..).take_while(named).count() as u32;
    assert!(last > 0);
    for number in (0..1000).chain([u32::MAX]) {
        let why = Error::from(number);
        assert_eq!(why.number(), number);
        assert_eq!(named(&number), (1..=last).contains(&number));
        assert!(!why.to_string().is_empty());
    }
    let boxed: Box<dyn std::error::Error> = Box::new(Error::BadTable);
    assert_eq!(boxed.to_string(), "the bytes hold no valid table");
    // which field, and its limit
    assert_eq!(Error::InvalidSeconds.to_string(), "the seconds are out of range: a week has 604,800, a day 86,400");
    assert_eq!(Error::InvalidNanos.to_string(), "the nanoseconds are out of range: a second has 1,000,000,000");
}

/// Written as for gnss-time; only the import is another.
#[test]
fn gnss_time_s_names() -> Result<(), GnssTimeError> {
    let gps: Time<Gps> = Time::<Gps>::from_week_tow(1981, DurationParts { seconds: 0, nanos: 0 })?;
    let table = LeapSeconds::builtin();
    let utc: Time<Utc> = plaitgate::gps_to_utc(gps, &table)?;
    assert_eq!(utc.to_gps_with(&table)?, gps);
    let mut own = plaitgate::RuntimeLeapSeconds::from_builtin();
    assert!(own.try_extend(plaitgate::LeapEntry::new(9_999_999_999_000_000_000, 38)).is_ok());
    assert_eq!(gps.to_utc_with(&own)?, utc);
    Ok(())
}
