//! Civil readings of GPS counts, in which an inserted second is 23:59:60, and back: at each inserted second, by tables
//! of one's own, at the expiry, and in order. Fields that are no reading are refused, in an order and in words.

use plaitgate::{
    CivilDate, CivilDateTime, CivilError, Dated, Error, Gps, LeapEntry, LeapSeconds, LeapSecondsProvider, LeapTable,
    Result, Tai, Utc, GPS_EPOCH,
};
use std::ops::RangeInclusive;

const SECOND: u64 = 1_000_000_000;
const DAY: u64 = 86_400 * SECOND;
const TAI_MINUS_GPS: u64 = 19 * SECOND;
const LAST_GPS_WITH_UTC: u64 = 18_193_851_291_709_551_615;
/// The GPS count at which the second begins that was inserted at the end of 2016.
const INSERTED: u64 = 1_167_264_017 * SECOND;

/// The days that were ended by an inserted second since 1980, by the IERS.
const LONG_DAYS: [(i32, u8, u8); 18] = [
    (1981, 6, 30),
    (1982, 6, 30),
    (1983, 6, 30),
    (1985, 6, 30),
    (1987, 12, 31),
    (1989, 12, 31),
    (1990, 12, 31),
    (1992, 6, 30),
    (1993, 6, 30),
    (1994, 6, 30),
    (1995, 12, 31),
    (1997, 6, 30),
    (1998, 12, 31),
    (2005, 12, 31),
    (2008, 12, 31),
    (2012, 6, 30),
    (2015, 6, 30),
    (2016, 12, 31),
];

fn gps(nanos: u64) -> Gps {
    Gps::from_nanos(nanos)
}

fn at((year, month, day): (i32, u8, u8), (hour, minute, second): (u8, u8, u8), nanos: u32) -> CivilDateTime {
    CivilDateTime { year, month, day, hour, minute, second, nanos }
}

/// The inserted second of a day, from its beginning on.
fn sixty(day: (i32, u8, u8)) -> CivilDateTime {
    at(day, (23, 59, 60), 0)
}

fn table(entries: &[(u64, i32)]) -> LeapTable {
    let entries: Vec<LeapEntry> = entries.iter().map(|&(tai, offset)| LeapEntry::new(tai, offset)).collect();
    LeapTable::from_entries(&entries).expect("a rising list")
}

/// The table that inserts a second at the end of each of the first days, as many as there is room for.
fn a_long_day_each() -> LeapTable {
    let entries: Vec<(u64, i32)> = (0..64).map(|k| (k * DAY + (19 + k) * SECOND, 19 + k as i32)).collect();
    table(&[&[(0, 19)], &entries[1..]].concat())
}

/// The GPS counts at which the entries of the built-in table after the first begin.
fn events() -> Vec<u64> {
    LeapTable::builtin().entries().skip(1).map(|entry| entry.tai_nanos - TAI_MINUS_GPS).collect()
}

/// The answer that every form of the call gives by the built-in table and by its copy.
fn reading(count: Gps) -> Result<CivilDateTime> {
    fn by<P: LeapSecondsProvider>(count: Gps, table: &P) -> Result<CivilDateTime> {
        let answer = count.to_civil_with(table);
        assert_eq!(count.to_civil_dated(table), answer.map(|value| Dated { value, stale: false }));
        answer
    }
    let answer = count.to_civil();
    assert_eq!(by(count, LeapSeconds::builtin()), answer);
    assert_eq!(by(count, &LeapSeconds::builtin()), answer);
    assert_eq!(by(count, &LeapTable::builtin()), answer);
    answer
}

/// The same of the way back. A refusal holds the fields.
fn count(reading: CivilDateTime) -> Result<Gps> {
    fn by<P: LeapSecondsProvider>(reading: CivilDateTime, table: &P) -> Result<Gps, CivilError> {
        let answer = reading.to_gps_with(table);
        assert_eq!(reading.to_gps_dated(table), answer.map(|value| Dated { value, stale: false }));
        answer
    }
    let answer = reading.to_gps();
    assert_eq!(by(reading, LeapSeconds::builtin()), answer);
    assert_eq!(by(reading, &LeapSeconds::builtin()), answer);
    assert_eq!(by(reading, &LeapTable::builtin()), answer);
    answer.map_err(|refused| {
        assert_eq!(refused.fields(), reading);
        refused.error()
    })
}

/// The words by which the fields are refused by the built-in table.
fn words(fields: CivilDateTime) -> String {
    fields.to_gps().unwrap_err().to_string()
}

#[test]
fn every_inserted_second_and_its_neighbours_there_and_back() {
    let events = events();
    assert_eq!(events.len(), LONG_DAYS.len());
    for (event, long_day) in events.into_iter().zip(LONG_DAYS) {
        let midnight = gps(event).to_utc().unwrap().to_civil();
        let next_day = (midnight.year, midnight.month, midnight.day);
        let inserted = event - SECOND;
        let readings = [
            (inserted - SECOND, at(long_day, (23, 59, 59), 0)),
            (inserted - 1, at(long_day, (23, 59, 59), 999_999_999)),
            (inserted, sixty(long_day)),
            (inserted + 1, at(long_day, (23, 59, 60), 1)),
            (event - 1, at(long_day, (23, 59, 60), 999_999_999)),
            (event, at(next_day, (0, 0, 0), 0)),
            (event + SECOND - 1, at(next_day, (0, 0, 0), 999_999_999)),
            (event + SECOND, at(next_day, (0, 0, 1), 0)),
        ];
        for (nanos, fields) in readings {
            assert_eq!(reading(gps(nanos)), Ok(fields));
            assert_eq!(count(fields), Ok(gps(nanos)));
        }
    }
}

/// Numbers that are spread over all of 64 bits, and those next to the ends.
fn spread() -> impl Iterator<Item = u64> {
    let step = 0x9e37_79b9_7f4a_7c15_u64;
    (0..2_000).map(move |k: u64| k.wrapping_mul(step)).chain([0, 1, u64::MAX - 1, u64::MAX])
}

#[test]
fn elsewhere_a_reading_is_the_civil_form_of_the_utc_count() {
    for nanos in spread() {
        assert_eq!(reading(gps(nanos)), gps(nanos).to_utc().map(Utc::to_civil));
        if let Ok(fields) = reading(gps(nanos)) {
            assert_eq!(count(fields), Ok(gps(nanos)));
        }
    }
}

/// A reading with one field changed: to every value of a field of 8 bits, to some of the year and of the nanoseconds.
fn one_field_changed(reading: CivilDateTime) -> impl Iterator<Item = CivilDateTime> {
    let CivilDateTime { year, nanos, .. } = reading;
    let years = [year - 1, year + 1, year - 4, year + 400, 0, 1979, 1980, 2556, 2557, -year, i32::MIN, i32::MAX];
    let parts = [0, 1, nanos ^ 1, 999_999_999, 1_000_000_000, nanos + 1_000_000_000, u32::MAX];
    let bytes = (0..=255).flat_map(move |value| {
        [
            CivilDateTime { month: value, ..reading },
            CivilDateTime { day: value, ..reading },
            CivilDateTime { hour: value, ..reading },
            CivilDateTime { minute: value, ..reading },
            CivilDateTime { second: value, ..reading },
        ]
    });
    let others = years.map(|year| CivilDateTime { year, ..reading }).into_iter();
    bytes.chain(others).chain(parts.map(|nanos| CivilDateTime { nanos, ..reading }))
}

/// Around each inserted second, at the ends of the counts, and all over them.
#[test]
fn fields_near_a_reading_are_refused_or_are_the_reading_of_their_count() {
    let near = |event| [event - SECOND - 1, event - SECOND, event - 1, event, event + SECOND - 1, event + SECOND];
    let near_events = events().into_iter().flat_map(near);
    let (mut taken, mut refused) = (0, [0; 20]);
    for nanos in near_events.chain([0, LAST_GPS_WITH_UTC]).chain(spread().take(300)) {
        let Ok(fields) = gps(nanos).to_civil() else { continue };
        assert_eq!(fields.to_gps(), Ok(gps(nanos)));
        for changed in one_field_changed(fields) {
            match changed.to_gps() {
                Ok(count) => {
                    assert_eq!(count.to_civil(), Ok(changed));
                    assert_eq!(count.to_utc(), changed.to_utc());
                    assert_eq!(count == gps(nanos), changed == fields);
                    taken += 1;
                }
                Err(why) => {
                    assert_eq!(why.fields(), changed);
                    refused[why.error().number() as usize] += 1;
                }
            }
        }
    }
    // every refusal that fields can have was met, and no other
    let met: Vec<usize> = (0..refused.len()).filter(|number| refused[*number] > 0).collect();
    assert_eq!(met, [1, 11, 14, 15, 16, 17, 18, 19]);
    assert!(taken > 50_000, "only {taken} were taken");
}

#[test]
fn the_civil_form_of_a_utc_count_and_the_way_back_are_as_they_were() {
    let new_year = at((2017, 1, 1), (0, 0, 0), 0);
    for nanos in [INSERTED, INSERTED + SECOND] {
        assert_eq!(gps(nanos).to_utc().map(Utc::to_civil), Ok(new_year));
    }
    assert_eq!(sixty((2016, 12, 31)).to_utc(), new_year.to_utc());
    assert_eq!(sixty((2016, 12, 30)).to_utc(), at((2016, 12, 31), (0, 0, 0), 0).to_utc());
    assert_eq!(new_year.to_utc().and_then(Utc::to_gps), Ok(gps(INSERTED)));
    assert_eq!(new_year.to_gps(), Ok(gps(INSERTED + SECOND)));
}

#[test]
fn a_second_60_that_was_not_inserted_is_refused_by_14() {
    let inserted = sixty((2016, 12, 31));
    for other in [
        CivilDateTime { day: 30, ..inserted },
        CivilDateTime { month: 10, ..inserted },
        CivilDateTime { year: 2015, ..inserted },
        CivilDateTime { hour: 22, ..inserted },
        CivilDateTime { minute: 58, ..inserted },
        CivilDateTime { nanos: 999_999_999, hour: 0, ..inserted },
        // before the counts and after them: 14 comes before 1
        CivilDateTime { year: 1971, ..inserted },
        CivilDateTime { year: 1979, ..inserted },
        CivilDateTime { year: i32::MIN, ..inserted },
        CivilDateTime { year: i32::MAX, ..inserted },
    ] {
        assert_eq!(count(other), Err(Error::NoInsertedSecond), "{other:?}");
    }
    let ended = |day| LONG_DAYS.contains(&day);
    for day in (1980..2040).flat_map(|year| [(year, 6, 30), (year, 12, 31)]) {
        assert_eq!(count(sixty(day)).is_ok(), ended(day), "{day:?}");
    }
}

#[test]
fn an_instant_in_fields_that_are_not_its_reading_is_refused_by_the_field() {
    let last_day = (2016, 12, 31);
    let inserted = sixty(last_day);
    for (fields, refusal, utc_second) in [
        (at(last_day, (24, 0, 0), 0), Error::NoSuchHour, 0),
        (at(last_day, (23, 60, 0), 0), Error::NoSuchMinute, 0),
        (at(last_day, (23, 58, 120), 0), Error::NoSuchSecond, 0),
        (at(last_day, (23, 59, 59), 1_000_000_000), Error::InvalidNanos, 0),
        (at(last_day, (23, 59, 61), 0), Error::NoSuchSecond, 1),
        (at((2016, 12, 32), (0, 0, 1), 0), Error::NoSuchDay, 1),
        (at((2016, 11, 61), (23, 59, 60), 0), Error::NoSuchDay, 0),
        (CivilDateTime { hour: 22, minute: 119, ..inserted }, Error::NoSuchMinute, 0),
        (CivilDateTime { year: 2017, month: 1, day: 0, ..inserted }, Error::NoSuchDay, 0),
        (CivilDateTime { nanos: 1_000_000_000, ..inserted }, Error::InvalidNanos, 1),
    ] {
        assert_eq!(count(fields), Err(refusal), "{fields:?}");
        // the lenient call takes them all for the first seconds of 2017
        assert_eq!(fields.to_utc_nanos(), Ok((1_420_156_800 + utc_second) * SECOND), "{fields:?}");
        assert_eq!(fields.to_utc(), fields.to_utc_nanos().map(Utc::from_nanos));
    }
}

#[test]
fn the_clerk_s_31_february_is_refused_and_the_lenient_call_gives_3_march() {
    let typed = at((2023, 2, 31), (12, 0, 0), 0);
    assert_eq!(count(typed), Err(Error::NoSuchDay));
    assert_eq!(words(typed), "day 31 of 2023-02, which has 28");
    assert_eq!(typed.to_utc().map(Utc::to_civil), Ok(at((2023, 3, 3), (12, 0, 0), 0)));
}

/// From fields that are all wrong, one after the other is mended: the refusal is that of the first that is left.
#[test]
fn the_first_field_that_is_wrong_is_refused() {
    let low = at((1979, 0, 0), (24, 60, 61), 1_000_000_000);
    let high = at((i32::MAX, 255, 255), (255, 255, 255), u32::MAX);
    let lowest = at((i32::MIN, 13, 32), (24, 60, 61), 1_000_000_000);
    for mut fields in [low, high, lowest] {
        assert_eq!(count(fields), Err(Error::NoSuchMonth));
        fields.month = 2;
        assert_eq!(count(fields), Err(Error::NoSuchDay));
        fields.day = 28;
        assert_eq!(count(fields), Err(Error::NoSuchHour));
        fields.hour = 23;
        assert_eq!(count(fields), Err(Error::NoSuchMinute));
        fields.minute = 59;
        assert_eq!(count(fields), Err(Error::NoSuchSecond));
        fields.second = 60;
        assert_eq!(count(fields), Err(Error::InvalidNanos));
        fields.nanos = 999_999_999;
        assert_eq!(count(fields), Err(Error::NoInsertedSecond));
        fields.second = 59;
        assert_eq!(count(fields), Err(Error::Overflow));
        fields.year = 2017;
        assert_eq!(count(fields).and_then(reading), Ok(fields));
    }
}

#[test]
fn every_value_of_a_field_is_refused_outside_its_range_and_taken_inside() {
    type Set = fn(&mut CivilDateTime, u8);
    // every month has a 28th, and July has 31 days
    let fields = at((2016, 7, 28), (12, 30, 30), 500_000_000);
    let ranges: [(Set, RangeInclusive<u8>, Error); 5] = [
        (|at, month| at.month = month, 1..=12, Error::NoSuchMonth),
        (|at, day| at.day = day, 1..=31, Error::NoSuchDay),
        (|at, hour| at.hour = hour, 0..=23, Error::NoSuchHour),
        (|at, minute| at.minute = minute, 0..=59, Error::NoSuchMinute),
        (|at, second| at.second = second, 0..=60, Error::NoSuchSecond),
    ];
    for (set, range, refusal) in ranges {
        for value in 0..=255 {
            let mut changed = fields;
            set(&mut changed, value);
            match count(changed) {
                Ok(gps) => assert_eq!((range.contains(&value), reading(gps)), (true, Ok(changed))),
                Err(Error::NoInsertedSecond) => assert_eq!(changed.second, 60),
                Err(why) => assert_eq!((range.contains(&value), why), (false, refusal), "{changed:?}"),
            }
        }
    }
    for (nanos, taken) in [(0, true), (999_999_999, true), (1_000_000_000, false), (u32::MAX, false)] {
        let answer = count(CivilDateTime { nanos, ..fields });
        assert_eq!((answer.is_ok(), answer.err()), (taken, (!taken).then_some(Error::InvalidNanos)), "{nanos}");
    }
}

/// The days of a month by the rule of the Gregorian calendar.
fn days_in(year: i32, month: u8) -> u8 {
    let leap = year % 4 == 0 && (year % 100 != 0 || year % 400 == 0);
    match month {
        2 => 28 + u8::from(leap),
        4 | 6 | 9 | 11 => 30,
        _ => 31,
    }
}

/// In 400 years, which is all there is of the calendar, and at the ends of the years.
#[test]
fn a_month_has_the_days_of_the_gregorian_calendar() {
    let ends = [i32::MIN, i32::MIN + 1, -2_000_000_000, -400, -4, -1, 0, 1, 4, 100, 400, 1900, i32::MAX - 3, i32::MAX];
    for year in (1980..2380).chain(ends) {
        for month in 1..=12 {
            let days = days_in(year, month);
            for day in 0..=255 {
                let answer = at((year, month, day), (0, 0, 0), 0).to_gps().map_err(CivilError::error);
                let there = (1..=days).contains(&day);
                assert_eq!(answer == Err(Error::NoSuchDay), !there, "{year}-{month}-{day}");
                assert!(!there || answer.is_ok() || answer == Err(Error::Overflow), "{year}-{month}-{day}");
            }
            let refused = words(at((year, month, days + 1), (0, 0, 0), 0));
            assert!(refused.ends_with(&format!("-{month:02}, which has {days}")), "{refused}");
        }
    }
}

#[test]
fn the_29th_of_february_in_leap_years_alone() {
    let leap_day = |year| at((year, 2, 29), (0, 0, 0), 0);
    for year in [1980, 2000, 2024, 2400] {
        assert_eq!(count(leap_day(year)).and_then(reading), Ok(leap_day(year)));
    }
    // 16 comes before 1: 1900 and i32::MAX are no leap years, 1600 and i32::MIN are
    for year in [1900, 1979, 2023, 2100, 2200, 2300, i32::MAX] {
        assert_eq!(count(leap_day(year)), Err(Error::NoSuchDay), "{year}");
    }
    for year in [1600, 1976, 2800, i32::MIN] {
        assert_eq!(count(leap_day(year)), Err(Error::Overflow), "{year}");
    }
}

#[test]
fn the_words_name_the_field_and_its_value() {
    let noon = at((2016, 12, 31), (12, 0, 0), 0);
    let last = Utc::MAX.to_civil();
    for (fields, says) in [
        (CivilDateTime { month: 13, ..noon }, "month 13, where a year has 1 to 12"),
        (CivilDateTime { month: 0, ..noon }, "month 0, where a year has 1 to 12"),
        (CivilDateTime { day: 32, ..noon }, "day 32 of 2016-12, which has 31"),
        (CivilDateTime { day: 0, ..noon }, "day 0 of 2016-12, which has 31"),
        (CivilDateTime { month: 11, ..noon }, "day 31 of 2016-11, which has 30"),
        (CivilDateTime { month: 2, day: 30, ..noon }, "day 30 of 2016-02, which has 29"),
        (CivilDateTime { hour: 24, ..noon }, "hour 24, where a day has 0 to 23"),
        (CivilDateTime { minute: 60, ..noon }, "minute 60, where an hour has 0 to 59"),
        (CivilDateTime { second: 61, ..noon }, "second 61, where the longest minute has 0 to 60"),
        (CivilDateTime { nanos: 1_000_000_000, ..noon }, "nanosecond 1000000000, where a second has 0 to 999999999"),
        (sixty((2016, 12, 30)), "no second 60 at 2016-12-30T23:59"),
        (CivilDateTime { hour: 1, minute: 2, second: 60, ..noon }, "no second 60 at 2016-12-31T01:02"),
        (at((1980, 1, 5), (23, 59, 59), 999_999_999), "1980-01-05 is before 1980-01-06, where GPS counts begin"),
        (CivilDateTime { nanos: last.nanos + 1, ..last }, "2556-07-20T23:34:33.709551616 is past the range of counts"),
        (CivilDateTime { year: 2600, ..noon }, "2600-12-31T12:00:00.000000000 is past the range of counts"),
    ] {
        assert_eq!(words(fields), says);
    }
}

#[test]
fn years_are_written_as_in_iso_8601() {
    let unreal = |year| words(at((year, 2, 30), (0, 0, 0), 0));
    for (year, says) in [
        (i32::MIN, "day 30 of -2147483648-02, which has 29"),
        (-10_000, "day 30 of -10000-02, which has 29"),
        (-1, "day 30 of -0001-02, which has 28"),
        (0, "day 30 of 0000-02, which has 29"),
        (33, "day 30 of 0033-02, which has 28"),
        (9_999, "day 30 of 9999-02, which has 28"),
        (10_000, "day 30 of +10000-02, which has 29"),
        (i32::MAX, "day 30 of +2147483647-02, which has 28"),
    ] {
        assert_eq!(unreal(year), says);
    }
    let real = |year| words(at((year, 1, 1), (0, 0, 0), 0));
    assert_eq!(real(i32::MIN), "-2147483648-01-01 is before 1980-01-06, where GPS counts begin");
    assert_eq!(real(i32::MAX), "+2147483647-01-01T00:00:00.000000000 is past the range of counts");
    let second = |year| words(sixty((year, 12, 31)));
    assert_eq!(second(i32::MIN), "no second 60 at -2147483648-12-31T23:59");
    assert_eq!(second(i32::MAX), "no second 60 at +2147483647-12-31T23:59");
}

#[test]
fn a_table_is_refused_in_the_words_of_the_refusal() {
    let refused = at((2023, 2, 31), (0, 0, 0), 0).to_gps_with(&LeapTable::new()).unwrap_err();
    assert_eq!(refused.error(), Error::NotOnDays);
    assert_eq!(refused.to_string(), Error::NotOnDays.to_string());
}

/// A table can insert a second on the last day that ends within the counts, and one past them.
#[test]
fn an_inserted_second_past_the_range_of_counts_is_refused_by_14() {
    // the built-in table with a second inserted before this date, and the count at which it begins
    let inserting_before = |date| {
        let midnight = GPS_EPOCH.days_until(date).unwrap() as u64 * DAY;
        let mut own = LeapTable::builtin();
        own.try_extend(LeapEntry::new(midnight + 38 * SECOND, 38)).unwrap();
        (own, gps(midnight + 18 * SECOND))
    };
    let (own, inserted) = inserting_before(CivilDate::new(2556, 7, 20));
    assert_eq!(inserted.to_civil_with(&own), Ok(sixty((2556, 7, 19))));
    assert_eq!(sixty((2556, 7, 19)).to_gps_with(&own), Ok(inserted));

    let (own, inserted) = inserting_before(CivilDate::new(2560, 7, 1));
    assert_eq!(inserted.to_civil_with(&own), Err(Error::Overflow));
    let refused = sixty((2560, 6, 30)).to_gps_with(&own).unwrap_err();
    assert_eq!(refused.error(), Error::NoInsertedSecond);
    assert_eq!(refused.to_string(), "no second 60 at 2560-06-30T23:59");
}

#[test]
fn a_refusal_goes_on_as_an_error() {
    fn to_utc(fields: CivilDateTime) -> Result<Utc> {
        fields.to_gps()?.to_utc()
    }
    fn boxed(fields: CivilDateTime) -> std::result::Result<Gps, Box<dyn std::error::Error>> {
        Ok(fields.to_gps()?)
    }
    let typed = at((2023, 2, 31), (12, 0, 0), 0);
    assert_eq!(to_utc(typed), Err(Error::NoSuchDay));
    assert_eq!(boxed(typed).unwrap_err().to_string(), "day 31 of 2023-02, which has 28");
    let refused = typed.to_gps().unwrap_err();
    let copied = refused;
    assert_eq!((Error::from(refused), refused.error().number()), (Error::NoSuchDay, 16));
    assert_eq!(copied, refused);
    assert_ne!(copied, CivilDateTime { day: 30, ..typed }.to_gps().unwrap_err());
}

#[test]
fn the_ends_of_the_counts() {
    assert_eq!(reading(Gps::EPOCH), Ok(at((1980, 1, 6), (0, 0, 0), 0)));
    assert_eq!(count(at((1980, 1, 6), (0, 0, 0), 0)), Ok(Gps::EPOCH));
    for early in [
        at((1980, 1, 5), (23, 59, 59), 999_999_999),
        at((1972, 1, 1), (0, 0, 0), 0),
        at((1971, 12, 31), (23, 59, 59), 0),
        at((i32::MIN, 1, 1), (0, 0, 0), 0),
    ] {
        assert_eq!(count(early), Err(Error::Overflow), "{early:?}");
    }
    let last = Utc::MAX.to_civil();
    assert_eq!(reading(gps(LAST_GPS_WITH_UTC)), Ok(last));
    assert_eq!(count(last), Ok(gps(LAST_GPS_WITH_UTC)));
    assert_eq!(count(CivilDateTime { nanos: last.nanos + 1, ..last }), Err(Error::Overflow));
    for nanos in [LAST_GPS_WITH_UTC + 1, u64::MAX - TAI_MINUS_GPS, u64::MAX - TAI_MINUS_GPS + 1, u64::MAX] {
        assert_eq!(reading(gps(nanos)), Err(Error::Overflow), "{nanos}");
    }
}

#[test]
fn a_table_of_one_s_own_inserts_its_own_seconds() {
    let mut own = LeapTable::builtin();
    own.try_extend(LeapEntry::of_event(CivilDate::new(2035, 7, 1), 38).unwrap()).unwrap();
    let event = own.last_update().unwrap().as_nanos() - TAI_MINUS_GPS;
    let announced = sixty((2035, 6, 30));
    for (nanos, fields) in [
        (event - SECOND - 1, at((2035, 6, 30), (23, 59, 59), 999_999_999)),
        (event - SECOND, announced),
        (event - 1, CivilDateTime { nanos: 999_999_999, ..announced }),
        (event, at((2035, 7, 1), (0, 0, 0), 0)),
        (INSERTED, sixty((2016, 12, 31))),
    ] {
        assert_eq!(gps(nanos).to_civil_with(&own), Ok(fields));
        assert_eq!(fields.to_gps_with(&own), Ok(gps(nanos)));
    }
    assert_eq!(count(announced), Err(Error::NoInsertedSecond));
    assert_eq!(reading(gps(event - SECOND)), Ok(at((2035, 7, 1), (0, 0, 0), 0)));

    let none = table(&[(0, 19)]);
    assert_eq!(gps(INSERTED).to_civil_with(&none), Ok(at((2017, 1, 1), (0, 0, 17), 0)));
    let refused = sixty((2016, 12, 31)).to_gps_with(&none).unwrap_err();
    assert_eq!((refused.error(), refused.fields()), (Error::NoInsertedSecond, sixty((2016, 12, 31))));
}

#[test]
fn days_of_86_401_s_in_a_row() {
    let table = a_long_day_each();
    let long_day = DAY + SECOND;
    for day in 0..63 {
        let begins = gps(day * long_day).to_civil_with(&table).unwrap();
        assert_eq!((begins.hour, begins.minute, begins.second, begins.nanos), (0, 0, 0, 0));
        let last = CivilDateTime { hour: 23, minute: 59, second: 60, nanos: 999_999_999, ..begins };
        let ends = gps((day + 1) * long_day - 1);
        assert_eq!(ends.to_civil_with(&table), Ok(last));
        assert_eq!((begins.to_gps_with(&table), last.to_gps_with(&table)), (Ok(gps(day * long_day)), Ok(ends)));
    }
    // 1980-03-09 is the first day after them, and has 86,400 s
    let first = gps(63 * long_day);
    assert_eq!(first.to_civil_with(&table), Ok(at((1980, 3, 9), (0, 0, 0), 0)));
    let next = gps(63 * long_day + DAY);
    assert_eq!(next.to_civil_with(&table), Ok(at((1980, 3, 10), (0, 0, 0), 0)));
}

#[test]
fn a_table_that_is_not_on_days_is_refused_by_13_before_anything_else() {
    let event = 46_828_820 * SECOND;
    assert_eq!(Gps::MAX.to_civil_with(&table(&[(0, 19), (event, 20)])), Err(Error::Overflow));
    for off in [
        LeapTable::new(),
        table(&[(1, 19)]),
        table(&[(0, 18)]),
        table(&[(0, 20)]),
        table(&[(0, 19), (event + SECOND, 20)]),
        table(&[(0, 19), (event - SECOND, 20)]),
        table(&[(0, 19), (event + 1, 20)]),
        table(&[(0, 19), (event, 20), (event + DAY, 21)]),
        table(&[(0, 19), (event, 20), (event + SECOND, 21)]),
        table(&[(0, 19), (20 * SECOND - 1, 20)]),
    ] {
        let expired = off.clone().with_expiry(Some(Tai::EPOCH));
        for count in [Gps::EPOCH, gps(INSERTED), Gps::MAX] {
            assert_eq!(count.to_civil_with(&off), Err(Error::NotOnDays), "{off:?}");
            assert_eq!(count.to_civil_dated(&expired), Err(Error::NotOnDays), "{off:?}");
        }
        for fields in [
            at((1980, 1, 6), (0, 0, 0), 0),
            at((1971, 1, 1), (0, 0, 0), 0),
            sixty((1981, 6, 29)),
            at((2023, 2, 31), (0, 0, 0), 0),
            at((i32::MIN, 0, 0), (24, 60, 61), 1_000_000_000),
        ] {
            let refused = fields.to_gps_with(&off).unwrap_err();
            assert_eq!((refused.error(), refused.fields()), (Error::NotOnDays, fields), "{off:?}");
            assert_eq!(fields.to_gps_dated(&expired), Err(refused), "{off:?}");
        }
    }
}

#[test]
fn stale_from_the_tai_count_of_the_gps_count_on() {
    // at the inserted second, at the one after it, where two GPS counts have the UTC count, and years later
    for nanos in [INSERTED, INSERTED + SECOND, 1_466_640_018 * SECOND] {
        let expiry = gps(nanos).to_tai().unwrap();
        let table = LeapTable::builtin().with_expiry(Some(expiry));
        for (nanos, stale) in [(nanos - 1, false), (nanos, true), (nanos + 1, true), (nanos + DAY, true)] {
            let value = reading(gps(nanos)).unwrap();
            assert_eq!(gps(nanos).to_civil_dated(&table), Ok(Dated { value, stale }));
            assert_eq!(value.to_gps_dated(&table), Ok(Dated { value: gps(nanos), stale }));
            assert_eq!(gps(nanos).to_civil_with(&table), Ok(value));
            assert_eq!(value.to_gps_with(&table), Ok(gps(nanos)));
        }
    }
}

#[test]
fn a_refused_call_tells_nothing_of_the_expiry() {
    let table = LeapTable::builtin().with_expiry(Some(Tai::EPOCH));
    assert_eq!(Gps::MAX.to_civil_dated(&table), Err(Error::Overflow));
    for fields in [sixty((2016, 12, 30)), at((1980, 1, 5), (0, 0, 0), 0), at((2023, 2, 31), (0, 0, 0), 0)] {
        assert_eq!(fields.to_gps_dated(&table).unwrap_err(), fields.to_gps().unwrap_err());
    }
}

/// Readings in no order are sorted, and then so are the counts: around every inserted second, three seconds on either
/// side, and by the table of long days at the end of each.
#[test]
fn readings_in_order_are_counts_in_order() {
    let long_days = a_long_day_each();
    let ends_of_days: Vec<u64> = (1..=63).map(|day| day * (DAY + SECOND)).collect();
    sorted_alike(&LeapTable::builtin(), &events(), 10_700_000);
    sorted_alike(&long_days, &ends_of_days, 37_300_000);
}

fn sorted_alike(table: &LeapTable, around: &[u64], step: usize) {
    let counts = around.iter().flat_map(|event| (event - 3 * SECOND..event + 3 * SECOND).step_by(step));
    let mut counts: Vec<Gps> = counts.map(gps).collect();
    assert!(counts.len() > 10_000, "only {} counts", counts.len());
    // by the low bits of a product, which is as good as any order
    counts.sort_by_key(|count| count.as_nanos().wrapping_mul(0x9e37_79b9_7f4a_7c15));
    assert!(counts.windows(2).any(|pair| pair[0] > pair[1]));

    let mut read: Vec<(CivilDateTime, Gps)> =
        counts.iter().map(|count| (count.to_civil_with(table).unwrap(), *count)).collect();
    read.sort_by_key(|(reading, _)| *reading);
    assert!(read.windows(2).all(|pair| pair[0].0 < pair[1].0 && pair[0].1 < pair[1].1));
}

#[test]
fn the_order_is_by_the_fields_from_the_year_on() {
    // in each pair the first field that differs tells, against all behind it
    let (zero, most) = (at((0, 0, 0), (0, 0, 0), 0), at((0, 255, 255), (255, 255, 255), u32::MAX));
    let falling = [
        CivilDateTime { year: 1, ..zero },
        most,
        CivilDateTime { month: 1, ..zero },
        CivilDateTime { month: 0, ..most },
        CivilDateTime { day: 1, ..zero },
        CivilDateTime { month: 0, day: 0, ..most },
        CivilDateTime { hour: 1, ..zero },
        CivilDateTime { minute: 255, second: 255, nanos: u32::MAX, ..zero },
        CivilDateTime { minute: 1, ..zero },
        CivilDateTime { second: 255, nanos: u32::MAX, ..zero },
        CivilDateTime { second: 1, ..zero },
        CivilDateTime { nanos: u32::MAX, ..zero },
        zero,
        CivilDateTime { year: -1, ..most },
    ];
    assert!(falling.windows(2).all(|pair| pair[0] > pair[1]));
    assert!(sixty((2016, 12, 31)) > at((2016, 12, 31), (23, 59, 59), 999_999_999));
    assert!(sixty((2016, 12, 31)) < at((2017, 1, 1), (0, 0, 0), 0));
}
