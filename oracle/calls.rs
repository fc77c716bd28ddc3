//! The table of all calls that are compared, an entry each. A call's number in the recorded list is by its place here
//! (`number_of_call` in questions.rs): a new call goes to the end.

use crate::by_list;
use crate::by_table;
use crate::call;
use crate::call::Call;
use crate::dates;
use crate::instants::{self, with_epochs};
use crate::shifted::{converted, from_glonass, from_utc, to_glonass, to_utc};
use gnss_time::{
    glonass_to_gps, glonass_to_utc, gps_to_glonass, gps_to_utc, utc_to_glonass, utc_to_gps, Beidou, CivilDate,
    CivilDateTime, Duration, DurationParts, Galileo, Glonass, Gps, LeapSeconds, LeapSecondsProvider, Tai, Time, Utc,
};

/// The calls that every scale has.
macro_rules! scale_calls {
    ($scale:ty, $name:literal) => {
        [
            call!($name "_from_nanos", (nanos: u64) -> (count: u64), <Time<$scale>>::from_nanos(nanos)),
            call!($name "_as_nanos", (count: u64) -> (nanos: u64), at::<$scale>(count).as_nanos()),
            call!($name "_checked_from_seconds", (seconds: u64) -> (count: u64),
                <Time<$scale>>::checked_from_seconds(seconds)),
            call!($name "_as_seconds", (count: u64) -> (seconds: u64), at::<$scale>(count).as_seconds()),
            call!($name "_as_parts", (count: u64) -> (seconds: u64, nanos: u32), at::<$scale>(count).as_parts()),
            call!($name "_checked_add", (count: u64, duration: i64) -> (sum: u64),
                at::<$scale>(count).checked_add(Duration::from_nanos(duration))),
            call!($name "_checked_sub_duration", (count: u64, duration: i64) -> (difference: u64),
                at::<$scale>(count).checked_sub_duration(Duration::from_nanos(duration))),
            call!($name "_saturating_add", (count: u64, duration: i64) -> (sum: u64),
                at::<$scale>(count).saturating_add(Duration::from_nanos(duration))),
            call!($name "_saturating_sub_duration", (count: u64, duration: i64) -> (difference: u64),
                at::<$scale>(count).saturating_sub_duration(Duration::from_nanos(duration))),
            call!($name "_checked_elapsed", (count: u64, earlier: u64) -> (duration: i64),
                at::<$scale>(count).checked_elapsed(at(earlier))),
            call!($name "_limits", () -> (epoch: u64, min: u64, max: u64, nanos_per_year: u64), [
                <Time<$scale>>::EPOCH.as_nanos(),
                <Time<$scale>>::MIN.as_nanos(),
                <Time<$scale>>::MAX.as_nanos(),
                <Time<$scale>>::NANOS_PER_YEAR,
            ]),
        ]
    };
}

/// The weeks of a scale. The crate has them for GPS alone: a week is the same arithmetic from any epoch.
macro_rules! week_calls {
    ($name:literal) => {
        [
            call!($name "_from_week_tow", (week: u32, seconds: u64, nanos: u32) -> (count: u64),
                Time::<Gps>::from_week_tow(week, DurationParts { seconds, nanos })),
            call!($name "_week", (count: u64) -> (week: u32), at::<Gps>(count).week()),
            call!($name "_tow_seconds", (count: u64) -> (seconds: u32), at::<Gps>(count).tow_seconds()),
            call!($name "_sub_second_nanos", (count: u64) -> (nanos: u32), at::<Gps>(count).sub_second_nanos()),
        ]
    };
}

/// A shifted scale to GPS, and to UTC and GLONASS by the built-in table, and back. `$tried` is what its own counts are
/// tried on.
macro_rules! shifted_calls {
    ($scale:ty, $name:literal, $count:ident, $tried:path) => {
        [
            call!($name "_to_gps", ($count: u64) -> (gps: u64), converted::<$scale, Gps>($count), tried on $tried),
            call!("gps_to_" $name, (gps: u64) -> ($count: u64), converted::<Gps, $scale>(gps),
                tried on with_epochs::builtin_gps),
            call!("builtin_" $name "_to_utc", ($count: u64) -> (utc: u64),
                to_utc::<$scale>($count, LeapSeconds::builtin()), tried on $tried),
            call!("builtin_utc_to_" $name, (utc: u64) -> ($count: u64),
                from_utc::<$scale>(utc, LeapSeconds::builtin()), tried on with_epochs::builtin_utc),
            call!("builtin_" $name "_to_glonass", ($count: u64) -> (glonass: u64),
                to_glonass::<$scale>($count, LeapSeconds::builtin()), tried on $tried),
            call!("builtin_glonass_to_" $name, (glonass: u64) -> ($count: u64),
                from_glonass::<$scale>(glonass, LeapSeconds::builtin()), tried on with_epochs::builtin_glonass),
        ]
    };
}

pub fn calls() -> Vec<Call> {
    let mut calls = Vec::new();
    calls.extend(scale_calls!(Gps, "gps"));
    calls.extend(scale_calls!(Utc, "utc"));
    calls.extend(scale_calls!(Glonass, "glonass"));
    calls.extend(scale_calls!(Tai, "tai"));
    calls.extend(week_calls!("gps"));
    calls.extend(gps_calls());
    calls.extend(glonass_calls());
    calls.extend(unix_calls());
    calls.extend(duration_calls());
    calls.extend(date_calls());
    calls.extend(civil_calls());
    calls.extend(builtin_calls());
    calls.extend(by_table::calls());
    calls.extend(by_list::calls());
    calls.push(event_call());
    calls.extend(scale_calls!(Galileo, "galileo"));
    calls.extend(scale_calls!(Beidou, "beidou"));
    calls.extend(week_calls!("galileo"));
    calls.extend(week_calls!("beidou"));
    calls.extend(shifted_calls!(Galileo, "galileo", galileo, with_epochs::builtin_galileo));
    calls.extend(shifted_calls!(Beidou, "beidou", beidou, with_epochs::builtin_beidou));
    calls.extend(between_shifted());
    calls.extend(by_table::shifted());
    calls
}

fn at<S: gnss_time::TimeScale>(count: u64) -> Time<S> {
    Time::from_nanos(count)
}

fn gps_calls() -> [Call; 2] {
    [
        call!("gps_to_tai", (count: u64) -> (tai: u64), at::<Gps>(count).to_tai()),
        call!("gps_from_tai", (tai: u64) -> (count: u64), Time::<Gps>::from_tai(at::<Tai>(tai))),
    ]
}

fn glonass_calls() -> [Call; 6] {
    [
        call!("glonass_from_day_tod", (day: u32, seconds: u64, nanos: u32) -> (count: u64),
            Time::<Glonass>::from_day_tod(day, DurationParts { seconds, nanos })),
        call!("glonass_day", (count: u64) -> (day: u32), at::<Glonass>(count).day()),
        call!("glonass_tod_seconds", (count: u64) -> (seconds: u32), at::<Glonass>(count).tod_seconds()),
        call!("glonass_sub_second_nanos", (count: u64) -> (nanos: u32), at::<Glonass>(count).sub_second_nanos()),
        call!("glonass_day_of_week", (count: u64) -> (weekday: u8), at::<Glonass>(count).day_of_week()),
        call!("glonass_is_weekend", (count: u64) -> (yes: u8), at::<Glonass>(count).is_weekend()),
    ]
}

fn unix_calls() -> [Call; 4] {
    [
        call!("utc_from_unix_seconds", (seconds: i64) -> (count: u64), Time::<Utc>::from_unix_seconds(seconds)),
        call!("utc_from_unix_nanos", (nanos: i64) -> (count: u64), Time::<Utc>::from_unix_nanos(nanos)),
        call!("utc_as_unix_seconds", (count: u64) -> (seconds: i64), at::<Utc>(count).as_unix_seconds()),
        call!("utc_as_unix_nanos", (count: u64) -> (nanos: i64), at::<Utc>(count).as_unix_nanos()),
    ]
}

fn duration_calls() -> [Call; 3] {
    [
        call!("duration_parts_new", (seconds: u64, nanos: u32) -> (parts_seconds: u64, parts_nanos: u32),
            DurationParts::new(seconds, nanos)),
        call!("duration_from_nanos", (nanos: i64) -> (duration: i64), Duration::from_nanos(nanos)),
        call!("duration_as_nanos", (duration: i64) -> (nanos: i64), Duration::from_nanos(duration).as_nanos()),
    ]
}

fn date_calls() -> [Call; 5] {
    [
        call!("civil_date_new", (year: i32, month: u8, day: u8) -> (date_year: i32, date_month: u8, date_day: u8),
            CivilDate::new(year, month, day), tried on dates::one_date),
        call!("civil_date_days_from_unix", (year: i32, month: u8, day: u8) -> (days: i64),
            CivilDate { year, month, day }.days_from_unix(), tried on dates::one_date, panic is 1),
        call!("civil_date_days_until",
            (year: i32, month: u8, day: u8, other_year: i32, other_month: u8, other_day: u8) -> (days: i64),
            CivilDate { year, month, day }.days_until(CivilDate::new(other_year, other_month, other_day)),
            tried on dates::two_dates, panic is 1),
        call!("civil_date_seconds_until",
            (year: i32, month: u8, day: u8, other_year: i32, other_month: u8, other_day: u8) -> (seconds: i64),
            CivilDate { year, month, day }.seconds_until(CivilDate::new(other_year, other_month, other_day)),
            tried on dates::two_dates, panic is 1),
        call!("civil_date_nanos_until",
            (year: i32, month: u8, day: u8, other_year: i32, other_month: u8, other_day: u8) -> (nanos: i64),
            CivilDate { year, month, day }.nanos_until(CivilDate::new(other_year, other_month, other_day)),
            tried on dates::two_dates, panic is 1),
    ]
}

fn civil_calls() -> [Call; 5] {
    [
        call!("civil_from_utc_nanos", (count: u64)
            -> (year: i32, month: u8, day: u8, hour: u8, minute: u8, second: u8, nanos: u32),
            CivilDateTime::from_utc_nanos(count), tried on dates::counts),
        call!("utc_to_civil", (count: u64)
            -> (year: i32, month: u8, day: u8, hour: u8, minute: u8, second: u8, nanos: u32),
            at::<Utc>(count).to_civil(), tried on dates::counts),
        call!("civil_to_utc_nanos",
            (year: i32, month: u8, day: u8, hour: u8, minute: u8, second: u8, nanos: u32) -> (count: u64),
            CivilDateTime { year, month, day, hour, minute, second, nanos }.to_utc_nanos(),
            tried on dates::civil_times),
        call!("civil_to_utc",
            (year: i32, month: u8, day: u8, hour: u8, minute: u8, second: u8, nanos: u32) -> (count: u64),
            CivilDateTime { year, month, day, hour, minute, second, nanos }.to_utc(),
            tried on dates::civil_times),
        call!("civil_is_whole_second",
            (year: i32, month: u8, day: u8, hour: u8, minute: u8, second: u8, nanos: u32) -> (yes: u8),
            CivilDateTime { year, month, day, hour, minute, second, nanos }.is_whole_second(),
            tried on dates::civil_times),
    ]
}

/// GLONASS and UTC, and the conversions by the built-in table.
fn builtin_calls() -> [Call; 9] {
    [
        call!("glonass_to_utc", (glonass: u64) -> (utc: u64), glonass_to_utc(at(glonass)),
            tried on instants::builtin_glonass),
        call!("utc_to_glonass", (utc: u64) -> (glonass: u64), utc_to_glonass(at(utc)), tried on instants::builtin_utc),
        call!("builtin_tai_minus_utc_at", (tai: u64) -> (offset: i32), LeapSeconds::builtin().tai_minus_utc_at(at(tai)),
            tried on instants::builtin_tai),
        call!("builtin_gps_to_utc", (gps: u64) -> (utc: u64), gps_to_utc(at(gps), LeapSeconds::builtin()),
            tried on instants::builtin_gps),
        call!("builtin_utc_to_gps", (utc: u64) -> (gps: u64), utc_to_gps(at(utc), LeapSeconds::builtin()),
            tried on instants::builtin_utc),
        call!("builtin_glonass_to_gps", (glonass: u64) -> (gps: u64),
            glonass_to_gps(at(glonass), LeapSeconds::builtin()), tried on instants::builtin_glonass),
        call!("builtin_gps_to_glonass", (gps: u64) -> (glonass: u64), gps_to_glonass(at(gps), LeapSeconds::builtin()),
            tried on instants::builtin_gps),
        call!("builtin_gps_from_unix_seconds", (seconds: i64) -> (gps: u64),
            Time::<Gps>::from_unix_seconds(seconds, LeapSeconds::builtin()), tried on instants::builtin_unix),
        call!("builtin_gps_as_unix_seconds", (gps: u64) -> (seconds: i64),
            at::<Gps>(gps).as_unix_seconds(LeapSeconds::builtin()), tried on instants::builtin_gps),
    ]
}

fn between_shifted() -> [Call; 2] {
    [
        call!("galileo_to_beidou", (galileo: u64) -> (beidou: u64), converted::<Galileo, Beidou>(galileo),
            tried on with_epochs::builtin_galileo),
        call!("beidou_to_galileo", (beidou: u64) -> (galileo: u64), converted::<Beidou, Galileo>(beidou),
            tried on with_epochs::builtin_beidou),
    ]
}

/// The entry of an event, which the crate has no call for: it is not in the recorded list.
fn event_call() -> Call {
    let compared = call!("entry_of_event", (year: i32, month: u8, day: u8, tai_minus_utc: i32) -> (tai_nanos: u64),
        threshold_of_event(CivilDate { year, month, day }, tai_minus_utc), tried on dates::events);
    Call { recorded: None, ..compared }
}

/// The crate's count of the date's midnight, less E, plus the offset.
fn threshold_of_event(date: CivilDate, tai_minus_utc: i32) -> Option<u64> {
    let CivilDate { year, month, day } = date;
    let midnight = CivilDateTime { year, month, day, hour: 0, minute: 0, second: 0, nanos: 0 };
    let utc = i128::from(midnight.to_utc_nanos().ok()?);
    u64::try_from(utc - dates::UTC_TO_GPS_NANOS + i128::from(tai_minus_utc) * dates::NANOS_PER_SECOND).ok()
}
