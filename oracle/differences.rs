//! What docs/DIFFERENCES.md says of the crate where the port has no call to compare, or where the crate panics: the crate
//! is run on the input that is written there. The oracle has overflow checks, so what wraps in a release build panics.

use gnss_time::*;
use std::panic::{self, UnwindSafe};

/// The sentences that are not true of the crate.
pub fn differences() -> Vec<&'static str> {
    sentences().into_iter().filter(|(_, holds)| !holds).map(|(sentence, _)| sentence).collect()
}

pub fn count() -> usize {
    sentences().len()
}

fn sentences() -> Vec<(&'static str, bool)> {
    [durations(), scales(), shifted_counts(), shifted_conversions(), tables(), dates()].concat()
}

fn durations() -> Vec<(&'static str, bool)> {
    vec![
        ("Time::from_seconds(18446744074) panics", panics(|| Time::<Gps>::from_seconds(18_446_744_074))),
        ("Time::MAX + 1 ns panics", panics(|| Time::<Gps>::MAX + Duration::ONE_NANOSECOND)),
        ("Duration::from_seconds(9223372037) panics", panics(|| Duration::from_seconds(9_223_372_037))),
        ("Duration::from_seconds(9223372036) does not", !panics(|| Duration::from_seconds(9_223_372_036))),
        ("Duration::checked_from_seconds has none there", Duration::checked_from_seconds(9_223_372_037).is_none()),
        ("-Duration::MIN panics or wraps", panics(|| -Duration::MIN)),
    ]
}

fn scales() -> Vec<(&'static str, bool)> {
    let required = Some(GnssTimeError::LeapSecondsRequired);
    let (tai, first) = (Time::<Tai>::MAX, 18_446_744_054_709_551_616);
    vec![
        ("to_tai of UTC is refused", Time::<Utc>::EPOCH.to_tai().err() == required),
        ("to_tai of GLONASS is refused", Time::<Glonass>::EPOCH.to_tai().err() == required),
        ("from_tai of UTC is refused", Time::<Utc>::from_tai(tai).err() == required),
        ("from_tai of GLONASS is refused", Time::<Glonass>::from_tai(tai).err() == required),
        ("to_tai and from_tai of TAI change nothing", tai.to_tai() == Ok(tai) && Time::<Tai>::from_tai(tai) == Ok(tai)),
        ("try_convert to TAI is to_tai", Time::<Gps>::EPOCH.try_convert::<Tai>() == Time::<Gps>::EPOCH.to_tai()),
        ("try_convert of GPS to itself overflows", Time::<Gps>::from_nanos(first).try_convert::<Gps>().is_err()),
        ("try_convert does not a nanosecond before", Time::<Gps>::from_nanos(first - 1).try_convert::<Gps>().is_ok()),
    ]
}

/// A count of whole seconds.
fn at<S: TimeScale>(seconds: u64) -> Time<S> {
    Time::from_nanos(seconds * 1_000_000_000)
}

fn shifted_counts() -> Vec<(&'static str, bool)> {
    let (gps, galileo, beidou) = (at::<Gps>, at::<Galileo>, at::<Beidou>);
    let to_beidou = IntoScale::<Beidou>::into_scale;
    let overflow = Some(GnssTimeError::Overflow);
    vec![
        ("the Galileo count of GPS 0 is 0", gps(0).into_scale() == Ok(galileo(0))),
        ("the GPS count of Galileo 0 is 0", galileo(0).into_scale() == Ok(gps(0))),
        ("the BeiDou count of GPS 14 s is 0", gps(14).into_scale() == Ok(beidou(0))),
        ("the GPS count of BeiDou 0 is 14 s", beidou(0).into_scale() == Ok(gps(14))),
        ("the BeiDou count of Galileo 14 s is 0", galileo(14).into_scale() == Ok(beidou(0))),
        ("Galileo 0 has no BeiDou count", to_beidou(galileo(0)).err() == overflow),
        ("the Galileo count of BeiDou 0 is 14 s", beidou(0).into_scale() == Ok(galileo(14))),
        ("at its epoch Galileo is 619315200 s", gps(619_315_200).into_scale() == Ok(galileo(619_315_200))),
        ("at its epoch BeiDou is 820108800 s", gps(820_108_814).into_scale() == Ok(beidou(820_108_800))),
        ("from GPS 18446744054709551616 on there is no Galileo", ends::<Gps, Galileo>(LAST_WITH_TAI)),
        ("from there on there is no BeiDou", ends::<Gps, Beidou>(LAST_WITH_TAI)),
        ("from Galileo 18446744054709551616 on there is no GPS", ends::<Galileo, Gps>(LAST_WITH_TAI)),
        ("from there on there is no BeiDou either", ends::<Galileo, Beidou>(LAST_WITH_TAI)),
        ("from BeiDou 18446744040709551616 on there is no GPS", ends::<Beidou, Gps>(LAST_WITH_TAI - 14_000_000_000)),
        ("from there on there is no Galileo", ends::<Beidou, Galileo>(LAST_WITH_TAI - 14_000_000_000)),
    ]
}

/// The last GPS count whose TAI count has 64 bits.
const LAST_WITH_TAI: u64 = 18_446_744_054_709_551_615;

/// Whether the count converts, and the next overflows.
fn ends<S: TimeScale, T: TimeScale>(last: u64) -> bool
where
    Time<S>: IntoScale<T>,
{
    let [at_last, after] = [last, last + 1].map(|count| Time::<S>::from_nanos(count).into_scale());
    at_last.is_ok() && after == Err(GnssTimeError::Overflow)
}

fn shifted_conversions() -> Vec<(&'static str, bool)> {
    static HIGH: [LeapEntry; 1] = [LeapEntry::new(0, 252_892_801)];
    static NOT_REGULAR: [LeapEntry; 2] = [LeapEntry::new(1, 19), LeapEntry::new(820_108_833_000_000_000, 20)];
    let builtin = LeapSeconds::builtin();
    let (high, not_regular) = (LeapSeconds::from_slice(&HIGH), LeapSeconds::from_slice(&NOT_REGULAR));
    let (year_2006, above) = (at::<Utc>(1_073_001_600), Time::<Utc>::from_nanos(18_446_744_072_709_551_616));
    let overflow = Some(GnssTimeError::Overflow);
    vec![
        ("UTC 252892800 s is Galileo 0", utc_to_galileo(at(252_892_800), builtin) == Ok(at(0))),
        ("UTC 252892814 s is BeiDou 0", utc_to_beidou(at(252_892_814), builtin) == Ok(at(0))),
        ("2006-01-01 is BeiDou 820108799 s", utc_to_beidou(year_2006, builtin) == Ok(at(820_108_799))),
        ("so is GLONASS 315630000 s", glonass_to_beidou(at(315_630_000), builtin) == Ok(at(820_108_799))),
        ("BeiDou 820108799 s is 2006-01-01", beidou_to_utc(at(820_108_799), builtin) == Ok(year_2006)),
        ("so is the epoch, BeiDou 820108800 s", beidou_to_utc(at(820_108_800), builtin) == Ok(year_2006)),
        ("by a table from 1 ns on UTC 1073001613 s is BeiDou 820108799 s", {
            utc_to_beidou(at(1_073_001_613), &not_regular) == Ok(at(820_108_799))
        }),
        ("the epoch is that UTC count too", beidou_to_utc(at(820_108_800), &not_regular) == Ok(at(1_073_001_613))),
        ("a UTC count beyond TAI has a GPS count", utc_to_gps(above, &high) == Ok(Time::from_nanos(LAST_WITH_TAI + 1))),
        ("it has no Galileo count", utc_to_galileo(above, &high).err() == overflow),
        ("it has no BeiDou count", utc_to_beidou(above, &high).err() == overflow),
    ]
}

fn tables() -> Vec<(&'static str, bool)> {
    static UNSORTED: [LeapEntry; 2] = [LeapEntry::new(1, 20), LeapEntry::new(0, 21)];
    static LOW: [LeapEntry; 1] = [LeapEntry::new(0, -2_147_483_630)];
    let convert = |table: LeapSeconds| gps_to_utc(Time::<Gps>::EPOCH, &table).map(Time::<Utc>::as_nanos);
    let many: Vec<LeapEntry> = (0..65).map(|k: u16| LeapEntry::new(k.into(), 19 + i32::from(k))).collect();
    let many: &'static [LeapEntry] = many.leak();
    let ambiguous = |seconds: u64| {
        let gps = Time::<Gps>::from_nanos(seconds * 1_000_000_000);
        IntoScaleWith::<Utc>::into_scale_with_checked(gps, LeapSeconds::builtin()).map(|utc| utc.is_ambiguous())
    };
    vec![
        ("an unsorted table is taken", convert(LeapSeconds::from_slice(&UNSORTED)).is_ok()),
        ("an offset below -2147483629 panics or wraps", panics(move || convert(LeapSeconds::from_slice(&LOW)))),
        ("65 entries pass the check", LeapSeconds::try_from_slice(many).is_ok()),
        ("they convert GPS 0", convert(LeapSeconds::from_slice(many)) == Ok(252_892_736_000_000_000)),
        ("they are too many for a runtime table", RuntimeLeapSeconds::from_slice(many).is_err()),
        ("the inserted second is not marked", ambiguous(1_167_264_017) == Ok(false)),
        ("the second after it is", ambiguous(1_167_264_018) == Ok(true)),
    ]
}

fn dates() -> Vec<(&'static str, bool)> {
    let date = CivilDate::new;
    let refused = |text: &str| text.parse::<Time<Utc>>().is_err();
    let midnight = |year, month, day| {
        let civil = CivilDateTime { year, month, day, hour: 0, minute: 0, second: 0, nanos: 0 };
        civil.to_utc().and_then(|utc| utc.to_gps()).map(|gps| gps.as_seconds())
    };
    vec![
        ("the least year, month 0, panics or wraps", panics(move || date(i32::MIN, 0, 0).days_from_unix())),
        ("nanos_until panics or wraps in 2262", panics(move || date(1970, 1, 1).nanos_until(date(2262, 4, 12)))),
        ("the parser takes a date", !refused("2023-02-28T00:00:00.000000000Z")),
        ("the parser refuses month 0", refused("2023-00-28T00:00:00.000000000Z")),
        ("the parser refuses day 0", refused("2023-02-00T00:00:00.000000000Z")),
        ("the parser refuses hour 24", refused("2023-02-28T24:00:00.000000000Z")),
        ("the parser refuses second 60", refused("2016-12-31T23:59:60.000000000Z")),
        ("the parser takes 31 February", !refused("2023-02-31T00:00:00.000000000Z")),
        ("31 February 2023 is GPS 1361836818 s by way of UTC", midnight(2023, 2, 31) == Ok(1_361_836_818)),
        ("so is 3 March", midnight(2023, 3, 3) == Ok(1_361_836_818)),
        ("2017-01-01 is GPS 1167264017 s by way of UTC", midnight(2017, 1, 1) == Ok(1_167_264_017)),
    ]
}

fn panics<T>(run: impl FnOnce() -> T + UnwindSafe) -> bool {
    let loud = panic::take_hook();
    panic::set_hook(Box::new(|_| {}));
    let ended = panic::catch_unwind(run);
    panic::set_hook(loud);
    ended.is_err()
}
