//! Galileo and BeiDou. The port counts each from its own epoch; the crate counts both from the GPS epoch, BeiDou 14 s
//! behind GPS. What is due of the port is the crate's answer, moved by a fixed number of seconds. Where the two differ
//! beyond that, a function here says how.

use crate::images::LEAST_USABLE;
use gnss_time::*;
use std::collections::BTreeMap;
use std::mem;
use std::sync::Mutex;

const SECOND: u64 = 1_000_000_000;
const DAY: u64 = 86_400 * SECOND;
const TAI_MINUS_GPS: u64 = 19 * SECOND;

/// The crate's answer: a count of a scale.
type Told<S> = Result<Time<S>, GnssTimeError>;

/// A scale at a fixed difference from GPS, and the crate's conversions of it.
pub trait Shifted: TimeScale {
    /// The GPS count less the port's count, which is the GPS count at the scale's epoch.
    const BEHIND_GPS_SECONDS: u64;
    /// The crate's count less the port's.
    const CRATE_AHEAD_SECONDS: u64;
    fn to_utc(time: Time<Self>, table: &impl LeapSecondsProvider) -> Told<Utc>;
    fn from_utc(utc: Time<Utc>, table: &impl LeapSecondsProvider) -> Told<Self>;
    fn to_glonass(time: Time<Self>, table: &impl LeapSecondsProvider) -> Told<Glonass>;
    fn from_glonass(glonass: Time<Glonass>, table: &impl LeapSecondsProvider) -> Told<Self>;
}

/// A line for each scale: its two differences, and the crate's functions.
macro_rules! shifted_scales {
    ($($scale:ty: $behind:literal, $ahead:literal, $to_utc:ident, $utc_to:ident, $to_glonass:ident, $glonass_to:ident;
    )*) => {$(
        impl Shifted for $scale {
            const BEHIND_GPS_SECONDS: u64 = $behind;
            const CRATE_AHEAD_SECONDS: u64 = $ahead;
            fn to_utc(time: Time<Self>, table: &impl LeapSecondsProvider) -> Told<Utc> {
                $to_utc(time, table)
            }
            fn from_utc(utc: Time<Utc>, table: &impl LeapSecondsProvider) -> Told<Self> {
                $utc_to(utc, table)
            }
            fn to_glonass(time: Time<Self>, table: &impl LeapSecondsProvider) -> Told<Glonass> {
                $to_glonass(time, table)
            }
            fn from_glonass(glonass: Time<Glonass>, table: &impl LeapSecondsProvider) -> Told<Self> {
                $glonass_to(glonass, table)
            }
        }
    )*};
}

shifted_scales! {
    Gps: 0, 0, gps_to_utc, utc_to_gps, gps_to_glonass, glonass_to_gps;
    Galileo: 619_315_200, 619_315_200, galileo_to_utc, utc_to_galileo, galileo_to_glonass, glonass_to_galileo;
    Beidou: 820_108_814, 820_108_800, beidou_to_utc, utc_to_beidou, beidou_to_glonass, glonass_to_beidou;
}

/// A table of the crate whose entries can be read.
pub trait Table: LeapSecondsProvider {
    fn entries(&self) -> &[LeapEntry];
}

impl Table for LeapSeconds {
    fn entries(&self) -> &[LeapEntry] {
        self.entries()
    }
}

impl Table for RuntimeLeapSeconds {
    fn entries(&self) -> &[LeapEntry] {
        self.entries()
    }
}

/// What is due: the port's count, or the crate's error; `None` where the crate answers and the port refuses with 1.
type Due = Result<Option<u64>, GnssTimeError>;

/// The crate's count for the port's. For the port's last counts it has none: their GPS count is above 64 bits, and the
/// port refuses to convert them with 1.
fn in_crate<S: Shifted>(count: u64) -> Option<Time<S>> {
    count.checked_add(S::CRATE_AHEAD_SECONDS * SECOND).map(Time::from_nanos)
}

/// The port's count for the crate's. Before the scale's epoch the crate has a count, and the port has none.
fn in_port<S: Shifted>(time: Time<S>) -> Option<u64> {
    time.as_nanos().checked_sub(S::CRATE_AHEAD_SECONDS * SECOND)
}

/// A count of one scale as a count of another.
pub fn converted<S: Shifted, T: Shifted>(count: u64) -> Option<Due>
where
    Time<S>: IntoScale<T>,
{
    let gps = u128::from(count) + u128::from(S::BEHIND_GPS_SECONDS * SECOND);
    Some(match in_crate::<S>(count)?.into_scale() {
        Err(GnssTimeError::Overflow) => beyond_tai::<T>(gps),
        told => told.map(in_port),
    })
}

pub fn to_utc<S: Shifted>(count: u64, table: &impl Table) -> Option<Told<Utc>> {
    in_crate::<S>(count).map(|time| S::to_utc(time, table))
}

pub fn to_glonass<S: Shifted>(count: u64, table: &impl Table) -> Option<Told<Glonass>> {
    in_crate::<S>(count).map(|time| S::to_glonass(time, table))
}

pub fn from_utc<S: Shifted>(utc: u64, table: &impl Table) -> Due {
    let utc = Time::from_nanos(utc);
    by_way_of_utc(S::from_utc(utc, table), Ok(utc), table)
}

pub fn from_glonass<S: Shifted>(glonass: u64, table: &impl Table) -> Due {
    let glonass = Time::from_nanos(glonass);
    by_way_of_utc(S::from_glonass(glonass, table), glonass_to_utc(glonass), table)
}

/// What is due where the crate tells a count from UTC, or from GLONASS by way of it.
fn by_way_of_utc<S: Shifted>(told: Told<S>, utc: Told<Utc>, table: &impl Table) -> Due {
    if told == Err(GnssTimeError::Overflow) {
        return beyond_tai::<S>(utc_to_gps(utc?, table)?.as_nanos().into());
    }
    match in_port(told?) {
        None => Ok(later_count(told?, utc?, table)),
        count => Ok(count),
    }
}

/// The crate goes by way of TAI, and so it refuses the last 19 s of GPS counts, whose TAI count is above 64 bits. The
/// port goes by the difference from GPS, and has a count there. Where the crate overflows otherwise, the port does too.
fn beyond_tai<S: Shifted>(gps: u128) -> Due {
    let greatest = u128::from(u64::MAX);
    if gps > greatest || gps + u128::from(TAI_MINUS_GPS) <= greatest {
        return Err(GnssTimeError::Overflow);
    }
    let count = gps - u128::from(S::BEHIND_GPS_SECONDS * SECOND);
    Ok(u64::try_from(count).ok())
}

/// What became of the later of two GPS counts of a UTC count, the first of which is before the scale's epoch.
#[derive(Clone, Copy, PartialEq, Eq, PartialOrd, Ord)]
enum Later {
    Taken,
    NotRegular,
    BeforeEpoch,
}

/// The crate tells the first of two GPS counts, that of the inserted second, though it is before the scale's epoch.
/// The port takes the later one if the table is regular and the later one is not before the epoch too.
fn later_count<S: Shifted>(first: Time<S>, utc: Time<Utc>, table: &impl Table) -> Option<u64> {
    let later = first.try_convert::<Gps>().ok()?.checked_add(Duration::from_nanos(SECOND as i64))?;
    // the crate panics on a lower offset, and a table that is not regular may have one
    let usable = later.to_tai().is_ok_and(|tai| table.tai_minus_utc_at(tai) >= LEAST_USABLE);
    if !usable || gps_to_utc(later, table) != Ok(utc) {
        return None;
    }
    let count = later.as_nanos().checked_sub(S::BEHIND_GPS_SECONDS * SECOND);
    let became = match (is_regular(table.entries()), count) {
        (true, Some(_)) => Later::Taken,
        (false, Some(_)) => Later::NotRegular,
        (true, None) => Later::BeforeEpoch,
        (false, None) => return None, // refused on both grounds, and counted for neither
    };
    *MET.lock().expect("nothing panics meanwhile").entry((S::NAME, became)).or_default() += 1;
    count.filter(|_| became == Later::Taken)
}

/// Whether a valid table begins (0, 19) and has its thresholds at least a day apart.
fn is_regular(entries: &[LeapEntry]) -> bool {
    let begins = entries.first().is_some_and(|first| first.tai_nanos == 0 && first.tai_minus_utc == 19);
    begins && entries.windows(2).all(|pair| pair[1].tai_nanos - pair[0].tai_nanos >= DAY)
}

type Met = BTreeMap<(&'static str, Later), u64>;

/// How often a later count was met, by the crate's name of the scale.
static MET: Mutex<Met> = Mutex::new(Met::new());

/// What was met since this was last asked: a sentence for each scale, and whether all three came.
pub fn laters_met() -> [(String, bool); 2] {
    let met = mem::take(&mut *MET.lock().expect("nothing panics meanwhile"));
    [("Galileo", Galileo::NAME), ("BeiDou", Beidou::NAME)].map(|(scale, name)| {
        let times = |became| met.get(&(name, became)).copied().unwrap_or(0);
        let [taken, not_regular, before] = [Later::Taken, Later::NotRegular, Later::BeforeEpoch].map(times);
        let sentence = format!(
            "the later count of {scale}: taken {taken} times, refused {not_regular} times since the table is not \
             regular and {before} times since it is before the epoch too"
        );
        (sentence, taken > 0 && not_regular > 0 && before > 0)
    })
}
