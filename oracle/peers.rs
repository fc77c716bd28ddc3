//! A peer that names inserted seconds: the C library with the zone right/UTC, in which time_t counts them. It is
//! compared with the civil readings by the built-in table, both ways, and says which fields are no date or time.

use crate::call::Written;
use crate::chance::Chance;
use crate::civil_reader::{Fields, Reader};
use crate::number::Number;
use crate::readings::{builtin_reading, read_back};
use gnss_time::LeapSeconds;
use std::ffi::{c_char, c_int, c_long};

/// The C library's broken-down time.
#[repr(C)]
struct Tm {
    second: c_int,
    minute: c_int,
    hour: c_int,
    day: c_int,
    month_from_0: c_int,
    years_from_1900: c_int,
    weekday: c_int,
    day_of_year: c_int,
    is_daylight_saving: c_int,
    utc_offset_seconds: c_long,
    zone: *const c_char,
}

extern "C" {
    fn tzset();
    fn localtime_r(time: *const i64, local: *mut Tm) -> *mut Tm;
    fn mktime(local: *mut Tm) -> i64;
}

/// Where Debian has the zone.
const ZONE: &str = "/usr/share/zoneinfo/right/UTC";
/// The GPS epoch as time_t in that zone: 1970-01-01 to 1980-01-06, with the nine seconds inserted in between.
const GPS_EPOCH_SECONDS: i64 = 315_964_800 + 9;
const SECOND: i128 = 1_000_000_000;
const TAI_MINUS_GPS_SECONDS: i64 = 19;
/// From 1980-01-06 to 2038-01-01 and to 2100-01-01.
const DAYS_UP_TO_2038: usize = 21_180;
const DAYS_UP_TO_2100: u64 = 43_825;
const DIFFERENCES_SHOWN: u64 = 5;

/// Compares both ways at all instants in order and at `count` random ones. What there is to say of it, or why it failed.
pub fn compare(seed: u64, count: u64) -> Result<Vec<String>, String> {
    if let Err(error) = std::fs::read(ZONE) {
        if std::env::var("CI").as_deref() == Ok("true") {
            return Err(format!("cannot read {ZONE} (Debian's tzdata): {error}; with CI=true it is compared"));
        }
        println!("oracle: NOT COMPARED: {ZONE} (Debian's tzdata): {error}");
        return Ok(vec![]);
    }
    use_zone();
    let mut chance = Chance::of("peers", seed);
    let random: Vec<i64> = (0..count).map(|_| chance.below(DAYS_UP_TO_2100 * 86_400) as i64).collect();
    let mut tally = Tally::default();
    for gps_seconds in instants_in_order().into_iter().chain(random) {
        tally.compare_once(gps_seconds, [0, chance.within(0, SECOND - 1), SECOND - 1]);
        tally.compare_changed(draw_changed(&mut chance, peer_reading(gps_seconds)));
    }
    tally.verdict()
}

/// Has the C library read the zone.
fn use_zone() {
    std::env::set_var("TZ", format!(":{ZONE}"));
    // SAFETY: no other thread runs
    unsafe { tzset() };
}

/// GPS seconds: each inserted one and the three on either side, and each midnight up to 2037 and the two on either side.
fn instants_in_order() -> Vec<i64> {
    let entries = LeapSeconds::builtin().entries();
    let days = Reader::new(entries).expect("the built-in table is on days");
    let gps_seconds = |tai: i128| (tai / SECOND) as i64 - TAI_MINUS_GPS_SECONDS;
    let inserted = entries[1..].iter().map(|entry| gps_seconds(entry.tai_nanos.into()) - 1);
    let midnights = days.begins()[..DAYS_UP_TO_2038].iter().map(|begin| gps_seconds(*begin));
    let around_inserted = inserted.flat_map(|second| second - 3..=second + 3);
    let around_midnights = midnights.flat_map(|second| second - 2..=second + 2);
    around_inserted.chain(around_midnights).filter(|second| *second >= 0).collect()
}

/// The fields with one or two of them drawn anew, up to a little past their ranges.
fn draw_changed(chance: &mut Chance, mut fields: Fields) -> Fields {
    const PAST_THE_RANGE: [(usize, i128); 5] = [(1, 13), (2, 32), (3, 24), (4, 60), (5, 61)];
    for _ in 0..=chance.below(2) {
        let (place, past) = PAST_THE_RANGE[chance.below(5) as usize];
        let any = chance.within(0, past);
        fields[place] = chance.one_of(&[any, past - 1, past]);
    }
    fields
}

#[derive(Default)]
struct Tally {
    instants: u64,
    inserted: u64,
    /// Changed fields that the peer leaves as they are, and those that it takes for others.
    left: u64,
    taken_for_others: u64,
    differences: u64,
}

impl Tally {
    /// One second of GPS by the peer, and by the port at some nanoseconds of it.
    fn compare_once(&mut self, gps_seconds: i64, all_nanos: [i128; 3]) {
        let fields = peer_reading(gps_seconds);
        let (back, _) = peer_read_back(fields);
        self.instants += 1;
        self.inserted += u64::from(fields[5] == 60);
        if back != gps_seconds {
            self.differ(&format!("the peer reads {gps_seconds} s as {fields:?}, and that back to {back} s"));
        }
        let [year, month, day, hour, minute, second, _] = fields;
        for nanos in all_nanos {
            let gps = i128::from(gps_seconds) * SECOND + nanos;
            self.compare_port(gps, [year, month, day, hour, minute, second, nanos]);
        }
    }

    /// Fields that may be no date or time: the peer then takes them for others, and the port must refuse them. It must
    /// refuse those before the first count, too.
    fn compare_changed(&mut self, fields: Fields) {
        let (gps_seconds, taken_for) = peer_read_back(fields);
        if taken_for == fields && gps_seconds >= 0 {
            self.left += 1;
            return self.compare_port(i128::from(gps_seconds) * SECOND, fields);
        }
        self.taken_for_others += u64::from(taken_for != fields);
        let back = read_back(fields, None);
        if back.refusal == 0 || back.results != [0] {
            self.differ(&format!("{fields:?}: {taken_for:?} by the peer, by the port {}", said(&back)));
        }
    }

    fn compare_port(&mut self, gps: i128, fields: Fields) {
        let reading = builtin_reading(u64::narrow(gps));
        if reading != answered(fields.to_vec()) {
            self.differ(&format!("GPS {gps}: {fields:?} by the peer, by the port {}", said(&reading)));
        }
        let back = read_back(fields, None);
        if back != answered(vec![gps]) {
            self.differ(&format!("{fields:?}: GPS {gps} by the peer, by the port {}", said(&back)));
        }
    }

    fn differ(&mut self, difference: &str) {
        self.differences += 1;
        if self.differences <= DIFFERENCES_SHOWN {
            println!("DIFFERENCE {difference}");
        }
    }

    fn verdict(&self) -> Result<Vec<String>, String> {
        let Tally { instants, inserted, left, taken_for_others, differences } = self;
        if *differences > 0 {
            return Err(format!("{differences} differences from right/UTC at {instants} instants"));
        }
        if *inserted < LeapSeconds::builtin().entries().len() as u64 - 1 {
            return Err(format!("right/UTC has 23:59:60 at {inserted} instants only"));
        }
        if *left == 0 || *taken_for_others == 0 {
            return Err(format!(
                "right/UTC left {left} changed fields as they are, and took {taken_for_others} for others"
            ));
        }
        Ok(vec![
            format!("{instants} instants as by right/UTC of the C library, both ways; {inserted} of them 23:59:60"),
            format!(
                "{left} changed fields read back as by right/UTC, {taken_for_others} refused that it takes for others"
            ),
        ])
    }
}

fn said(written: &Written) -> String {
    format!("{} and {:?}", written.refusal, written.results)
}

fn answered(results: Vec<i128>) -> Written {
    Written { refusal: 0, results, spilled: false }
}

/// The fields of a GPS second.
fn peer_reading(gps_seconds: i64) -> Fields {
    let mut local = midnight_of_1900();
    // SAFETY: both places outlive the call
    let done = unsafe { localtime_r(&(gps_seconds + GPS_EPOCH_SECONDS), &mut local) };
    assert!(!done.is_null(), "localtime_r has no answer for GPS {gps_seconds} s");
    fields_of(&local)
}

/// The GPS second of fields, and the fields that the peer takes them for.
fn peer_read_back(fields: Fields) -> (i64, Fields) {
    let [year, month, day, hour, minute, second] = [0, 1, 2, 3, 4, 5].map(|place| fields[place] as c_int);
    let (month_from_0, years_from_1900) = (month - 1, year - 1900);
    let mut local = Tm { second, minute, hour, day, month_from_0, years_from_1900, ..midnight_of_1900() };
    // SAFETY: the place outlives the call
    let time = unsafe { mktime(&mut local) };
    (time - GPS_EPOCH_SECONDS, fields_of(&local))
}

fn fields_of(local: &Tm) -> Fields {
    let Tm { second, minute, hour, day, month_from_0, years_from_1900, .. } = *local;
    let [year, month] = [years_from_1900 + 1900, month_from_0 + 1];
    let [year, month, day, hour, minute, second] = [year, month, day, hour, minute, second].map(i128::from);
    [year, month, day, hour, minute, second, 0]
}

fn midnight_of_1900() -> Tm {
    Tm {
        second: 0,
        minute: 0,
        hour: 0,
        day: 1,
        month_from_0: 0,
        years_from_1900: 0,
        weekday: 0,
        day_of_year: 0,
        is_daylight_saving: 0,
        utc_offset_seconds: 0,
        zone: std::ptr::null(),
    }
}
