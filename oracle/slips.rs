//! The slips of the course (docs/SLIPS.md): on the smallest input that shows each, what it answers, what is right, and
//! what the port answers. The wrong code is here, so that the wrong answers are run and not only written.

use crate::images::image;
use gnss_time::{utc_to_gps, CivilDateTime, LeapEntry, LeapSeconds};

type Answer = Result<u64, u32>;

const SECOND: i128 = 1_000_000_000;
/// 1972-01-01 to 1980-01-06
const E: i128 = 252_892_800 * SECOND;

struct Slip {
    name: &'static str,
    wrong: Answer,
    wrong_is: Answer,
    right: Answer,
    port: Answer,
}

extern "C" {
    fn plaitgate_builtin_gps_to_utc(gps: u64, utc: *mut u64) -> u32;
    fn plaitgate_builtin_utc_to_gps(utc: u64, gps: *mut u64) -> u32;
    fn plaitgate_table_utc_to_gps(utc: u64, image: *const u8, bytes: usize, gps: *mut u64, stale: *mut u8) -> u32;
    fn plaitgate_entry_of_event(year: i32, month: u8, day: u8, tai_minus_utc: i32, tai_nanos: *mut u64) -> u32;
    fn plaitgate_table_try_extend(image: *mut u8, bytes: usize, tai_nanos: u64, tai_minus_utc: i32) -> u32;
    #[allow(clippy::too_many_arguments)]
    fn plaitgate_civil_to_utc_nanos(
        year: i32,
        month: u8,
        day: u8,
        hour: u8,
        minute: u8,
        second: u8,
        nanos: u32,
        count: *mut u64,
    ) -> u32;
}

fn asked(call: impl FnOnce(*mut u64) -> u32) -> Answer {
    let mut value = 0;
    match call(&mut value) {
        0 => Ok(value),
        refusal => Err(refusal),
    }
}

fn count(exact: i128) -> Answer {
    u64::try_from(exact).map_err(|_| 1)
}

/// The offset of the last entry that a reading has reached, and the first where it has reached none.
fn offset(entries: &[LeapEntry], reached: impl Fn(u64) -> bool) -> i128 {
    let last = entries.iter().filter(|entry| reached(entry.tai_nanos)).last();
    i128::from(last.unwrap_or(&entries[0]).tai_minus_utc)
}

fn one_lookup(utc: u64) -> Answer {
    let a = i128::from(utc) - E + 19 * SECOND;
    let n = offset(LeapSeconds::builtin().entries(), |threshold| i128::from(threshold) <= a);
    count(i128::from(utc) - E + (n - 19) * SECOND)
}

fn below_for_below_or_at(gps: u64) -> Answer {
    let reading = i128::from(gps) + 19 * SECOND;
    let n = offset(LeapSeconds::builtin().entries(), |threshold| i128::from(threshold) < reading);
    count(i128::from(gps) - (n - 19) * SECOND + E)
}

fn zero_where_b_is_no_count(entries: &[LeapEntry], utc: u64) -> Answer {
    let a = count(i128::from(utc) - E + 19 * SECOND).unwrap_or(0);
    let n1 = offset(entries, |threshold| threshold <= a);
    let b = count(i128::from(utc) - E + n1 * SECOND).unwrap_or(0);
    let n = offset(entries, |threshold| threshold <= b);
    count(i128::from(utc) - E + (n - 19) * SECOND)
}

/// Whether an entry can follow another, 4 tested before 7.
fn four_before_seven(last: LeapEntry, next: LeapEntry) -> Answer {
    if next.tai_nanos <= last.tai_nanos {
        Err(3)
    } else if i64::from(next.tai_minus_utc) != i64::from(last.tai_minus_utc) + 1 {
        Err(4)
    } else {
        Ok(0)
    }
}

#[allow(clippy::cast_possible_wrap)]
fn counts_turned_negative(gps: u64) -> Answer {
    let n = offset(LeapSeconds::builtin().entries(), |threshold| threshold <= gps + 19_000_000_000);
    count(i128::from(gps as i64) - (n - 19) * SECOND + E)
}

fn february_31_refused(day: u8) -> Answer {
    if day > 28 {
        Err(1)
    } else {
        Ok(0)
    }
}

/// The threshold of an event taken as the TAI reading of its midnight, which is the inserted second's.
fn event_by_way_of_gps(year: i32) -> Answer {
    let midnight = CivilDateTime { year, month: 1, day: 1, hour: 0, minute: 0, second: 0, nanos: 0 };
    let utc = midnight.to_utc().map_err(|_| 1_u32)?;
    let gps = utc_to_gps(utc, LeapSeconds::builtin()).map_err(|_| 1_u32)?;
    gps.to_tai().map(|tai| tai.as_nanos()).map_err(|_| 1_u32)
}

fn slips() -> Vec<Slip> {
    let five_into_2017 = 1_420_156_805_000_000_000;
    let first_threshold = 46_828_801_000_000_000;
    let far = [LeapEntry::new(0, 252_892_810), LeapEntry::new(1, 252_892_811)];
    let far_image = image(&far);
    let greatest = LeapEntry::new(0, i32::MAX);
    let mut greatest_image = image(&[greatest]);
    let half = 1 << 63;
    // SAFETY, of each call: the place for the result and the bytes of an image outlive the call
    vec![
        Slip {
            name: "one lookup for UTC to GPS",
            wrong: one_lookup(five_into_2017),
            wrong_is: Ok(1_167_264_022_000_000_000),
            right: Ok(1_167_264_023_000_000_000),
            port: asked(|gps| unsafe { plaitgate_builtin_utc_to_gps(five_into_2017, gps) }),
        },
        Slip {
            name: "below for below or at",
            wrong: below_for_below_or_at(first_threshold),
            wrong_is: Ok(299_721_601_000_000_000),
            right: Ok(299_721_600_000_000_000),
            port: asked(|utc| unsafe { plaitgate_builtin_gps_to_utc(first_threshold, utc) }),
        },
        Slip {
            name: "0 where b is no count",
            wrong: zero_where_b_is_no_count(&far, u64::MAX),
            wrong_is: Ok(18_446_744_064_709_551_615),
            right: Ok(18_446_744_065_709_551_615),
            port: asked(|gps| unsafe {
                plaitgate_table_utc_to_gps(u64::MAX, far_image.as_ptr(), far_image.len(), gps, &mut 0)
            }),
        },
        Slip {
            name: "4 before 7",
            wrong: four_before_seven(greatest, LeapEntry::new(1, 0)),
            wrong_is: Err(4),
            right: Err(7),
            port: asked(|_| unsafe {
                plaitgate_table_try_extend(greatest_image.as_mut_ptr(), greatest_image.len(), 1, 0)
            }),
        },
        Slip {
            name: "a count above 2^63 - 1 turned negative",
            wrong: counts_turned_negative(half),
            wrong_is: Err(1),
            right: Ok(9_476_264_818_854_775_808),
            port: asked(|utc| unsafe { plaitgate_builtin_gps_to_utc(half, utc) }),
        },
        Slip {
            name: "31 February refused",
            wrong: february_31_refused(31),
            wrong_is: Err(1),
            right: Ok(1_614_729_600_000_000_000),
            port: asked(|utc| unsafe { plaitgate_civil_to_utc_nanos(2023, 2, 31, 0, 0, 0, 0, utc) }),
        },
        Slip {
            name: "the entry of an event by way of GPS",
            wrong: event_by_way_of_gps(2017),
            wrong_is: Ok(1_167_264_036_000_000_000),
            right: Ok(1_167_264_037_000_000_000),
            port: asked(|tai| unsafe { plaitgate_entry_of_event(2017, 1, 1, 37, tai) }),
        },
    ]
}

pub const COUNT: usize = 7;

/// What is not as docs/SLIPS.md has it.
pub fn differences() -> Vec<String> {
    let slips = slips();
    assert_eq!(slips.len(), COUNT, "another number of slips");
    let as_written = |slip: &&Slip| slip.wrong == slip.wrong_is && slip.port == slip.right && slip.wrong != slip.right;
    slips
        .iter()
        .filter(|slip| !as_written(slip))
        .map(|slip| {
            let Slip { name, wrong, wrong_is, right, port } = slip;
            format!("{name}: answers {wrong:?}, {wrong_is:?} written; right is {right:?}, and the port has {port:?}")
        })
        .collect()
}
