//! Worked examples, on which the crate and the port are each held to an answer that is written here.

use crate::call::{Call, Written};
use crate::compare::due;
use crate::images::{BUILTIN, EMPTY, FULL, GREATEST, LATE, LEAST, NEGATIVE, SHORT, TOO_LONG};

/// A call, its inputs, and what is due: the results, or the number of the refusal. Of a changed image the first result
/// is the number of entries.
type Example = (&'static str, &'static [i128], Result<&'static [i128], u32>);

const SECOND: i128 = 1_000_000_000;
const LAST: i128 = u64::MAX as i128;
const UTC_TO_GPS: i128 = 252_892_800 * SECOND;
/// The last threshold of the built-in table.
const YEAR_2017: i128 = 1_167_264_037 * SECOND;
/// The GPS counts at the epochs of Galileo and BeiDou, and the UTC count of 2006-01-01.
const GALILEO: i128 = 619_315_200 * SECOND;
const BEIDOU: i128 = 820_108_814 * SECOND;
const YEAR_2006: i128 = 1_073_001_600 * SECOND;
const HIGH: i128 = 18_000_000_000 * SECOND;

const EXAMPLES: &[Example] = &[
    // the first inserted second: the UTC count runs on through it, and the second after it repeats
    ("builtin_gps_to_utc", &[46_828_800_999_999_999], Ok(&[299_721_600_999_999_999])),
    ("builtin_gps_to_utc", &[46_828_801 * SECOND], Ok(&[299_721_600 * SECOND])),
    ("builtin_utc_to_gps", &[299_721_600 * SECOND], Ok(&[46_828_800 * SECOND])),
    ("builtin_utc_to_gps", &[299_721_601 * SECOND], Ok(&[46_828_802 * SECOND])),
    // where GPS begins, and where UTC ends
    ("builtin_utc_to_gps", &[UTC_TO_GPS - 1], Err(1)),
    ("builtin_utc_to_gps", &[UTC_TO_GPS], Ok(&[0])),
    ("builtin_gps_to_utc", &[18_193_851_291_709_551_615], Ok(&[LAST])),
    ("builtin_gps_to_utc", &[18_193_851_291_709_551_616], Err(1)),
    // five seconds into 2017: the first lookup finds 36, the second 37
    ("builtin_utc_to_gps", &[1_420_156_805 * SECOND], Ok(&[1_167_264_023 * SECOND])),
    ("builtin_tai_minus_utc_at", &[YEAR_2017 - 1], Ok(&[36])),
    ("builtin_tai_minus_utc_at", &[YEAR_2017], Ok(&[37])),
    ("glonass_to_utc", &[0], Ok(&[757_371_600 * SECOND])),
    ("builtin_utc_to_gps", &[757_371_600 * SECOND], Ok(&[504_478_810 * SECOND])),
    ("builtin_glonass_to_gps", &[0], Ok(&[504_478_810 * SECOND])),
    // the same by an image
    ("table_gps_to_utc", &[BUILTIN, 46_828_800_999_999_999], Ok(&[299_721_600_999_999_999])),
    ("table_gps_to_utc", &[BUILTIN, 46_828_801 * SECOND], Ok(&[299_721_600 * SECOND])),
    ("table_utc_to_gps", &[BUILTIN, 299_721_600 * SECOND], Ok(&[46_828_800 * SECOND])),
    ("table_utc_to_gps", &[BUILTIN, 299_721_601 * SECOND], Ok(&[46_828_802 * SECOND])),
    ("table_utc_to_gps", &[BUILTIN, UTC_TO_GPS - 1], Err(1)),
    ("table_utc_to_gps", &[BUILTIN, UTC_TO_GPS], Ok(&[0])),
    ("table_gps_to_utc", &[BUILTIN, 18_193_851_291_709_551_615], Ok(&[LAST])),
    ("table_gps_to_utc", &[BUILTIN, 18_193_851_291_709_551_616], Err(1)),
    ("table_utc_to_gps", &[BUILTIN, 1_420_156_805 * SECOND], Ok(&[1_167_264_023 * SECOND])),
    ("table_glonass_to_gps", &[BUILTIN, 0], Ok(&[504_478_810 * SECOND])),
    // other tables
    ("table_gps_to_utc", &[EMPTY, 0], Ok(&[UTC_TO_GPS])),
    ("table_gps_to_utc", &[LATE, 0], Ok(&[252_892_794 * SECOND])),
    ("table_gps_to_utc", &[NEGATIVE, 0], Ok(&[UTC_TO_GPS + 22 * SECOND])),
    ("table_current_tai_minus_utc", &[EMPTY], Ok(&[19])),
    ("table_last_update", &[EMPTY], Ok(&[0, 0])),
    ("table_last_update", &[LATE], Ok(&[0, 0])),
    ("table_last_update", &[BUILTIN], Ok(&[1, YEAR_2017])),
    // the least offset that can be used, and those below; b is no count there, and a stands in
    ("table_gps_to_utc", &[LEAST, 0], Err(9)),
    ("table_gps_to_utc", &[LEAST, 2_000_000_000 * SECOND - 19 * SECOND - 1], Err(9)),
    ("table_gps_to_utc", &[LEAST, 2_000_000_000 * SECOND - 19 * SECOND], Ok(&[(4_400_376_448 - 19) * SECOND])),
    ("table_gps_to_utc", &[LEAST, LAST], Err(1)),
    ("table_utc_to_gps", &[LEAST, UTC_TO_GPS], Err(9)),
    ("table_utc_to_gps", &[LEAST, UTC_TO_GPS + 2_000_000_000 * SECOND], Err(1)),
    // extension
    ("table_try_extend", &[BUILTIN, YEAR_2017, 38], Err(3)),
    ("table_try_extend", &[BUILTIN, YEAR_2017 + 1, 39], Err(4)),
    ("table_try_extend", &[BUILTIN, YEAR_2017 + 1, 38], Ok(&[20])),
    ("table_try_extend", &[FULL, 0, 0], Err(5)),
    ("table_try_extend", &[GREATEST, 0, 0], Err(3)),
    ("table_try_extend", &[GREATEST, HIGH, 0], Err(7)),
    ("table_try_extend", &[EMPTY, 0, i32::MIN as i128], Ok(&[1])),
    // no table, whatever else is wrong
    ("table_try_extend", &[TOO_LONG, 0, 0], Err(8)),
    ("table_gps_to_utc", &[TOO_LONG, LAST], Err(8)),
    ("table_utc_to_gps", &[SHORT, 0], Err(8)),
    ("table_gps_from_unix_seconds", &[SHORT, 0], Err(8)),
    // where Galileo and BeiDou begin, and where GPS ends
    ("galileo_to_gps", &[0], Ok(&[GALILEO])),
    ("gps_to_galileo", &[GALILEO], Ok(&[0])),
    ("gps_to_galileo", &[GALILEO - 1], Err(1)),
    ("galileo_to_gps", &[LAST - GALILEO], Ok(&[LAST])),
    ("galileo_to_gps", &[LAST - GALILEO + 1], Err(1)),
    ("beidou_to_gps", &[0], Ok(&[BEIDOU])),
    ("gps_to_beidou", &[BEIDOU - 1], Err(1)),
    ("gps_to_beidou", &[LAST], Ok(&[LAST - BEIDOU])),
    ("beidou_to_gps", &[LAST - BEIDOU + 1], Err(1)),
    ("beidou_to_galileo", &[0], Ok(&[200_793_614 * SECOND])),
    ("galileo_to_beidou", &[200_793_614 * SECOND], Ok(&[0])),
    ("galileo_to_beidou", &[200_793_614 * SECOND - 1], Err(1)),
    ("galileo_to_beidou", &[LAST - GALILEO], Ok(&[LAST - BEIDOU])),
    ("beidou_to_galileo", &[LAST - BEIDOU], Ok(&[LAST - GALILEO])),
    ("builtin_galileo_to_utc", &[0], Ok(&[872_207_987 * SECOND])),
    ("builtin_utc_to_galileo", &[872_207_987 * SECOND], Ok(&[0])),
    ("builtin_utc_to_galileo", &[872_207_987 * SECOND - 1], Err(1)),
    ("builtin_galileo_to_glonass", &[0], Ok(&[114_836_387 * SECOND])),
    ("builtin_glonass_to_galileo", &[114_836_387 * SECOND], Ok(&[0])),
    ("builtin_beidou_to_utc", &[0], Ok(&[YEAR_2006])),
    ("builtin_beidou_to_glonass", &[0], Ok(&[315_630_000 * SECOND])),
    ("table_galileo_to_utc", &[EMPTY, 0], Ok(&[872_208_000 * SECOND])),
    // the second inserted before 2006 is not in BeiDou, the one after it is; one inserted earlier is out of reach
    ("builtin_utc_to_beidou", &[YEAR_2006 - 1], Err(1)),
    ("builtin_utc_to_beidou", &[YEAR_2006], Ok(&[0])),
    ("builtin_utc_to_beidou", &[YEAR_2006 + SECOND - 1], Ok(&[SECOND - 1])),
    ("builtin_utc_to_beidou", &[YEAR_2006 + SECOND], Ok(&[SECOND])),
    ("builtin_utc_to_beidou", &[299_721_600 * SECOND], Err(1)),
    ("builtin_glonass_to_beidou", &[315_630_000 * SECOND], Ok(&[0])),
    ("builtin_glonass_to_beidou", &[315_630_000 * SECOND - 1], Err(1)),
    ("table_utc_to_beidou", &[BUILTIN, YEAR_2006], Ok(&[0])),
    ("table_utc_to_beidou", &[BUILTIN, 299_721_600 * SECOND], Err(1)),
    ("table_glonass_to_beidou", &[BUILTIN, 315_630_000 * SECOND], Ok(&[0])),
    // no table, though the count has no GPS count or no UTC count
    ("table_galileo_to_utc", &[TOO_LONG, LAST], Err(8)),
    ("table_beidou_to_glonass", &[SHORT, LAST], Err(8)),
    ("table_utc_to_galileo", &[SHORT, 0], Err(8)),
    ("table_glonass_to_beidou", &[TOO_LONG, LAST], Err(8)),
    ("table_utc_to_galileo", &[LEAST, UTC_TO_GPS], Err(9)),
    // counts and dates
    ("utc_to_civil", &[LAST], Ok(&[2556, 7, 20, 23, 34, 33, 709_551_615])),
    ("civil_to_utc", &[1972, 1, 1, 255, 0, 0, 0], Ok(&[918_000 * SECOND])),
    ("gps_from_week_tow", &[30_500, 344_073, 709_551_615], Ok(&[LAST])),
    ("gps_from_week_tow", &[30_500, 344_073, 709_551_616], Err(1)),
    ("galileo_from_week_tow", &[1, 0, 0], Ok(&[604_800 * SECOND])),
    ("galileo_week", &[604_800 * SECOND - 1], Ok(&[0])),
    ("beidou_from_week_tow", &[30_500, 344_073, 709_551_615], Ok(&[LAST])),
    ("beidou_tow_seconds", &[LAST], Ok(&[344_073])),
    ("gps_from_week_tow", &[0, 604_800, 0], Err(2)),
    ("gps_from_week_tow", &[30_501, 604_800, 0], Err(2)),
    ("gps_from_week_tow", &[u32::MAX as i128, 604_800, 0], Err(2)),
    // the first field that is out of range, before a count that is
    ("gps_from_week_tow", &[0, 604_799, SECOND], Err(11)),
    ("gps_from_week_tow", &[0, 604_800, SECOND], Err(2)),
    ("gps_from_week_tow", &[u32::MAX as i128, 604_799, SECOND], Err(11)),
    ("glonass_from_day_tod", &[0, 86_400, SECOND], Err(2)),
    ("glonass_from_day_tod", &[u32::MAX as i128, 86_399, SECOND], Err(11)),
    ("duration_parts_new", &[LAST, SECOND], Err(11)),
    ("glonass_day_of_week", &[0], Ok(&[1])),
];

pub const COUNT: usize = EXAMPLES.len();

/// The examples that the crate or the port answers otherwise, a sentence each.
pub fn differences(calls: &[Call]) -> Vec<String> {
    EXAMPLES.iter().flat_map(|example| sides(calls, example)).collect()
}

fn sides(calls: &[Call], (name, inputs, said): &Example) -> Vec<String> {
    let call = calls.iter().find(|call| call.name == *name).expect("the table of calls has it");
    let original = due(call, inputs).written;
    let port = (call.port)(inputs);
    let sides = [("the crate", original.as_ref()), ("the port", Some(&port))];
    let others = sides.into_iter().filter(|(_, written)| !written.is_some_and(|written| agrees(written, said)));
    others.map(|(side, _)| format!("{name} of {inputs:?} is {said:?}; {side} answers otherwise")).collect()
}

fn agrees(written: &Written, said: &Result<&[i128], u32>) -> bool {
    match said {
        Ok(results) => written.refusal == 0 && written.results.starts_with(results),
        Err(refusal) => written.refusal == *refusal,
    }
}
