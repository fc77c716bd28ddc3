//! The boundary to the library: every function of include/plaitgate.h, and all of the crate's `unsafe`.
//!
//! Outside this module there are only numbers, arrays and `Result`s.

// Functions whose answer is a constant, or the input as it came, are called by the tests alone: outside they are
// `const`.
// In the macros a single result stands in parentheses, as several do.
// A function has as many inputs as in C.
#![allow(dead_code, unused_parens, clippy::too_many_arguments)]

use crate::{Error, Result};

#[cfg(test)]
mod tests;
mod writing;

pub use writing::*;

/// The bytes of a leap-second table: its length, 64 thresholds, 64 offsets and the expiry.
pub type Image = [u8; IMAGE_BYTES];
pub const IMAGE_BYTES: usize = 784;
const EXPIRY_AT: usize = 776;

/// The image of the table with no entry and no expiry, which `table_new` writes (tests). The expiry is the largest
/// count.
pub const NO_ENTRY: Image = {
    let mut image = [0; IMAGE_BYTES];
    let mut place = EXPIRY_AT;
    while place < IMAGE_BYTES {
        image[place] = 0xff;
        place += 1;
    }
    image
};

/// The bytes of one entry in a list: 8 of the threshold, then 4 of the offset, low byte first.
pub const ENTRY_BYTES: usize = 12;

/// The answer of a function that the header says does not refuse, for the inputs at hand.
#[inline]
pub fn always<T: Default>(answered: Result<T>) -> T {
    debug_assert!(answered.is_ok(), "the library refused what it is to answer");
    answered.unwrap_or_default()
}

#[inline]
fn answer<T>(number: u32, results: T) -> Result<T> {
    match number {
        0 => Ok(results),
        refusal => Err(Error::from(refusal)),
    }
}

/// The name of a C type by that of Rust, for the comparison with the header.
#[cfg(test)]
fn c_type(rust: &str) -> &str {
    match rust {
        "u8" => "uint8_t",
        "u32" => "uint32_t",
        "u64" => "uint64_t",
        "i32" => "int32_t",
        "i64" => "int64_t",
        other => other,
    }
}

/// Functions on numbers: `name(inputs) -> (results)` is `plaitgate_name`, with a place for each result.
macro_rules! of_numbers {
    ($declared:ident: $($name:ident($($input:ident: $given:ty),*) -> ($($result:ident: $written:ty),+);)*) => {
        $(
            #[inline]
            pub fn $name($($input: $given),*) -> Result<($($written),+)> {
                extern "C" {
                    #[link_name = concat!("plaitgate_", stringify!($name))]
                    fn exported($($input: $given,)* $($result: *mut $written),+) -> u32;
                }
                $(let mut $result: $written = 0;)+
                // SAFETY: the types are those of the header (tests::the_header). Each result has a place of its own
                // that outlives the call; the function takes every number and keeps no pointer.
                let number = unsafe { exported($($input,)* $(&mut $result),+) };
                answer(number, ($($result),+))
            }
        )*
        #[cfg(test)]
        fn $declared() -> Vec<String> {
            vec![$(tests::declaration(stringify!($name),
                &[$(c_type(stringify!($given)).to_string(),)* $(format!("{} *", c_type(stringify!($written)))),+])),*]
        }
    };
}

/// Functions that read a table or a list: `name(inputs)(bytes: &[u8])(inputs) -> (results)`, the bytes where C has
/// them.
macro_rules! of_bytes {
    ($declared:ident: $($name:ident($($before:ident: $early:ty),*)($bytes:ident: $lent:ty)($($after:ident: $late:ty),*)
        -> ($($result:ident: $written:ty),*);)*) => {
        $(
            #[inline]
            pub fn $name($($before: $early,)* $bytes: $lent, $($after: $late),*) -> Result<($($written),*)> {
                extern "C" {
                    #[link_name = concat!("plaitgate_", stringify!($name))]
                    fn exported($($before: $early,)* bytes: *const u8, count: usize, $($after: $late,)*
                        $($result: *mut $written),*) -> u32;
                }
                $(let mut $result: $written = 0;)*
                // SAFETY: the types are those of the header (tests::the_header). The bytes are lent, so they are there
                // and no result lies in them; each result has a place of its own. All outlive the call, which takes
                // any bytes and keeps no pointer. A slice's pointer is never null.
                let number = unsafe {
                    exported($($before,)* $bytes.as_ptr(), $bytes.len(), $($after,)* $(&mut $result),*)
                };
                answer(number, ($($result),*))
            }
        )*
        #[cfg(test)]
        fn $declared() -> Vec<String> {
            vec![$(tests::declaration(stringify!($name), &[
                $(c_type(stringify!($early)).to_string(),)*
                "const uint8_t *".to_string(), "size_t".to_string(),
                $(c_type(stringify!($late)).to_string(),)*
                $(format!("{} *", c_type(stringify!($written)))),*
            ])),*]
        }
    };
}

of_numbers! { declared_of_numbers:
    // every scale, by tools/write-scales
    gps_from_nanos(nanos: u64) -> (count: u64);
    gps_as_nanos(count: u64) -> (nanos: u64);
    gps_checked_from_seconds(seconds: u64) -> (count: u64);
    gps_as_seconds(count: u64) -> (seconds: u64);
    gps_as_parts(count: u64) -> (seconds: u64, nanos: u32);
    gps_checked_add(count: u64, duration: i64) -> (sum: u64);
    gps_checked_sub_duration(count: u64, duration: i64) -> (difference: u64);
    gps_saturating_add(count: u64, duration: i64) -> (sum: u64);
    gps_saturating_sub_duration(count: u64, duration: i64) -> (difference: u64);
    gps_checked_elapsed(count: u64, earlier: u64) -> (duration: i64);
    gps_limits() -> (epoch: u64, min: u64, max: u64, nanos_per_year: u64);
    utc_from_nanos(nanos: u64) -> (count: u64);
    utc_as_nanos(count: u64) -> (nanos: u64);
    utc_checked_from_seconds(seconds: u64) -> (count: u64);
    utc_as_seconds(count: u64) -> (seconds: u64);
    utc_as_parts(count: u64) -> (seconds: u64, nanos: u32);
    utc_checked_add(count: u64, duration: i64) -> (sum: u64);
    utc_checked_sub_duration(count: u64, duration: i64) -> (difference: u64);
    utc_saturating_add(count: u64, duration: i64) -> (sum: u64);
    utc_saturating_sub_duration(count: u64, duration: i64) -> (difference: u64);
    utc_checked_elapsed(count: u64, earlier: u64) -> (duration: i64);
    utc_limits() -> (epoch: u64, min: u64, max: u64, nanos_per_year: u64);
    glonass_from_nanos(nanos: u64) -> (count: u64);
    glonass_as_nanos(count: u64) -> (nanos: u64);
    glonass_checked_from_seconds(seconds: u64) -> (count: u64);
    glonass_as_seconds(count: u64) -> (seconds: u64);
    glonass_as_parts(count: u64) -> (seconds: u64, nanos: u32);
    glonass_checked_add(count: u64, duration: i64) -> (sum: u64);
    glonass_checked_sub_duration(count: u64, duration: i64) -> (difference: u64);
    glonass_saturating_add(count: u64, duration: i64) -> (sum: u64);
    glonass_saturating_sub_duration(count: u64, duration: i64) -> (difference: u64);
    glonass_checked_elapsed(count: u64, earlier: u64) -> (duration: i64);
    glonass_limits() -> (epoch: u64, min: u64, max: u64, nanos_per_year: u64);
    tai_from_nanos(nanos: u64) -> (count: u64);
    tai_as_nanos(count: u64) -> (nanos: u64);
    tai_checked_from_seconds(seconds: u64) -> (count: u64);
    tai_as_seconds(count: u64) -> (seconds: u64);
    tai_as_parts(count: u64) -> (seconds: u64, nanos: u32);
    tai_checked_add(count: u64, duration: i64) -> (sum: u64);
    tai_checked_sub_duration(count: u64, duration: i64) -> (difference: u64);
    tai_saturating_add(count: u64, duration: i64) -> (sum: u64);
    tai_saturating_sub_duration(count: u64, duration: i64) -> (difference: u64);
    tai_checked_elapsed(count: u64, earlier: u64) -> (duration: i64);
    tai_limits() -> (epoch: u64, min: u64, max: u64, nanos_per_year: u64);
    galileo_from_nanos(nanos: u64) -> (count: u64);
    galileo_as_nanos(count: u64) -> (nanos: u64);
    galileo_checked_from_seconds(seconds: u64) -> (count: u64);
    galileo_as_seconds(count: u64) -> (seconds: u64);
    galileo_as_parts(count: u64) -> (seconds: u64, nanos: u32);
    galileo_checked_add(count: u64, duration: i64) -> (sum: u64);
    galileo_checked_sub_duration(count: u64, duration: i64) -> (difference: u64);
    galileo_saturating_add(count: u64, duration: i64) -> (sum: u64);
    galileo_saturating_sub_duration(count: u64, duration: i64) -> (difference: u64);
    galileo_checked_elapsed(count: u64, earlier: u64) -> (duration: i64);
    galileo_limits() -> (epoch: u64, min: u64, max: u64, nanos_per_year: u64);
    beidou_from_nanos(nanos: u64) -> (count: u64);
    beidou_as_nanos(count: u64) -> (nanos: u64);
    beidou_checked_from_seconds(seconds: u64) -> (count: u64);
    beidou_as_seconds(count: u64) -> (seconds: u64);
    beidou_as_parts(count: u64) -> (seconds: u64, nanos: u32);
    beidou_checked_add(count: u64, duration: i64) -> (sum: u64);
    beidou_checked_sub_duration(count: u64, duration: i64) -> (difference: u64);
    beidou_saturating_add(count: u64, duration: i64) -> (sum: u64);
    beidou_saturating_sub_duration(count: u64, duration: i64) -> (difference: u64);
    beidou_checked_elapsed(count: u64, earlier: u64) -> (duration: i64);
    beidou_limits() -> (epoch: u64, min: u64, max: u64, nanos_per_year: u64);
    // end of every scale

    // scales with weeks, by tools/write-scales
    gps_from_week_tow(week: u32, seconds: u64, nanos: u32) -> (count: u64);
    gps_week(count: u64) -> (week: u32);
    gps_tow_seconds(count: u64) -> (seconds: u32);
    gps_sub_second_nanos(count: u64) -> (nanos: u32);
    galileo_from_week_tow(week: u32, seconds: u64, nanos: u32) -> (count: u64);
    galileo_week(count: u64) -> (week: u32);
    galileo_tow_seconds(count: u64) -> (seconds: u32);
    galileo_sub_second_nanos(count: u64) -> (nanos: u32);
    beidou_from_week_tow(week: u32, seconds: u64, nanos: u32) -> (count: u64);
    beidou_week(count: u64) -> (week: u32);
    beidou_tow_seconds(count: u64) -> (seconds: u32);
    beidou_sub_second_nanos(count: u64) -> (nanos: u32);
    // end of scales with weeks

    gps_to_tai(count: u64) -> (tai: u64);
    gps_from_tai(tai: u64) -> (count: u64);

    utc_from_unix_seconds(seconds: i64) -> (count: u64);
    utc_from_unix_nanos(nanos: i64) -> (count: u64);
    utc_as_unix_seconds(count: u64) -> (seconds: i64);
    utc_as_unix_nanos(count: u64) -> (nanos: i64);

    glonass_from_day_tod(day: u32, seconds: u64, nanos: u32) -> (count: u64);
    glonass_day(count: u64) -> (day: u32);
    glonass_tod_seconds(count: u64) -> (seconds: u32);
    glonass_sub_second_nanos(count: u64) -> (nanos: u32);
    glonass_day_of_week(count: u64) -> (weekday: u8);
    glonass_is_weekend(count: u64) -> (yes: u8);

    duration_parts_new(seconds: u64, nanos: u32) -> (parts_seconds: u64, parts_nanos: u32);
    duration_from_nanos(nanos: i64) -> (duration: i64);
    duration_as_nanos(duration: i64) -> (nanos: i64);

    civil_date_new(year: i32, month: u8, day: u8) -> (date_year: i32, date_month: u8, date_day: u8);
    civil_date_days_from_unix(year: i32, month: u8, day: u8) -> (days: i64);
    civil_date_days_until(year: i32, month: u8, day: u8, other_year: i32, other_month: u8, other_day: u8)
        -> (days: i64);
    civil_date_seconds_until(year: i32, month: u8, day: u8, other_year: i32, other_month: u8, other_day: u8)
        -> (seconds: i64);
    civil_date_nanos_until(year: i32, month: u8, day: u8, other_year: i32, other_month: u8, other_day: u8)
        -> (nanos: i64);

    civil_from_utc_nanos(count: u64)
        -> (year: i32, month: u8, day: u8, hour: u8, minute: u8, second: u8, nanos: u32);
    utc_to_civil(count: u64) -> (year: i32, month: u8, day: u8, hour: u8, minute: u8, second: u8, nanos: u32);
    civil_to_utc_nanos(year: i32, month: u8, day: u8, hour: u8, minute: u8, second: u8, nanos: u32) -> (count: u64);
    civil_to_utc(year: i32, month: u8, day: u8, hour: u8, minute: u8, second: u8, nanos: u32) -> (count: u64);
    civil_is_whole_second(year: i32, month: u8, day: u8, hour: u8, minute: u8, second: u8, nanos: u32) -> (yes: u8);

    glonass_to_utc(glonass: u64) -> (utc: u64);
    utc_to_glonass(utc: u64) -> (glonass: u64);
    builtin_tai_minus_utc_at(tai: u64) -> (offset: i32);
    builtin_gps_to_utc(gps: u64) -> (utc: u64);
    builtin_utc_to_gps(utc: u64) -> (gps: u64);
    builtin_glonass_to_gps(glonass: u64) -> (gps: u64);
    builtin_gps_to_glonass(gps: u64) -> (glonass: u64);
    builtin_gps_from_unix_seconds(seconds: i64) -> (gps: u64);
    builtin_gps_as_unix_seconds(gps: u64) -> (seconds: i64);
    builtin_gps_to_civil(gps: u64)
        -> (year: i32, month: u8, day: u8, hour: u8, minute: u8, second: u8, nanos: u32);
    builtin_civil_to_gps(year: i32, month: u8, day: u8, hour: u8, minute: u8, second: u8, nanos: u32) -> (gps: u64);

    entry_of_event(year: i32, month: u8, day: u8, tai_minus_utc: i32) -> (tai_nanos: u64);
}

of_bytes! { declared_of_images:
    // this one takes any bytes, so that the library says whether stored ones are an image
    table_len()(image: &[u8])() -> (len: u64);
    table_is_empty()(image: &Image)() -> (yes: u8);
    table_entry_at()(image: &Image)(place: u64) -> (found: u8, tai_nanos: u64, tai_minus_utc: i32);
    table_last_update()(image: &Image)() -> (found: u8, tai: u64);
    table_expiry()(image: &Image)() -> (found: u8, tai: u64);
    table_current_tai_minus_utc()(image: &Image)() -> (offset: i32);
    table_tai_minus_utc_at()(image: &Image)(tai: u64) -> (offset: i32, stale: u8);
    table_gps_to_utc(gps: u64)(image: &Image)() -> (utc: u64, stale: u8);
    table_utc_to_gps(utc: u64)(image: &Image)() -> (gps: u64, stale: u8);
    table_glonass_to_gps(glonass: u64)(image: &Image)() -> (gps: u64, stale: u8);
    table_gps_to_glonass(gps: u64)(image: &Image)() -> (glonass: u64, stale: u8);
    table_gps_from_unix_seconds(seconds: i64)(image: &Image)() -> (gps: u64, stale: u8);
    table_gps_as_unix_seconds(gps: u64)(image: &Image)() -> (seconds: i64, stale: u8);
    table_gps_to_civil(gps: u64)(image: &Image)()
        -> (year: i32, month: u8, day: u8, hour: u8, minute: u8, second: u8, nanos: u32, stale: u8);
    table_civil_to_gps(year: i32, month: u8, day: u8, hour: u8, minute: u8, second: u8, nanos: u32)(image: &Image)()
        -> (gps: u64, stale: u8);
}

of_bytes! { declared_of_lists:
    list_check()(entries: &[u8])() -> ();
    list_len()(entries: &[u8])() -> (len: u64);
    list_is_empty()(entries: &[u8])() -> (yes: u8);
    list_last_update()(entries: &[u8])() -> (found: u8, tai: u64);
    list_current_tai_minus_utc()(entries: &[u8])() -> (offset: i32);
    list_tai_minus_utc_at()(entries: &[u8])(tai: u64) -> (offset: i32, stale: u8);
}

/// The one function that reads two images: how far their tables convert alike, and the two counts.
pub fn table_alike(old_image: &Image, new_image: &Image) -> Result<(u8, u64, u64)> {
    extern "C" {
        #[link_name = "plaitgate_table_alike"]
        fn exported(
            old_image: *const u8,
            old_image_bytes: usize,
            new_image: *const u8,
            new_image_bytes: usize,
            how: *mut u8,
            gps: *mut u64,
            utc: *mut u64,
        ) -> u32;
    }
    let (mut how, mut gps, mut utc) = (0, 0, 0);
    // SAFETY: the types are those of the header (tests::the_header). The images are lent, so that no result lies in
    // them, and have as many bytes as are said; they are only read, and may be one. Each result has a place of its own.
    // All outlive the call, which takes any bytes and keeps no pointer.
    let number = unsafe {
        exported(old_image.as_ptr(), old_image.len(), new_image.as_ptr(), new_image.len(), &mut how, &mut gps, &mut utc)
    };
    answer(number, (how, gps, utc))
}

// shifted scales, by tools/write-scales
of_numbers! { declared_of_shifted_scales:
    galileo_to_gps(galileo: u64) -> (gps: u64);
    gps_to_galileo(gps: u64) -> (galileo: u64);
    builtin_galileo_to_utc(galileo: u64) -> (utc: u64);
    builtin_utc_to_galileo(utc: u64) -> (galileo: u64);
    builtin_galileo_to_glonass(galileo: u64) -> (glonass: u64);
    builtin_glonass_to_galileo(glonass: u64) -> (galileo: u64);
    beidou_to_gps(beidou: u64) -> (gps: u64);
    gps_to_beidou(gps: u64) -> (beidou: u64);
    builtin_beidou_to_utc(beidou: u64) -> (utc: u64);
    builtin_utc_to_beidou(utc: u64) -> (beidou: u64);
    builtin_beidou_to_glonass(beidou: u64) -> (glonass: u64);
    builtin_glonass_to_beidou(glonass: u64) -> (beidou: u64);
}

of_bytes! { declared_of_shifted_scales_by_images:
    table_galileo_to_utc(galileo: u64)(image: &Image)() -> (utc: u64, stale: u8);
    table_utc_to_galileo(utc: u64)(image: &Image)() -> (galileo: u64, stale: u8);
    table_galileo_to_glonass(galileo: u64)(image: &Image)() -> (glonass: u64, stale: u8);
    table_glonass_to_galileo(glonass: u64)(image: &Image)() -> (galileo: u64, stale: u8);
    table_beidou_to_utc(beidou: u64)(image: &Image)() -> (utc: u64, stale: u8);
    table_utc_to_beidou(utc: u64)(image: &Image)() -> (beidou: u64, stale: u8);
    table_beidou_to_glonass(beidou: u64)(image: &Image)() -> (glonass: u64, stale: u8);
    table_glonass_to_beidou(glonass: u64)(image: &Image)() -> (beidou: u64, stale: u8);
}
// end of shifted scales

of_numbers! { declared_of_two_shifted_scales:
    galileo_to_beidou(galileo: u64) -> (beidou: u64);
    beidou_to_galileo(beidou: u64) -> (galileo: u64);
}
