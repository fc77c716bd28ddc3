//! Compares the port of this tree with the port of an earlier commit, in one process and on the same inputs.
//! `bench/run --against COMMIT` builds it and runs it. The symbols of the earlier port begin with `before_`.

mod counts;
#[allow(dead_code)] // what compares the port with the crate
mod measure;

use counts::{Order, GALILEO, OF_GPS, OF_UTC, ORDERS, SECOND};
use measure::{answer, Bench};
use std::ops::Range;

/// The UTC counts at the epochs of GLONASS and BeiDou.
const UTC_AT_GLONASS: u64 = 757_371_600 * SECOND;
const UTC_AT_BEIDOU: u64 = 1_073_001_600 * SECOND;
/// Counts up to 2024: Galileo and GLONASS from their epochs on, GPS from that of GLONASS on, UTC and GLONASS from that of
/// BeiDou on; and Unix seconds from the epoch of GPS on.
const OF_GALILEO: Range<u64> = 0..OF_GPS.end - GALILEO;
const OF_GLONASS: Range<u64> = 0..OF_UTC.end - UTC_AT_GLONASS;
const OF_LATER_GPS: Range<u64> = 504_478_810 * SECOND..OF_GPS.end;
const OF_LATER_UTC: Range<u64> = UTC_AT_BEIDOU..OF_UTC.end;
const OF_LATER_GLONASS: Range<u64> = UTC_AT_BEIDOU - UTC_AT_GLONASS..OF_UTC.end - UTC_AT_GLONASS;
const OF_UNIX: Range<u64> = 315_964_800..1_715_964_800;
/// The expiry of the table, in 2014, so that every range has counts before it and after it.
const EXPIRY: u64 = 1_100_000_000 * SECOND;

/// Measures a conversion by an image, of both versions. A version that cannot tell whether the table is stale gets a place
/// for that all the same: a C function ignores an argument that it has no parameter for. Unix seconds are signed; the ones
/// measured here are not negative.
macro_rules! by_image {
    ($bench:ident, $order:ident, $images:ident, $title:literal, $name:literal, $counts:expr) => {
        $bench.against(
            concat!($title, ", image"),
            $order.name,
            &pairs($order, $counts),
            by_image!(&$images.before, "before_plaitgate_table_", $name),
            by_image!(&$images.now, "plaitgate_table_", $name),
            |before, now| before == now,
        )
    };
    ($image:expr, $version:literal, $name:literal) => {{
        extern "C" {
            #[link_name = concat!($version, $name)]
            fn exported(count: u64, image: *const u8, bytes: usize, result: *mut u64, stale: *mut u8) -> u32;
        }
        |count| {
            let (image, mut result, mut stale): (&[u8], _, _) = ($image, 0, 0);
            // SAFETY: the image has that many bytes, and each result has a place
            let refusal = unsafe { exported(count, image.as_ptr(), image.len(), &mut result, &mut stale) };
            answer(refusal, result)
        }
    }};
}

/// Measures a lookup by an image, of both versions.
macro_rules! lookup {
    ($image:expr, $symbol:literal) => {{
        extern "C" {
            #[link_name = $symbol]
            fn exported(image: *const u8, bytes: usize, tai: u64, offset: *mut i32, stale: *mut u8) -> u32;
        }
        |tai| {
            let (image, mut offset, mut stale): (&[u8], _, _) = ($image, 0, 0);
            // SAFETY: the image has that many bytes, and each result has a place
            let refusal = unsafe { exported(image.as_ptr(), image.len(), tai, &mut offset, &mut stale) };
            answer(refusal, offset as u64)
        }
    }};
}

/// Measures a call by the built-in table, of both versions. An offset of 32 bits is put into the low half of the result.
macro_rules! by_builtin {
    ($bench:ident, $order:ident, $title:literal, $name:literal, $counts:expr) => {
        $bench.against(
            concat!($title, ", built-in"),
            $order.name,
            &pairs($order, $counts),
            by_builtin!("before_plaitgate_builtin_", $name),
            by_builtin!("plaitgate_builtin_", $name),
            |before, now| before == now,
        )
    };
    ($version:literal, $name:literal) => {{
        extern "C" {
            #[link_name = concat!($version, $name)]
            fn exported(count: u64, result: *mut u64) -> u32;
        }
        |count| {
            let mut result = 0;
            // SAFETY: the result has a place
            let refusal = unsafe { exported(count, &mut result) };
            answer(refusal, result)
        }
    }};
}

/// The built-in table as an image of each version.
struct Images {
    before: Vec<u8>,
    now: Vec<u8>,
}

impl Images {
    fn of_builtin(bytes_before: usize, bytes_now: usize) -> Images {
        extern "C" {
            fn before_plaitgate_table_from_builtin(image: *mut u8, bytes: usize) -> u32;
            fn plaitgate_table_from_builtin(image: *mut u8, bytes: usize) -> u32;
        }
        let (mut before, mut now) = (vec![0; bytes_before], vec![0; bytes_now]);
        // SAFETY: each image has that many bytes
        let refusals = unsafe {
            [
                before_plaitgate_table_from_builtin(before.as_mut_ptr(), before.len()),
                plaitgate_table_from_builtin(now.as_mut_ptr(), now.len()),
            ]
        };
        assert_eq!(refusals, [0, 0], "an image has another size");
        [&mut before, &mut now].into_iter().for_each(|image| put_expiry(image));
        Images { before, now }
    }
}

/// Puts the expiry into an image, where the version has one.
fn put_expiry(image: &mut [u8]) {
    if let Some(place) = image.get_mut(776..784) {
        place.copy_from_slice(&EXPIRY.to_le_bytes());
    }
}

/// The counts of a range, once for each version.
fn pairs(order: &Order, range: Range<u64>) -> Vec<(u64, u64)> {
    (order.counts)(&range).into_iter().map(|count| (count, count)).collect()
}

fn main() {
    let sizes: Vec<usize> = std::env::args().skip(1).map(|word| word.parse().expect("a size")).collect();
    let [bytes_before, bytes_now] = sizes[..] else { panic!("the sizes of an image before and now") };
    let images = Images::of_builtin(bytes_before, bytes_now);
    let bench = Bench::begin();
    bench.begin_against("before", "now");
    for order in &ORDERS {
        by_image!(bench, order, images, "GPS to UTC", "gps_to_utc", OF_GPS);
        by_image!(bench, order, images, "UTC to GPS", "utc_to_gps", OF_UTC);
        by_image!(bench, order, images, "GPS to GLONASS", "gps_to_glonass", OF_LATER_GPS);
        by_image!(bench, order, images, "GLONASS to GPS", "glonass_to_gps", OF_GLONASS);
        by_image!(bench, order, images, "Galileo to UTC", "galileo_to_utc", OF_GALILEO);
        by_image!(bench, order, images, "Galileo to GLONASS", "galileo_to_glonass", OF_GALILEO);
        by_image!(bench, order, images, "UTC to Galileo", "utc_to_galileo", OF_LATER_UTC);
        by_image!(bench, order, images, "GLONASS to BeiDou", "glonass_to_beidou", OF_LATER_GLONASS);
        by_image!(bench, order, images, "Unix to GPS", "gps_from_unix_seconds", OF_UNIX);
        by_image!(bench, order, images, "GPS to Unix", "gps_as_unix_seconds", OF_GPS);
        bench.against(
            "lookup, image",
            order.name,
            &pairs(order, OF_GPS),
            lookup!(&images.before, "before_plaitgate_table_tai_minus_utc_at"),
            lookup!(&images.now, "plaitgate_table_tai_minus_utc_at"),
            |before, now| before == now,
        );
        by_builtin!(bench, order, "GPS to UTC", "gps_to_utc", OF_GPS);
        by_builtin!(bench, order, "UTC to GPS", "utc_to_gps", OF_UTC);
        by_builtin!(bench, order, "GPS to GLONASS", "gps_to_glonass", OF_LATER_GPS);
        by_builtin!(bench, order, "GLONASS to GPS", "glonass_to_gps", OF_GLONASS);
        by_builtin!(bench, order, "Galileo to UTC", "galileo_to_utc", OF_GALILEO);
        by_builtin!(bench, order, "UTC to Galileo", "utc_to_galileo", OF_LATER_UTC);
        by_builtin!(bench, order, "GPS to Unix", "gps_as_unix_seconds", OF_GPS);
        by_builtin!(bench, order, "lookup", "tai_minus_utc_at", OF_GPS);
    }
}
