//! The port's calls as a Rust host makes them: structs in and out, and an error for a refusal.

use crate::measure::{answer, Answer};
use gnss_time::{CivilDateTime, Gps, Time, Utc};

extern "C" {
    fn plaitgate_civil_from_utc_nanos(
        count: u64,
        year: *mut i32,
        month: *mut u8,
        day: *mut u8,
        hour: *mut u8,
        minute: *mut u8,
        second: *mut u8,
        nanos: *mut u32,
    ) -> u32;

    fn plaitgate_civil_to_utc_nanos(
        year: i32,
        month: u8,
        day: u8,
        hour: u8,
        minute: u8,
        second: u8,
        nanos: u32,
        count: *mut u64,
    ) -> u32;

    fn plaitgate_builtin_gps_to_civil(
        gps: u64,
        year: *mut i32,
        month: *mut u8,
        day: *mut u8,
        hour: *mut u8,
        minute: *mut u8,
        second: *mut u8,
        nanos: *mut u32,
    ) -> u32;

    fn plaitgate_table_gps_to_civil(
        gps: u64,
        image: *const u8,
        image_bytes: usize,
        year: *mut i32,
        month: *mut u8,
        day: *mut u8,
        hour: *mut u8,
        minute: *mut u8,
        second: *mut u8,
        nanos: *mut u32,
        stale: *mut u8,
    ) -> u32;

    fn plaitgate_builtin_gps_to_utc(gps: u64, utc: *mut u64) -> u32;
    fn plaitgate_builtin_utc_to_gps(utc: u64, gps: *mut u64) -> u32;
    fn plaitgate_table_gps_to_utc(gps: u64, image: *const u8, image_bytes: usize, utc: *mut u64, stale: *mut u8)
        -> u32;
    fn plaitgate_table_utc_to_gps(utc: u64, image: *const u8, image_bytes: usize, gps: *mut u64, stale: *mut u8)
        -> u32;
    fn plaitgate_table_from_builtin(image: *mut u8, image_bytes: usize) -> u32;
    fn plaitgate_table_len(image: *const u8, image_bytes: usize, len: *mut u64) -> u32;
    fn plaitgate_read_leap_list(
        list: *const u8,
        list_bytes: usize,
        image: *mut u8,
        image_bytes: usize,
        line: *mut u64,
    ) -> u32;
}

/// Calls on a count, by the built-in table and by an image: the names of the exported functions.
macro_rules! by_tables {
    ($($name:ident, $by_image:ident: $builtin:literal, $table:literal;)*) => {
        $(
            #[inline(always)]
            pub fn $name(count: u64) -> Answer<u64> {
                extern "C" {
                    #[link_name = $builtin]
                    fn exported(count: u64, result: *mut u64) -> u32;
                }
                let mut result = 0;
                // SAFETY: the result has a place
                let refusal = unsafe { exported(count, &mut result) };
                answer(refusal, result)
            }
        )*
        impl Image {
            $(
                #[inline(always)]
                pub fn $by_image(&self, count: u64) -> Answer<u64> {
                    extern "C" {
                        #[link_name = $table]
                        fn exported(
                            count: u64,
                            image: *const u8,
                            image_bytes: usize,
                            result: *mut u64,
                            stale: *mut u8,
                        ) -> u32;
                    }
                    let (mut result, mut stale) = (0, 0);
                    // SAFETY: the image is so long, and each result has a place
                    let refusal = unsafe { exported(count, self.0.as_ptr(), self.0.len(), &mut result, &mut stale) };
                    answer(refusal, result)
                }
            )*
        }
    };
}

by_tables! {
    gps_to_utc, by_gps_to_utc: "plaitgate_builtin_gps_to_utc", "plaitgate_table_gps_to_utc";
    utc_to_gps, by_utc_to_gps: "plaitgate_builtin_utc_to_gps", "plaitgate_table_utc_to_gps";
    galileo_to_utc, by_galileo_to_utc: "plaitgate_builtin_galileo_to_utc", "plaitgate_table_galileo_to_utc";
    utc_to_galileo, by_utc_to_galileo: "plaitgate_builtin_utc_to_galileo", "plaitgate_table_utc_to_galileo";
    beidou_to_utc, by_beidou_to_utc: "plaitgate_builtin_beidou_to_utc", "plaitgate_table_beidou_to_utc";
    utc_to_beidou, by_utc_to_beidou: "plaitgate_builtin_utc_to_beidou", "plaitgate_table_utc_to_beidou";
}

#[inline(always)]
pub fn from_utc_nanos(count: u64) -> Answer<CivilDateTime> {
    let mut c = CivilDateTime { year: 0, month: 0, day: 0, hour: 0, minute: 0, second: 0, nanos: 0 };
    // SAFETY: each result has a place of its own
    let refusal = unsafe {
        plaitgate_civil_from_utc_nanos(
            count,
            &mut c.year,
            &mut c.month,
            &mut c.day,
            &mut c.hour,
            &mut c.minute,
            &mut c.second,
            &mut c.nanos,
        )
    };
    answer(refusal, c)
}

/// A civil reading by the built-in table.
#[inline(always)]
pub fn gps_to_civil(gps: u64) -> Answer<CivilDateTime> {
    let mut c = CivilDateTime { year: 0, month: 0, day: 0, hour: 0, minute: 0, second: 0, nanos: 0 };
    // SAFETY: each result has a place of its own
    let refusal = unsafe {
        plaitgate_builtin_gps_to_civil(
            gps,
            &mut c.year,
            &mut c.month,
            &mut c.day,
            &mut c.hour,
            &mut c.minute,
            &mut c.second,
            &mut c.nanos,
        )
    };
    answer(refusal, c)
}

#[inline(always)]
pub fn to_utc_nanos(c: CivilDateTime) -> Answer<u64> {
    let mut count = 0;
    // SAFETY: the result has a place
    let refusal = unsafe {
        plaitgate_civil_to_utc_nanos(c.year, c.month, c.day, c.hour, c.minute, c.second, c.nanos, &mut count)
    };
    answer(refusal, count)
}

#[inline(always)]
pub fn builtin_gps_to_utc(gps: u64) -> Answer<Time<Utc>> {
    let mut utc = 0;
    // SAFETY: the result has a place
    let refusal = unsafe { plaitgate_builtin_gps_to_utc(gps, &mut utc) };
    answer(refusal, Time::from_nanos(utc))
}

#[inline(always)]
pub fn builtin_utc_to_gps(utc: u64) -> Answer<Time<Gps>> {
    let mut gps = 0;
    // SAFETY: the result has a place
    let refusal = unsafe { plaitgate_builtin_utc_to_gps(utc, &mut gps) };
    answer(refusal, Time::from_nanos(gps))
}

/// The bytes of a table, the last 8 of which are its expiry.
const IMAGE_BYTES: usize = 784;
const EXPIRY_BYTES: usize = 8;

/// A table of the host's, which the port reads and checks at each call.
pub struct Image(pub [u8; IMAGE_BYTES]);

impl Image {
    /// A civil reading by this table.
    #[inline(always)]
    pub fn gps_to_civil(&self, gps: u64) -> Answer<CivilDateTime> {
        let mut c = CivilDateTime { year: 0, month: 0, day: 0, hour: 0, minute: 0, second: 0, nanos: 0 };
        let mut stale = 0;
        // SAFETY: the image is so long, and each result has a place of its own
        let refusal = unsafe {
            plaitgate_table_gps_to_civil(
                gps,
                self.0.as_ptr(),
                self.0.len(),
                &mut c.year,
                &mut c.month,
                &mut c.day,
                &mut c.hour,
                &mut c.minute,
                &mut c.second,
                &mut c.nanos,
                &mut stale,
            )
        };
        answer(refusal, c)
    }

    pub fn of_builtin() -> Image {
        let mut image = Image([0; IMAGE_BYTES]);
        // SAFETY: the image is so long
        let refusal = unsafe { plaitgate_table_from_builtin(image.0.as_mut_ptr(), image.0.len()) };
        assert_eq!(refusal, 0);
        image
    }

    /// The table of a leap-seconds.list.
    #[inline(always)]
    pub fn of_list(bytes: &[u8]) -> Answer<Image> {
        let (mut image, mut line) = (Image([0; IMAGE_BYTES]), 0);
        // SAFETY: the bytes and the image are so long and do not overlap, and the line has a place
        let refusal = unsafe {
            plaitgate_read_leap_list(bytes.as_ptr(), bytes.len(), image.0.as_mut_ptr(), image.0.len(), &mut line)
        };
        answer(refusal, image)
    }

    #[inline(always)]
    pub fn gps_to_utc(&self, gps: u64) -> Answer<Time<Utc>> {
        let (mut utc, mut stale) = (0, 0);
        // SAFETY: the image is so long, and each result has a place
        let refusal = unsafe { plaitgate_table_gps_to_utc(gps, self.0.as_ptr(), self.0.len(), &mut utc, &mut stale) };
        answer(refusal, Time::from_nanos(utc))
    }

    #[inline(always)]
    pub fn utc_to_gps(&self, utc: u64) -> Answer<Time<Gps>> {
        let (mut gps, mut stale) = (0, 0);
        // SAFETY: the image is so long, and each result has a place
        let refusal = unsafe { plaitgate_table_utc_to_gps(utc, self.0.as_ptr(), self.0.len(), &mut gps, &mut stale) };
        answer(refusal, Time::from_nanos(gps))
    }

    /// The bytes without the expiry.
    pub fn entries(&self) -> &[u8] {
        &self.0[..IMAGE_BYTES - EXPIRY_BYTES]
    }

    /// The number of entries: the image is read and checked, and nothing else is done.
    #[inline(always)]
    pub fn len(&self) -> Answer<u64> {
        let mut len = 0;
        // SAFETY: the image is so long, and the result has a place
        let refusal = unsafe { plaitgate_table_len(self.0.as_ptr(), self.0.len(), &mut len) };
        answer(refusal, len)
    }
}
