//! The six functions that write an image.

use super::{answer, Image, IMAGE_BYTES};
use crate::{ListError, Result};

mod exported {
    extern "C" {
        pub fn plaitgate_table_new(image: *mut u8, image_bytes: usize) -> u32;
        pub fn plaitgate_table_from_builtin(image: *mut u8, image_bytes: usize) -> u32;
        pub fn plaitgate_table_from_entries(
            entries: *const u8,
            entries_bytes: usize,
            image: *mut u8,
            image_bytes: usize,
        ) -> u32;
        pub fn plaitgate_read_leap_list(
            list: *const u8,
            list_bytes: usize,
            image: *mut u8,
            image_bytes: usize,
            line: *mut u64,
        ) -> u32;
        pub fn plaitgate_table_try_extend(
            image: *mut u8,
            image_bytes: usize,
            tai_nanos: u64,
            tai_minus_utc: i32,
        ) -> u32;
        pub fn plaitgate_table_set_expiry(image: *mut u8, image_bytes: usize, tai: u64) -> u32;
    }
}

pub fn table_new() -> Result<Image> {
    let mut image = [0; IMAGE_BYTES];
    // SAFETY: the image is this function's own, has as many bytes as are said, and outlives the call.
    let number = unsafe { exported::plaitgate_table_new(image.as_mut_ptr(), image.len()) };
    answer(number, image)
}

pub fn table_from_builtin() -> Result<Image> {
    let mut image = [0; IMAGE_BYTES];
    // SAFETY: the image is this function's own, has as many bytes as are said, and outlives the call.
    let number = unsafe { exported::plaitgate_table_from_builtin(image.as_mut_ptr(), image.len()) };
    answer(number, image)
}

pub fn table_from_entries(entries: &[u8]) -> Result<Image> {
    let mut image = [0; IMAGE_BYTES];
    // SAFETY: the list is lent and the image is this function's own, so that they do not overlap; both have as many
    // bytes as are said and outlive the call. A slice's pointer is never null.
    let number = unsafe {
        exported::plaitgate_table_from_entries(entries.as_ptr(), entries.len(), image.as_mut_ptr(), image.len())
    };
    answer(number, image)
}

pub fn read_leap_list(list: &[u8]) -> Result<Image, ListError> {
    let mut image = [0; IMAGE_BYTES];
    let mut line = 0;
    // SAFETY: the list is lent, and the image and the line are this function's own, so that they do not overlap; list
    // and image have as many bytes as are said, and all outlive the call. A slice's pointer is never null.
    let number = unsafe {
        exported::plaitgate_read_leap_list(list.as_ptr(), list.len(), image.as_mut_ptr(), image.len(), &mut line)
    };
    answer(number, image).map_err(|error| ListError::new(error, line))
}

pub fn table_try_extend(image: &mut Image, tai_nanos: u64, tai_minus_utc: i32) -> Result<()> {
    // SAFETY: the image is lent for change to this call alone and has as many bytes as are said.
    let number =
        unsafe { exported::plaitgate_table_try_extend(image.as_mut_ptr(), image.len(), tai_nanos, tai_minus_utc) };
    answer(number, ())
}

pub fn table_set_expiry(image: &mut Image, tai: u64) -> Result<()> {
    // SAFETY: the image is lent for change to this call alone and has as many bytes as are said.
    let number = unsafe { exported::plaitgate_table_set_expiry(image.as_mut_ptr(), image.len(), tai) };
    answer(number, ())
}
