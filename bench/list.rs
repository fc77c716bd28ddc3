//! A published leap-seconds.list read into a table, and compared with a search for its line ends and nothing else.

use crate::measure::Bench;
use crate::port::Image;
use std::ffi::{c_int, c_void};

const PUBLISHED: &[u8] = include_bytes!("../data/leap-seconds.list");
const LF: u8 = b'\n';

extern "C" {
    /// The C library's search for a byte.
    fn memchr(bytes: *const c_void, byte: c_int, count: usize) -> *const c_void;
}

/// The list as it is, and with comments after it up to 30,000 and 60,000 bytes: the time grows with the bytes.
pub fn lists(bench: &Bench) {
    bench.begin_passes();
    for list in [PUBLISHED.to_vec(), padded(30_000), padded(60_000)] {
        let image = Image::of_list(&list).expect("the list is a table");
        assert_eq!(image.entries(), Image::of_builtin().entries(), "the list is the built-in table");
        assert_eq!(line_ends(&list), Ok(list.iter().filter(|byte| **byte == LF).count() as u64));
        bench.passes("leap-seconds.list", &list, line_ends, |list| Ok(u64::from(Image::of_list(list)?.0[0])));
    }
}

/// The published list with its own comments after it, again and again, up to a given number of bytes. The line of the
/// expiry, which begins `#@`, may come only once.
fn padded(most: usize) -> Vec<u8> {
    let lines = PUBLISHED.split_inclusive(|byte| *byte == LF);
    let comments = lines.filter(|line| line[0] == b'#' && line[1] != b'@');
    let mut list = PUBLISHED.to_vec();
    for comment in comments.cycle() {
        if list.len() + comment.len() > most {
            return list;
        }
        list.extend(comment);
    }
    list
}

/// The number of line ends, by `memchr` from each to the next.
fn line_ends(bytes: &[u8]) -> Result<u64, u32> {
    let (mut rest, mut ends) = (bytes, 0);
    loop {
        // SAFETY: the slice has that many bytes
        let found = unsafe { memchr(rest.as_ptr().cast(), c_int::from(LF), rest.len()) };
        if found.is_null() {
            return Ok(ends);
        }
        rest = &rest[found as usize - rest.as_ptr() as usize + 1..];
        ends += 1;
    }
}
