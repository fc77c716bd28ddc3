//! The boundary is that of the header, and bytes that no table can hold are refused there.

use super::*;
use std::collections::BTreeSet;

const HEADER: &str = include_str!("../../../include/plaitgate.h");

/// A function as the comparison has it: its name and the C types of its parameters.
pub fn declaration(name: &str, types: &[String]) -> String {
    format!("plaitgate_{name}({})", types.join(", "))
}

/// The functions that the header declares, without the names of their parameters.
fn declared_in_c() -> BTreeSet<String> {
    let code: String = HEADER.split("/*").map(|part| part.split_once("*/").map_or(part, |(_, code)| code)).collect();
    let code: Vec<&str> = code.lines().filter(|line| !line.starts_with('#')).collect();
    code.join(" ").split(';').filter_map(|statement| statement.split_once("uint32_t plaitgate_")).map(in_c).collect()
}

fn in_c((_, declared): (&str, &str)) -> String {
    let (name, parameters) = declared.split_once('(').expect("a function");
    let type_of = |parameter: &str| {
        let end = parameter.rfind([' ', '*']).expect("a type and a name");
        let words: Vec<&str> = parameter[..=end].split_whitespace().collect();
        words.join(" ")
    };
    let types: Vec<String> = parameters.trim_end().trim_end_matches(')').split(',').map(type_of).collect();
    declaration(name, &types)
}

fn declared_here() -> BTreeSet<String> {
    let by_hand = [
        ("table_alike", "const uint8_t *, size_t, const uint8_t *, size_t, uint8_t *, uint64_t *, uint64_t *"),
        ("table_new", "uint8_t *, size_t"),
        ("table_from_builtin", "uint8_t *, size_t"),
        ("table_from_entries", "const uint8_t *, size_t, uint8_t *, size_t"),
        ("read_leap_list", "const uint8_t *, size_t, uint8_t *, size_t, uint64_t *"),
        ("table_try_extend", "uint8_t *, size_t, uint64_t, int32_t"),
        ("table_set_expiry", "uint8_t *, size_t, uint64_t"),
    ];
    let by_hand = by_hand.into_iter().map(|(name, types)| declaration(name, &[types.to_string()]));
    let by_macros = [
        declared_of_numbers(),
        declared_of_images(),
        declared_of_lists(),
        declared_of_shifted_scales(),
        declared_of_shifted_scales_by_images(),
        declared_of_two_shifted_scales(),
    ];
    by_macros.into_iter().flatten().chain(by_hand).collect()
}

#[test]
fn the_header_has_these_functions_with_these_types() {
    let (c, here) = (declared_in_c(), declared_here());
    assert!(c.len() > 90, "only {} functions were read in the header", c.len());
    assert_eq!(c.difference(&here).collect::<Vec<_>>(), Vec::<&String>::new(), "in the header only");
    assert_eq!(here.difference(&c).collect::<Vec<_>>(), Vec::<&String>::new(), "here only");
}

#[test]
fn counts_and_durations_cross_as_they_are() {
    for count in [0, 1, u64::MAX / 2, u64::MAX] {
        for same in [gps_from_nanos, gps_as_nanos, utc_from_nanos, utc_as_nanos, glonass_from_nanos] {
            assert_eq!(same(count), Ok(count));
        }
        for same in [glonass_as_nanos, tai_from_nanos, tai_as_nanos, galileo_from_nanos, galileo_as_nanos] {
            assert_eq!(same(count), Ok(count));
        }
        for same in [beidou_from_nanos, beidou_as_nanos] {
            assert_eq!(same(count), Ok(count));
        }
    }
    for nanos in [i64::MIN, -1, 0, i64::MAX] {
        assert_eq!(duration_from_nanos(nanos), Ok(nanos));
        assert_eq!(duration_as_nanos(nanos), Ok(nanos));
    }
    assert_eq!(civil_date_new(i32::MIN, 255, 0), Ok((i32::MIN, 255, 0)));
}

#[test]
fn the_table_with_no_entry_is_zeros_and_the_largest_expiry() {
    assert_eq!(table_new(), Ok(NO_ENTRY));
    assert_eq!(NO_ENTRY[..EXPIRY_AT], [0; EXPIRY_AT]);
    assert_eq!(NO_ENTRY[EXPIRY_AT..], u64::MAX.to_le_bytes());
}

/// Bytes that no call of this crate lets become a table: here they are handed to every call.
#[test]
fn a_forged_image_is_refused_by_8_in_every_call_and_is_left_alone() {
    let mut forged = table_from_builtin().unwrap();
    forged[0] = 65;
    let before = forged;
    let bad = Error::BadTable;
    assert_eq!(table_len(&forged), Err(bad));
    assert_eq!(table_is_empty(&forged), Err(bad));
    assert_eq!(table_entry_at(&forged, 0), Err(bad));
    assert_eq!(table_last_update(&forged), Err(bad));
    assert_eq!(table_expiry(&forged), Err(bad));
    assert_eq!(table_current_tai_minus_utc(&forged), Err(bad));
    assert_eq!(table_tai_minus_utc_at(&forged, 0), Err(bad));
    for convert in [table_gps_to_utc, table_utc_to_gps, table_glonass_to_gps, table_gps_to_glonass] {
        assert_eq!(convert(u64::MAX, &forged), Err(bad));
    }
    for convert in [table_galileo_to_utc, table_utc_to_galileo, table_galileo_to_glonass, table_glonass_to_galileo] {
        assert_eq!(convert(u64::MAX, &forged), Err(bad));
    }
    for convert in [table_beidou_to_utc, table_utc_to_beidou, table_beidou_to_glonass, table_glonass_to_beidou] {
        assert_eq!(convert(u64::MAX, &forged), Err(bad));
    }
    assert_eq!(table_gps_from_unix_seconds(i64::MIN, &forged), Err(bad));
    assert_eq!(table_gps_as_unix_seconds(u64::MAX, &forged), Err(bad));
    assert_eq!(table_gps_to_civil(u64::MAX, &forged), Err(bad));
    assert_eq!(table_civil_to_gps(i32::MIN, 0, 0, 0, 0, 60, 0, &forged), Err(bad));
    let valid = table_from_builtin().unwrap();
    for (old, new) in [(&forged, &valid), (&valid, &forged), (&forged, &forged)] {
        assert_eq!(table_alike(old, new), Err(bad));
    }
    assert_eq!(table_try_extend(&mut forged, u64::MAX, 38), Err(bad));
    assert_eq!(table_set_expiry(&mut forged, 0), Err(bad));
    assert_eq!(forged, before);
}

/// Whether the bytes hold a table, read from them number by number.
fn holds_a_table(image: &Image) -> bool {
    let number =
        |at: usize, bytes: usize| image[at..at + bytes].iter().rev().fold(0, |n, byte| n << 8 | i128::from(*byte));
    let threshold = |place: usize| number(8 + 8 * place, 8);
    let offset = |place: usize| number(520 + 4 * place, 4) as u32 as i32;
    let follows = |place: usize| {
        threshold(place) > threshold(place - 1) && i64::from(offset(place)) == i64::from(offset(place - 1)) + 1
    };
    number(0, 8) <= 64 && (1..number(0, 8) as usize).all(follows)
}

/// The built-in table with up to two of its numbers changed by a bit: its length, a threshold, an offset or the expiry.
fn changed(step: u64) -> Image {
    let mut image = table_from_builtin().unwrap();
    let mut bits = step.wrapping_mul(0x9e37_79b9_7f4a_7c15);
    for _ in 0..bits % 3 {
        bits = (bits ^ (bits >> 29)).wrapping_mul(0xbf58_476d_1ce4_e5b9);
        let place = (bits >> 8) as usize;
        let at = [place % 8, 8 + place % 160, 520 + place % 80, 776 + place % 8][(bits >> 2) as usize % 4];
        image[at] ^= 1 << (bits >> 5) % 8;
    }
    image
}

#[test]
fn of_two_images_a_forged_one_in_either_place_is_refused_by_8() {
    let mut met = [0; 4];
    for step in 0..4_000 {
        let (old, new) = (changed(step), changed(step + 10_000));
        let valid = [&old, &new].map(holds_a_table);
        let told = table_alike(&old, &new);
        assert_eq!(told == Err(Error::BadTable), valid != [true; 2], "{old:?} and {new:?}");
        met[usize::from(valid[0]) + 2 * usize::from(valid[1])] += 1;
    }
    assert!(met.iter().all(|times| *times > 100), "not every kind of pair came often: {met:?}");
}

#[test]
fn a_list_that_is_no_whole_number_of_entries_is_refused_by_8() {
    assert_eq!(table_from_entries(&[0; ENTRY_BYTES + 1]), Err(Error::BadTable));
    assert_eq!(table_from_entries(&[]), Err(Error::EmptyTable));
}

#[test]
fn an_image_of_another_size_is_refused_by_8() {
    let image = [table_from_builtin().unwrap().to_vec(), vec![0; 8]].concat();
    for size in [0, 8, EXPIRY_AT, IMAGE_BYTES - 1, IMAGE_BYTES + 1, image.len()] {
        assert_eq!(table_len(&image[..size]), Err(Error::BadTable), "{size} bytes");
    }
    assert_eq!(table_len(&image[..IMAGE_BYTES]), Ok(19));
}
