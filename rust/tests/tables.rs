//! Tables: what is taken, what is refused, and that a refusal leaves a table as it was.

use plaitgate::{
    gps_to_glonass, utc_to_gps, Error, Gps, LeapEntry, LeapList, LeapSeconds, LeapSecondsProvider, LeapTable, Tai, Utc,
};

/// A table of so many entries, a second apart, with offsets from `first` on.
fn rising(entries: usize, first: i32) -> Vec<LeapEntry> {
    (0..entries).map(|k| LeapEntry::new(k as u64 * 1_000_000_000, first + k as i32)).collect()
}

/// Tries an entry that is to be refused, and holds the table to what it was, every byte.
fn refused(table: &mut LeapTable, entry: LeapEntry) -> Error {
    let before = *table.as_image();
    let why = table.try_extend(entry).expect_err("the entry was taken");
    assert_eq!(*table.as_image(), before, "the table changed on a refusal");
    why
}

#[test]
fn an_empty_table() {
    let table = LeapTable::new();
    assert_eq!((table.len(), table.is_empty()), (0, true));
    assert_eq!((table.entry(0), table.last_update()), (None, None));
    assert_eq!(table.current_tai_minus_utc(), 19);
    assert_eq!(table.tai_minus_utc_at(Tai::MAX), 19);
    assert_eq!(table.expiry(), None);
    assert_eq!(table.as_image()[..776], [0; 776]);
    assert_eq!(table.as_image()[776..], [0xff; 8]);
    assert_eq!(table, LeapTable::default());
}

#[test]
fn an_empty_table_takes_any_entry_and_one_entry_is_no_update() {
    for entry in [LeapEntry::new(0, i32::MIN), LeapEntry::new(u64::MAX, i32::MAX)] {
        let mut table = LeapTable::new();
        assert_eq!(table.try_extend(entry), Ok(()));
        assert_eq!((table.len(), table.entry(0), table.entry(1)), (1, Some(entry), None));
        assert_eq!(table.last_update(), None);
        assert_eq!(table.tai_minus_utc_at(Tai::EPOCH), entry.tai_minus_utc);
    }
}

#[test]
fn the_built_in_table() {
    let table = LeapTable::from_builtin();
    assert_eq!((table.len(), table.is_empty()), (19, false));
    assert_eq!(table.entry(0), Some(LeapEntry::new(0, 19)));
    assert_eq!(table.entry(18), Some(LeapEntry::new(1_167_264_037_000_000_000, 37)));
    assert_eq!(table.entry(19), None);
    assert_eq!(table.entry(usize::MAX), None);
    assert_eq!(table.last_update(), Some(Tai::from_nanos(1_167_264_037_000_000_000)));
    let entries: Vec<LeapEntry> = table.entries().collect();
    assert_eq!(LeapTable::from_slice(&entries), Ok(table));
}

#[test]
fn the_built_in_table_and_its_copy_answer_alike() {
    let copy = LeapTable::builtin();
    let builtin = LeapSeconds::builtin();
    for entry in copy.entries() {
        for tai in [entry.tai_nanos.saturating_sub(1), entry.tai_nanos, entry.tai_nanos + 1] {
            assert_eq!(builtin.tai_minus_utc_at(Tai::from_nanos(tai)), copy.tai_minus_utc_at(Tai::from_nanos(tai)));
            let gps = Gps::from_nanos(tai);
            assert_eq!(gps.to_utc(), gps.to_utc_with(&copy));
            assert_eq!(gps_to_glonass(gps, builtin), gps_to_glonass(gps, &copy));
            let unix = gps.as_unix_seconds(builtin).unwrap();
            assert_eq!(gps.as_unix_seconds(&copy), Ok(unix));
            assert_eq!(Gps::from_unix_seconds(unix, &copy), Gps::from_unix_seconds(unix, builtin));
        }
    }
}

#[test]
fn a_full_table_refuses_by_5_before_it_looks_at_the_entry() {
    let mut full = LeapTable::from_entries(&rising(64, 0)).unwrap();
    assert_eq!(full.len(), 64);
    assert_eq!(refused(&mut full, LeapEntry::new(0, 64)), Error::BufferFull);
    assert_eq!(refused(&mut full, LeapEntry::new(u64::MAX, 64)), Error::BufferFull);
}

#[test]
fn after_the_largest_offset_a_low_threshold_is_3_and_a_high_one_7() {
    let mut table = LeapTable::from_entries(&[LeapEntry::new(10, i32::MAX)]).unwrap();
    assert_eq!(refused(&mut table, LeapEntry::new(10, 0)), Error::NotStrictlyAscending);
    assert_eq!(refused(&mut table, LeapEntry::new(11, 0)), Error::OffsetOverflow);
}

#[test]
fn lists_to_build_from() {
    let swapped = [LeapEntry::new(5, 20), LeapEntry::new(4, 21)];
    let jump = [LeapEntry::new(4, 20), LeapEntry::new(5, 22)];
    let past_the_largest = [LeapEntry::new(4, i32::MAX), LeapEntry::new(5, i32::MIN)];
    assert_eq!(LeapTable::from_entries(&[]), Err(Error::EmptyTable));
    assert_eq!(LeapTable::from_entries(&swapped), Err(Error::NotStrictlyAscending));
    assert_eq!(LeapTable::from_entries(&jump), Err(Error::NonUnitIncrement));
    assert_eq!(LeapTable::from_entries(&past_the_largest), Err(Error::OffsetOverflow));
    for many in [65, 66, 1000] {
        assert_eq!(LeapTable::from_entries(&rising(many, 0)), Err(Error::BufferFull));
        assert_eq!(LeapTable::from_entries(&vec![LeapEntry::new(0, 0); many]), Err(Error::BufferFull));
    }
    let most = rising(64, -3);
    assert_eq!(LeapTable::from_entries(&most).unwrap().entries().collect::<Vec<_>>(), most);
}

#[test]
fn a_table_comes_back_from_its_image() {
    for table in [LeapTable::new(), LeapTable::builtin(), LeapTable::from_entries(&rising(64, i32::MIN)).unwrap()] {
        assert_eq!(LeapTable::from_image(*table.as_image()), Ok(table));
    }
}

#[test]
fn forged_images_are_refused_by_8() {
    let good = *LeapTable::builtin().as_image();
    let forged = |place: usize, byte: u8| {
        let mut image = good;
        image[place] = byte;
        LeapTable::from_image(image)
    };
    let bad = Err(Error::BadTable);
    assert_eq!(LeapTable::from_image([0xff; 784]), bad);
    assert_eq!(forged(0, 65), bad, "more than 64 entries");
    assert_eq!(forged(7, 1), bad, "far more than 64 entries");
    assert_eq!(forged(0, 20), bad, "an entry of zeros after the last");
    assert_eq!(forged(8 + 7, 0x7f), bad, "a first threshold above the second");
    assert_eq!(forged(520, 18), bad, "a first offset two below the second");
    assert!(forged(0, 18).is_ok(), "one entry fewer is a table");
    assert!(forged(783, 0).is_ok(), "any expiry is one");
}

#[test]
fn stored_bytes_of_another_number_are_refused_by_8() {
    let stored = [&LeapTable::builtin().as_image()[..], &[0; 8]].concat();
    for bytes in [0, 8, 775, 776, 777, 783, 785, 792] {
        assert_eq!(LeapTable::try_from(&stored[..bytes]), Err(Error::BadTable), "{bytes} bytes");
    }
    assert_eq!(LeapTable::try_from(&stored[..784]), Ok(LeapTable::builtin()));
    // the version before had 776 bytes: its table is taken with no expiry after it
    let moved = [&stored[..776], &u64::MAX.to_le_bytes()].concat();
    assert_eq!(LeapTable::try_from(&moved[..]), Ok(LeapTable::builtin()));
}

#[test]
fn bytes_behind_the_last_entry_do_not_matter_until_they_are_written() {
    let mut image = *LeapTable::builtin().as_image();
    image[8 + 8 * 19..520].fill(0xaa);
    let mut table = LeapTable::from_image(image).unwrap();
    assert_eq!(utc_to_gps(Utc::MAX, &table), Utc::MAX.to_gps());
    let entry = LeapEntry::new(u64::MAX, 38);
    assert_eq!(table.try_extend(entry), Ok(()));
    assert_eq!(table.entry(19), Some(entry));
    assert_eq!(table.as_image()[8 + 8 * 20..520], image[8 + 8 * 20..520]);
}

#[test]
fn an_offset_that_is_too_low_is_refused_by_9() {
    let at = |offset| LeapTable::from_entries(&[LeapEntry::new(0, offset)]).unwrap();
    assert_eq!(Gps::EPOCH.to_utc_with(&at(-2_147_483_630)), Err(Error::OffsetRange));
    assert_eq!(Utc::EPOCH.to_gps_with(&at(-2_147_483_630)), Err(Error::OffsetRange));
    assert_eq!(Gps::MAX.to_utc_with(&at(-2_147_483_630)), Err(Error::Overflow));
    // 252,892,800 + 2,147,483,629 + 19
    assert_eq!(Gps::EPOCH.to_utc_with(&at(-2_147_483_629)).unwrap().as_seconds(), 2_400_376_448);
}

#[test]
fn any_table_can_be_asked_through_the_trait() {
    fn latest<P: LeapSecondsProvider>(table: &P) -> i32 {
        table.tai_minus_utc_at(Tai::MAX)
    }
    assert_eq!(latest(LeapSeconds::builtin()), 37);
    assert_eq!(latest(&LeapSeconds::builtin()), 37);
    assert_eq!(latest(&LeapTable::new()), 19);
}

#[test]
fn a_table_shows_its_entries() {
    let table = LeapTable::from_entries(&[LeapEntry::new(4, 20)]).unwrap();
    assert_eq!(format!("{table:?}"), "[LeapEntry { tai_nanos: 4, tai_minus_utc: 20 }]");
    let table = table.with_expiry(Some(Tai::from_nanos(9)));
    assert_eq!(format!("{table:?}"), "expires 9: [LeapEntry { tai_nanos: 4, tai_minus_utc: 20 }]");
}

fn bytes_of(entries: &[LeapEntry]) -> Vec<u8> {
    entries.iter().flat_map(|entry| entry.to_bytes()).collect()
}

#[test]
fn a_lent_list_has_no_limit_and_answers_as_a_table() {
    for count in [1, 2, 19, 64, 65, 200] {
        let entries = rising(count, -3);
        let bytes = bytes_of(&entries);
        let list = LeapList::try_from_slice(&bytes).expect("a rising list is taken");
        assert_eq!((list.len(), list.is_empty(), list.as_bytes()), (count, false, &bytes[..]));
        assert_eq!(list.current_tai_minus_utc(), entries[count - 1].tai_minus_utc);
        let last = Tai::from_nanos(entries[count - 1].tai_nanos);
        assert_eq!(list.last_update(), (count > 1).then_some(last));
        for entry in &entries {
            assert_eq!(list.tai_minus_utc_at(Tai::from_nanos(entry.tai_nanos)), entry.tai_minus_utc);
        }
        if let Ok(table) = LeapTable::from_entries(&entries) {
            for tai in (0..count as u64 * 1_000_000_000).step_by(333_333_333).map(Tai::from_nanos) {
                assert_eq!(list.tai_minus_utc_at(tai), table.tai_minus_utc_at(tai));
            }
        }
    }
}

#[test]
fn a_lent_list_is_refused_as_a_table_is_but_for_its_length() {
    let mut entries = rising(100, 5);
    let bytes = bytes_of(&entries);
    assert_eq!(LeapList::try_from_slice(&[]), Err(Error::EmptyTable));
    for short in 1..12 {
        assert_eq!(LeapList::try_from_slice(&bytes[short..]), Err(Error::BadTable));
    }
    entries[70].tai_minus_utc += 1;
    assert_eq!(LeapList::try_from_slice(&bytes_of(&entries)), Err(Error::NonUnitIncrement));
    entries[69].tai_nanos = entries[70].tai_nanos;
    assert_eq!(LeapList::try_from_slice(&bytes_of(&entries)), Err(Error::NotStrictlyAscending));
    let last = [LeapEntry::new(0, i32::MAX), LeapEntry::new(1, 0)];
    assert_eq!(LeapList::try_from_slice(&bytes_of(&last)), Err(Error::OffsetOverflow));
}
