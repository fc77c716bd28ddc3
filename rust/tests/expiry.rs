//! Tables that go stale: from the expiry on the calls say so, and the counts stay as they are.

use plaitgate::*;
use std::fmt::Debug;

/// An expiry between the last leap second and the end of counts, as a TAI count.
const EXPIRY: u64 = 1_466_640_037_000_000_000;
const SECOND: u64 = 1_000_000_000;

fn expiring_at(tai: u64) -> LeapTable {
    LeapTable::builtin().with_expiry(Some(Tai::from_nanos(tai)))
}

/// Whether an answer is stale; none where it is refused.
fn stale<T>(answer: Result<Dated<T>>) -> Option<bool> {
    answer.ok().map(|answer| answer.stale)
}

/// Every call by a table on one number: whether it is stale, and what it answers with and without telling.
fn all<P: LeapSecondsProvider>(number: u64, table: &P) -> Vec<(Option<bool>, String, String)> {
    fn said<T: Debug, E: Debug>(dated: Result<Dated<T>, E>, plain: Result<T, E>) -> (Option<bool>, String, String) {
        let stale = dated.as_ref().ok().map(|answer| answer.stale);
        (stale, format!("{:?}", dated.map(Dated::into_value)), format!("{plain:?}"))
    }
    let (tai, gps, utc) = (Tai::from_nanos(number), Gps::from_nanos(number), Utc::from_nanos(number));
    let (glonass, galileo) = (Glonass::from_nanos(number), Galileo::from_nanos(number));
    let (beidou, unix) = (Beidou::from_nanos(number), (number / SECOND) as i64);
    vec![
        said::<_, Error>(Ok(table.tai_minus_utc_at_dated(tai)), Ok(table.tai_minus_utc_at(tai))),
        said(gps_to_utc_dated(gps, table), gps_to_utc(gps, table)),
        said(utc_to_gps_dated(utc, table), utc_to_gps(utc, table)),
        said(gps_to_glonass_dated(gps, table), gps_to_glonass(gps, table)),
        said(glonass_to_gps_dated(glonass, table), glonass_to_gps(glonass, table)),
        said(gps.to_utc_dated(table), gps.to_utc_with(table)),
        said(utc.to_gps_dated(table), utc.to_gps_with(table)),
        said(gps.as_unix_seconds_dated(table), gps.as_unix_seconds(table)),
        said(Gps::from_unix_seconds_dated(unix, table), Gps::from_unix_seconds(unix, table)),
        said(gps.to_civil_dated(table), gps.to_civil_with(table)),
        said(utc.to_civil().to_gps_dated(table), utc.to_civil().to_gps_with(table)),
        said(galileo_to_utc_dated(galileo, table), galileo_to_utc(galileo, table)),
        said(utc_to_galileo_dated(utc, table), utc_to_galileo(utc, table)),
        said(galileo_to_glonass_dated(galileo, table), galileo_to_glonass(galileo, table)),
        said(glonass_to_galileo_dated(glonass, table), glonass_to_galileo(glonass, table)),
        said(galileo.to_utc_dated(table), galileo.to_utc_with(table)),
        said(utc.to_galileo_dated(table), utc.to_galileo_with(table)),
        said(beidou_to_utc_dated(beidou, table), beidou_to_utc(beidou, table)),
        said(utc_to_beidou_dated(utc, table), utc_to_beidou(utc, table)),
        said(beidou_to_glonass_dated(beidou, table), beidou_to_glonass(beidou, table)),
        said(glonass_to_beidou_dated(glonass, table), glonass_to_beidou(glonass, table)),
        said(beidou.to_utc_dated(table), beidou.to_utc_with(table)),
        said(utc.to_beidou_dated(table), utc.to_beidou_with(table)),
    ]
}

/// Numbers from all over, and both ends.
fn sweep() -> impl Iterator<Item = u64> {
    let spread = (0..2_000).map(|k: u64| k.wrapping_mul(0x9e37_79b9_7f4a_7c15));
    let low = (0..400).map(|k| k * 5_000_000 * SECOND);
    spread.chain(low).chain([0, 1, u64::MAX - 1, u64::MAX])
}

#[test]
fn an_expiry_is_given_and_taken_away() {
    let table = expiring_at(EXPIRY);
    assert_eq!(table.expiry(), Some(Tai::from_nanos(EXPIRY)));
    assert_ne!(table, LeapTable::builtin());
    assert_eq!(LeapTable::from_image(*table.as_image()), Ok(table.clone()));
    assert_eq!(table.as_image()[776..], EXPIRY.to_le_bytes());
    assert_eq!(table.as_image()[..776], LeapTable::builtin().as_image()[..776]);
    assert_eq!(table.clone().with_expiry(None), LeapTable::builtin());
    assert_eq!(table.with_expiry(Some(Tai::MAX)), LeapTable::builtin());
    for tai in [0, 1, u64::MAX - 1] {
        assert_eq!(expiring_at(tai).expiry(), Some(Tai::from_nanos(tai)));
    }
    for none in [LeapTable::new(), LeapTable::builtin(), LeapTable::from_entries(&[LeapEntry::new(5, 5)]).unwrap()] {
        assert_eq!(none.expiry(), None);
    }
}

#[test]
fn one_nanosecond_before_the_expiry_no_and_at_it_yes() {
    let table = expiring_at(EXPIRY);
    for (tai, due) in [(EXPIRY - 1, false), (EXPIRY, true), (EXPIRY + 1, true)] {
        let gps = Gps::from_tai(Tai::from_nanos(tai)).unwrap();
        let utc = gps.to_utc().unwrap();
        let glonass = utc_to_glonass(utc).unwrap();
        let (galileo, beidou) = (gps.to_galileo().unwrap(), gps.to_beidou().unwrap());
        assert_eq!(table.tai_minus_utc_at_dated(Tai::from_nanos(tai)), Dated { value: 37, stale: due });
        assert_eq!(gps_to_utc_dated(gps, &table), Ok(Dated { value: utc, stale: due }));
        assert_eq!(utc_to_gps_dated(utc, &table), Ok(Dated { value: gps, stale: due }));
        assert_eq!(gps_to_glonass_dated(gps, &table), Ok(Dated { value: glonass, stale: due }));
        assert_eq!(glonass_to_gps_dated(glonass, &table), Ok(Dated { value: gps, stale: due }));
        assert_eq!(galileo.to_utc_dated(&table), Ok(Dated { value: utc, stale: due }));
        assert_eq!(utc.to_galileo_dated(&table), Ok(Dated { value: galileo, stale: due }));
        assert_eq!(galileo_to_glonass_dated(galileo, &table), Ok(Dated { value: glonass, stale: due }));
        assert_eq!(glonass_to_galileo_dated(glonass, &table), Ok(Dated { value: galileo, stale: due }));
        assert_eq!(beidou.to_utc_dated(&table), Ok(Dated { value: utc, stale: due }));
        assert_eq!(utc.to_beidou_dated(&table), Ok(Dated { value: beidou, stale: due }));
        assert_eq!(beidou_to_glonass_dated(beidou, &table), Ok(Dated { value: glonass, stale: due }));
        assert_eq!(glonass_to_beidou_dated(glonass, &table), Ok(Dated { value: beidou, stale: due }));
    }
    // Unix time has whole seconds
    for (tai, due) in [(EXPIRY - SECOND, false), (EXPIRY, true)] {
        let gps = Gps::from_tai(Tai::from_nanos(tai)).unwrap();
        let unix = gps.as_unix_seconds(&table).unwrap();
        assert_eq!(gps.as_unix_seconds_dated(&table), Ok(Dated { value: unix, stale: due }));
        assert_eq!(Gps::from_unix_seconds_dated(unix, &table), Ok(Dated { value: gps, stale: due }));
    }
}

#[test]
fn from_utc_the_reading_that_was_looked_up_last_tells() {
    // in the second inserted at the end of 2016 both lookups find 36, and b is the answer's own reading
    let inserted = Gps::from_nanos(1_167_264_017 * SECOND);
    let utc = inserted.to_utc().unwrap();
    let b = 1_167_264_036 * SECOND;
    assert_eq!(stale(utc.to_gps_dated(&expiring_at(b))), Some(true));
    assert_eq!(stale(utc.to_gps_dated(&expiring_at(b + 1))), Some(false));
    // five seconds into 2017 the first lookup finds 36 and the second 37: b is a second before the answer's own reading
    let utc = Gps::from_nanos(1_167_264_023 * SECOND).to_utc().unwrap();
    let own = utc.to_gps().unwrap().to_tai().unwrap().as_nanos();
    assert_eq!(stale(utc.to_gps_dated(&expiring_at(own))), Some(false));
    assert_eq!(stale(utc.to_gps_dated(&expiring_at(own - SECOND))), Some(true));
    assert_eq!(stale(utc.to_gps_dated(&expiring_at(own - SECOND + 1))), Some(false));
}

#[test]
fn a_later_count_of_beidou_tells_by_its_own_reading() {
    let epoch = Beidou::EPOCH.to_gps().unwrap().to_tai().unwrap().as_nanos();
    let utc = Beidou::EPOCH.to_utc().unwrap();
    assert_eq!(utc.to_beidou_dated(&expiring_at(epoch)), Ok(Dated { value: Beidou::EPOCH, stale: true }));
    assert_eq!(utc.to_beidou_dated(&expiring_at(epoch + 1)), Ok(Dated { value: Beidou::EPOCH, stale: false }));
}

#[test]
fn extension_keeps_the_expiry_and_so_does_a_refused_one() {
    let mut table = expiring_at(EXPIRY);
    assert_eq!(table.try_extend(LeapEntry::new(0, 38)), Err(Error::NotStrictlyAscending));
    assert_eq!(table, expiring_at(EXPIRY));
    table.try_extend(LeapEntry::new(EXPIRY + 1, 38)).unwrap();
    assert_eq!((table.len(), table.expiry()), (20, Some(Tai::from_nanos(EXPIRY))));
    let mut plain = LeapTable::builtin();
    plain.try_extend(LeapEntry::new(EXPIRY + 1, 38)).unwrap();
    assert_eq!((plain.expiry(), &table.with_expiry(None)), (None, &plain));
}

#[test]
fn a_refused_call_tells_nothing() {
    // every reading is past this expiry
    let table = expiring_at(0);
    assert_eq!(gps_to_utc_dated(Gps::MAX, &table), Err(Error::Overflow));
    assert_eq!(utc_to_gps_dated(Utc::EPOCH, &table), Err(Error::Overflow));
    assert_eq!(utc_to_beidou_dated(Utc::EPOCH, &table), Err(Error::Overflow));
    let low = LeapTable::from_entries(&[LeapEntry::new(0, i32::MIN)]).unwrap().with_expiry(Some(Tai::EPOCH));
    assert_eq!(gps_to_utc_dated(Gps::EPOCH, &low), Err(Error::OffsetRange));
    assert_eq!(low.tai_minus_utc_at_dated(Tai::EPOCH), Dated { value: i32::MIN, stale: true });
}

#[test]
fn without_an_expiry_nothing_is_stale() {
    let full: Vec<LeapEntry> = (0..64).map(|k| LeapEntry::new(k * SECOND, k as i32)).collect();
    for table in [LeapTable::new(), LeapTable::builtin(), LeapTable::from_entries(&full).unwrap()] {
        for number in sweep() {
            assert!(all(number, &table).iter().all(|(stale, ..)| *stale != Some(true)), "{number} by {table:?}");
        }
    }
    let bytes: Vec<u8> = full.iter().flat_map(|entry| entry.to_bytes()).collect();
    let list = LeapList::try_from_slice(&bytes).unwrap();
    for number in sweep() {
        assert!(all(number, LeapSeconds::builtin()).iter().all(|(stale, ..)| *stale != Some(true)), "{number}");
        assert!(!list.tai_minus_utc_at_dated(Tai::from_nanos(number)).stale, "{number}");
    }
    assert!(expiring_at(u64::MAX - 1).tai_minus_utc_at_dated(Tai::MAX).stale);
}

#[test]
fn the_count_is_the_same_with_and_without_an_expiry() {
    let plain = LeapTable::builtin();
    for expiry in [0, EXPIRY, u64::MAX - 1] {
        let table = expiring_at(expiry);
        for number in sweep() {
            let pairs = all(number, &table).into_iter().zip(all(number, &plain));
            for ((stale, dated, value), (_, dated_without, without)) in pairs {
                assert_eq!([&dated, &value, &dated_without], [&without; 3], "{number}");
                assert!(expiry > 0 || stale != Some(false), "{number} is past an expiry of 0");
            }
        }
    }
}
