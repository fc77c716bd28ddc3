//! Tables from a leap-seconds.list: the published one is the built-in table, and each refusal comes where it should.

use plaitgate::{CivilDateTime, Dated, Error, Gps, LeapEntry, LeapTable, ListError, Tai, Utc};

const PUBLISHED: &[u8] = include_bytes!("../../data/leap-seconds.list");

fn refused(list: impl AsRef<[u8]>) -> (Error, Option<u64>) {
    let refused: ListError = LeapTable::from_leap_seconds_list(list.as_ref()).expect_err("the list was taken");
    assert_eq!(Error::from(refused), refused.error());
    (refused.error(), refused.line())
}

/// The lines of a number of records, a million seconds apart, from an offset on; that of 19 is before the GPS epoch.
fn rising(records: u64, first: u64) -> String {
    (first..first + records)
        .map(|offset| format!("{} {offset}\n", 2_524_521_600 + 1_000_000 * offset - 19_000_000))
        .collect()
}

fn published() -> LeapTable {
    LeapTable::from_leap_seconds_list(PUBLISHED).expect("the published list is a table")
}

#[test]
fn the_published_list_is_the_built_in_table_with_an_expiry() {
    assert_eq!(published().with_expiry(None), LeapTable::from_builtin());
}

#[test]
fn the_published_list_expires_on_the_date_that_it_says() {
    let text = String::from_utf8(PUBLISHED.to_vec()).expect("text");
    assert!(text.contains("\tFile expires on 28 June 2026\n"));
    assert!(text.contains("\n#@\t3991593600\n"));
    let midnight = CivilDateTime { year: 2026, month: 6, day: 28, hour: 0, minute: 0, second: 0, nanos: 0 };
    let utc = midnight.to_utc().expect("a count");
    let table = published();
    let expiry = table.expiry().expect("the list has an expiry");
    assert_eq!(expiry, Tai::from_nanos((3_991_593_600 - 2_524_953_600 + 37) * 1_000_000_000));
    let gps = Gps::from_tai(expiry).expect("a count");
    assert_eq!(gps.to_utc_dated(&table), Ok(Dated { value: utc, stale: true }));
    assert_eq!(utc.to_gps_dated(&table), Ok(Dated { value: gps, stale: true }));
    let before = Utc::from_nanos(utc.as_nanos() - 1);
    let gps_before = Gps::from_nanos(gps.as_nanos() - 1);
    assert_eq!(gps_before.to_utc_dated(&table), Ok(Dated { value: before, stale: false }));
    assert_eq!(before.to_gps_dated(&table), Ok(Dated { value: gps_before, stale: false }));
}

#[test]
fn the_expiry_goes_by_the_last_offset_wherever_its_line_is() {
    let expiry = |list: &str| LeapTable::from_leap_seconds_list(list.as_bytes()).map(|table| table.expiry());
    let at = |seconds: u64| Ok(Some(Tai::from_nanos(seconds * 1_000_000_000)));
    assert_eq!(expiry("#@ 2524953600\n0 19\n"), at(19));
    assert_eq!(expiry("0 19\n#@ 2524953600\n2571782400 20\n"), at(20));
    assert_eq!(expiry("0 18\n1 19\n2571782400 20\n#@ \t2524953600\t "), at(20));
    assert_eq!(expiry("0 19\n"), Ok(None));
    assert_eq!(expiry("0 19\n# @ 1\n##@ 1\n#$ 1\n"), Ok(None));
    // the first count, and the last second that begins within the counts
    assert_eq!(expiry("#@ 2524953581\n0 19\n"), at(0));
    assert_eq!(expiry("#@ 20971697654\n0 19\n"), at(18_446_744_073));
}

#[test]
fn a_second_or_malformed_expiry_is_named() {
    for line in ["#@", "#@ ", "#@1", "#@ x", "#@ 1x", "#@ 1 2", "#@ 1 # 1900", "#@ -1", "#@ 1\r"] {
        assert_eq!(refused(format!("# 1\n{line}\n0 19\n")), (Error::BadList, Some(2)), "{line:?}");
    }
    assert_eq!(refused("#@ 18446744073709551616\n0 19\n"), (Error::BadList, Some(1)));
    assert_eq!(refused("#@ 000000000000000000001\n0 19\n"), (Error::BadList, Some(1)));
    assert_eq!(refused("#@ 2524953600\n0 19\n#@ 2524953600\n"), (Error::BadList, Some(3)));
    assert_eq!(refused("#@ 2524953600\n#@ x\ny\n"), (Error::BadList, Some(2)));
    // before 6
    assert_eq!(refused("#@ x\n"), (Error::BadList, Some(1)));
    assert_eq!(refused("#@ 0\n"), (Error::EmptyTable, None));
}

#[test]
fn an_expiry_that_is_no_count_is_1() {
    let none = |error| (error, None);
    assert_eq!(refused("#@ 2524953580\n0 19\n"), none(Error::Overflow));
    assert_eq!(refused("#@ 20971697655\n0 19\n"), none(Error::Overflow));
    assert_eq!(refused("#@ 18446744073709551615\n0 19\n"), none(Error::Overflow));
    // after 12 without a line, and before 5 and 3
    assert_eq!(refused("#@ 0\n0 18\n"), none(Error::BadList));
    assert_eq!(refused(format!("#@ 0\n{}", rising(66, 18))), none(Error::Overflow));
    assert_eq!(refused("#@ 0\n5 18\n5 19\n"), none(Error::Overflow));
}

#[test]
fn the_last_line_may_end_with_the_file() {
    let list = PUBLISHED.strip_suffix(b"\n").expect("the published list ends with LF");
    assert_eq!(LeapTable::from_leap_seconds_list(list), Ok(published()));
}

#[test]
fn comments_and_blanks_do_not_matter() {
    let list = b"\n \t\n#\r#\n0018 18\n0019\t \t019\t#\r.\n#\n2571782400 20#c";
    let table = LeapTable::from_leap_seconds_list(list).expect("a list");
    assert_eq!(
        table.entries().collect::<Vec<_>>(),
        [LeapEntry::new(0, 19), LeapEntry::new(46_828_820_000_000_000, 20)]
    );
}

#[test]
fn cr_lf_is_refused_at_line_1() {
    let list = String::from_utf8(PUBLISHED.to_vec()).expect("text").replace('\n', "\r\n");
    assert_eq!(refused(list), (Error::BadList, Some(1)));
}

#[test]
fn a_malformed_line_is_named() {
    let text = String::from_utf8(PUBLISHED.to_vec()).expect("text");
    let last = text.lines().position(|line| line.starts_with("3692217600")).expect("the entry of 2017") as u64 + 1;
    assert_eq!(refused(text.replace("3692217600", "3692217600.")), (Error::BadList, Some(last)));
    assert_eq!(refused(text.replace("3692217600", " 3692217600")), (Error::BadList, Some(last)));
    assert_eq!(refused(text.replace("# 1 Jan 2017", "1 Jan 2017")), (Error::BadList, Some(last)));
    // the first of two comes before any other refusal
    assert_eq!(refused("# 1\n\n0 20\nx\n0 20\ny\n"), (Error::BadList, Some(4)));
    let malformed =
        ["0", "0 ", "0 19 20", "18446744073709551616 19", "0 2147483648", "000000000000000000000 19", "0 19\r"];
    for line in malformed {
        assert_eq!(refused(line), (Error::BadList, Some(1)), "{line:?}");
    }
}

#[test]
fn each_refusal() {
    let none = |error| (error, None);
    // 12 without a line
    assert_eq!(refused("#".repeat(65_537)), none(Error::BadList));
    assert_eq!(refused("0 18\n"), none(Error::BadList));
    // 6
    assert_eq!(refused(""), none(Error::EmptyTable));
    assert_eq!(refused("#".repeat(65_536)), none(Error::EmptyTable));
    // 1: 18,446,744,073 s are the last that fit
    assert!(LeapTable::from_leap_seconds_list(b"0 19\n20971697653 20\n").is_ok());
    assert_eq!(refused("0 19\n20971697654 20\n"), none(Error::Overflow));
    // 5
    assert_eq!(LeapTable::from_leap_seconds_list(rising(65, 18).as_bytes()).map(|table| table.len()), Ok(64));
    assert_eq!(refused(rising(66, 18)), none(Error::BufferFull));
    // 3: by NTP seconds up to the first 19, by thresholds after it
    assert_eq!(refused("5 18\n5 19\n"), none(Error::NotStrictlyAscending));
    assert!(LeapTable::from_leap_seconds_list(b"9999999999 19\n2524953581 20\n").is_ok());
    assert_eq!(refused("0 19\n2524953580 20\n"), none(Error::NotStrictlyAscending));
    // 7
    assert_eq!(refused("0 2147483647\n1 19\n"), none(Error::OffsetOverflow));
    // 4
    assert_eq!(refused("0 17\n1 19\n"), none(Error::NonUnitIncrement));
    assert_eq!(refused("0 19\n2571782400 21\n"), none(Error::NonUnitIncrement));
}

#[test]
fn a_refused_list_says_why() {
    let said = |list: &str| LeapTable::from_leap_seconds_list(list.as_bytes()).expect_err("no list").to_string();
    assert_eq!(said("#\n\nx\n"), "line 3 is malformed");
    assert_eq!(said("0 18"), "the list has more than 65,536 bytes, or no line with the offset 19");
    assert_eq!(said("0 19\n2571782400 21\n"), Error::NonUnitIncrement.to_string());
}

#[test]
fn a_refused_list_is_an_error_of_std() {
    let boxed: Box<dyn std::error::Error> = LeapTable::from_leap_seconds_list(b"x").expect_err("no list").into();
    assert_eq!(boxed.to_string(), "line 1 is malformed");
}
