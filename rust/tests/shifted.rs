//! Scales whose counts are those of GPS less a fixed number of seconds: the ways to GPS, UTC and GLONASS and back, at
//! the edges and by tables that insert a second before the epoch; and weeks.

use plaitgate::{
    beidou_to_glonass, beidou_to_utc, galileo_to_glonass, galileo_to_utc, glonass_to_beidou, glonass_to_galileo,
    glonass_to_utc, utc_to_beidou, utc_to_galileo, utc_to_glonass, Beidou, CivilDateTime, Duration, DurationParts,
    Error, Galileo, Glonass, Gps, LeapEntry, LeapSeconds, LeapSecondsProvider, LeapTable, Result, Utc, BEIDOU_EPOCH,
    GALILEO_EPOCH, GPS_EPOCH,
};

const SECOND: u64 = 1_000_000_000;
const DAY: u64 = 86_400 * SECOND;
/// UTC less GPS, where TAI is 19 s ahead of UTC.
const GPS_EPOCH_IN_UTC: u64 = 252_892_800 * SECOND;
const GLONASS_EPOCH_IN_UTC: u64 = 757_371_600 * SECOND;
const LAST_GPS_WITH_UTC: u64 = 18_193_851_291_709_551_615;

fn table(entries: &[(u64, i32)]) -> LeapTable {
    let entries: Vec<LeapEntry> = entries.iter().map(|&(tai, offset)| LeapEntry::new(tai, offset)).collect();
    LeapTable::from_entries(&entries).expect("a rising list")
}

/// Numbers that are spread over all of 64 bits, and those next to the ends.
fn spread() -> impl Iterator<Item = u64> {
    let step = 0x9e37_79b9_7f4a_7c15_u64;
    (0..2_000).map(move |k: u64| k.wrapping_mul(step)).chain([0, 1, u64::MAX - 1, u64::MAX])
}

/// The same for each scale: they share no type, so that it is said by a macro. The numbers are the seconds that are
/// added for GPS, and those of the epoch's UTC count by the built-in table.
macro_rules! shifted {
    ($name:ident, $Scale:ident, $shift:literal, $epoch_in_utc:literal, $to_scale:ident, $to_scale_with:ident,
        $to_utc:ident, $from_utc:ident, $to_glonass:ident, $from_glonass:ident) => {
        mod $name {
            use super::*;

            const SHIFT: u64 = $shift * SECOND;
            const EPOCH_IN_UTC: u64 = $epoch_in_utc * SECOND;
            const EPOCH_IN_TAI: u64 = SHIFT + 19 * SECOND;

            fn count(nanos: u64) -> $Scale {
                $Scale::from_nanos(nanos)
            }

            fn of_utc(nanos: u64) -> Result<u64> {
                Utc::from_nanos(nanos).$to_scale().map($Scale::as_nanos)
            }

            fn of_utc_with(nanos: u64, table: &LeapTable) -> Result<u64> {
                Utc::from_nanos(nanos).$to_scale_with(table).map($Scale::as_nanos)
            }

            #[test]
            fn gps_at_the_ends() {
                assert_eq!($Scale::EPOCH.to_gps(), Ok(Gps::from_nanos(SHIFT)));
                assert_eq!(count(u64::MAX - SHIFT).to_gps(), Ok(Gps::MAX));
                assert_eq!(count(u64::MAX - SHIFT + 1).to_gps(), Err(Error::Overflow));
                assert_eq!($Scale::MAX.to_gps(), Err(Error::Overflow));
                assert_eq!(Gps::EPOCH.$to_scale(), Err(Error::Overflow));
                assert_eq!(Gps::from_nanos(SHIFT - 1).$to_scale(), Err(Error::Overflow));
                assert_eq!(Gps::from_nanos(SHIFT).$to_scale(), Ok($Scale::EPOCH));
                assert_eq!(Gps::MAX.$to_scale(), Ok(count(u64::MAX - SHIFT)));
            }

            #[test]
            fn utc_and_glonass_at_the_ends() {
                let last = count(LAST_GPS_WITH_UTC - SHIFT);
                assert_eq!(last.to_utc(), Ok(Utc::MAX));
                assert_eq!(Utc::MAX.$to_scale(), Ok(last));
                assert_eq!(count(last.as_nanos() + 1).to_utc(), Err(Error::Overflow));
                assert_eq!($Scale::MAX.to_utc(), Err(Error::Overflow));
                let builtin = LeapSeconds::builtin();
                assert_eq!($to_glonass(last, builtin), utc_to_glonass(Utc::MAX));
                assert_eq!($to_glonass(count(last.as_nanos() + 1), builtin), Err(Error::Overflow));
                assert_eq!($from_glonass(Glonass::MAX, builtin), Err(Error::Overflow));
                assert_eq!($from_glonass(Glonass::EPOCH, builtin), Err(Error::Overflow));
            }

            #[test]
            fn the_epoch_and_its_neighbours() {
                assert_eq!($Scale::EPOCH.to_utc(), Ok(Utc::from_nanos(EPOCH_IN_UTC)));
                assert_eq!(of_utc(EPOCH_IN_UTC - 1), Err(Error::Overflow));
                for nanos in [0, 1, SECOND - 1, SECOND, SECOND + 1, DAY] {
                    assert_eq!(of_utc(EPOCH_IN_UTC + nanos), Ok(nanos));
                    assert_eq!(of_utc_with(EPOCH_IN_UTC + nanos, &LeapTable::builtin()), Ok(nanos));
                }
                let builtin = LeapSeconds::builtin();
                let glonass = Glonass::from_nanos(EPOCH_IN_UTC - GLONASS_EPOCH_IN_UTC);
                assert_eq!($to_glonass($Scale::EPOCH, builtin), Ok(glonass));
                assert_eq!($from_glonass(glonass, builtin), Ok($Scale::EPOCH));
                let before = Glonass::from_nanos(glonass.as_nanos() - 1);
                assert_eq!($from_glonass(before, builtin), Err(Error::Overflow));
            }

            #[test]
            fn a_regular_table_that_inserts_the_second_before_the_epoch() {
                let own = table(&[(0, 19), (EPOCH_IN_TAI, 20)]);
                let epoch = SHIFT + GPS_EPOCH_IN_UTC - SECOND;
                assert_eq!($Scale::EPOCH.to_utc_with(&own), Ok(Utc::from_nanos(epoch)));
                assert_eq!(of_utc_with(epoch - 1, &own), Err(Error::Overflow));
                for nanos in [0, 1, SECOND - 1, SECOND, SECOND + 1] {
                    assert_eq!(of_utc_with(epoch + nanos, &own), Ok(nanos));
                }
                // thresholds a day apart are regular, on either side of the epoch
                assert_eq!(of_utc_with(epoch, &table(&[(0, 19), (EPOCH_IN_TAI, 20), (EPOCH_IN_TAI + DAY, 21)])), Ok(0));
                let before = table(&[(0, 19), (EPOCH_IN_TAI - DAY, 20), (EPOCH_IN_TAI, 21)]);
                assert_eq!(of_utc_with(epoch - SECOND, &before), Ok(0));
            }

            #[test]
            fn a_regular_table_that_inserts_a_second_half_a_second_earlier() {
                let own = table(&[(0, 19), (EPOCH_IN_TAI - SECOND / 2, 20)]);
                let epoch = SHIFT + GPS_EPOCH_IN_UTC - SECOND;
                assert_eq!(of_utc_with(epoch - 1, &own), Err(Error::Overflow));
                for nanos in [0, 1, SECOND / 2 - 1, SECOND / 2, SECOND] {
                    assert_eq!(of_utc_with(epoch + nanos, &own), Ok(nanos));
                }
            }

            #[test]
            fn a_table_that_is_not_regular_gives_the_first_of_two_or_none() {
                let late = table(&[(0, 32), (EPOCH_IN_TAI, 33)]);
                let epoch = SHIFT + GPS_EPOCH_IN_UTC - 14 * SECOND;
                assert_eq!($Scale::EPOCH.to_utc_with(&late), Ok(Utc::from_nanos(epoch)));
                assert_eq!(of_utc_with(epoch, &late), Err(Error::Overflow));
                assert_eq!(of_utc_with(epoch + SECOND - 1, &late), Err(Error::Overflow));
                assert_eq!(of_utc_with(epoch + SECOND, &late), Ok(SECOND));
                let epoch = SHIFT + GPS_EPOCH_IN_UTC - SECOND;
                assert_eq!(of_utc_with(epoch, &table(&[(1, 19), (EPOCH_IN_TAI, 20)])), Err(Error::Overflow));
                let near = table(&[(0, 19), (EPOCH_IN_TAI, 20), (EPOCH_IN_TAI + DAY - 1, 21)]);
                assert_eq!(of_utc_with(epoch, &near), Err(Error::Overflow));
                let near = table(&[(0, 19), (EPOCH_IN_TAI - DAY + 1, 20), (EPOCH_IN_TAI, 21)]);
                assert_eq!(of_utc_with(epoch - SECOND, &near), Err(Error::Overflow));
            }

            #[test]
            fn a_table_with_no_entry_and_an_offset_that_is_too_low() {
                let (none, low) = (LeapTable::new(), table(&[(0, -2_147_483_630)]));
                assert_eq!($Scale::EPOCH.to_utc_with(&none), Ok(Utc::from_nanos(SHIFT + GPS_EPOCH_IN_UTC)));
                assert_eq!(of_utc_with(SHIFT + GPS_EPOCH_IN_UTC, &none), Ok(0));
                assert_eq!(of_utc_with(SHIFT + GPS_EPOCH_IN_UTC - 1, &none), Err(Error::Overflow));
                assert_eq!($Scale::EPOCH.to_utc_with(&low), Err(Error::OffsetRange));
                assert_eq!($Scale::MAX.to_utc_with(&low), Err(Error::Overflow));
                assert_eq!(of_utc_with(0, &low), Err(Error::OffsetRange));
                assert_eq!($to_glonass($Scale::EPOCH, &low), Err(Error::OffsetRange));
                assert_eq!($from_glonass(Glonass::EPOCH, &low), Err(Error::OffsetRange));
            }

            #[test]
            fn conversions_there_and_back() {
                for nanos in spread() {
                    match count(nanos).to_gps() {
                        Ok(gps) => {
                            assert_eq!(gps.as_nanos() - nanos, SHIFT);
                            assert_eq!($Scale::from_gps(gps), Ok(count(nanos)));
                            assert_eq!(count(nanos).to_utc(), gps.to_utc());
                        }
                        Err(why) => assert!(why == Error::Overflow && nanos > u64::MAX - SHIFT),
                    }
                    if let Ok(here) = Utc::from_nanos(nanos).$to_scale() {
                        assert_eq!(here.to_utc(), Ok(Utc::from_nanos(nanos)));
                    }
                }
            }

            /// From a second before each inserted second to the second after the next: the same count comes back, or,
            /// in the second after the inserted one, the count a second earlier.
            #[test]
            fn each_inserted_second_there_and_back() {
                let thresholds = LeapTable::builtin().entries().map(|entry| entry.tai_nanos).collect::<Vec<_>>();
                for threshold in thresholds.into_iter().filter(|tai| *tai > EPOCH_IN_TAI) {
                    let after = threshold - EPOCH_IN_TAI;
                    for nanos in (after - 2 * SECOND..after + 3 * SECOND).step_by(125_000_000) {
                        let utc = count(nanos).to_utc().expect("far below the end");
                        let twice = (after..after + SECOND).contains(&nanos);
                        assert_eq!(utc.$to_scale(), Ok(count(if twice { nanos - SECOND } else { nanos })));
                    }
                }
            }

            #[test]
            fn every_table_and_every_form_of_a_call_answers_alike() {
                fn by<P: LeapSecondsProvider>(nanos: u64, table: &P) -> [Result<u64>; 4] {
                    let (utc, glonass) = (Utc::from_nanos(nanos), Glonass::from_nanos(nanos));
                    let to_utc = $to_utc(count(nanos), table);
                    let from_utc = $from_utc(utc, table);
                    let to_glonass = $to_glonass(count(nanos), table);
                    let from_glonass = $from_glonass(glonass, table);
                    assert_eq!(count(nanos).to_utc_with(table), to_utc);
                    assert_eq!(utc.$to_scale_with(table), from_utc);
                    assert_eq!(to_utc.and_then(utc_to_glonass), to_glonass);
                    assert_eq!(glonass_to_utc(glonass).and_then(|utc| $from_utc(utc, table)), from_glonass);
                    let from_utc = from_utc.map($Scale::as_nanos);
                    let from_glonass = from_glonass.map($Scale::as_nanos);
                    [to_utc.map(Utc::as_nanos), from_utc, to_glonass.map(Glonass::as_nanos), from_glonass]
                }
                for nanos in spread() {
                    let builtin = by(nanos, LeapSeconds::builtin());
                    assert_eq!(by(nanos, &LeapSeconds::builtin()), builtin);
                    assert_eq!(by(nanos, &LeapTable::builtin()), builtin);
                    assert_eq!(count(nanos).to_utc().map(Utc::as_nanos), builtin[0]);
                    assert_eq!(of_utc(nanos), builtin[1]);
                }
            }

            #[test]
            fn weeks() {
                let tow = |seconds, nanos| DurationParts { seconds, nanos };
                for nanos in spread() {
                    let here = count(nanos);
                    let parts = tow(here.tow_seconds().into(), here.sub_second_nanos());
                    assert_eq!($Scale::from_week_tow(here.week(), parts), Ok(here));
                }
                assert_eq!($Scale::from_week_tow(0, tow(604_799, 999_999_999)), Ok(count(604_800 * SECOND - 1)));
                assert_eq!($Scale::from_week_tow(1, tow(0, 0)), Ok(count(604_800 * SECOND)));
                assert_eq!($Scale::from_week_tow(30_500, tow(344_073, 709_551_615)), Ok($Scale::MAX));
                assert_eq!($Scale::from_week_tow(30_500, tow(344_073, 709_551_616)), Err(Error::Overflow));
                for week in [0, 30_500, u32::MAX] {
                    assert_eq!($Scale::from_week_tow(week, tow(604_800, 0)), Err(Error::InvalidSeconds));
                    assert_eq!($Scale::from_week_tow(week, tow(u64::MAX, u32::MAX)), Err(Error::InvalidSeconds));
                    assert_eq!($Scale::from_week_tow(week, tow(604_799, 1_000_000_000)), Err(Error::InvalidNanos));
                }
            }
        }
    };
}

shifted! {
    galileo, Galileo, 619_315_200, 872_207_987, to_galileo, to_galileo_with,
    galileo_to_utc, utc_to_galileo, galileo_to_glonass, glonass_to_galileo
}
shifted! {
    beidou, Beidou, 820_108_814, 1_073_001_600, to_beidou, to_beidou_with,
    beidou_to_utc, utc_to_beidou, beidou_to_glonass, glonass_to_beidou
}

#[test]
fn the_epoch_of_galileo_is_midnight_on_the_clock_of_gps() {
    assert_eq!(GPS_EPOCH.seconds_until(GALILEO_EPOCH), Galileo::EPOCH.to_gps().map(|gps| gps.as_seconds() as i64));
    let civil = CivilDateTime { year: 1999, month: 8, day: 21, hour: 23, minute: 59, second: 47, nanos: 0 };
    assert_eq!(Galileo::EPOCH.to_utc().map(Utc::to_civil), Ok(civil));
}

#[test]
fn the_epoch_of_beidou_is_midnight_of_utc_and_follows_an_inserted_second() {
    let beidou = |utc_nanos| Utc::from_nanos(utc_nanos).to_beidou();
    assert_eq!(beidou(1_073_001_599_999_999_999), Err(Error::Overflow));
    assert_eq!(beidou(1_073_001_600_000_000_000), Ok(Beidou::EPOCH));
    assert_eq!(beidou(1_073_001_600_000_000_001), Ok(Beidou::from_nanos(1)));
    assert_eq!(beidou(1_073_001_600_999_999_999), Ok(Beidou::from_nanos(999_999_999)));
    assert_eq!(beidou(1_073_001_601_000_000_000), Ok(Beidou::from_nanos(SECOND)));
    // GPS has both seconds, and gives the inserted one
    assert_eq!(Utc::from_nanos(1_073_001_600 * SECOND).to_gps(), Ok(Gps::from_nanos(820_108_813 * SECOND)));
    assert_eq!(Beidou::EPOCH.to_utc().map(Utc::as_seconds), Ok(1_073_001_600));
    assert_eq!(GPS_EPOCH.seconds_until(BEIDOU_EPOCH), Ok(820_108_814 - 14));
}

#[test]
fn the_epoch_of_beidou_by_own_tables() {
    let threshold = 820_108_833 * SECOND;
    let utc = |seconds| Utc::from_nanos(seconds * SECOND);
    assert_eq!(utc(1_073_001_600).to_beidou_with(&table(&[(0, 32), (threshold, 33)])), Err(Error::Overflow));
    assert_eq!(utc(1_073_001_613).to_beidou_with(&table(&[(0, 19), (threshold, 20)])), Ok(Beidou::EPOCH));
}

#[test]
fn galileo_and_beidou_into_each_other() {
    let apart = 200_793_614 * SECOND;
    assert_eq!(Galileo::from_nanos(apart - 1).to_beidou(), Err(Error::Overflow));
    assert_eq!(Galileo::from_nanos(apart).to_beidou(), Ok(Beidou::EPOCH));
    assert_eq!(Beidou::EPOCH.to_galileo(), Ok(Galileo::from_nanos(apart)));
    // the last of each are those of the last GPS count
    let (galileo, beidou) = (17_827_428_873_709_551_615, 17_626_635_259_709_551_615);
    assert_eq!(Galileo::from_nanos(galileo).to_beidou(), Ok(Beidou::from_nanos(beidou)));
    assert_eq!(Beidou::from_nanos(beidou).to_galileo(), Ok(Galileo::from_nanos(galileo)));
    assert_eq!(Galileo::from_nanos(galileo + 1).to_beidou(), Err(Error::Overflow));
    assert_eq!(Beidou::from_nanos(beidou + 1).to_galileo(), Err(Error::Overflow));
    for nanos in spread() {
        let (galileo, beidou) = (Galileo::from_nanos(nanos), Beidou::from_nanos(nanos));
        assert_eq!(galileo.to_beidou(), galileo.to_gps().and_then(Gps::to_beidou));
        assert_eq!(beidou.to_galileo(), beidou.to_gps().and_then(Gps::to_galileo));
        if let Ok(galileo) = beidou.to_galileo() {
            assert_eq!(galileo.to_beidou(), Ok(beidou));
        }
    }
}

/// As docs/MOVING.md has it. The numbers are those that gnss-time gives for noon of 2026-11-16 in UTC.
#[test]
fn counts_of_gnss_time_are_moved_by_way_of_gps() {
    let old_galileo = |nanos| Gps::from_nanos(nanos);
    let old_beidou = |nanos| Gps::from_nanos(nanos).try_add(Duration::from_nanos(14_000_000_000));
    let noon = CivilDateTime { year: 2026, month: 11, day: 16, hour: 12, minute: 0, second: 0, nanos: 0 }.to_utc();
    let galileo = old_galileo(1_478_865_618 * SECOND).to_galileo();
    let beidou = old_beidou(1_478_865_604 * SECOND).and_then(Gps::to_beidou);
    assert_eq!((galileo.and_then(Galileo::to_utc), beidou.and_then(Beidou::to_utc)), (noon, noon));
    assert_eq!(galileo.map(Galileo::as_seconds), Ok(1_478_865_618 - 619_315_200));
    assert_eq!(beidou.map(Beidou::as_seconds), Ok(1_478_865_604 - 820_108_800));
    // before the epoch they are GPS counts, and no others
    assert_eq!(old_galileo(619_315_200 * SECOND - 1).to_galileo(), Err(Error::Overflow));
    assert_eq!(old_galileo(619_315_200 * SECOND).to_galileo(), Ok(Galileo::EPOCH));
    assert_eq!(old_beidou(820_108_800 * SECOND - 1).and_then(Gps::to_beidou), Err(Error::Overflow));
    assert_eq!(old_beidou(820_108_800 * SECOND).and_then(Gps::to_beidou), Ok(Beidou::EPOCH));
}
