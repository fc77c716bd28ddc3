//! A rack's clock work, written for gnss-time: tools/check-rust compiles this text over gnss-time and over plaitgate,
//! as the crate `clock`, and compares what the two programs write. It has every call that docs/MOVING.md lists under
//! "The same text".

use clock::{
    glonass_to_gps, glonass_to_utc, gps_to_glonass, gps_to_utc, utc_to_glonass, utc_to_gps, Beidou, CivilDate,
    CivilDateTime, Duration, DurationParts, Galileo, Glonass, GnssTimeError, Gps, LeapEntry, LeapExtendError,
    LeapSeconds, LeapSecondsProvider, RuntimeLeapSeconds, Tai, Time, Utc, BEIDOU_EPOCH, GALILEO_EPOCH, GLONASS_EPOCH,
    GPS_EPOCH, GPS_EPOCH_UNIX_S, RUNTIME_CAPACITY, TAI_EPOCH, UNIX_EPOCH, UTC_CIVIL_EPOCH, UTC_EPOCH_UNIX_OFFSET_NS,
    UTC_EPOCH_UNIX_OFFSET_S,
};

/// A refusal as both crates can say it: that of gnss-time carries a text in one case.
fn why(error: GnssTimeError) -> &'static str {
    if error == GnssTimeError::Overflow {
        "overflow"
    } else {
        "another refusal"
    }
}

fn nanos<T>(result: Result<T, GnssTimeError>, read: fn(T) -> u64) -> Result<u64, &'static str> {
    result.map(read).map_err(why)
}

/// What every scale has, at one count.
macro_rules! sums {
    ($Scale:ty, $count:expr) => {
        let t: Time<$Scale> = Time::<$Scale>::from_nanos($count);
        println!("{} {} {:?}", t.as_nanos(), t.as_seconds(), t.as_parts());
        println!("{:?}", Time::<$Scale>::checked_from_seconds($count).map(Time::<$Scale>::as_nanos));
        println!("{:?}", t.checked_elapsed(Time::<$Scale>::EPOCH).map(Duration::as_nanos));
        println!("{} {}", t == Time::<$Scale>::MIN, t < Time::<$Scale>::MAX);
        for d in [Duration::MIN, Duration::ZERO, Duration::from_nanos(-1), Duration::ONE_SECOND, Duration::MAX] {
            println!("{:?}", t.checked_add(d).map(Time::<$Scale>::as_nanos));
            println!("{:?}", t.checked_sub_duration(d).map(Time::<$Scale>::as_nanos));
            println!("{} {}", t.saturating_add(d).as_nanos(), t.saturating_sub_duration(d).as_nanos());
            println!("{:?}", nanos(t.try_add(d), Time::<$Scale>::as_nanos));
            println!("{:?}", nanos(t.try_sub_duration(d), Time::<$Scale>::as_nanos));
        }
    };
}

/// Durations made from each unit, and sums of two durations.
fn durations(count: i64) {
    let d = Duration::from_nanos(count);
    println!("{} {} {} {}", d.as_nanos(), d.as_micros(), d.as_millis(), d.as_seconds());
    println!("{} {} {} {:?}", d.is_positive(), d.is_negative(), d.is_zero(), d.abs().map(Duration::as_nanos));
    for checked_from in [
        Duration::checked_from_micros,
        Duration::checked_from_millis,
        Duration::checked_from_seconds,
        Duration::checked_from_minutes,
        Duration::checked_from_hours,
        Duration::checked_from_days,
    ] {
        // the unit's last count that fits and the first that does not, on both sides, lie near the quotients of the ends
        let unit = checked_from(1).map_or(1, Duration::as_nanos);
        for near in [count, i64::MAX / unit, i64::MIN / unit] {
            for k in [near.saturating_sub(1), near, near.saturating_add(1)] {
                println!("{:?}", checked_from(k).map(Duration::as_nanos));
            }
        }
    }
    for other in [Duration::MIN, Duration::from_nanos(-1), Duration::ZERO, Duration::ONE_NANOSECOND, Duration::MAX] {
        println!("{:?} {}", d.checked_add(other).map(Duration::as_nanos), d.saturating_add(other).as_nanos());
        println!("{:?} {}", d.checked_sub(other).map(Duration::as_nanos), d.saturating_sub(other).as_nanos());
        println!("{:?}", d.try_add(other).map(Duration::as_nanos).map_err(why));
        println!("{:?}", d.try_sub(other).map(Duration::as_nanos).map_err(why));
        println!("{}", d < other);
    }
}

fn weeks_and_days(count: u64) {
    let gps = Time::<Gps>::from_nanos(count);
    println!("{} {} {}", gps.week(), gps.tow_seconds(), gps.sub_second_nanos());
    println!("{:?}", nanos(gps.to_tai(), Time::<Tai>::as_nanos));
    println!("{:?}", nanos(Time::<Gps>::from_tai(Time::<Tai>::from_nanos(count)), Time::<Gps>::as_nanos));
    let glonass = Time::<Glonass>::from_nanos(count);
    println!("{} {} {}", glonass.day(), glonass.tod_seconds(), glonass.sub_second_nanos());
    println!("{} {}", glonass.day_of_week(), glonass.is_weekend());
    let parts = DurationParts { seconds: count % 700_000, nanos: (count % 1_000_000_001) as u32 };
    println!("{:?}", nanos(Time::<Gps>::from_week_tow((count >> 40) as u32, parts), Time::<Gps>::as_nanos));
    println!("{:?}", nanos(Time::<Glonass>::from_day_tod((count >> 40) as u32, parts), Time::<Glonass>::as_nanos));
    println!("{:?}", DurationParts::new(parts.seconds, parts.nanos).map_err(why));
}

fn unix_and_civil(count: u64) {
    let utc = Time::<Utc>::from_nanos(count);
    println!("{} {}", utc.as_unix_seconds(), utc.as_unix_nanos());
    println!("{:?}", nanos(Time::<Utc>::from_unix_seconds(count as i64), Time::<Utc>::as_nanos));
    println!("{:?}", nanos(Time::<Utc>::from_unix_nanos(count as i64), Time::<Utc>::as_nanos));
    let civil: CivilDateTime = utc.to_civil();
    println!("{civil:?} {}", civil.is_whole_second());
    println!("{}", CivilDateTime::from_utc_nanos(count).map_err(why) == Ok(civil));
    println!("{:?} {:?}", civil.to_utc_nanos().map_err(why), nanos(civil.to_utc(), Time::<Utc>::as_nanos));
    println!("{:?}", CivilDateTime { year: 1971, ..civil }.to_utc_nanos().map_err(why));
    // no field is checked: old logs have such dates and times
    for unreal in [
        CivilDateTime { month: 0, ..civil },
        CivilDateTime { month: 13, ..civil },
        CivilDateTime { year: 2023, month: 2, day: 31, ..civil },
        CivilDateTime { day: 0, ..civil },
        CivilDateTime { hour: 24, minute: 60, ..civil },
        CivilDateTime { second: 60, ..civil },
        CivilDateTime { second: 255, nanos: u32::MAX, ..civil },
    ] {
        println!("{:?} {:?}", unreal.to_utc_nanos().map_err(why), nanos(unreal.to_utc(), Time::<Utc>::as_nanos));
    }
}

fn conversions<P: LeapSecondsProvider>(count: u64, table: &P) {
    let (gps, utc) = (Time::<Gps>::from_nanos(count), Time::<Utc>::from_nanos(count));
    let glonass = Time::<Glonass>::from_nanos(count);
    println!("{}", table.tai_minus_utc_at(Time::<Tai>::from_nanos(count)));
    println!("{:?}", nanos(gps_to_utc(gps, table), Time::<Utc>::as_nanos));
    println!("{:?}", nanos(utc_to_gps(utc, table), Time::<Gps>::as_nanos));
    println!("{:?}", nanos(gps.to_utc_with(table), Time::<Utc>::as_nanos));
    println!("{:?}", nanos(utc.to_gps_with(table), Time::<Gps>::as_nanos));
    println!("{:?}", nanos(glonass_to_gps(glonass, table), Time::<Gps>::as_nanos));
    println!("{:?}", nanos(gps_to_glonass(gps, table), Time::<Glonass>::as_nanos));
    println!("{:?}", nanos(Time::<Gps>::from_unix_seconds(count as i64, table), Time::<Gps>::as_nanos));
    println!("{:?}", gps.as_unix_seconds(table).map_err(why));
}

fn built_in(count: u64) {
    conversions(count, LeapSeconds::builtin());
    conversions(count, &LeapSeconds::builtin());
    println!("{:?}", nanos(Time::<Gps>::from_nanos(count).to_utc(), Time::<Utc>::as_nanos));
    println!("{:?}", nanos(Time::<Utc>::from_nanos(count).to_gps(), Time::<Gps>::as_nanos));
    println!("{:?}", nanos(glonass_to_utc(Time::<Glonass>::from_nanos(count)), Time::<Utc>::as_nanos));
    println!("{:?}", nanos(utc_to_glonass(Time::<Utc>::from_nanos(count)), Time::<Glonass>::as_nanos));
}

fn own_table() -> Result<RuntimeLeapSeconds, LeapExtendError> {
    let mut table = RuntimeLeapSeconds::from_builtin();
    println!("{:?}", table.try_extend(LeapEntry::new(5, 38)) == Err(LeapExtendError::NotStrictlyAscending));
    println!("{:?}", table.try_extend(LeapEntry::new(u64::MAX, 40)) == Err(LeapExtendError::NonUnitIncrement));
    table.try_extend(LeapEntry::new(1 << 62, 38))?;
    println!("{} {} {}", table.len(), table.is_empty(), table.current_tai_minus_utc());
    println!("{:?}", table.last_update().map(Time::<Tai>::as_nanos));
    println!("{:?}", RuntimeLeapSeconds::from_slice(&[]).err() == Some(LeapExtendError::EmptyTable));
    let many = [LeapEntry::new(0, 0); RUNTIME_CAPACITY + 1];
    println!("{:?}", RuntimeLeapSeconds::from_slice(&many).err() == Some(LeapExtendError::BufferFull));
    let last = RuntimeLeapSeconds::from_slice(&[LeapEntry::new(0, i32::MAX), LeapEntry::new(1, 0)]);
    println!("{:?}", last.err() == Some(LeapExtendError::OffsetOverflow));
    Ok(table)
}

const EMPTY: RuntimeLeapSeconds = RuntimeLeapSeconds::new();

fn main() -> Result<(), LeapExtendError> {
    let epochs: [CivilDate; 7] =
        [TAI_EPOCH, UNIX_EPOCH, UTC_CIVIL_EPOCH, GPS_EPOCH, GLONASS_EPOCH, GALILEO_EPOCH, BEIDOU_EPOCH];
    println!("{epochs:?} {}", CivilDate::new(1980, 1, 6) == GPS_EPOCH);
    println!("{UTC_EPOCH_UNIX_OFFSET_S} {UTC_EPOCH_UNIX_OFFSET_NS} {GPS_EPOCH_UNIX_S}");
    println!("{}", Time::<Gps>::NANOS_PER_YEAR);
    let table = own_table()?;
    // the ends, the inserted second of 2016 as GPS and as UTC, and numbers spread over all of 64 bits
    let edges = [0, 1, 315_964_800, 1_700_000_000, 18_446_744_074, 1 << 63, u64::MAX - 19_000_000_000, u64::MAX];
    let inserted = (1_167_264_016..1_167_264_020).chain(1_420_156_799..1_420_156_803).map(|s| s * 1_000_000_000);
    let spread = (1..200).map(|k: u64| k.wrapping_mul(0x9e37_79b9_7f4a_7c15));
    for count in edges.into_iter().chain(inserted).chain(spread) {
        sums!(Gps, count);
        sums!(Utc, count);
        sums!(Glonass, count);
        sums!(Tai, count);
        sums!(Galileo, count);
        sums!(Beidou, count);
        durations(count as i64);
        weeks_and_days(count);
        unix_and_civil(count);
        built_in(count);
        conversions(count, &table);
        conversions(count, &EMPTY);
    }
    Ok(())
}
