//! The port and the crate gnss-time, in one process and on the same inputs. `bench/run` builds it and runs it.

mod counts;
mod list;
mod measure;
mod port;

use counts::{Order, GALILEO, OF_GPS, OF_UTC, ORDERS, SECOND};
use gnss_time::{gps_to_utc, utc_to_gps, CivilDateTime, LeapSeconds, RuntimeLeapSeconds, Time, Utc};
use measure::Bench;
use std::ops::Range;

/// All counts there are.
const ALL: Range<u64> = 0..u64::MAX;
/// The GPS count at the epoch of BeiDou.
const BEIDOU: u64 = 820_108_814 * SECOND;

fn main() {
    let bench = Bench::begin();
    bench.begin_compare();
    for order in &ORDERS {
        civil(&bench, order);
        conversions(&bench, order);
    }
    bench.begin_against("GPS", "other");
    for order in &ORDERS {
        shifted(&bench, order);
    }
    bench.begin_against("by UTC", "reading");
    for order in &ORDERS {
        readings(&bench, order);
    }
    list::lists(&bench);
}

fn civil(bench: &Bench, order: &Order) {
    let counts = (order.counts)(&ALL);
    let civil: Vec<CivilDateTime> = counts.iter().map(|count| Time::<Utc>::from_nanos(*count).to_civil()).collect();
    bench.compare("UTC to civil", order.name, &counts, CivilDateTime::from_utc_nanos, port::from_utc_nanos);
    bench.compare("civil to UTC", order.name, &civil, CivilDateTime::to_utc_nanos, port::to_utc_nanos);
}

/// By the built-in table, and by a table of the host's with the same entries, which the port checks at each call and
/// the crate does not.
fn conversions(bench: &Bench, order: &Order) {
    let (gps, utc) = ((order.counts)(&OF_GPS), (order.counts)(&OF_UTC));
    let builtin = LeapSeconds::builtin();
    bench.compare(
        "GPS to UTC",
        order.name,
        &gps,
        |n| gps_to_utc(Time::from_nanos(n), builtin),
        port::builtin_gps_to_utc,
    );
    bench.compare(
        "UTC to GPS",
        order.name,
        &utc,
        |n| utc_to_gps(Time::from_nanos(n), builtin),
        port::builtin_utc_to_gps,
    );

    let (table, image) = (RuntimeLeapSeconds::from_builtin(), port::Image::of_builtin());
    let by_table = |n| gps_to_utc(Time::from_nanos(n), &table);
    bench.compare("GPS to UTC, image", order.name, &gps, by_table, |n| image.gps_to_utc(n));
    let by_table = |n| utc_to_gps(Time::from_nanos(n), &table);
    bench.compare("UTC to GPS, image", order.name, &utc, by_table, |n| image.utc_to_gps(n));
    bench.alone("image, checked", order.name, &gps, |_| image.len());
}

/// Galileo and BeiDou compared with GPS, from their epochs to 2024: the same instants, by their own counts.
fn shifted(bench: &Bench, order: &Order) {
    use port::{beidou_to_utc, galileo_to_utc, gps_to_utc, utc_to_beidou, utc_to_galileo, utc_to_gps, Image};
    let image = Image::of_builtin();
    // to UTC: one UTC count
    let pairs = |behind: u64| -> Vec<(u64, u64)> {
        (order.counts)(&(behind..OF_GPS.end)).into_iter().map(|gps| (gps, gps - behind)).collect()
    };
    let same = |utc: u64, other: u64| utc == other;
    let (galileo, beidou) = (pairs(GALILEO), pairs(BEIDOU));
    bench.against("Galileo to UTC", order.name, &galileo, gps_to_utc, galileo_to_utc, same);
    bench.against("BeiDou to UTC", order.name, &beidou, gps_to_utc, beidou_to_utc, same);
    let by_gps = |n| image.by_gps_to_utc(n);
    bench.against("Galileo to UTC, image", order.name, &galileo, by_gps, |n| image.by_galileo_to_utc(n), same);
    bench.against("BeiDou to UTC, image", order.name, &beidou, by_gps, |n| image.by_beidou_to_utc(n), same);
    // from UTC: counts that differ by the difference; from a second past the epoch on, so that no later count is due
    let pairs = |behind: u64| -> Vec<(u64, u64)> {
        let first = gps_to_utc(behind).expect("the epoch has a UTC count") + SECOND;
        (order.counts)(&(first..OF_UTC.end)).into_iter().map(|utc| (utc, utc)).collect()
    };
    let (of_galileo, of_beidou) = (|gps: u64, n: u64| gps - n == GALILEO, |gps: u64, n: u64| gps - n == BEIDOU);
    let (galileo, beidou) = (pairs(GALILEO), pairs(BEIDOU));
    bench.against("UTC to Galileo", order.name, &galileo, utc_to_gps, utc_to_galileo, of_galileo);
    bench.against("UTC to BeiDou", order.name, &beidou, utc_to_gps, utc_to_beidou, of_beidou);
    let by_gps = |n| image.by_utc_to_gps(n);
    bench.against("UTC to Galileo, image", order.name, &galileo, by_gps, |n| image.by_utc_to_galileo(n), of_galileo);
    bench.against("UTC to BeiDou, image", order.name, &beidou, by_gps, |n| image.by_utc_to_beidou(n), of_beidou);
}

/// Civil readings of GPS counts, compared with GPS to UTC and then UTC to civil, which give the same fields outside an
/// inserted second.
fn readings(bench: &Bench, order: &Order) {
    use port::{from_utc_nanos, gps_to_civil, gps_to_utc, Image};
    let image = Image::of_builtin();
    let inserted = |gps: &u64| gps_to_civil(*gps).is_ok_and(|fields| fields.second == 60);
    let counts = (order.counts)(&OF_GPS).into_iter().filter(|gps| !inserted(gps));
    let pairs: Vec<(u64, u64)> = counts.map(|gps| (gps, gps)).collect();
    let same = |by_utc: u64, reading: u64| by_utc == reading;
    let by_utc = |gps| gps_to_utc(gps).and_then(from_utc_nanos);
    bench.against("GPS to civil", order.name, &pairs, by_utc, gps_to_civil, same);
    let by_utc = |gps| image.by_gps_to_utc(gps).and_then(from_utc_nanos);
    bench.against("GPS to civil, image", order.name, &pairs, by_utc, |gps| image.gps_to_civil(gps), same);
}
