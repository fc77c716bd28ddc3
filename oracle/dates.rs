//! What the calls of dates and civil times are tried on.

use crate::call::Named;
use crate::chance::Chance;
use crate::inputs::{combinations, numbers, Group, Trials};
use gnss_time::{
    CivilDate, BEIDOU_EPOCH, GALILEO_EPOCH, GLONASS_EPOCH, GPS_EPOCH, TAI_EPOCH, UNIX_EPOCH, UTC_CIVIL_EPOCH,
};
use std::sync::OnceLock;

const LEAST_YEAR: i128 = i32::MIN as i128;
const GREATEST_YEAR: i128 = i32::MAX as i128;
const GREATEST_BYTE: i128 = u8::MAX as i128;
pub const NANOS_PER_SECOND: i128 = 1_000_000_000;
const NANOS_PER_DAY: i128 = 86_400 * NANOS_PER_SECOND;
/// E: 1972-01-01 to 1980-01-06.
pub const UTC_TO_GPS_NANOS: i128 = 252_892_800 * NANOS_PER_SECOND;
/// The most whole days whose nanoseconds a signed 64-bit number holds.
const MOST_DAYS_IN_NANOS: usize = (i64::MAX as i128 / NANOS_PER_DAY) as usize;

const EPOCHS: [CivilDate; 7] =
    [TAI_EPOCH, UNIX_EPOCH, UTC_CIVIL_EPOCH, GPS_EPOCH, GLONASS_EPOCH, GALILEO_EPOCH, BEIDOU_EPOCH];

/// A date or a time as the inputs of a call, year first.
fn fields(parts: &[&[i128]]) -> Vec<i128> {
    parts.concat()
}

fn date(date: CivilDate) -> [i128; 3] {
    [i128::from(date.year), i128::from(date.month), i128::from(date.day)]
}

/// Years of each kind: leap and common, centuries, fourth centuries, around 0, and the first and last of UTC counts and
/// of 32 bits.
fn years() -> Vec<i128> {
    let mut years = vec![1582, 1600, 1699, 1700, 1900, 2000, 2023, 2024, 2100, 2399, 2400, 2401];
    years.extend([1970, 1971, 1972, 1973, 2555, 2556, 2557]);
    years.extend([-801, -800, -401, -400, -399, -100, -4, -1, 0, 1, 4]);
    years.extend([LEAST_YEAR, LEAST_YEAR + 1, GREATEST_YEAR - 1, GREATEST_YEAR]);
    years
}

fn months() -> Vec<i128> {
    (0..=13).chain([GREATEST_BYTE]).collect()
}

fn days_of_month() -> Vec<i128> {
    (0..=32).chain([GREATEST_BYTE]).collect()
}

/// Every date from 1971-01-01 to 2557-12-31, a year and more beyond those of UTC counts on either side.
fn calendar() -> &'static [[i128; 3]] {
    static DATES: OnceLock<Vec<[i128; 3]>> = OnceLock::new();
    DATES.get_or_init(|| {
        let months = (1971..=2557).flat_map(|year| (1..=12).map(move |month| (year, month)));
        months.flat_map(|(year, month)| (1..=month_length(year, month)).map(move |day| [year, month, day])).collect()
    })
}

/// The place of 1972-01-01, the first day of UTC counts, in the calendar.
const UTC_EPOCH_PLACE: usize = 365;

fn month_length(year: i128, month: i128) -> i128 {
    let leap = year % 4 == 0 && (year % 100 != 0 || year % 400 == 0);
    match month {
        2 if leap => 29,
        2 => 28,
        4 | 6 | 9 | 11 => 30,
        _ => 31,
    }
}

/// A date: all edges, every day of the calendar, the epochs.
pub fn one_date(_: &'static [Named]) -> Trials {
    let every_day = Group::new(calendar().len(), |place| calendar()[place].to_vec());
    let epochs = Group::new(EPOCHS.len(), |place| date(EPOCHS[place]).to_vec());
    Trials {
        groups: vec![combinations(vec![years(), months(), days_of_month()]), every_day, epochs],
        draw: Box::new(|chance| draw_date(chance).to_vec()),
    }
}

/// Two dates: notable ones in pairs, each day and one up to a year later, pairs around the greatest distance in
/// nanoseconds, and all months and days.
pub fn two_dates(_: &'static [Named]) -> Trials {
    let notable = notable_dates();
    let many = notable.len();
    let pairs = Group::new(many * many, move |place| fields(&[&notable[place / many], &notable[place % many]]));
    let days = Group::new(calendar().len() - 366, |place| {
        in_turns(place, calendar()[place], calendar()[place + 1 + place % 366])
    });
    Trials { groups: vec![pairs, days, farthest_in_nanos(), dates_from_gps_epoch()], draw: Box::new(draw_two_dates) }
}

fn notable_dates() -> Vec<[i128; 3]> {
    let mut dates: Vec<[i128; 3]> = EPOCHS.map(date).to_vec();
    dates.extend((0..=3).map(|month| [LEAST_YEAR, month, 1]));
    dates.extend([[LEAST_YEAR, 2, GREATEST_BYTE], [LEAST_YEAR, 3, 0], [LEAST_YEAR + 1, 0, 0], [LEAST_YEAR + 1, 1, 1]]);
    dates.extend([[GREATEST_YEAR, 12, 31], [GREATEST_YEAR, GREATEST_BYTE, GREATEST_BYTE]]);
    dates.extend([[0, 1, 1], [0, 2, 29], [0, 3, 1], [-1, 12, 31], [1, 1, 1], [1900, 2, 28], [1900, 3, 1]]);
    dates.extend([[2000, 2, 29], [2023, 2, 31], [2024, 2, 29], [2024, 12, 31], [2556, 7, 20], [2556, 7, 21]]);
    dates
}

/// The earlier first at even places, the later at odd ones.
fn in_turns(place: usize, earlier: [i128; 3], later: [i128; 3]) -> Vec<i128> {
    if place % 2 == 0 {
        fields(&[&earlier, &later])
    } else {
        fields(&[&later, &earlier])
    }
}

/// Dates as far apart as nanoseconds can tell, and up to three days less and more, from many days on.
fn farthest_in_nanos() -> Group {
    const AROUND: usize = 7;
    const DAYS_APART: usize = 997;
    let starts = (calendar().len() - MOST_DAYS_IN_NANOS - AROUND) / DAYS_APART;
    Group::new(starts * AROUND * 2, |place| {
        let (start, distance) = (place / 2 / AROUND * DAYS_APART, MOST_DAYS_IN_NANOS - 3 + place / 2 % AROUND);
        in_turns(place, calendar()[start], calendar()[start + distance])
    })
}

/// From the GPS epoch to all months and days of some years that nanoseconds reach.
fn dates_from_gps_epoch() -> Group {
    let [year, month, day] = date(GPS_EPOCH).map(|field| vec![field]);
    combinations(vec![year, month, day, vec![1900, 2000, 2023, 2024, LEAST_YEAR], months(), days_of_month()])
}

/// A UTC count: the edges of its type, the first and the last of each day, and those around each minute of a day.
pub fn counts(inputs: &'static [Named]) -> Trials {
    const MINUTE_NANOS: i128 = 60 * NANOS_PER_SECOND;
    let greatest = i128::from(u64::MAX);
    let days = (greatest / NANOS_PER_DAY + 1) as usize;
    let ends_of_days = Group::new(2 * days, move |place| {
        let first = (place / 2) as i128 * NANOS_PER_DAY;
        vec![if place % 2 == 0 { first } else { greatest.min(first + NANOS_PER_DAY - 1) }]
    });
    let minutes = Group::new(3 * 24 * 60, |place| {
        let leap_day = calendar().binary_search(&[2024, 2, 29]).expect("it is in the calendar") - UTC_EPOCH_PLACE;
        vec![leap_day as i128 * NANOS_PER_DAY + (place / 3) as i128 * MINUTE_NANOS + (place % 3) as i128 - 1]
    });
    let mut trials = numbers(inputs);
    trials.groups.extend([ends_of_days, minutes]);
    trials
}

/// A date and a time of day: the edges of dates, those of times on some days, the last count, and every day of the
/// calendar at some time.
pub fn civil_times(_: &'static [Named]) -> Trials {
    let midnight = vec![vec![0]; 4];
    let dates = combinations([vec![years(), months(), days_of_month()], midnight].concat());
    let every_day = Group::new(calendar().len(), |place| fields(&[&calendar()[place], &some_time(place as i128)]));
    Trials { groups: vec![dates, times(), around_the_last(), every_day], draw: Box::new(draw_civil_time) }
}

/// The edges of times of day on the first and the last days.
fn times() -> Group {
    let days = [
        [1971, 12, 21],
        [1971, 12, 31],
        [1972, 1, 1],
        [2024, 2, 29],
        [2556, 7, 10],
        [2556, 7, 19],
        [2556, 7, 20],
        [2556, 7, 21],
    ];
    let hours = vec![0, 1, 23, 24, GREATEST_BYTE];
    let sixtieths = vec![0, 1, 59, 60, GREATEST_BYTE];
    let nanos = vec![0, 1, NANOS_PER_SECOND - 1, NANOS_PER_SECOND, i128::from(u32::MAX)];
    let times = combinations(vec![hours, sixtieths.clone(), sixtieths, nanos]);
    Group::new(days.len() * times.len(), move |place| {
        fields(&[&days[place / times.len()], &times.at(place % times.len())])
    })
}

/// The fields of the last count, each with its neighbours.
fn around_the_last() -> Group {
    let last = [2556, 7, 20, 23, 34, 33, 709_551_615];
    combinations(last.map(|field| vec![field - 1, field, field + 1]).to_vec())
}

/// Some time of day, another for each number; midnight is among them, and so is the last nanosecond.
fn some_time(number: i128) -> [i128; 4] {
    match number % 8 {
        0 => [0, 0, 0, 0],
        1 => [23, 59, 59, NANOS_PER_SECOND - 1],
        _ => [number % 24, number / 24 % 60, number / 7 % 60, number * 104_729 * 7_919 % NANOS_PER_SECOND],
    }
}

/// A date of any fields, most of them small enough to be real.
fn draw_date(chance: &mut Chance) -> [i128; 3] {
    let year = match chance.below(4) {
        0 => chance.within(LEAST_YEAR, GREATEST_YEAR),
        1 => (chance.one_of(&years()) + chance.within(-1, 1)).clamp(LEAST_YEAR, GREATEST_YEAR),
        2 => chance.of_length_up_to(31),
        _ => chance.within(1970, 2560),
    };
    [year, draw_field(chance, 1, 12), draw_field(chance, 1, 31)]
}

/// A field of 8 bits, in most draws within the bounds of its calendar or clock.
fn draw_field(chance: &mut Chance, least: i128, greatest: i128) -> i128 {
    if chance.below(4) == 0 {
        chance.within(0, GREATEST_BYTE)
    } else {
        chance.within(least, greatest)
    }
}

/// Two dates, in most draws so near that some of them are within the reach of nanoseconds and some beyond.
fn draw_two_dates(chance: &mut Chance) -> Vec<i128> {
    let (one, mut other) = (draw_date(chance), draw_date(chance));
    if chance.below(8) != 0 {
        other[0] = (one[0] + chance.within(-300, 300)).clamp(LEAST_YEAR, GREATEST_YEAR);
    }
    fields(&[&one, &other])
}

/// A civil time of any fields, or one near the last count whose fields run over.
fn draw_civil_time(chance: &mut Chance) -> Vec<i128> {
    if chance.below(8) == 0 {
        return draw_near_the_last(chance);
    }
    let nanos = match chance.below(3) {
        0 => chance.within(0, i128::from(u32::MAX)),
        1 => 0,
        _ => chance.within(0, NANOS_PER_SECOND - 1),
    };
    let time = [draw_field(chance, 0, 23), draw_field(chance, 0, 59), draw_field(chance, 0, 59), nanos];
    fields(&[&draw_date(chance), &time])
}

/// A time within some nanoseconds of the last count, on its day or up to nine days before, with so many more hours, and
/// minutes, seconds and nanoseconds in place of some hours, minutes and seconds.
fn draw_near_the_last(chance: &mut Chance) -> Vec<i128> {
    let count = i128::from(u64::MAX) + chance.within(-3, 3);
    let early = chance.within(0, 9);
    let day = count / NANOS_PER_DAY - early;
    let nanos = count % NANOS_PER_SECOND + NANOS_PER_SECOND * chance.within(0, 3);
    let seconds = (count - day * NANOS_PER_DAY - nanos) / NANOS_PER_SECOND;
    let second = seconds % 60 + 60 * chance.within(0, 3);
    let minutes = (seconds - second) / 60;
    let minute = minutes % 60 + 60 * chance.within(0, 3);
    fields(&[&calendar()[UTC_EPOCH_PLACE + day as usize], &[(minutes - minute) / 60, minute, second, nanos]])
}

/// A date and an offset: the edges of both, and every day of the calendar with an offset that brings its threshold to
/// the first count and one that brings it to the last, or up to two seconds off.
pub fn events(_: &'static [Named]) -> Trials {
    let edges = combinations(vec![years(), months(), days_of_month(), offsets()]);
    let every_day = Group::new(2 * calendar().len(), |place| {
        let (day, greatest) = (place / 2, place % 2 == 1);
        fields(&[&calendar()[day], &[offset_near_an_end(day, greatest, (day % 5) as i128 - 2)]])
    });
    Trials { groups: vec![edges, every_day], draw: Box::new(draw_event) }
}

fn offsets() -> Vec<i128> {
    let mut offsets = vec![LEAST_YEAR, LEAST_YEAR + 1, GREATEST_YEAR - 1, GREATEST_YEAR];
    offsets.extend([-252_892_800, -1, 0, 1, 10, 19, 20, 37, 38, 252_892_799, 252_892_800, 252_892_801]);
    offsets
}

/// The offset that brings the threshold of a day of the calendar to the first count or to the last, plus `more`, as far
/// as 32 bits hold it.
fn offset_near_an_end(day: usize, greatest: bool, more: i128) -> i128 {
    let utc = (day as i128 - UTC_EPOCH_PLACE as i128) * NANOS_PER_DAY;
    let end = if greatest { i128::from(u64::MAX) } else { 0 };
    let offset = (end - (utc - UTC_TO_GPS_NANOS)).div_euclid(NANOS_PER_SECOND) + more;
    offset.clamp(LEAST_YEAR, GREATEST_YEAR)
}

/// A date and any offset, or a day of the calendar whose threshold is near the first or the last count.
fn draw_event(chance: &mut Chance) -> Vec<i128> {
    if chance.below(4) == 0 {
        let day = chance.below(calendar().len() as u64) as usize;
        let offset = offset_near_an_end(day, chance.below(2) == 1, chance.within(-100_000, 100_000));
        return fields(&[&calendar()[day], &[offset]]);
    }
    let offset = match chance.below(3) {
        0 => chance.within(LEAST_YEAR, GREATEST_YEAR),
        1 => chance.of_length_up_to(31),
        _ => chance.within(10, 100),
    };
    fields(&[&draw_date(chance), &[offset]])
}
