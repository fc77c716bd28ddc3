//! Civil readings in which an inserted second is 23:59:60, written from the definition alone. The days of a table are
//! walked one by one, and so is the calendar. Fields are read back if they are the reading of a count, and only then.

use crate::dated_rules::is_regular;
use crate::number::Number;
use gnss_time::{CivilDateTime, LeapEntry};
use std::sync::OnceLock;

/// Year, month, day, hour, minute, second and nanoseconds.
pub type Fields = [i128; 7];

pub const OVERFLOW: u32 = 1;
pub const INVALID_NANOS: u32 = 11;
/// The table is not regular or not on days.
pub const NOT_ON_DAYS: u32 = 13;
/// No inserted second is read so.
pub const NO_INSERTED_SECOND: u32 = 14;
pub const NO_SUCH_MONTH: u32 = 15;
pub const NO_SUCH_DAY: u32 = 16;
pub const NO_SUCH_HOUR: u32 = 17;
pub const NO_SUCH_MINUTE: u32 = 18;
pub const NO_SUCH_SECOND: u32 = 19;

const SECOND: i128 = 1_000_000_000;
const DAY: i128 = 86_400 * SECOND;
const LONG_DAY: i128 = DAY + SECOND;
/// E: 1972-01-01 to 1980-01-06.
const UTC_TO_GPS: i128 = 252_892_800 * SECOND;
const TAI_MINUS_GPS: i128 = 19 * SECOND;
const GREATEST: i128 = u64::MAX as i128;
const FIRST_DATE: [i128; 3] = [1980, 1, 6];
/// More days than 64 bits of nanoseconds reach from the first date on.
const DAYS: usize = (GREATEST / DAY) as usize + 3;

/// The readings by one table.
pub struct Reader {
    entries: Vec<LeapEntry>,
    /// The TAI reading at which each day begins, from 1980-01-06 on.
    begins: Vec<i128>,
}

impl Reader {
    /// The reader of a valid table; the refusal where the table is not regular or not on days.
    pub fn new(entries: &[LeapEntry]) -> Result<Reader, u32> {
        if !(is_regular(entries) && is_on_days(entries)) {
            return Err(NOT_ON_DAYS);
        }
        Ok(Reader { entries: entries.to_vec(), begins: begins_of_days(entries) })
    }

    /// The TAI readings at which the days begin.
    pub fn begins(&self) -> &[i128] {
        &self.begins
    }

    /// The fields of a GPS count.
    pub fn reading(&self, gps: i128) -> Result<Fields, u32> {
        let tai = count(gps + TAI_MINUS_GPS)?;
        self.utc(gps)?;
        let day = self.begins.partition_point(|begin| *begin <= tai) - 1;
        let [year, month, day_of_month] = calendar()[day];
        let [hour, minute, second, nanos] = time_of_day(tai - self.begins[day]);
        Ok([year, month, day_of_month, hour, minute, second, nanos])
    }

    /// The GPS count that fields are read back to. The first field that is out of range refuses them.
    pub fn read_back(&self, fields: Fields) -> Result<i128, u32> {
        if let Some(refusal) = out_of_range(fields) {
            return Err(refusal);
        }
        let second = fields[5];
        self.count_read_as(fields).ok_or(if second == 60 { NO_INSERTED_SECOND } else { OVERFLOW })
    }

    /// Whether the lenient formula has a UTC count for these fields, and that a GPS count.
    pub fn reads_leniently(&self, fields: Fields) -> bool {
        lenient_utc(fields).is_some_and(|utc| !self.counts_of(utc).is_empty())
    }

    /// Whether another GPS count before this one has the same UTC count.
    pub fn has_an_earlier(&self, gps: i128) -> bool {
        let earlier = |utc| self.counts_of(utc).into_iter().min() != Some(gps);
        self.utc(gps).is_ok_and(earlier)
    }

    /// Whether the day with the date of these fields has an inserted second that no count reaches.
    pub fn inserts_past_the_range(&self, [year, month, day, ..]: Fields) -> bool {
        let Ok(day) = calendar().binary_search(&[year, month, day]) else { return false };
        let long = self.begins.get(day + 1).is_some_and(|next| next - self.begins[day] == LONG_DAY);
        long && self.reading(self.begins[day] + DAY - TAI_MINUS_GPS).is_err()
    }

    /// The GPS counts of a UTC count: none, one or two.
    fn counts_of(&self, utc: i128) -> Vec<i128> {
        let by = |entry: &LeapEntry| utc - UTC_TO_GPS + (i128::from(entry.tai_minus_utc) - 19) * SECOND;
        let candidates = self.entries.iter().map(by).filter(|gps| (0..=GREATEST).contains(gps));
        candidates.filter(|gps| self.utc(*gps) == Ok(utc)).collect()
    }

    /// The GPS count that is read as these fields: it is their time of day after the day with their date began.
    fn count_read_as(&self, fields: Fields) -> Option<i128> {
        let [year, month, day, hour, minute, second, nanos] = fields;
        let day = calendar().binary_search(&[year, month, day]).ok()?;
        let since = (3_600 * hour + 60 * minute + second) * SECOND + nanos;
        let gps = self.begins[day] + since - TAI_MINUS_GPS;
        ((0..=GREATEST).contains(&gps) && self.reading(gps) == Ok(fields)).then_some(gps)
    }

    /// The UTC count of a GPS count, by the offset in force.
    fn utc(&self, gps: i128) -> Result<i128, u32> {
        let tai = count(gps + TAI_MINUS_GPS)?;
        let reached = self.entries.iter().rfind(|entry| i128::from(entry.tai_nanos) <= tai);
        let offset = i128::from(reached.expect("the first threshold is 0").tai_minus_utc);
        count(gps - (offset - 19) * SECOND + UTC_TO_GPS)
    }
}

fn count(exact: i128) -> Result<i128, u32> {
    if (0..=GREATEST).contains(&exact) {
        Ok(exact)
    } else {
        Err(OVERFLOW)
    }
}

/// Whether each threshold after the first is its offset after a whole number of days.
fn is_on_days(entries: &[LeapEntry]) -> bool {
    let of_days = |entry: &LeapEntry| i128::from(entry.tai_nanos) - i128::from(entry.tai_minus_utc) * SECOND;
    entries.iter().skip(1).all(|entry| of_days(entry) % DAY == 0)
}

/// A day has 86,401 s where its 86,401st second ends at the threshold of an entry after the first.
fn begins_of_days(entries: &[LeapEntry]) -> Vec<i128> {
    let mut thresholds = entries.iter().skip(1).map(|entry| i128::from(entry.tai_nanos)).peekable();
    let mut begin = TAI_MINUS_GPS;
    let mut begins = Vec::with_capacity(DAYS);
    for _ in 0..DAYS {
        begins.push(begin);
        let inserted = thresholds.next_if_eq(&(begin + LONG_DAY)).is_some();
        begin += if inserted { LONG_DAY } else { DAY };
    }
    begins
}

/// Hour, minute, second and nanoseconds of a time since the day began; the 86,401st second is 23:59:60.
fn time_of_day(since: i128) -> [i128; 4] {
    if since >= DAY {
        return [23, 59, 60, since - DAY];
    }
    let seconds = since / SECOND;
    [seconds / 3_600, seconds / 60 % 60, seconds % 60, since % SECOND]
}

/// The refusal of the first field that is out of range.
pub fn out_of_range([year, month, day, hour, minute, second, nanos]: Fields) -> Option<u32> {
    let in_range = [
        ((1..=12).contains(&month), NO_SUCH_MONTH),
        (is_date([year, month, day]), NO_SUCH_DAY),
        (hour < 24, NO_SUCH_HOUR),
        (minute < 60, NO_SUCH_MINUTE),
        (second <= 60, NO_SUCH_SECOND),
        (nanos < SECOND, INVALID_NANOS),
    ];
    in_range.into_iter().find(|(holds, _)| !holds).map(|(_, refusal)| refusal)
}

/// Fields refused by this number, with the field that it is about brought into its range.
pub fn mended(mut fields: Fields, refusal: u32) -> Fields {
    match refusal {
        NO_SUCH_MONTH => fields[1] = fields[1].clamp(1, 12),
        NO_SUCH_DAY => fields[2] = fields[2].clamp(1, 28),
        NO_SUCH_HOUR => fields[3] = 23,
        NO_SUCH_MINUTE => fields[4] = 59,
        NO_SUCH_SECOND | NO_INSERTED_SECOND => fields[5] = 59,
        INVALID_NANOS => fields[6] = SECOND - 1,
        _ => unreachable!("{refusal} is about no field"),
    }
    fields
}

/// Whether there is such a date: one of the calendar's, or, before the first and after the last of them, one that its
/// month is long enough for.
fn is_date(date: [i128; 3]) -> bool {
    let dates = calendar();
    if (dates[0]..=dates[DAYS - 1]).contains(&date) {
        return dates.binary_search(&date).is_ok();
    }
    let [year, month, day] = date;
    (1..=month_length(year, month)).contains(&day)
}

/// The dates from the first on, one after the other.
pub fn calendar() -> &'static [[i128; 3]] {
    static DATES: OnceLock<Vec<[i128; 3]>> = OnceLock::new();
    DATES.get_or_init(|| std::iter::successors(Some(FIRST_DATE), |date| Some(next_date(*date))).take(DAYS).collect())
}

fn next_date([year, month, day]: [i128; 3]) -> [i128; 3] {
    if day < month_length(year, month) {
        [year, month, day + 1]
    } else if month < 12 {
        [year, month + 1, 1]
    } else {
        [year + 1, 1, 1]
    }
}

fn month_length(year: i128, month: i128) -> i128 {
    let leap_year = year % 4 == 0 && (year % 100 != 0 || year % 400 == 0);
    match month {
        2 if leap_year => 29,
        2 => 28,
        4 | 6 | 9 | 11 => 30,
        _ => 31,
    }
}

/// The UTC count of any fields by the lenient formula, which is the crate's.
fn lenient_utc([year, month, day, hour, minute, second, nanos]: Fields) -> Option<i128> {
    let time = CivilDateTime {
        year: i32::narrow(year),
        month: u8::narrow(month),
        day: u8::narrow(day),
        hour: u8::narrow(hour),
        minute: u8::narrow(minute),
        second: u8::narrow(second),
        nanos: u32::narrow(nanos),
    };
    time.to_utc_nanos().map(i128::from).ok()
}
