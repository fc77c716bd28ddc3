//! Why a date and a time of day have no GPS count.

use core::fmt;

use crate::sys::always;
use crate::{CivilDate, CivilDateTime, Error, GPS_EPOCH};

/// Why [`CivilDateTime::to_gps`] refused a date and a time of day: the refusal, and the fields. Its words name the
/// field that is wrong, and its value.
///
/// ```
/// use plaitgate::{CivilDateTime, Error};
///
/// let typed = CivilDateTime { year: 2023, month: 2, day: 31, hour: 12, minute: 0, second: 0, nanos: 0 };
/// let refused = typed.to_gps().unwrap_err();
/// assert_eq!((refused.error(), refused.fields()), (Error::NoSuchDay, typed));
/// assert_eq!(refused.to_string(), "day 31 of 2023-02, which has 28");
/// ```
#[derive(Debug, Clone, Copy, PartialEq, Eq, Hash)]
pub struct CivilError {
    error: Error,
    fields: CivilDateTime,
}

impl CivilError {
    /// The refusal, as the library gives it for these fields.
    pub(crate) const fn new(error: Error, fields: CivilDateTime) -> Self {
        CivilError { error, fields }
    }

    /// The refusal.
    #[must_use]
    pub const fn error(self) -> Error {
        self.error
    }

    /// The fields that were refused.
    #[must_use]
    pub const fn fields(self) -> CivilDateTime {
        self.fields
    }
}

impl fmt::Display for CivilError {
    fn fmt(&self, f: &mut fmt::Formatter<'_>) -> fmt::Result {
        let CivilDateTime { year, month, day, hour, minute, second, nanos } = self.fields;
        let iso_year = IsoYear(year);
        match self.error {
            Error::NoSuchMonth => write!(f, "month {month}, where a year has 1 to 12"),
            Error::NoSuchDay => {
                write!(f, "day {day} of {iso_year}-{month:02}, which has {}", days_in_month(year, month))
            }
            Error::NoSuchHour => write!(f, "hour {hour}, where a day has 0 to 23"),
            Error::NoSuchMinute => write!(f, "minute {minute}, where an hour has 0 to 59"),
            Error::NoSuchSecond => write!(f, "second {second}, where the longest minute has 0 to 60"),
            Error::InvalidNanos => write!(f, "nanosecond {nanos}, where a second has 0 to 999999999"),
            Error::NoInsertedSecond => {
                write!(f, "no second {second} at {iso_year}-{month:02}-{day:02}T{hour:02}:{minute:02}")
            }
            Error::Overflow if (year, month, day) < (GPS_EPOCH.year, GPS_EPOCH.month, GPS_EPOCH.day) => {
                write!(f, "{iso_year}-{month:02}-{day:02} is before 1980-01-06, where GPS counts begin")
            }
            Error::Overflow => {
                write!(f, "{iso_year}-{month:02}-{day:02}T{hour:02}:{minute:02}:{second:02}.{nanos:09}")?;
                f.write_str(" is past the range of counts")
            }
            error => error.fmt(f),
        }
    }
}

/// A year as ISO 8601 writes it: four digits, with a sign where it is negative or above 9999.
struct IsoYear(i32);

impl fmt::Display for IsoYear {
    fn fmt(&self, f: &mut fmt::Formatter<'_>) -> fmt::Result {
        match self.0 {
            year @ 0..=9999 => write!(f, "{year:04}"),
            year => write!(f, "{year:+05}"),
        }
    }
}

/// The days of a month from 1 to 12: the library counts them from its first day to that of the next month. The calendar
/// repeats after 400 years, so the years 0 to 399 stand for all, and the library refuses none of them.
fn days_in_month(year: i32, month: u8) -> i64 {
    let year = year.rem_euclid(400);
    let next = match month {
        12 => CivilDate::new(year + 1, 1, 1),
        _ => CivilDate::new(year, month + 1, 1),
    };
    always(CivilDate::new(year, month, 1).days_until(next))
}

/// The refusal, without the fields.
impl From<CivilError> for Error {
    fn from(refused: CivilError) -> Self {
        refused.error
    }
}

#[cfg(feature = "std")]
impl std::error::Error for CivilError {}
