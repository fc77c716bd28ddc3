//! Dates of the Gregorian calendar, and dates with a time of day.

use crate::sys::{self, always};
use crate::{Result, Utc};

/// A date of the Gregorian calendar, carried on before its introduction. No field is checked: a date that is not in the
/// calendar has the days that the calendar's formula gives it, so that 31 February 2023 is 3 March.
///
/// ```
/// use plaitgate::{CivilDate, GPS_EPOCH};
///
/// assert_eq!(CivilDate::new(1970, 1, 2).days_from_unix(), Ok(1));
/// assert_eq!(CivilDate::new(2023, 2, 31).days_until(CivilDate::new(2023, 3, 3)), Ok(0));
/// assert_eq!(GPS_EPOCH.seconds_until(CivilDate::new(1999, 8, 22)), Ok(619_315_200));
/// ```
#[derive(Debug, Clone, Copy, PartialEq, Eq, Hash)]
pub struct CivilDate {
    pub year: i32,
    pub month: u8,
    pub day: u8,
}

impl CivilDate {
    /// The date with these fields.
    #[inline]
    #[must_use]
    pub const fn new(year: i32, month: u8, day: u8) -> Self {
        CivilDate { year, month, day }
    }

    /// The days from 1970-01-01. Refuses with [`Overflow`](crate::Error::Overflow) for year −2,147,483,648 with a month
    /// of 0 to 2.
    pub fn days_from_unix(self) -> Result<i64> {
        sys::civil_date_days_from_unix(self.year, self.month, self.day)
    }

    /// The days to another date, negative where it is earlier. Refuses as `days_from_unix`, of either.
    pub fn days_until(self, other: CivilDate) -> Result<i64> {
        sys::civil_date_days_until(self.year, self.month, self.day, other.year, other.month, other.day)
    }

    /// The seconds to another date, 86,400 to a day. Refuses as `days_until`.
    pub fn seconds_until(self, other: CivilDate) -> Result<i64> {
        sys::civil_date_seconds_until(self.year, self.month, self.day, other.year, other.month, other.day)
    }

    /// The nanoseconds to another date. Refuses as `days_until`, and beyond 106,751 days.
    pub fn nanos_until(self, other: CivilDate) -> Result<i64> {
        sys::civil_date_nanos_until(self.year, self.month, self.day, other.year, other.month, other.day)
    }
}

/// A date and a time of day. The fields can hold any numbers.
///
/// - [`to_gps`](CivilDateTime::to_gps) and its forms check every field. They refuse a date or a time that does not
///   exist, and their [`CivilError`](crate::CivilError) says which field is wrong.
/// - [`to_utc`](CivilDateTime::to_utc) and [`to_utc_nanos`](CivilDateTime::to_utc_nanos) check no field. They are
///   gnss-time's, and read old logs: 31 February 2023 is 3 March, and hour 24 is the next day's hour 0.
///
/// Second 60 is an inserted second in a reading of a GPS count ([`Gps::to_civil`](crate::Gps::to_civil)), and `to_gps`
/// takes it only where there is one. For `to_utc` it is the next minute's second 0, whether one was inserted or not.
///
/// The order is that of the fields, from the year on. Of two GPS counts the later has the later reading by the same
/// table. Fields that are no reading are ordered as they are written: hour 24 comes before the next day's hour 0.
///
/// ```
/// use plaitgate::{CivilDateTime, Error, Utc};
///
/// let noon = CivilDateTime { year: 2024, month: 2, day: 29, hour: 12, minute: 0, second: 0, nanos: 0 };
/// let utc = noon.to_utc()?;
/// assert_eq!(utc.as_unix_seconds(), 1_709_208_000);
/// assert_eq!(utc.to_civil(), noon);
/// assert!(noon.is_whole_second());
/// assert_eq!(CivilDateTime { year: 1971, ..noon }.to_utc(), Err(Error::Overflow));
/// assert!(noon < CivilDateTime { nanos: 1, ..noon });
///
/// let typed = CivilDateTime { year: 2023, month: 2, day: 31, ..noon };
/// assert_eq!(typed.to_gps().unwrap_err().to_string(), "day 31 of 2023-02, which has 28");
/// assert_eq!(typed.to_utc()?.to_civil(), CivilDateTime { month: 3, day: 3, ..typed });
/// # Ok::<(), plaitgate::Error>(())
/// ```
#[derive(Debug, Clone, Copy, PartialEq, Eq, PartialOrd, Ord, Hash)]
pub struct CivilDateTime {
    pub year: i32,
    pub month: u8,
    pub day: u8,
    pub hour: u8,
    pub minute: u8,
    pub second: u8,
    pub nanos: u32,
}

impl CivilDateTime {
    /// The date and the time of day of a UTC count. Every number has one: this is a `Result`
    /// because it is one in gnss-time.
    pub fn from_utc_nanos(nanos: u64) -> Result<Self> {
        sys::civil_from_utc_nanos(nanos).map(Self::of_fields)
    }

    /// The nanoseconds from 1972-01-01. It checks no field, so that old logs are read as they always were: 31 February
    /// 2023 is 3 March, and hour 24 is the next day's hour 0. [`to_gps`](Self::to_gps) refuses such fields.
    ///
    /// Refuses with [`Overflow`](crate::Error::Overflow) before 1972-01-01 and above 64 bits.
    pub fn to_utc_nanos(self) -> Result<u64> {
        sys::civil_to_utc_nanos(self.year, self.month, self.day, self.hour, self.minute, self.second, self.nanos)
    }

    /// The UTC count. It checks no field and refuses as `to_utc_nanos`. Second 60 is the next minute's second 0:
    /// [`to_gps`](Self::to_gps) keeps an inserted second.
    ///
    /// ```
    /// use plaitgate::{CivilDateTime, Error};
    ///
    /// let typed = CivilDateTime { year: 2023, month: 2, day: 31, hour: 0, minute: 0, second: 0, nanos: 0 };
    /// let third_of_march = CivilDateTime { month: 3, day: 3, ..typed };
    /// assert_eq!(typed.to_utc()?, third_of_march.to_utc()?);
    /// assert_eq!(typed.to_gps().unwrap_err().error(), Error::NoSuchDay);
    /// # Ok::<(), plaitgate::Error>(())
    /// ```
    pub fn to_utc(self) -> Result<Utc> {
        sys::civil_to_utc(self.year, self.month, self.day, self.hour, self.minute, self.second, self.nanos)
            .map(Utc::from_nanos)
    }

    /// Whether there is no part of a second.
    #[must_use]
    pub fn is_whole_second(&self) -> bool {
        let CivilDateTime { year, month, day, hour, minute, second, nanos } = *self;
        always(sys::civil_is_whole_second(year, month, day, hour, minute, second, nanos)) != 0
    }

    /// The fields in the order in which the library writes them.
    pub(crate) fn of_fields(fields: (i32, u8, u8, u8, u8, u8, u32)) -> Self {
        let (year, month, day, hour, minute, second, nanos) = fields;
        CivilDateTime { year, month, day, hour, minute, second, nanos }
    }
}
