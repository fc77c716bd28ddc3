//! What UTC has alone: Unix time, civil times, and the way to GPS.

use crate::sys::{self, always};
use crate::{utc_to_gps, utc_to_gps_dated, CivilDateTime, Dated, Gps, LeapSeconds, LeapSecondsProvider, Result, Utc};

impl Utc {
    /// The count of seconds since 1970-01-01. Refuses with [`Overflow`](crate::Error::Overflow) below
    /// 63,072,000 s, which is 1972-01-01, and above 18,509,816,073 s.
    pub fn from_unix_seconds(unix_seconds: i64) -> Result<Self> {
        sys::utc_from_unix_seconds(unix_seconds).map(Utc)
    }

    /// The count of nanoseconds since 1970-01-01. Refuses with [`Overflow`](crate::Error::Overflow) before
    /// 1972-01-01.
    pub fn from_unix_nanos(unix_nanos: i64) -> Result<Self> {
        sys::utc_from_unix_nanos(unix_nanos).map(Utc)
    }

    /// The whole seconds since 1970-01-01.
    #[inline]
    #[must_use]
    pub fn as_unix_seconds(self) -> i64 {
        always(sys::utc_as_unix_seconds(self.0))
    }

    /// The nanoseconds since 1970-01-01; stops at the largest number of 64 bits with sign, in 2262.
    #[inline]
    #[must_use]
    pub fn as_unix_nanos(self) -> i64 {
        always(sys::utc_as_unix_nanos(self.0))
    }

    /// The GPS count by the built-in table. Refuses with [`Overflow`](crate::Error::Overflow) before 1980-01-06.
    pub fn to_gps(self) -> Result<Gps> {
        utc_to_gps(self, LeapSeconds::builtin())
    }

    /// The GPS count by a table: see [`utc_to_gps`].
    pub fn to_gps_with<P: LeapSecondsProvider>(self, table: &P) -> Result<Gps> {
        utc_to_gps(self, table)
    }

    /// As [`to_gps_with`](Utc::to_gps_with), and whether the table has expired.
    pub fn to_gps_dated<P: LeapSecondsProvider>(self, table: &P) -> Result<Dated<Gps>> {
        utc_to_gps_dated(self, table)
    }

    /// The date and the time of day.
    ///
    /// ```
    /// use plaitgate::Utc;
    ///
    /// let last = Utc::MAX.to_civil();
    /// assert_eq!((last.year, last.month, last.day), (2556, 7, 20));
    /// assert_eq!((last.hour, last.minute, last.second, last.nanos), (23, 34, 33, 709_551_615));
    /// ```
    #[must_use]
    pub fn to_civil(self) -> CivilDateTime {
        CivilDateTime::of_fields(always(sys::utc_to_civil(self.0)))
    }
}
