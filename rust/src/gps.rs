//! What GPS has alone: TAI, and the ways to UTC and Unix time.

use crate::sys;
use crate::{gps_to_utc, gps_to_utc_dated, Dated, Gps, LeapSeconds, LeapSecondsProvider, Result, Tai, Utc};

impl Gps {
    /// The TAI count, 19 s more. Refuses with [`Overflow`](crate::Error::Overflow) above 64 bits.
    pub fn to_tai(self) -> Result<Tai> {
        sys::gps_to_tai(self.0).map(Tai)
    }

    /// The GPS count of a TAI count, 19 s less. Refuses with [`Overflow`](crate::Error::Overflow) below 19 s.
    pub fn from_tai(tai: Tai) -> Result<Self> {
        sys::gps_from_tai(tai.0).map(Gps)
    }

    /// The UTC count by the built-in table. Refuses with [`Overflow`](crate::Error::Overflow) above 64 bits.
    pub fn to_utc(self) -> Result<Utc> {
        gps_to_utc(self, LeapSeconds::builtin())
    }

    /// The UTC count by a table: see [`gps_to_utc`].
    ///
    /// ```
    /// use plaitgate::{Gps, LeapTable, Utc};
    ///
    /// let none = LeapTable::new();
    /// assert_eq!(Gps::EPOCH.to_utc_with(&none)?, Utc::from_nanos(252_892_800_000_000_000));
    /// # Ok::<(), plaitgate::Error>(())
    /// ```
    pub fn to_utc_with<P: LeapSecondsProvider>(self, table: &P) -> Result<Utc> {
        gps_to_utc(self, table)
    }

    /// As [`to_utc_with`](Gps::to_utc_with), and whether the table has expired.
    pub fn to_utc_dated<P: LeapSecondsProvider>(self, table: &P) -> Result<Dated<Utc>> {
        gps_to_utc_dated(self, table)
    }

    /// The GPS count of seconds since 1970-01-01, by way of UTC.
    ///
    /// ```
    /// use plaitgate::{Gps, LeapSeconds};
    ///
    /// assert_eq!(Gps::from_unix_seconds(315_964_800, LeapSeconds::builtin()), Ok(Gps::EPOCH));
    /// ```
    pub fn from_unix_seconds<P: LeapSecondsProvider>(unix_seconds: i64, table: P) -> Result<Self> {
        Self::from_unix_seconds_dated(unix_seconds, table).map(Dated::into_value)
    }

    /// As [`from_unix_seconds`](Gps::from_unix_seconds), and whether the table has expired.
    pub fn from_unix_seconds_dated<P: LeapSecondsProvider>(unix_seconds: i64, table: P) -> Result<Dated<Self>> {
        table.gps_from_unix_seconds(unix_seconds).map(|answer| answer.map(Gps))
    }

    /// The whole seconds since 1970-01-01, by way of UTC. Refuses as [`gps_to_utc`].
    pub fn as_unix_seconds<P: LeapSecondsProvider>(self, table: P) -> Result<i64> {
        self.as_unix_seconds_dated(table).map(Dated::into_value)
    }

    /// As [`as_unix_seconds`](Gps::as_unix_seconds), and whether the table has expired.
    pub fn as_unix_seconds_dated<P: LeapSecondsProvider>(self, table: P) -> Result<Dated<i64>> {
        table.gps_as_unix_seconds(self.0)
    }
}
