//! Civil readings of GPS counts, in which an inserted second is 23:59:60, and back. gnss-time has none.

use crate::sys::{self, Image};
use crate::{CivilDateTime, CivilError, Dated, Gps, LeapSeconds, LeapSecondsProvider, Result};

impl Gps {
    /// The civil reading by the built-in table: the date and the time of day, in which an inserted second is 23:59:60.
    /// No two counts have the same reading, and a later count has a later one. Refuses as [`to_utc`](Gps::to_utc).
    ///
    /// ```
    /// use plaitgate::{CivilDateTime, Gps};
    ///
    /// let inserted = Gps::from_nanos(1_167_264_017_000_000_000);
    /// let after = Gps::from_nanos(1_167_264_018_000_000_000);
    /// let last = CivilDateTime { year: 2016, month: 12, day: 31, hour: 23, minute: 59, second: 60, nanos: 0 };
    /// let first = CivilDateTime { year: 2017, month: 1, day: 1, hour: 0, minute: 0, second: 0, nanos: 0 };
    /// assert_eq!((inserted.to_civil()?, after.to_civil()?), (last, first));
    /// assert!(last < first);
    ///
    /// // by way of the UTC count the two are one
    /// assert_eq!((inserted.to_utc()?.to_civil(), after.to_utc()?.to_civil()), (first, first));
    /// # Ok::<(), plaitgate::Error>(())
    /// ```
    pub fn to_civil(self) -> Result<CivilDateTime> {
        self.to_civil_with(LeapSeconds::builtin())
    }

    /// The civil reading by a table. Refuses with [`NotOnDays`](crate::Error::NotOnDays) where the table cannot be read
    /// by, then as [`to_utc_with`](Gps::to_utc_with).
    ///
    /// A table can be read by if it is regular (it begins (0, 19), and each threshold after the first is at least
    /// 86,400 s above the one before), and each threshold after the first, less its offset in seconds, is a multiple of
    /// 86,400 s: the entry begins a day. [`LeapEntry::of_event`](crate::LeapEntry::of_event) makes such entries.
    ///
    /// ```
    /// use plaitgate::{CivilDate, Error, Gps, LeapEntry, LeapTable};
    ///
    /// let event = LeapEntry::of_event(CivilDate::new(2035, 1, 1), 38)?;
    /// let mut table = LeapTable::builtin();
    /// table.try_extend(event)?;
    /// let inserted = Gps::from_nanos(event.tai_nanos - 20_000_000_000);
    /// let reading = inserted.to_civil_with(&table)?;
    /// assert_eq!((reading.year, reading.month, reading.day), (2034, 12, 31));
    /// assert_eq!((reading.hour, reading.minute, reading.second), (23, 59, 60));
    ///
    /// // an entry a second late begins no day
    /// let late = LeapEntry::new(event.tai_nanos + 1_000_000_000, 38);
    /// let mut table = LeapTable::builtin();
    /// table.try_extend(late)?;
    /// assert_eq!(Gps::EPOCH.to_civil_with(&table), Err(Error::NotOnDays));
    /// # Ok::<(), plaitgate::Error>(())
    /// ```
    pub fn to_civil_with<P: LeapSecondsProvider>(self, table: &P) -> Result<CivilDateTime> {
        self.to_civil_dated(table).map(Dated::into_value)
    }

    /// As [`to_civil_with`](Gps::to_civil_with), and whether the table has expired at the TAI count, which is 19 s more.
    ///
    /// ```
    /// use plaitgate::{Gps, LeapTable};
    ///
    /// let gps = Gps::from_nanos(1_167_264_017_000_000_000);
    /// let table = LeapTable::builtin().with_expiry(Some(gps.to_tai()?));
    /// let reading = gps.to_civil_dated(&table)?;
    /// assert_eq!((reading.value, reading.stale), (gps.to_civil()?, true));
    /// assert!(!Gps::from_nanos(gps.as_nanos() - 1).to_civil_dated(&table)?.stale);
    /// # Ok::<(), plaitgate::Error>(())
    /// ```
    pub fn to_civil_dated<P: LeapSecondsProvider>(self, table: &P) -> Result<Dated<CivilDateTime>> {
        table.gps_to_civil(self.0)
    }
}

impl CivilDateTime {
    /// The GPS count by the built-in table: the count whose civil reading ([`Gps::to_civil`]) is these fields. It takes
    /// the fields of a reading, and no others.
    ///
    /// Refuses the first field that is out of range, with [`NoSuchMonth`](crate::Error::NoSuchMonth),
    /// [`NoSuchDay`](crate::Error::NoSuchDay), [`NoSuchHour`](crate::Error::NoSuchHour),
    /// [`NoSuchMinute`](crate::Error::NoSuchMinute), [`NoSuchSecond`](crate::Error::NoSuchSecond) above 60, or
    /// [`InvalidNanos`](crate::Error::InvalidNanos). Then refuses with
    /// [`NoInsertedSecond`](crate::Error::NoInsertedSecond) where the second is 60 and no count is read so, then with
    /// [`Overflow`](crate::Error::Overflow) before 1980-01-06 and past the range of counts. The [`CivilError`] holds the
    /// fields, and its words name the one that is wrong.
    ///
    /// [`to_utc`](CivilDateTime::to_utc) checks no field.
    ///
    /// ```
    /// use plaitgate::{CivilDateTime, Error, Gps};
    ///
    /// let last = CivilDateTime { year: 2016, month: 12, day: 31, hour: 23, minute: 59, second: 60, nanos: 0 };
    /// let first = CivilDateTime { year: 2017, month: 1, day: 1, hour: 0, minute: 0, second: 0, nanos: 0 };
    /// assert_eq!(last.to_gps()?, Gps::from_nanos(1_167_264_017_000_000_000));
    /// assert_eq!(first.to_gps()?, Gps::from_nanos(1_167_264_018_000_000_000));
    ///
    /// // a second 60 that was not inserted, and a day that is not there
    /// let refused = CivilDateTime { day: 30, ..last }.to_gps().unwrap_err();
    /// assert_eq!(refused.error(), Error::NoInsertedSecond);
    /// assert_eq!(refused.to_string(), "no second 60 at 2016-12-30T23:59");
    /// let refused = CivilDateTime { year: 2023, month: 2, day: 31, ..first }.to_gps().unwrap_err();
    /// assert_eq!(refused.error(), Error::NoSuchDay);
    /// assert_eq!(refused.to_string(), "day 31 of 2023-02, which has 28");
    ///
    /// // by way of the UTC count both are the first of the two
    /// assert_eq!(last.to_utc()?.to_gps()?, last.to_gps()?);
    /// assert_eq!(first.to_utc()?.to_gps()?, last.to_gps()?);
    /// # Ok::<(), plaitgate::Error>(())
    /// ```
    pub fn to_gps(self) -> Result<Gps, CivilError> {
        self.to_gps_with(LeapSeconds::builtin())
    }

    /// The GPS count by a table. Refuses with [`NotOnDays`](crate::Error::NotOnDays) where the table cannot be read by
    /// ([`Gps::to_civil_with`] says when), then as [`to_gps`](CivilDateTime::to_gps): the table is checked first.
    ///
    /// ```
    /// use plaitgate::{CivilDateTime, Error, Gps, LeapEntry, LeapTable};
    ///
    /// // the first inserted second alone
    /// let table = LeapTable::from_entries(&[LeapEntry::new(0, 19), LeapEntry::new(46_828_820_000_000_000, 20)])?;
    /// let first = CivilDateTime { year: 1981, month: 6, day: 30, hour: 23, minute: 59, second: 60, nanos: 0 };
    /// assert_eq!(first.to_gps_with(&table)?, Gps::from_nanos(46_828_800_000_000_000));
    /// let refused = CivilDateTime { year: 1982, ..first }.to_gps_with(&table).unwrap_err();
    /// assert_eq!(refused.error(), Error::NoInsertedSecond);
    ///
    /// // a table that begins otherwise than (0, 19) is refused before a month 13
    /// let refused = CivilDateTime { month: 13, ..first }.to_gps_with(&LeapTable::new()).unwrap_err();
    /// assert_eq!(refused.error(), Error::NotOnDays);
    /// # Ok::<(), plaitgate::Error>(())
    /// ```
    pub fn to_gps_with<P: LeapSecondsProvider>(self, table: &P) -> Result<Gps, CivilError> {
        self.to_gps_dated(table).map(Dated::into_value)
    }

    /// As [`to_gps_with`](CivilDateTime::to_gps_with), and whether the table has expired at the TAI count of the GPS
    /// count.
    ///
    /// ```
    /// use plaitgate::{CivilDateTime, Gps, LeapTable};
    ///
    /// let gps = Gps::from_nanos(1_167_264_018_000_000_000);
    /// let table = LeapTable::builtin().with_expiry(Some(gps.to_tai()?));
    /// let new_year = CivilDateTime { year: 2017, month: 1, day: 1, hour: 0, minute: 0, second: 0, nanos: 0 };
    /// let count = new_year.to_gps_dated(&table)?;
    /// assert_eq!((count.value, count.stale), (gps, true));
    /// # Ok::<(), plaitgate::Error>(())
    /// ```
    pub fn to_gps_dated<P: LeapSecondsProvider>(self, table: &P) -> Result<Dated<Gps>, CivilError> {
        let count = table.civil_to_gps(self).map_err(|error| CivilError::new(error, self))?;
        Ok(count.map(Gps))
    }
}

// The library's four functions, with the fields as one value.

pub fn builtin_gps_to_civil(gps: u64) -> Result<CivilDateTime> {
    sys::builtin_gps_to_civil(gps).map(CivilDateTime::of_fields)
}

pub fn table_gps_to_civil(gps: u64, image: &Image) -> Result<(CivilDateTime, u8)> {
    let (year, month, day, hour, minute, second, nanos, stale) = sys::table_gps_to_civil(gps, image)?;
    Ok((CivilDateTime { year, month, day, hour, minute, second, nanos }, stale))
}

pub fn builtin_civil_to_gps(at: CivilDateTime) -> Result<u64> {
    sys::builtin_civil_to_gps(at.year, at.month, at.day, at.hour, at.minute, at.second, at.nanos)
}

pub fn table_civil_to_gps(at: CivilDateTime, image: &Image) -> Result<(u64, u8)> {
    sys::table_civil_to_gps(at.year, at.month, at.day, at.hour, at.minute, at.second, at.nanos, image)
}
