//! Entries of leap-second tables and lists.

use crate::sys::{self, ENTRY_BYTES};
use crate::{CivilDate, Result};

/// An entry of a table: a TAI count, and TAI minus UTC in seconds from then on.
#[derive(Debug, Clone, Copy, PartialEq, Eq, Hash)]
pub struct LeapEntry {
    pub tai_nanos: u64,
    pub tai_minus_utc: i32,
}

impl LeapEntry {
    #[inline]
    #[must_use]
    pub const fn new(tai_nanos: u64, tai_minus_utc: i32) -> Self {
        LeapEntry { tai_nanos, tai_minus_utc }
    }

    /// The entry of a leap-second event: the UTC date that begins with the new offset, and that offset, as IERS
    /// Bulletin C gives them. Any fields make a date. Refuses with [`Overflow`](crate::Error::Overflow) before
    /// 1972-01-01, where the date is past the last UTC count, and where the threshold is no count.
    ///
    /// Do not make the threshold of the date's UTC count: that count is the inserted second's too, and
    /// [`to_gps`](crate::Utc::to_gps) gives the first of the two, a second before the threshold.
    ///
    /// ```
    /// use plaitgate::{CivilDate, CivilDateTime, Error, LeapEntry, LeapTable};
    ///
    /// let last = LeapEntry::of_event(CivilDate::new(2017, 1, 1), 37)?;
    /// assert_eq!(last, LeapEntry::new(1_167_264_037_000_000_000, 37));
    /// assert_eq!(LeapTable::builtin().entries().last(), Some(last));
    ///
    /// let midnight = CivilDateTime { year: 2017, month: 1, day: 1, hour: 0, minute: 0, second: 0, nanos: 0 };
    /// assert_eq!(midnight.to_utc()?.to_gps()?.to_tai()?.as_nanos(), last.tai_nanos - 1_000_000_000);
    ///
    /// assert_eq!(LeapEntry::of_event(CivilDate::new(1971, 12, 31), 10), Err(Error::Overflow));
    /// # Ok::<(), plaitgate::Error>(())
    /// ```
    pub fn of_event(date: CivilDate, tai_minus_utc: i32) -> Result<Self> {
        let tai_nanos = sys::entry_of_event(date.year, date.month, date.day, tai_minus_utc)?;
        Ok(LeapEntry { tai_nanos, tai_minus_utc })
    }

    /// The entry in a list of bytes ([`LeapList`](crate::LeapList)): 8 of the threshold, 4 of the offset, low byte
    /// first.
    #[must_use]
    pub fn to_bytes(self) -> [u8; 12] {
        let mut bytes = [0; ENTRY_BYTES];
        bytes[..8].copy_from_slice(&self.tai_nanos.to_le_bytes());
        bytes[8..].copy_from_slice(&self.tai_minus_utc.to_le_bytes());
        bytes
    }
}
