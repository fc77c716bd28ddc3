//! What GLONASS has alone: days, and days of the week.

use crate::sys::{self, always};
use crate::{DurationParts, Glonass, Result};

impl Glonass {
    /// The count of a day and a time of that day. Refuses with [`InvalidSeconds`](crate::Error::InvalidSeconds) from
    /// 86,400 s on, else with [`InvalidNanos`](crate::Error::InvalidNanos) from 1,000,000,000 ns on, else with
    /// [`Overflow`](crate::Error::Overflow) above 64 bits.
    pub fn from_day_tod(day: u32, tod: DurationParts) -> Result<Self> {
        sys::glonass_from_day_tod(day, tod.seconds, tod.nanos).map(Glonass)
    }

    /// The day since the epoch.
    #[inline]
    #[must_use]
    pub fn day(self) -> u32 {
        always(sys::glonass_day(self.0))
    }

    /// The whole seconds of the day.
    #[inline]
    #[must_use]
    pub fn tod_seconds(self) -> u32 {
        always(sys::glonass_tod_seconds(self.0))
    }

    /// The nanoseconds of the second.
    #[inline]
    #[must_use]
    pub fn sub_second_nanos(self) -> u32 {
        always(sys::glonass_sub_second_nanos(self.0))
    }

    /// The day of the week, 1 for Monday to 7 for Sunday; day 0 is a Monday.
    #[inline]
    #[must_use]
    pub fn day_of_week(self) -> u8 {
        always(sys::glonass_day_of_week(self.0))
    }

    /// Whether the day is a Saturday or a Sunday.
    #[inline]
    #[must_use]
    pub fn is_weekend(self) -> bool {
        always(sys::glonass_is_weekend(self.0)) != 0
    }
}
