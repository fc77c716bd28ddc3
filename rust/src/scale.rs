//! Counts of nanoseconds, one type a scale.

use crate::sys::{self, always};
use crate::{Duration, Result};

/// What every scale has. The names after `by` are the library's functions for it.
macro_rules! scale {
    ($(#[$about:meta])* $Scale:ident, by $checked_from_seconds:ident, $as_seconds:ident, $as_parts:ident,
        $checked_add:ident, $checked_sub_duration:ident, $saturating_add:ident, $saturating_sub_duration:ident,
        $checked_elapsed:ident, $limits:ident) => {
        $(#[$about])*
        #[derive(Debug, Clone, Copy, PartialEq, Eq, PartialOrd, Ord, Hash)]
        #[must_use]
        pub struct $Scale(pub(crate) u64);

        impl $Scale {
            /// The count 0.
            pub const EPOCH: Self = $Scale(0);
            /// The least count, which is that of the epoch.
            pub const MIN: Self = Self::EPOCH;
            /// The largest count.
            pub const MAX: Self = $Scale(u64::MAX);
            /// The nanoseconds of 365 days.
            pub const NANOS_PER_YEAR: u64 = 365 * 86_400 * 1_000_000_000;

            /// The count of nanoseconds since the epoch.
            #[inline]
            pub const fn from_nanos(nanos: u64) -> Self {
                $Scale(nanos)
            }

            /// The nanoseconds since the epoch.
            #[inline]
            #[must_use]
            pub const fn as_nanos(self) -> u64 {
                self.0
            }

            /// The count of seconds since the epoch; none above 18,446,744,073 s.
            #[inline]
            #[must_use]
            pub fn checked_from_seconds(seconds: u64) -> Option<Self> {
                sys::$checked_from_seconds(seconds).ok().map($Scale)
            }

            /// The whole seconds since the epoch, rounded down.
            #[inline]
            #[must_use]
            pub fn as_seconds(self) -> u64 {
                always(sys::$as_seconds(self.0))
            }

            /// The whole seconds since the epoch, and the nanoseconds left.
            #[inline]
            #[must_use]
            pub fn as_parts(self) -> (u64, u32) {
                always(sys::$as_parts(self.0))
            }

            /// The count a duration later; none below 0 or above 64 bits.
            #[inline]
            #[must_use]
            pub fn checked_add(self, duration: Duration) -> Option<Self> {
                self.try_add(duration).ok()
            }

            /// The count a duration earlier; none below 0 or above 64 bits.
            #[inline]
            #[must_use]
            pub fn checked_sub_duration(self, duration: Duration) -> Option<Self> {
                self.try_sub_duration(duration).ok()
            }

            /// As `checked_add`, with the refusal in place of `None`.
            #[inline]
            pub fn try_add(self, duration: Duration) -> Result<Self> {
                sys::$checked_add(self.0, duration.as_nanos()).map($Scale)
            }

            /// As `checked_sub_duration`, with the refusal in place of `None`.
            #[inline]
            pub fn try_sub_duration(self, duration: Duration) -> Result<Self> {
                sys::$checked_sub_duration(self.0, duration.as_nanos()).map($Scale)
            }

            /// As `checked_add`, but stops at the least and at the largest count.
            #[inline]
            pub fn saturating_add(self, duration: Duration) -> Self {
                $Scale(always(sys::$saturating_add(self.0, duration.as_nanos())))
            }

            /// As `checked_sub_duration`, but stops at the least and at the largest count.
            #[inline]
            pub fn saturating_sub_duration(self, duration: Duration) -> Self {
                $Scale(always(sys::$saturating_sub_duration(self.0, duration.as_nanos())))
            }

            /// The duration from `earlier` to this count; none where it does not fit 64 bits with sign.
            #[inline]
            #[must_use]
            pub fn checked_elapsed(self, earlier: Self) -> Option<Duration> {
                sys::$checked_elapsed(self.0, earlier.0).ok().map(Duration::from_nanos)
            }
        }

        #[cfg(test)]
        impl $Scale {
            fn limits_agree() -> bool {
                let here = (Self::EPOCH.0, Self::MIN.0, Self::MAX.0, Self::NANOS_PER_YEAR);
                sys::$limits() == Ok(here)
            }
        }
    };
}

scale! {
    /// Nanoseconds since 1980-01-06 on the clock of GPS.
    ///
    /// ```
    /// use plaitgate::{DurationParts, Gps};
    ///
    /// let gps = Gps::from_week_tow(2345, DurationParts { seconds: 432_000, nanos: 0 })?;
    /// assert_eq!(gps.as_nanos(), 1_418_688_000_000_000_000);
    /// assert_eq!((gps.week(), gps.tow_seconds()), (2345, 432_000));
    ///
    /// // midnight of GPS is 18 s before midnight of UTC
    /// let civil = gps.to_utc()?.to_civil();
    /// assert_eq!((civil.day, civil.hour, civil.minute, civil.second), (19, 23, 59, 42));
    /// # Ok::<(), plaitgate::Error>(())
    /// ```
    ///
    /// A count of one scale is not taken for one of another:
    ///
    /// ```compile_fail
    /// use plaitgate::{Gps, Utc};
    ///
    /// let _ = Gps::MAX.checked_elapsed(Utc::EPOCH);
    /// ```
    Gps, by gps_checked_from_seconds, gps_as_seconds, gps_as_parts, gps_checked_add, gps_checked_sub_duration,
    gps_saturating_add, gps_saturating_sub_duration, gps_checked_elapsed, gps_limits
}

scale! {
    /// Nanoseconds since 1972-01-01 in UTC, leap seconds not counted.
    ///
    /// ```
    /// use plaitgate::Utc;
    ///
    /// let utc = Utc::from_unix_seconds(1_700_000_000)?;
    /// assert_eq!(utc.as_unix_seconds(), 1_700_000_000);
    /// assert_eq!(utc.as_parts(), (1_636_928_000, 0));
    /// # Ok::<(), plaitgate::Error>(())
    /// ```
    Utc, by utc_checked_from_seconds, utc_as_seconds, utc_as_parts, utc_checked_add, utc_checked_sub_duration,
    utc_saturating_add, utc_saturating_sub_duration, utc_checked_elapsed, utc_limits
}

scale! {
    /// Nanoseconds since 1996-01-01 in Moscow time.
    ///
    /// ```
    /// use plaitgate::{DurationParts, Glonass};
    ///
    /// let saturday = Glonass::from_day_tod(5, DurationParts { seconds: 3600, nanos: 1 })?;
    /// assert_eq!((saturday.day(), saturday.tod_seconds(), saturday.sub_second_nanos()), (5, 3600, 1));
    /// assert!(saturday.is_weekend());
    /// # Ok::<(), plaitgate::Error>(())
    /// ```
    Glonass, by glonass_checked_from_seconds, glonass_as_seconds, glonass_as_parts, glonass_checked_add,
    glonass_checked_sub_duration, glonass_saturating_add, glonass_saturating_sub_duration, glonass_checked_elapsed,
    glonass_limits
}

scale! {
    /// Nanoseconds since 1980-01-06 on the clock of TAI: the GPS count and 19 s.
    ///
    /// ```
    /// use plaitgate::{Gps, Tai};
    ///
    /// assert_eq!(Gps::EPOCH.to_tai()?, Tai::from_nanos(19_000_000_000));
    /// # Ok::<(), plaitgate::Error>(())
    /// ```
    Tai, by tai_checked_from_seconds, tai_as_seconds, tai_as_parts, tai_checked_add, tai_checked_sub_duration,
    tai_saturating_add, tai_saturating_sub_duration, tai_checked_elapsed, tai_limits
}

scale! {
    /// Nanoseconds since 1999-08-22 on the clock of GPS: the GPS count less 619,315,200 s, which is 1,024 weeks.
    ///
    /// ```
    /// use plaitgate::{DurationParts, Galileo, Gps};
    ///
    /// let tow = DurationParts { seconds: 432_000, nanos: 0 };
    /// assert_eq!(Galileo::from_week_tow(1321, tow)?.to_gps()?, Gps::from_week_tow(2345, tow)?);
    /// # Ok::<(), plaitgate::Error>(())
    /// ```
    ///
    /// In gnss-time a Galileo count is the GPS count itself: docs/MOVING.md says how such counts are moved.
    Galileo, by galileo_checked_from_seconds, galileo_as_seconds, galileo_as_parts, galileo_checked_add,
    galileo_checked_sub_duration, galileo_saturating_add, galileo_saturating_sub_duration, galileo_checked_elapsed,
    galileo_limits
}

scale! {
    /// Nanoseconds since 2006-01-01 in UTC, leap seconds counted: the GPS count less 820,108,814 s, which is 1,356
    /// weeks and 14 s.
    ///
    /// ```
    /// use plaitgate::{Beidou, CivilDateTime};
    ///
    /// let new_year = CivilDateTime { year: 2006, month: 1, day: 1, hour: 0, minute: 0, second: 0, nanos: 0 };
    /// assert_eq!(new_year.to_utc()?.to_beidou()?, Beidou::EPOCH);
    /// assert_eq!(Beidou::EPOCH.to_utc()?.to_civil(), new_year);
    /// # Ok::<(), plaitgate::Error>(())
    /// ```
    ///
    /// In gnss-time a BeiDou count is the GPS count less 14 s: docs/MOVING.md says how such counts are moved.
    Beidou, by beidou_checked_from_seconds, beidou_as_seconds, beidou_as_parts, beidou_checked_add,
    beidou_checked_sub_duration, beidou_saturating_add, beidou_saturating_sub_duration, beidou_checked_elapsed,
    beidou_limits
}

#[cfg(test)]
mod tests {
    use super::*;

    #[test]
    fn the_constants_are_the_library_s() {
        assert!(Gps::limits_agree() && Utc::limits_agree() && Glonass::limits_agree() && Tai::limits_agree());
        assert!(Galileo::limits_agree() && Beidou::limits_agree());
    }
}
