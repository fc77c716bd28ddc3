//! Weeks, for the scales that are read in them.

use crate::sys::{self, always};
use crate::{Beidou, DurationParts, Galileo, Gps, Result};

/// What such a scale has: weeks of 604,800 s from its own epoch. The names after `by` are the library's functions for
/// it.
macro_rules! weeks {
    ($Scale:ident, by $from_week_tow:ident, $week:ident, $tow_seconds:ident, $sub_second_nanos:ident) => {
        impl $Scale {
            /// The count of a week and a time of that week. Refuses with
            /// [`InvalidSeconds`](crate::Error::InvalidSeconds) from 604,800 s on, else with
            /// [`InvalidNanos`](crate::Error::InvalidNanos) from 1,000,000,000 ns on, else with
            /// [`Overflow`](crate::Error::Overflow) above 64 bits.
            ///
            /// ```
            #[doc = concat!("use plaitgate::{DurationParts, Error, ", stringify!($Scale), "};")]
            ///
            /// let keyed_in = |seconds, nanos| {
            #[doc = concat!("    ", stringify!($Scale), "::from_week_tow(2345, DurationParts { seconds, nanos })")]
            /// };
            /// assert_eq!(keyed_in(604_800, 0), Err(Error::InvalidSeconds));
            /// assert_eq!(keyed_in(604_799, 1_000_000_000), Err(Error::InvalidNanos));
            /// assert!(keyed_in(604_799, 999_999_999).is_ok());
            /// ```
            pub fn from_week_tow(week: u32, tow: DurationParts) -> Result<Self> {
                sys::$from_week_tow(week, tow.seconds, tow.nanos).map($Scale)
            }

            /// The week since the epoch.
            #[inline]
            #[must_use]
            pub fn week(self) -> u32 {
                always(sys::$week(self.0))
            }

            /// The whole seconds of the week.
            #[inline]
            #[must_use]
            pub fn tow_seconds(self) -> u32 {
                always(sys::$tow_seconds(self.0))
            }

            /// The nanoseconds of the second.
            #[inline]
            #[must_use]
            pub fn sub_second_nanos(self) -> u32 {
                always(sys::$sub_second_nanos(self.0))
            }
        }
    };
}

weeks!(Gps, by gps_from_week_tow, gps_week, gps_tow_seconds, gps_sub_second_nanos);
weeks!(Galileo, by galileo_from_week_tow, galileo_week, galileo_tow_seconds, galileo_sub_second_nanos);
weeks!(Beidou, by beidou_from_week_tow, beidou_week, beidou_tow_seconds, beidou_sub_second_nanos);
