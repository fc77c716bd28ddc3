//! Durations, and seconds of a week or a day.
//!
//! A duration's units and sums are computed here, by `core`'s checked arithmetic, and not by the library: to the library a
//! duration is its nanoseconds.

use crate::sys;
use crate::{Error, Result};

/// A signed number of nanoseconds.
///
/// A duration of another unit is made by a checked call, which gives `None` where the nanoseconds do not fit 64 bits:
///
/// ```
/// use plaitgate::{Duration, Gps};
///
/// let minute = Duration::checked_from_minutes(1).expect("fits");
/// assert_eq!(Gps::EPOCH.checked_add(minute), Gps::checked_from_seconds(60));
/// assert_eq!(Gps::EPOCH.checked_sub_duration(minute), None);
///
/// // the longest is a little more than 292 years
/// assert_eq!(Duration::checked_from_seconds(9_223_372_036).map(Duration::as_seconds), Some(9_223_372_036));
/// assert_eq!(Duration::checked_from_seconds(9_223_372_037), None);
/// ```
#[derive(Debug, Clone, Copy, PartialEq, Eq, PartialOrd, Ord, Hash, Default)]
#[must_use]
pub struct Duration(i64);

const NANOS_PER_MICRO: i64 = 1_000;
const NANOS_PER_MILLI: i64 = 1_000_000;
const NANOS_PER_SECOND: i64 = 1_000_000_000;

/// The calls that make a duration from a number of units.
macro_rules! units {
    ($($about:literal $checked_from:ident $nanos:expr;)*) => {
        impl Duration {
            $(
                #[doc = $about]
                #[inline]
                #[must_use]
                pub const fn $checked_from(count: i64) -> Option<Self> {
                    some(count.checked_mul($nanos))
                }
            )*
        }
    };
}

units! {
    "So many microseconds; `None` where the nanoseconds do not fit." checked_from_micros NANOS_PER_MICRO;
    "So many milliseconds; `None` where the nanoseconds do not fit." checked_from_millis NANOS_PER_MILLI;
    "So many seconds; `None` where the nanoseconds do not fit." checked_from_seconds NANOS_PER_SECOND;
    "So many minutes; `None` where the nanoseconds do not fit." checked_from_minutes 60 * NANOS_PER_SECOND;
    "So many hours; `None` where the nanoseconds do not fit." checked_from_hours 3_600 * NANOS_PER_SECOND;
    "So many days of 86,400 s; `None` where the nanoseconds do not fit." checked_from_days 86_400 * NANOS_PER_SECOND;
}

/// `Option::map(Duration)`, which is not `const`.
const fn some(nanos: Option<i64>) -> Option<Duration> {
    match nanos {
        Some(nanos) => Some(Duration(nanos)),
        None => None,
    }
}

impl Duration {
    pub const ZERO: Self = Duration(0);
    pub const MIN: Self = Duration(i64::MIN);
    pub const MAX: Self = Duration(i64::MAX);
    pub const ONE_NANOSECOND: Self = Duration(1);
    pub const ONE_SECOND: Self = Duration(NANOS_PER_SECOND);

    /// The duration of a number of nanoseconds.
    #[inline]
    pub const fn from_nanos(nanos: i64) -> Self {
        Duration(nanos)
    }

    /// The nanoseconds of the duration.
    #[inline]
    #[must_use]
    pub const fn as_nanos(self) -> i64 {
        self.0
    }

    /// The whole microseconds, rounded towards zero.
    #[inline]
    #[must_use]
    pub const fn as_micros(self) -> i64 {
        self.0 / NANOS_PER_MICRO
    }

    /// The whole milliseconds, rounded towards zero.
    #[inline]
    #[must_use]
    pub const fn as_millis(self) -> i64 {
        self.0 / NANOS_PER_MILLI
    }

    /// The whole seconds, rounded towards zero.
    #[inline]
    #[must_use]
    pub const fn as_seconds(self) -> i64 {
        self.0 / NANOS_PER_SECOND
    }

    #[inline]
    #[must_use]
    pub const fn is_positive(self) -> bool {
        self.0 > 0
    }

    #[inline]
    #[must_use]
    pub const fn is_negative(self) -> bool {
        self.0 < 0
    }

    #[inline]
    #[must_use]
    pub const fn is_zero(self) -> bool {
        self.0 == 0
    }

    /// The duration without its sign; `None` for [`Duration::MIN`].
    #[inline]
    #[must_use]
    pub const fn abs(self) -> Option<Self> {
        some(self.0.checked_abs())
    }

    /// The duration the other way; `None` for [`Duration::MIN`]. gnss-time has the operator `-`, which panics or wraps there.
    #[inline]
    #[must_use]
    pub const fn checked_neg(self) -> Option<Self> {
        some(self.0.checked_neg())
    }

    /// The sum; `None` where it does not fit.
    #[inline]
    #[must_use]
    pub const fn checked_add(self, other: Self) -> Option<Self> {
        some(self.0.checked_add(other.0))
    }

    /// The difference; `None` where it does not fit.
    #[inline]
    #[must_use]
    pub const fn checked_sub(self, other: Self) -> Option<Self> {
        some(self.0.checked_sub(other.0))
    }

    /// As `checked_add`, but stops at [`Duration::MIN`] and [`Duration::MAX`].
    #[inline]
    pub const fn saturating_add(self, other: Self) -> Self {
        Duration(self.0.saturating_add(other.0))
    }

    /// As `checked_sub`, but stops at [`Duration::MIN`] and [`Duration::MAX`].
    #[inline]
    pub const fn saturating_sub(self, other: Self) -> Self {
        Duration(self.0.saturating_sub(other.0))
    }

    /// As `checked_add`, with [`Overflow`](Error::Overflow) in place of `None`.
    #[inline]
    pub fn try_add(self, other: Self) -> Result<Self> {
        self.checked_add(other).ok_or(Error::Overflow)
    }

    /// As `checked_sub`, with [`Overflow`](Error::Overflow) in place of `None`.
    #[inline]
    pub fn try_sub(self, other: Self) -> Result<Self> {
        self.checked_sub(other).ok_or(Error::Overflow)
    }
}

/// Whole seconds, and nanoseconds of a second, as a time of a week or a day is given.
///
/// The fields are public, and any numbers may be in them: [`Gps::from_week_tow`](crate::Gps::from_week_tow) and its
/// like, and [`Glonass::from_day_tod`](crate::Glonass::from_day_tod), test them.
#[derive(Debug, Clone, Copy, PartialEq, Eq, Hash, Default)]
pub struct DurationParts {
    pub seconds: u64,
    pub nanos: u32,
}

impl DurationParts {
    pub const NANOS_PER_SECOND: u32 = 1_000_000_000;

    /// Seconds and nanoseconds as they are given. Refuses with [`InvalidNanos`](crate::Error::InvalidNanos) where the
    /// nanoseconds reach a second.
    ///
    /// ```
    /// use plaitgate::{DurationParts, Error};
    ///
    /// assert_eq!(DurationParts::new(5, 7), Ok(DurationParts { seconds: 5, nanos: 7 }));
    /// assert_eq!(DurationParts::new(5, 1_000_000_000), Err(Error::InvalidNanos));
    /// ```
    pub fn new(seconds: u64, nanos: u32) -> Result<Self> {
        sys::duration_parts_new(seconds, nanos).map(|(seconds, nanos)| DurationParts { seconds, nanos })
    }
}
