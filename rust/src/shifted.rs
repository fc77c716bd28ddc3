//! Scales whose counts are those of GPS less a fixed number of seconds.

use crate::convert::by_table;
use crate::sys;
use crate::{Beidou, Dated, Galileo, Glonass, Gps, LeapSeconds, LeapSecondsProvider, Result, Utc};

/// What such a scale has: its ways to GPS, UTC and GLONASS, and back. After `by` come the library's functions for GPS,
/// then the conversions by a table, which are made here under the same names and with `dated`, then the methods of GPS
/// and UTC.
macro_rules! shifted {
    ($Scale:ident, $named:literal, by $to_gps:ident, $from_gps:ident;
        $to_utc:ident, $to_utc_dated:ident;
        $(#[$from_utc_example:meta])* $from_utc:ident, $from_utc_dated:ident;
        $to_glonass:ident, $to_glonass_dated:ident;
        $from_glonass:ident, $from_glonass_dated:ident;
        $to_scale:ident, $to_scale_with:ident, $to_scale_dated:ident) => {
        impl $Scale {
            /// The GPS count. Refuses with [`Overflow`](crate::Error::Overflow) above 64 bits.
            pub fn to_gps(self) -> Result<Gps> {
                sys::$to_gps(self.0).map(Gps)
            }

            #[doc = concat!("The ", $named, " count of a GPS count. Refuses with [`Overflow`](crate::Error::Overflow)")]
            /// before the epoch.
            pub fn from_gps(gps: Gps) -> Result<Self> {
                sys::$from_gps(gps.0).map($Scale)
            }

            /// The UTC count by the built-in table. Refuses with [`Overflow`](crate::Error::Overflow) where the GPS
            /// count or the UTC count is above 64 bits.
            pub fn to_utc(self) -> Result<Utc> {
                $to_utc(self, LeapSeconds::builtin())
            }

            #[doc = concat!("The UTC count by a table: see [`", stringify!($to_utc), "`].")]
            pub fn to_utc_with<P: LeapSecondsProvider>(self, table: &P) -> Result<Utc> {
                $to_utc(self, table)
            }

            /// The same, and whether the table has expired.
            pub fn to_utc_dated<P: LeapSecondsProvider>(self, table: &P) -> Result<Dated<Utc>> {
                $to_utc_dated(self, table)
            }
        }

        impl Gps {
            #[doc = concat!("The ", $named, " count. Refuses with [`Overflow`](crate::Error::Overflow) before the")]
            #[doc = concat!("epoch of ", $named, ".")]
            pub fn $to_scale(self) -> Result<$Scale> {
                $Scale::from_gps(self)
            }
        }

        impl Utc {
            #[doc = concat!("The ", $named, " count by the built-in table: see [`", stringify!($from_utc), "`].")]
            #[doc = concat!("Refuses with [`Overflow`](crate::Error::Overflow) before the epoch of ", $named, ".")]
            pub fn $to_scale(self) -> Result<$Scale> {
                $from_utc(self, LeapSeconds::builtin())
            }

            #[doc = concat!("The ", $named, " count by a table: see [`", stringify!($from_utc), "`].")]
            pub fn $to_scale_with<P: LeapSecondsProvider>(self, table: &P) -> Result<$Scale> {
                $from_utc(self, table)
            }

            /// The same, and whether the table has expired.
            pub fn $to_scale_dated<P: LeapSecondsProvider>(self, table: &P) -> Result<Dated<$Scale>> {
                $from_utc_dated(self, table)
            }
        }

        by_table! {
            #[doc = concat!("The UTC count of a ", $named, " count, by way of GPS. Refuses as")]
            #[doc = concat!("[`to_gps`](", stringify!($Scale), "::to_gps), then as [`gps_to_utc`](crate::gps_to_utc).")]
            $to_utc, $to_utc_dated: $Scale to Utc;

            #[doc = concat!("The ", $named, " count of a UTC count, by way of GPS: the first of two, where a second")]
            #[doc = concat!("was inserted, or the later one, where the first is before the epoch of ", $named, ".")]
            /// Refuses as [`utc_to_gps`](crate::utc_to_gps), then with [`Overflow`](crate::Error::Overflow) before the
            /// epoch.
            ///
            /// By a table that is not regular the later one is not looked for, and there is a refusal. A table is
            /// regular if it begins (0, 19) and each threshold after the first is at least 86,400 s above the one
            /// before.
            ///
            $(#[$from_utc_example])*
            $from_utc, $from_utc_dated: Utc to $Scale;

            #[doc = concat!("The GLONASS count of a ", $named, " count, by way of UTC. Refuses as")]
            #[doc = concat!("[`", stringify!($to_utc), "`], then as [`utc_to_glonass`](crate::utc_to_glonass).")]
            $to_glonass, $to_glonass_dated: $Scale to Glonass;

            #[doc = concat!("The ", $named, " count of a GLONASS count, by way of UTC. Refuses as")]
            #[doc = concat!("[`glonass_to_utc`](crate::glonass_to_utc), then as [`", stringify!($from_utc), "`].")]
            $from_glonass, $from_glonass_dated: Glonass to $Scale;
        }
    };
}

shifted! {
    Galileo, "Galileo", by galileo_to_gps, gps_to_galileo;
    galileo_to_utc, galileo_to_utc_dated;
    /// ```
    /// use plaitgate::{utc_to_galileo, Error, Galileo, LeapSeconds, Utc};
    ///
    /// // the epoch of Galileo is midnight of GPS, 13 s before midnight of UTC
    /// let at = |nanos| utc_to_galileo(Utc::from_nanos(nanos), LeapSeconds::builtin());
    /// assert_eq!(at(872_207_986_999_999_999), Err(Error::Overflow));
    /// assert_eq!(at(872_207_987_000_000_000), Ok(Galileo::EPOCH));
    /// ```
    utc_to_galileo, utc_to_galileo_dated;
    galileo_to_glonass, galileo_to_glonass_dated;
    glonass_to_galileo, glonass_to_galileo_dated;
    to_galileo, to_galileo_with, to_galileo_dated
}

shifted! {
    Beidou, "BeiDou", by beidou_to_gps, gps_to_beidou;
    beidou_to_utc, beidou_to_utc_dated;
    /// ```
    /// use plaitgate::{utc_to_beidou, Beidou, Error, LeapSeconds, Utc};
    ///
    /// // the epoch of BeiDou is midnight of UTC, and a second was inserted before it, with the same UTC counts
    /// let at = |nanos| utc_to_beidou(Utc::from_nanos(nanos), LeapSeconds::builtin());
    /// assert_eq!(at(1_073_001_599_999_999_999), Err(Error::Overflow));
    /// assert_eq!(at(1_073_001_600_000_000_000), Ok(Beidou::EPOCH));
    /// assert_eq!(at(1_073_001_600_000_000_001), Ok(Beidou::from_nanos(1)));
    /// assert_eq!(at(1_073_001_600_999_999_999), Ok(Beidou::from_nanos(999_999_999)));
    /// assert_eq!(at(1_073_001_601_000_000_000), Ok(Beidou::from_nanos(1_000_000_000)));
    /// ```
    utc_to_beidou, utc_to_beidou_dated;
    beidou_to_glonass, beidou_to_glonass_dated;
    glonass_to_beidou, glonass_to_beidou_dated;
    to_beidou, to_beidou_with, to_beidou_dated
}

impl Galileo {
    /// The BeiDou count, by way of GPS: 200,793,614 s less. Refuses with [`Overflow`](crate::Error::Overflow) where
    /// the GPS count is above 64 bits, and before the epoch of BeiDou.
    pub fn to_beidou(self) -> Result<Beidou> {
        sys::galileo_to_beidou(self.0).map(Beidou)
    }
}

impl Beidou {
    /// The Galileo count, by way of GPS: 200,793,614 s more. Refuses with [`Overflow`](crate::Error::Overflow) where
    /// the GPS count is above 64 bits.
    pub fn to_galileo(self) -> Result<Galileo> {
        sys::beidou_to_galileo(self.0).map(Galileo)
    }
}
