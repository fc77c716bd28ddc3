//! What conversions go by: a table of the rack's own, or the built-in one.

use crate::sys::{self, always};
use crate::{Dated, LeapTable, Result, Tai};

/// The built-in table, which is part of the library: conversions by it copy nothing. It does not go stale.
///
/// ```
/// use plaitgate::{LeapSeconds, Tai};
///
/// assert_eq!(LeapSeconds::builtin().tai_minus_utc_at(Tai::MAX), 37);
/// ```
#[derive(Debug, Clone, Copy, PartialEq, Eq, Hash)]
pub struct LeapSeconds(());

impl LeapSeconds {
    /// The built-in table.
    #[must_use]
    pub const fn builtin() -> &'static Self {
        &LeapSeconds(())
    }

    /// The offset in force at a TAI count, 19 to 37.
    #[must_use]
    pub fn tai_minus_utc_at(&self, tai: Tai) -> i32 {
        always(sys::builtin_tai_minus_utc_at(tai.as_nanos()))
    }

    /// As [`tai_minus_utc_at`](LeapSeconds::tai_minus_utc_at); the table has no expiry.
    #[must_use]
    pub fn tai_minus_utc_at_dated(&self, tai: Tai) -> Dated<i32> {
        Dated::without_expiry(self.tai_minus_utc_at(tai))
    }
}

/// What a conversion can go by: a [`LeapTable`], the built-in table [`LeapSeconds`], or a reference to one.
///
/// The library looks tables up itself, so no other type can be one.
pub trait LeapSecondsProvider: by_table::Conversions + by_table::Readings {
    /// TAI minus UTC in seconds at a TAI count.
    fn tai_minus_utc_at(&self, tai: Tai) -> i32;

    /// The same, and whether the table has expired at that count.
    fn tai_minus_utc_at_dated(&self, tai: Tai) -> Dated<i32>;
}

macro_rules! looked_up {
    ($($Table:ty),*) => {$(
        impl LeapSecondsProvider for $Table {
            fn tai_minus_utc_at(&self, tai: Tai) -> i32 {
                <$Table>::tai_minus_utc_at(self, tai)
            }

            fn tai_minus_utc_at_dated(&self, tai: Tai) -> Dated<i32> {
                <$Table>::tai_minus_utc_at_dated(self, tai)
            }
        }
    )*};
}

looked_up! { LeapTable, LeapSeconds }

impl<P: LeapSecondsProvider> LeapSecondsProvider for &P {
    fn tai_minus_utc_at(&self, tai: Tai) -> i32 {
        (**self).tai_minus_utc_at(tai)
    }

    fn tai_minus_utc_at_dated(&self, tai: Tai) -> Dated<i32> {
        (**self).tai_minus_utc_at_dated(tai)
    }
}

mod by_table {
    use super::{sys, Dated, LeapSeconds, LeapTable, Result};
    use crate::{readings, CivilDateTime};

    /// A trait of conversions by the table at hand, which also tell whether it has expired. After the trait comes the
    /// module of the functions that do them.
    macro_rules! conversions {
        ($Trait:ident, $home:ident: $($name:ident by $table:ident, $builtin:ident: $given:ty => $result:ty;)*) => {
            pub trait $Trait {
                $(fn $name(&self, given: $given) -> Result<Dated<$result>>;)*
            }

            impl $Trait for LeapTable {
                $(
                    #[inline]
                    fn $name(&self, given: $given) -> Result<Dated<$result>> {
                        $home::$table(given, &self.image).map(Dated::of)
                    }
                )*
            }

            impl $Trait for LeapSeconds {
                $(
                    #[inline]
                    fn $name(&self, given: $given) -> Result<Dated<$result>> {
                        $home::$builtin(given).map(Dated::without_expiry)
                    }
                )*
            }

            impl<P: $Trait> $Trait for &P {
                $(
                    #[inline]
                    fn $name(&self, given: $given) -> Result<Dated<$result>> {
                        (**self).$name(given)
                    }
                )*
            }
        };
    }

    conversions! { Conversions, sys:
        gps_to_utc by table_gps_to_utc, builtin_gps_to_utc: u64 => u64;
        utc_to_gps by table_utc_to_gps, builtin_utc_to_gps: u64 => u64;
        glonass_to_gps by table_glonass_to_gps, builtin_glonass_to_gps: u64 => u64;
        gps_to_glonass by table_gps_to_glonass, builtin_gps_to_glonass: u64 => u64;
        gps_from_unix_seconds by table_gps_from_unix_seconds, builtin_gps_from_unix_seconds: i64 => u64;
        gps_as_unix_seconds by table_gps_as_unix_seconds, builtin_gps_as_unix_seconds: u64 => i64;
        galileo_to_utc by table_galileo_to_utc, builtin_galileo_to_utc: u64 => u64;
        utc_to_galileo by table_utc_to_galileo, builtin_utc_to_galileo: u64 => u64;
        galileo_to_glonass by table_galileo_to_glonass, builtin_galileo_to_glonass: u64 => u64;
        glonass_to_galileo by table_glonass_to_galileo, builtin_glonass_to_galileo: u64 => u64;
        beidou_to_utc by table_beidou_to_utc, builtin_beidou_to_utc: u64 => u64;
        utc_to_beidou by table_utc_to_beidou, builtin_utc_to_beidou: u64 => u64;
        beidou_to_glonass by table_beidou_to_glonass, builtin_beidou_to_glonass: u64 => u64;
        glonass_to_beidou by table_glonass_to_beidou, builtin_glonass_to_beidou: u64 => u64;
    }

    conversions! { Readings, readings:
        gps_to_civil by table_gps_to_civil, builtin_gps_to_civil: u64 => CivilDateTime;
        civil_to_gps by table_civil_to_gps, builtin_civil_to_gps: CivilDateTime => u64;
    }
}
