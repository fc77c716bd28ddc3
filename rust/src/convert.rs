//! Counts of one scale into those of another.

use crate::sys;
use crate::{Dated, Glonass, Gps, LeapSecondsProvider, Result, Utc};

/// A conversion by a table in its two forms, the count alone and the count with whether the table has expired:
/// `name, name_dated: from one scale to another;`.
macro_rules! by_table {
    ($($(#[$about:meta])* $name:ident, $name_dated:ident: $From:ident to $To:ident;)*) => {
        $(
            $(#[$about])*
            pub fn $name<P: LeapSecondsProvider>(count: $From, table: &P) -> Result<$To> {
                $name_dated(count, table).map(Dated::into_value)
            }

            #[doc = concat!("As [`", stringify!($name), "`], and whether the table has expired.")]
            pub fn $name_dated<P: LeapSecondsProvider>(count: $From, table: &P) -> Result<Dated<$To>> {
                table.$name(count.0).map(|answer| answer.map($To))
            }
        )*
    };
}
pub(crate) use by_table;

by_table! {
    /// The UTC count of a GPS count, by a table. Refuses with [`Overflow`](crate::Error::Overflow) where the count and
    /// 19 s, or the UTC count, does not fit 64 bits, and with [`OffsetRange`](crate::Error::OffsetRange) where the
    /// offset in force is below −2,147,483,629.
    ///
    /// ```
    /// use plaitgate::{gps_to_utc, Gps, LeapSeconds, LeapTable, Utc};
    ///
    /// let gps = Gps::from_nanos(46_828_801_000_000_000);
    /// let utc = Utc::from_nanos(299_721_600_000_000_000);
    /// assert_eq!(gps_to_utc(gps, LeapSeconds::builtin()), Ok(utc));
    /// assert_eq!(gps_to_utc(gps, &LeapTable::builtin()), Ok(utc));
    /// ```
    gps_to_utc, gps_to_utc_dated: Gps to Utc;

    /// The GPS count of a UTC count, by a table: the first of two, where a second was inserted. Refuses with
    /// [`OffsetRange`](crate::Error::OffsetRange) where the offset in force is below −2,147,483,629, and with
    /// [`Overflow`](crate::Error::Overflow) where the GPS count does not fit 64 bits.
    ///
    /// ```
    /// use plaitgate::{utc_to_gps, Gps, LeapSeconds, Utc};
    ///
    /// let utc = Utc::from_nanos(299_721_600_000_000_000);
    /// assert_eq!(utc_to_gps(utc, LeapSeconds::builtin()), Ok(Gps::from_nanos(46_828_800_000_000_000)));
    /// ```
    utc_to_gps, utc_to_gps_dated: Utc to Gps;

    /// The GPS count of a GLONASS count, by way of UTC. Refuses as [`glonass_to_utc`], then as [`utc_to_gps`].
    ///
    /// ```
    /// use plaitgate::{glonass_to_gps, Glonass, Gps, LeapSeconds};
    ///
    /// let gps = glonass_to_gps(Glonass::EPOCH, LeapSeconds::builtin())?;
    /// assert_eq!(gps, Gps::from_nanos(504_478_810_000_000_000));
    /// # Ok::<(), plaitgate::Error>(())
    /// ```
    glonass_to_gps, glonass_to_gps_dated: Glonass to Gps;

    /// The GLONASS count of a GPS count, by way of UTC. Refuses as [`gps_to_utc`], then as [`utc_to_glonass`].
    gps_to_glonass, gps_to_glonass_dated: Gps to Glonass;
}

/// The UTC count of a GLONASS count, 757,371,600 s more. Refuses with [`Overflow`](crate::Error::Overflow) above 64
/// bits.
pub fn glonass_to_utc(glonass: Glonass) -> Result<Utc> {
    sys::glonass_to_utc(glonass.0).map(Utc)
}

/// The GLONASS count of a UTC count, 757,371,600 s less. Refuses with [`Overflow`](crate::Error::Overflow) below that.
pub fn utc_to_glonass(utc: Utc) -> Result<Glonass> {
    sys::utc_to_glonass(utc.0).map(Glonass)
}
