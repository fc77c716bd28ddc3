//! The epochs of the scales, and how far they are from 1970-01-01.

use crate::CivilDate;

pub const TAI_EPOCH: CivilDate = CivilDate::new(1958, 1, 1);
pub const UNIX_EPOCH: CivilDate = CivilDate::new(1970, 1, 1);
pub const UTC_CIVIL_EPOCH: CivilDate = CivilDate::new(1972, 1, 1);
pub const GPS_EPOCH: CivilDate = CivilDate::new(1980, 1, 6);
pub const GLONASS_EPOCH: CivilDate = CivilDate::new(1996, 1, 1);
pub const GALILEO_EPOCH: CivilDate = CivilDate::new(1999, 8, 22);
pub const BEIDOU_EPOCH: CivilDate = CivilDate::new(2006, 1, 1);

/// Seconds from 1970-01-01 to 1972-01-01: two years of 365 days.
pub const UTC_EPOCH_UNIX_OFFSET_S: i64 = 2 * 365 * 86_400;
/// The same in nanoseconds.
pub const UTC_EPOCH_UNIX_OFFSET_NS: i64 = UTC_EPOCH_UNIX_OFFSET_S * 1_000_000_000;
/// Seconds from 1970-01-01 to 1980-01-06: ten years, the leap days of 1972 and 1976, and five days.
pub const GPS_EPOCH_UNIX_S: i64 = (10 * 365 + 2 + 5) * 86_400;

#[cfg(test)]
mod tests {
    use super::*;

    #[test]
    fn the_lengths_are_those_between_the_dates() {
        assert_eq!(UNIX_EPOCH.seconds_until(UTC_CIVIL_EPOCH), Ok(UTC_EPOCH_UNIX_OFFSET_S));
        assert_eq!(UNIX_EPOCH.nanos_until(UTC_CIVIL_EPOCH), Ok(UTC_EPOCH_UNIX_OFFSET_NS));
        assert_eq!(UNIX_EPOCH.seconds_until(GPS_EPOCH), Ok(GPS_EPOCH_UNIX_S));
    }
}
