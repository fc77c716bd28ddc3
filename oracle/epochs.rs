//! The constants of epoch.rs: dates, lengths and leap seconds, each in the order in which the recorded list numbers them,
//! which is that of the port's `Epoch` and `EpochSpan`.

use gnss_time::*;

pub const DATES: [CivilDate; 7] =
    [TAI_EPOCH, UNIX_EPOCH, UTC_CIVIL_EPOCH, GPS_EPOCH, GLONASS_EPOCH, GALILEO_EPOCH, BEIDOU_EPOCH];

pub const LENGTHS: [i64; 9] = [
    DAYS_UNIX_TO_GPS,
    DAYS_GPS_TO_GLONASS,
    DAYS_GPS_TO_GALILEO,
    DAYS_GPS_TO_BEIDOU,
    UTC_EPOCH_UNIX_OFFSET_S,
    GPS_EPOCH_UNIX_S,
    UTC_EPOCH_UNIX_OFFSET_NS,
    NANOS_GPS_TO_GALILEO_EPOCH,
    NANOS_GPS_TO_BEIDOU_EPOCH_CALENDAR,
];

pub const LEAP_SECONDS: [i64; 4] = [
    LEAP_SECONDS_AT_GPS_EPOCH,
    LEAP_SECONDS_AT_GLONASS_EPOCH,
    LEAP_SECONDS_AT_GALILEO_EPOCH,
    LEAP_SECONDS_AT_BEIDOU_EPOCH,
];
