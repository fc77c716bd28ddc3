/*
 * Plaitgate for C: counts of GPS, UTC, GLONASS, TAI, Galileo and BeiDou nanoseconds, with exact answers and exact
 * refusals.
 *
 * A count is the number of nanoseconds since the epoch of its scale, in 64 bits without sign:
 *   GPS      from 1980-01-06
 *   UTC      from 1972-01-01, leap seconds not counted
 *   GLONASS  from 1996-01-01, in Moscow time
 *   TAI      from 1980-01-06 on the clock of TAI, so that it is the GPS count and 19 s
 *   Galileo  from 1999-08-22 on the clock of GPS, so that it is the GPS count less 619315200 s
 *   BeiDou   from 2006-01-01 in UTC, so that it is the GPS count less 820108814 s
 * All counts have the C type uint64_t: that one scale is not taken for another is up to the caller.
 * A duration is a number of nanoseconds with sign, in 64 bits.
 *
 * Every function takes every input and gives back a number: PLAITGATE_ANSWERED (0), or that of the refusal. It
 * writes each of its results in either case: the answer, or zeros on a refusal. A pointer must lead to a place
 * for its result; two results of one call must not share a place. No function keeps a pointer, allocates memory,
 * or has a state: all may be called from any thread. Leap-second tables are bytes of the caller's own, called
 * images below; a function that is to change one says what it leaves there on a refusal.
 *
 * Link with libplaitgate.a (`tools/native-library` makes it for this machine, `tools/library` for x86-64).
 */
#ifndef PLAITGATE_H
#define PLAITGATE_H

#include <stddef.h>
#include <stdint.h>

#ifdef __cplusplus
extern "C" {
#endif

/* What a call gives back: 0 for an answer, else why there is none. */
enum plaitgate_refusal {
    PLAITGATE_ANSWERED = 0,
    /* the exact result, or a count on the way to it, does not fit its type */
    PLAITGATE_OVERFLOW = 1,
    /* seconds of 604800 or more in a week, of 86400 or more in a day */
    PLAITGATE_INVALID_SECONDS = 2,
    /* a leap-second threshold that is not above the one before */
    PLAITGATE_NOT_STRICTLY_ASCENDING = 3,
    /* an offset that is not one more than the one before */
    PLAITGATE_NON_UNIT_INCREMENT = 4,
    /* 64 entries already, or a list of more than 64 */
    PLAITGATE_BUFFER_FULL = 5,
    /* a list of no entries to build from or to check */
    PLAITGATE_EMPTY_TABLE = 6,
    /* the offset before is 2147483647 */
    PLAITGATE_OFFSET_OVERFLOW = 7,
    /* a table handed in is not valid */
    PLAITGATE_BAD_TABLE = 8,
    /* the offset used last is below -2147483629 */
    PLAITGATE_OFFSET_RANGE = 9,
    /* a program's line breaks its form; no function here gives it */
    PLAITGATE_BAD_LINE = 10,
    /* nanoseconds of 1000000000 or more in a second */
    PLAITGATE_INVALID_NANOS = 11,
    /* a leap-seconds.list that is too long, has a malformed line, or no line with the offset 19 */
    PLAITGATE_BAD_LIST = 12,
    /* a table to read civil times by is not regular, or an entry after its first does not begin a day */
    PLAITGATE_NOT_ON_DAYS = 13,
    /* fields with second 60 that are the civil reading of no GPS count */
    PLAITGATE_NO_INSERTED_SECOND = 14,
    /* a month that is not 1 to 12 */
    PLAITGATE_NO_SUCH_MONTH = 15,
    /* a day that its month does not have */
    PLAITGATE_NO_SUCH_DAY = 16,
    /* an hour above 23 */
    PLAITGATE_NO_SUCH_HOUR = 17,
    /* a minute above 59 */
    PLAITGATE_NO_SUCH_MINUTE = 18,
    /* a second above 60 */
    PLAITGATE_NO_SUCH_SECOND = 19
};

/* every scale, by tools/write-scales */

/* ---- GPS ---- */

/* The GPS count of a number of nanoseconds since the epoch: the same number. Does not refuse. */
uint32_t plaitgate_gps_from_nanos(uint64_t nanos, uint64_t *count);

/* The nanoseconds of a GPS count since the epoch: the same number. Does not refuse. */
uint32_t plaitgate_gps_as_nanos(uint64_t count, uint64_t *nanos);

/* The GPS count of a number of whole seconds since the epoch. Refuses with 1 above 18446744073 s. */
uint32_t plaitgate_gps_checked_from_seconds(uint64_t seconds, uint64_t *count);

/* The whole seconds of a GPS count since the epoch, rounded down. Does not refuse. */
uint32_t plaitgate_gps_as_seconds(uint64_t count, uint64_t *seconds);

/* The whole seconds of a GPS count and the nanoseconds left, 0 to 999999999. Does not refuse. */
uint32_t plaitgate_gps_as_parts(uint64_t count, uint64_t *seconds, uint32_t *nanos);

/* The GPS count a duration later, or earlier where it is negative. Refuses with 1 where that is below 0 or
   above 64 bits. */
uint32_t plaitgate_gps_checked_add(uint64_t count, int64_t duration, uint64_t *sum);

/* The GPS count a duration earlier, or later where it is negative. Refuses with 1 where that is below 0 or
   above 64 bits. */
uint32_t plaitgate_gps_checked_sub_duration(uint64_t count, int64_t duration, uint64_t *difference);

/* As plaitgate_gps_checked_add, but stops at 0 and at the largest count. Does not refuse. */
uint32_t plaitgate_gps_saturating_add(uint64_t count, int64_t duration, uint64_t *sum);

/* As plaitgate_gps_checked_sub_duration, but stops at 0 and at the largest count. Does not refuse. */
uint32_t plaitgate_gps_saturating_sub_duration(uint64_t count, int64_t duration, uint64_t *difference);

/* The duration from `earlier` to `count`, both GPS, negative where `earlier` is the later. Refuses with 1 where
   it does not fit 64 bits with sign. */
uint32_t plaitgate_gps_checked_elapsed(uint64_t count, uint64_t earlier, int64_t *duration);

/* The GPS count of the epoch (0), the least (0) and the largest (18446744073709551615), and the nanoseconds
   of a year of 365 days. Does not refuse. */
uint32_t plaitgate_gps_limits(uint64_t *epoch, uint64_t *min, uint64_t *max, uint64_t *nanos_per_year);

/* ---- UTC ---- */

/* The UTC count of a number of nanoseconds since the epoch: the same number. Does not refuse. */
uint32_t plaitgate_utc_from_nanos(uint64_t nanos, uint64_t *count);

/* The nanoseconds of a UTC count since the epoch: the same number. Does not refuse. */
uint32_t plaitgate_utc_as_nanos(uint64_t count, uint64_t *nanos);

/* The UTC count of a number of whole seconds since the epoch. Refuses with 1 above 18446744073 s. */
uint32_t plaitgate_utc_checked_from_seconds(uint64_t seconds, uint64_t *count);

/* The whole seconds of a UTC count since the epoch, rounded down. Does not refuse. */
uint32_t plaitgate_utc_as_seconds(uint64_t count, uint64_t *seconds);

/* The whole seconds of a UTC count and the nanoseconds left, 0 to 999999999. Does not refuse. */
uint32_t plaitgate_utc_as_parts(uint64_t count, uint64_t *seconds, uint32_t *nanos);

/* The UTC count a duration later, or earlier where it is negative. Refuses with 1 where that is below 0 or
   above 64 bits. */
uint32_t plaitgate_utc_checked_add(uint64_t count, int64_t duration, uint64_t *sum);

/* The UTC count a duration earlier, or later where it is negative. Refuses with 1 where that is below 0 or
   above 64 bits. */
uint32_t plaitgate_utc_checked_sub_duration(uint64_t count, int64_t duration, uint64_t *difference);

/* As plaitgate_utc_checked_add, but stops at 0 and at the largest count. Does not refuse. */
uint32_t plaitgate_utc_saturating_add(uint64_t count, int64_t duration, uint64_t *sum);

/* As plaitgate_utc_checked_sub_duration, but stops at 0 and at the largest count. Does not refuse. */
uint32_t plaitgate_utc_saturating_sub_duration(uint64_t count, int64_t duration, uint64_t *difference);

/* The duration from `earlier` to `count`, both UTC, negative where `earlier` is the later. Refuses with 1 where
   it does not fit 64 bits with sign. */
uint32_t plaitgate_utc_checked_elapsed(uint64_t count, uint64_t earlier, int64_t *duration);

/* The UTC count of the epoch (0), the least (0) and the largest (18446744073709551615), and the nanoseconds
   of a year of 365 days. Does not refuse. */
uint32_t plaitgate_utc_limits(uint64_t *epoch, uint64_t *min, uint64_t *max, uint64_t *nanos_per_year);

/* ---- GLONASS ---- */

/* The GLONASS count of a number of nanoseconds since the epoch: the same number. Does not refuse. */
uint32_t plaitgate_glonass_from_nanos(uint64_t nanos, uint64_t *count);

/* The nanoseconds of a GLONASS count since the epoch: the same number. Does not refuse. */
uint32_t plaitgate_glonass_as_nanos(uint64_t count, uint64_t *nanos);

/* The GLONASS count of a number of whole seconds since the epoch. Refuses with 1 above 18446744073 s. */
uint32_t plaitgate_glonass_checked_from_seconds(uint64_t seconds, uint64_t *count);

/* The whole seconds of a GLONASS count since the epoch, rounded down. Does not refuse. */
uint32_t plaitgate_glonass_as_seconds(uint64_t count, uint64_t *seconds);

/* The whole seconds of a GLONASS count and the nanoseconds left, 0 to 999999999. Does not refuse. */
uint32_t plaitgate_glonass_as_parts(uint64_t count, uint64_t *seconds, uint32_t *nanos);

/* The GLONASS count a duration later, or earlier where it is negative. Refuses with 1 where that is below 0 or
   above 64 bits. */
uint32_t plaitgate_glonass_checked_add(uint64_t count, int64_t duration, uint64_t *sum);

/* The GLONASS count a duration earlier, or later where it is negative. Refuses with 1 where that is below 0 or
   above 64 bits. */
uint32_t plaitgate_glonass_checked_sub_duration(uint64_t count, int64_t duration, uint64_t *difference);

/* As plaitgate_glonass_checked_add, but stops at 0 and at the largest count. Does not refuse. */
uint32_t plaitgate_glonass_saturating_add(uint64_t count, int64_t duration, uint64_t *sum);

/* As plaitgate_glonass_checked_sub_duration, but stops at 0 and at the largest count. Does not refuse. */
uint32_t plaitgate_glonass_saturating_sub_duration(uint64_t count, int64_t duration, uint64_t *difference);

/* The duration from `earlier` to `count`, both GLONASS, negative where `earlier` is the later. Refuses with 1 where
   it does not fit 64 bits with sign. */
uint32_t plaitgate_glonass_checked_elapsed(uint64_t count, uint64_t earlier, int64_t *duration);

/* The GLONASS count of the epoch (0), the least (0) and the largest (18446744073709551615), and the nanoseconds
   of a year of 365 days. Does not refuse. */
uint32_t plaitgate_glonass_limits(uint64_t *epoch, uint64_t *min, uint64_t *max, uint64_t *nanos_per_year);

/* ---- TAI ---- */

/* The TAI count of a number of nanoseconds since the epoch: the same number. Does not refuse. */
uint32_t plaitgate_tai_from_nanos(uint64_t nanos, uint64_t *count);

/* The nanoseconds of a TAI count since the epoch: the same number. Does not refuse. */
uint32_t plaitgate_tai_as_nanos(uint64_t count, uint64_t *nanos);

/* The TAI count of a number of whole seconds since the epoch. Refuses with 1 above 18446744073 s. */
uint32_t plaitgate_tai_checked_from_seconds(uint64_t seconds, uint64_t *count);

/* The whole seconds of a TAI count since the epoch, rounded down. Does not refuse. */
uint32_t plaitgate_tai_as_seconds(uint64_t count, uint64_t *seconds);

/* The whole seconds of a TAI count and the nanoseconds left, 0 to 999999999. Does not refuse. */
uint32_t plaitgate_tai_as_parts(uint64_t count, uint64_t *seconds, uint32_t *nanos);

/* The TAI count a duration later, or earlier where it is negative. Refuses with 1 where that is below 0 or
   above 64 bits. */
uint32_t plaitgate_tai_checked_add(uint64_t count, int64_t duration, uint64_t *sum);

/* The TAI count a duration earlier, or later where it is negative. Refuses with 1 where that is below 0 or
   above 64 bits. */
uint32_t plaitgate_tai_checked_sub_duration(uint64_t count, int64_t duration, uint64_t *difference);

/* As plaitgate_tai_checked_add, but stops at 0 and at the largest count. Does not refuse. */
uint32_t plaitgate_tai_saturating_add(uint64_t count, int64_t duration, uint64_t *sum);

/* As plaitgate_tai_checked_sub_duration, but stops at 0 and at the largest count. Does not refuse. */
uint32_t plaitgate_tai_saturating_sub_duration(uint64_t count, int64_t duration, uint64_t *difference);

/* The duration from `earlier` to `count`, both TAI, negative where `earlier` is the later. Refuses with 1 where
   it does not fit 64 bits with sign. */
uint32_t plaitgate_tai_checked_elapsed(uint64_t count, uint64_t earlier, int64_t *duration);

/* The TAI count of the epoch (0), the least (0) and the largest (18446744073709551615), and the nanoseconds
   of a year of 365 days. Does not refuse. */
uint32_t plaitgate_tai_limits(uint64_t *epoch, uint64_t *min, uint64_t *max, uint64_t *nanos_per_year);

/* ---- Galileo ---- */

/* The Galileo count of a number of nanoseconds since the epoch: the same number. Does not refuse. */
uint32_t plaitgate_galileo_from_nanos(uint64_t nanos, uint64_t *count);

/* The nanoseconds of a Galileo count since the epoch: the same number. Does not refuse. */
uint32_t plaitgate_galileo_as_nanos(uint64_t count, uint64_t *nanos);

/* The Galileo count of a number of whole seconds since the epoch. Refuses with 1 above 18446744073 s. */
uint32_t plaitgate_galileo_checked_from_seconds(uint64_t seconds, uint64_t *count);

/* The whole seconds of a Galileo count since the epoch, rounded down. Does not refuse. */
uint32_t plaitgate_galileo_as_seconds(uint64_t count, uint64_t *seconds);

/* The whole seconds of a Galileo count and the nanoseconds left, 0 to 999999999. Does not refuse. */
uint32_t plaitgate_galileo_as_parts(uint64_t count, uint64_t *seconds, uint32_t *nanos);

/* The Galileo count a duration later, or earlier where it is negative. Refuses with 1 where that is below 0 or
   above 64 bits. */
uint32_t plaitgate_galileo_checked_add(uint64_t count, int64_t duration, uint64_t *sum);

/* The Galileo count a duration earlier, or later where it is negative. Refuses with 1 where that is below 0 or
   above 64 bits. */
uint32_t plaitgate_galileo_checked_sub_duration(uint64_t count, int64_t duration, uint64_t *difference);

/* As plaitgate_galileo_checked_add, but stops at 0 and at the largest count. Does not refuse. */
uint32_t plaitgate_galileo_saturating_add(uint64_t count, int64_t duration, uint64_t *sum);

/* As plaitgate_galileo_checked_sub_duration, but stops at 0 and at the largest count. Does not refuse. */
uint32_t plaitgate_galileo_saturating_sub_duration(uint64_t count, int64_t duration, uint64_t *difference);

/* The duration from `earlier` to `count`, both Galileo, negative where `earlier` is the later. Refuses with 1 where
   it does not fit 64 bits with sign. */
uint32_t plaitgate_galileo_checked_elapsed(uint64_t count, uint64_t earlier, int64_t *duration);

/* The Galileo count of the epoch (0), the least (0) and the largest (18446744073709551615), and the nanoseconds
   of a year of 365 days. Does not refuse. */
uint32_t plaitgate_galileo_limits(uint64_t *epoch, uint64_t *min, uint64_t *max, uint64_t *nanos_per_year);

/* ---- BeiDou ---- */

/* The BeiDou count of a number of nanoseconds since the epoch: the same number. Does not refuse. */
uint32_t plaitgate_beidou_from_nanos(uint64_t nanos, uint64_t *count);

/* The nanoseconds of a BeiDou count since the epoch: the same number. Does not refuse. */
uint32_t plaitgate_beidou_as_nanos(uint64_t count, uint64_t *nanos);

/* The BeiDou count of a number of whole seconds since the epoch. Refuses with 1 above 18446744073 s. */
uint32_t plaitgate_beidou_checked_from_seconds(uint64_t seconds, uint64_t *count);

/* The whole seconds of a BeiDou count since the epoch, rounded down. Does not refuse. */
uint32_t plaitgate_beidou_as_seconds(uint64_t count, uint64_t *seconds);

/* The whole seconds of a BeiDou count and the nanoseconds left, 0 to 999999999. Does not refuse. */
uint32_t plaitgate_beidou_as_parts(uint64_t count, uint64_t *seconds, uint32_t *nanos);

/* The BeiDou count a duration later, or earlier where it is negative. Refuses with 1 where that is below 0 or
   above 64 bits. */
uint32_t plaitgate_beidou_checked_add(uint64_t count, int64_t duration, uint64_t *sum);

/* The BeiDou count a duration earlier, or later where it is negative. Refuses with 1 where that is below 0 or
   above 64 bits. */
uint32_t plaitgate_beidou_checked_sub_duration(uint64_t count, int64_t duration, uint64_t *difference);

/* As plaitgate_beidou_checked_add, but stops at 0 and at the largest count. Does not refuse. */
uint32_t plaitgate_beidou_saturating_add(uint64_t count, int64_t duration, uint64_t *sum);

/* As plaitgate_beidou_checked_sub_duration, but stops at 0 and at the largest count. Does not refuse. */
uint32_t plaitgate_beidou_saturating_sub_duration(uint64_t count, int64_t duration, uint64_t *difference);

/* The duration from `earlier` to `count`, both BeiDou, negative where `earlier` is the later. Refuses with 1 where
   it does not fit 64 bits with sign. */
uint32_t plaitgate_beidou_checked_elapsed(uint64_t count, uint64_t earlier, int64_t *duration);

/* The BeiDou count of the epoch (0), the least (0) and the largest (18446744073709551615), and the nanoseconds
   of a year of 365 days. Does not refuse. */
uint32_t plaitgate_beidou_limits(uint64_t *epoch, uint64_t *min, uint64_t *max, uint64_t *nanos_per_year);

/* end of every scale */

/* scales with weeks, by tools/write-scales */

/* ---- weeks of GPS ---- */

/* The GPS count of a week since the epoch and a time of week. Refuses with 2 where seconds reach 604800, else with
   11 where nanos reach 1000000000, else with 1 where the count is above 64 bits, which begins in week 30500. */
uint32_t plaitgate_gps_from_week_tow(uint32_t week, uint64_t seconds, uint32_t nanos, uint64_t *count);

/* The week since the epoch of a GPS count, 0 to 30500. Does not refuse. */
uint32_t plaitgate_gps_week(uint64_t count, uint32_t *week);

/* The whole seconds of a GPS count since its week began, 0 to 604799. Does not refuse. */
uint32_t plaitgate_gps_tow_seconds(uint64_t count, uint32_t *seconds);

/* The nanoseconds of a GPS count since its second began, 0 to 999999999. Does not refuse. */
uint32_t plaitgate_gps_sub_second_nanos(uint64_t count, uint32_t *nanos);

/* ---- weeks of Galileo ---- */

/* The Galileo count of a week since the epoch and a time of week. Refuses with 2 where seconds reach 604800, else with
   11 where nanos reach 1000000000, else with 1 where the count is above 64 bits, which begins in week 30500. */
uint32_t plaitgate_galileo_from_week_tow(uint32_t week, uint64_t seconds, uint32_t nanos, uint64_t *count);

/* The week since the epoch of a Galileo count, 0 to 30500. Does not refuse. */
uint32_t plaitgate_galileo_week(uint64_t count, uint32_t *week);

/* The whole seconds of a Galileo count since its week began, 0 to 604799. Does not refuse. */
uint32_t plaitgate_galileo_tow_seconds(uint64_t count, uint32_t *seconds);

/* The nanoseconds of a Galileo count since its second began, 0 to 999999999. Does not refuse. */
uint32_t plaitgate_galileo_sub_second_nanos(uint64_t count, uint32_t *nanos);

/* ---- weeks of BeiDou ---- */

/* The BeiDou count of a week since the epoch and a time of week. Refuses with 2 where seconds reach 604800, else with
   11 where nanos reach 1000000000, else with 1 where the count is above 64 bits, which begins in week 30500. */
uint32_t plaitgate_beidou_from_week_tow(uint32_t week, uint64_t seconds, uint32_t nanos, uint64_t *count);

/* The week since the epoch of a BeiDou count, 0 to 30500. Does not refuse. */
uint32_t plaitgate_beidou_week(uint64_t count, uint32_t *week);

/* The whole seconds of a BeiDou count since its week began, 0 to 604799. Does not refuse. */
uint32_t plaitgate_beidou_tow_seconds(uint64_t count, uint32_t *seconds);

/* The nanoseconds of a BeiDou count since its second began, 0 to 999999999. Does not refuse. */
uint32_t plaitgate_beidou_sub_second_nanos(uint64_t count, uint32_t *nanos);

/* end of scales with weeks */

/* ---- GPS alone ---- */

/* The TAI count of a GPS count: 19 s more. Refuses with 1 where that is above 64 bits. */
uint32_t plaitgate_gps_to_tai(uint64_t count, uint64_t *tai);

/* The GPS count of a TAI count: 19 s less. Refuses with 1 below 19 s. */
uint32_t plaitgate_gps_from_tai(uint64_t tai, uint64_t *count);

/* ---- UTC alone ---- */

/* The UTC count of seconds since 1970-01-01. Refuses with 1 below 63072000 (1972-01-01) and above
   18509816073. */
uint32_t plaitgate_utc_from_unix_seconds(int64_t seconds, uint64_t *count);

/* The UTC count of nanoseconds since 1970-01-01. Refuses with 1 below 63072000 s (1972-01-01). */
uint32_t plaitgate_utc_from_unix_nanos(int64_t nanos, uint64_t *count);

/* The whole seconds of a UTC count since 1970-01-01, rounded down. Does not refuse. */
uint32_t plaitgate_utc_as_unix_seconds(uint64_t count, int64_t *seconds);

/* The nanoseconds of a UTC count since 1970-01-01, or 9223372036854775807 where they are more than that. Does not
   refuse. */
uint32_t plaitgate_utc_as_unix_nanos(uint64_t count, int64_t *nanos);

/* ---- GLONASS alone ---- */

/* The GLONASS count of a day since the epoch and a time of day. Refuses with 2 where seconds reach 86400, else with 11
   where nanos reach 1000000000, else with 1 where the count is above 64 bits, which begins in day 213503. */
uint32_t plaitgate_glonass_from_day_tod(uint32_t day, uint64_t seconds, uint32_t nanos, uint64_t *count);

/* The day since the epoch of a GLONASS count, 0 to 213503. Does not refuse. */
uint32_t plaitgate_glonass_day(uint64_t count, uint32_t *day);

/* The whole seconds of a GLONASS count since its day began, 0 to 86399. Does not refuse. */
uint32_t plaitgate_glonass_tod_seconds(uint64_t count, uint32_t *seconds);

/* The nanoseconds of a GLONASS count since its second began, 0 to 999999999. Does not refuse. */
uint32_t plaitgate_glonass_sub_second_nanos(uint64_t count, uint32_t *nanos);

/* The weekday of a GLONASS count, 1 for Monday to 7 for Sunday; day 0 is a Monday. Does not refuse. */
uint32_t plaitgate_glonass_day_of_week(uint64_t count, uint8_t *weekday);

/* 1 where the weekday of a GLONASS count is Saturday or Sunday, else 0. Does not refuse. */
uint32_t plaitgate_glonass_is_weekend(uint64_t count, uint8_t *yes);

/* ---- Durations ---- */

/* Whole seconds and nanoseconds as they are given. Refuses with 11 where nanos reach 1000000000. */
uint32_t plaitgate_duration_parts_new(uint64_t seconds, uint32_t nanos, uint64_t *parts_seconds,
                                      uint32_t *parts_nanos);

/* The duration of a number of nanoseconds: the same number. Does not refuse. */
uint32_t plaitgate_duration_from_nanos(int64_t nanos, int64_t *duration);

/* The nanoseconds of a duration: the same number. Does not refuse. */
uint32_t plaitgate_duration_as_nanos(int64_t duration, int64_t *nanos);

/* ---- Civil dates ---- */

/*
 * A date of the Gregorian calendar before and after its introduction: a year, which may be 0 or negative, a month and
 * a day. No field is checked. A date that is in the calendar has the days of the calendar; any other has those that
 * the calendar's formula gives it, so that 31 February 2023 is 3 March.
 */

/* The date with these fields, as they are given. Does not refuse. */
uint32_t plaitgate_civil_date_new(int32_t year, uint8_t month, uint8_t day, int32_t *date_year, uint8_t *date_month,
                                  uint8_t *date_day);

/* The days from 1970-01-01 to a date, negative before it. Refuses with 1 for year -2147483648 with a month of 0 to
   2. */
uint32_t plaitgate_civil_date_days_from_unix(int32_t year, uint8_t month, uint8_t day, int64_t *days);

/* The days from a date to another, negative where the other is earlier. Refuses with 1 where either has year
   -2147483648 and a month of 0 to 2. */
uint32_t plaitgate_civil_date_days_until(int32_t year, uint8_t month, uint8_t day, int32_t other_year,
                                         uint8_t other_month, uint8_t other_day, int64_t *days);

/* As plaitgate_civil_date_days_until, in seconds, 86400 to a day. */
uint32_t plaitgate_civil_date_seconds_until(int32_t year, uint8_t month, uint8_t day, int32_t other_year,
                                            uint8_t other_month, uint8_t other_day, int64_t *seconds);

/* As plaitgate_civil_date_days_until, in nanoseconds. Refuses with 1 also beyond 106751 days, where they do not fit 64
   bits with sign. */
uint32_t plaitgate_civil_date_nanos_until(int32_t year, uint8_t month, uint8_t day, int32_t other_year,
                                          uint8_t other_month, uint8_t other_day, int64_t *nanos);

/* ---- Civil times ---- */

/* The date and the time of day of a UTC count. Does not refuse: the last is
   2556-07-20T23:34:33.709551615. */
uint32_t plaitgate_civil_from_utc_nanos(uint64_t count, int32_t *year, uint8_t *month, uint8_t *day, uint8_t *hour,
                                        uint8_t *minute, uint8_t *second, uint32_t *nanos);

/* The date and the time of day of a UTC count. Does not refuse. */
uint32_t plaitgate_utc_to_civil(uint64_t count, int32_t *year, uint8_t *month, uint8_t *day, uint8_t *hour,
                                uint8_t *minute, uint8_t *second, uint32_t *nanos);

/* The nanoseconds from 1972-01-01 to a date and a time of day. It is for old logs, and no field is checked: hour 24 is the
   next day's hour 0, and 31 February is in March. plaitgate_builtin_civil_to_gps refuses such fields. Refuses with 1 where
   the date is before 1972-01-01, or the sum above 64 bits. */
uint32_t plaitgate_civil_to_utc_nanos(int32_t year, uint8_t month, uint8_t day, uint8_t hour, uint8_t minute,
                                      uint8_t second, uint32_t nanos, uint64_t *count);

/* The UTC count of a date and a time of day: the same number, refused alike. */
uint32_t plaitgate_civil_to_utc(int32_t year, uint8_t month, uint8_t day, uint8_t hour, uint8_t minute,
                                uint8_t second, uint32_t nanos, uint64_t *count);

/* 1 where a civil time has no part of a second, else 0. Does not refuse. */
uint32_t plaitgate_civil_is_whole_second(int32_t year, uint8_t month, uint8_t day, uint8_t hour, uint8_t minute,
                                         uint8_t second, uint32_t nanos, uint8_t *yes);

/* ---- GLONASS and UTC ---- */

/* The UTC count of a GLONASS count: 757371600 s more. Refuses with 1 where that is above 64 bits. */
uint32_t plaitgate_glonass_to_utc(uint64_t glonass, uint64_t *utc);

/* The GLONASS count of a UTC count: 757371600 s less. Refuses with 1 below 757371600 s. */
uint32_t plaitgate_utc_to_glonass(uint64_t utc, uint64_t *glonass);

/* ---- Conversions by the built-in table ---- */

/*
 * The built-in table has 19 entries: the offset 19 from the GPS epoch on, and one more from each of the eighteen leap
 * seconds on, up to that of 2017-01-01.
 *
 * The UTC counts of an inserted second come again in the second after it: such a UTC count is turned into the first of
 * its two GPS counts.
 */

/* TAI minus UTC in seconds at a TAI count, 19 to 37. Does not refuse. */
uint32_t plaitgate_builtin_tai_minus_utc_at(uint64_t tai, int32_t *offset);

/* The UTC count of a GPS count. Refuses with 1 where it is above 64 bits, which begins at GPS 18193851291709551616. */
uint32_t plaitgate_builtin_gps_to_utc(uint64_t gps, uint64_t *utc);

/* The GPS count of a UTC count. Refuses with 1 below UTC 252892800 s, which is GPS 0. */
uint32_t plaitgate_builtin_utc_to_gps(uint64_t utc, uint64_t *gps);

/* The GPS count of a GLONASS count, by way of UTC. Refuses with 1 where the UTC count is above 64 bits. */
uint32_t plaitgate_builtin_glonass_to_gps(uint64_t glonass, uint64_t *gps);

/* The GLONASS count of a GPS count, by way of UTC. Refuses with 1 where the UTC count is above 64 bits, or below
   757371600 s. */
uint32_t plaitgate_builtin_gps_to_glonass(uint64_t gps, uint64_t *glonass);

/* The GPS count of seconds since 1970-01-01, by way of UTC. Refuses with 1 below 315964800 (1980-01-06) and
   above 18509816073. */
uint32_t plaitgate_builtin_gps_from_unix_seconds(int64_t seconds, uint64_t *gps);

/* The whole seconds since 1970-01-01 of a GPS count, by way of UTC, rounded down. Refuses as
   plaitgate_builtin_gps_to_utc. */
uint32_t plaitgate_builtin_gps_as_unix_seconds(uint64_t gps, int64_t *seconds);

/* ---- Leap-second tables ---- */

/*
 * A table has up to 64 entries. An entry is a TAI count, its threshold, and TAI minus UTC in seconds from then on, its
 * offset. A table is valid if it has at most 64 entries, its thresholds rise, and its offsets rise by exactly 1.
 *
 * The caller holds a table as an image: PLAITGATE_IMAGE_BYTES bytes of his own, each number low byte first.
 *   bytes   0 to   7  the number of entries
 *   bytes   8 to 519  64 thresholds of 8 bytes
 *   bytes 520 to 775  64 offsets of 4 bytes, in two's complement
 *   bytes 776 to 783  the expiry
 * The entries are the first thresholds and offsets, as many as that number; a table made by a call here has zeros in
 * the others. Any bytes may be passed as an image. Where they are not PLAITGATE_IMAGE_BYTES, or hold no valid table,
 * each call that reads a table refuses with 8, whatever its other inputs.
 *
 * An image, like a list of entries, crosses as a pointer and the number of its bytes. The caller guarantees that there
 * are that many, and that no two of the places passed to one call overlap: images, lists of entries and places of
 * results. The pointer need not be aligned, and must not be null, for no bytes too. What is said to be an
 * image as it was has not been written to.
 *
 * A table can go stale. Its expiry is the TAI count from which on leap seconds may be missing in it;
 * 18446744073709551615 means that it has none, as any table that a call here makes without a file. Each call that
 * looks up or converts by a table says in its last result, `stale`, whether the table has expired: 1 exactly if there
 * is an expiry and the TAI count that was looked up last is at or past it, else 0, and 0 on a refusal. Where it is 1 a
 * rack lights its lamp, fetches a new file, and goes on stamping: the count is as good as the table, in which a leap
 * second that was announced after the file was made is missing. The expiry never changes a count.
 */
#define PLAITGATE_IMAGE_BYTES 784

/* The bytes of one entry in a list of entries: 8 of the threshold, then 4 of the offset, each low byte first. */
#define PLAITGATE_ENTRY_BYTES 12

/* Writes the image of the table with no entry and no expiry. Refuses with 8 where there are not PLAITGATE_IMAGE_BYTES
   bytes, and leaves them as they were; what the bytes hold does not matter. */
uint32_t plaitgate_table_new(uint8_t *image, size_t image_bytes);

/* Writes the image of the built-in table, which has no expiry. Refuses as plaitgate_table_new. */
uint32_t plaitgate_table_from_builtin(uint8_t *image, size_t image_bytes);

/* Writes the image of the table that has the entries of a list, and no expiry. Refuses with 8 where there are not
   PLAITGATE_IMAGE_BYTES bytes for the image, and leaves them as they were. Else refuses with 8 where the list is no
   whole number of entries, with 6 where it has none, with 5 where it has more than 64; then for the first entry that
   cannot follow the one before it: with 3 where its threshold is not above that one's, with 7 where that one's offset
   is 2147483647, with 4 where its offset is not one more. On these refusals the image is that of the table with no
   entry. */
uint32_t plaitgate_table_from_entries(const uint8_t *entries, size_t entries_bytes, uint8_t *image,
                                      size_t image_bytes);

/* Reads a leap-seconds.list as the IERS publishes it, the bytes of the whole file, and writes the image of its table. A
   line that begins with #@ is the file's expiry: #@, blanks (spaces and tabs), an NTP second, and blanks or none. Any
   other line that begins with # is a comment; a line of blanks or of nothing is passed over; every other line is the
   NTP second at which an offset begins, blanks, and the offset, and may end with blanks and a comment. The first line
   with the offset 19 becomes the entry (0, 19); lines before it are checked and dropped; each line after it becomes an
   entry, whose threshold is its NTP second less 2524953600 s, plus the offset. The table's expiry is the NTP second of
   the #@ line less 2524953600 s, plus the offset of the last line that has one; a file without a #@ line gives a table
   without an expiry. `line` is the number of the first malformed line, from 1 on with comments and blank lines counted;
   it is 0 where no line is malformed, and where the file is too long to be read. A second #@ line is malformed. Lines
   end with LF; a line that ends with CR is malformed, so that a file with CR LF is refused at line 1.
   Refuses with 8 where there are not PLAITGATE_IMAGE_BYTES bytes for the image, and leaves them as they were. Else
   refuses, in this order: with 12 where there are more than 65536 bytes, where a line is malformed, or where lines have
   offsets and none is 19; with 6 where no line has an offset; with 1 where a threshold is above 64 bits of nanoseconds,
   and where the expiry is below 0 or above them; with 5 where there are more than 64 entries; then for the first line
   that cannot follow the one before it, as plaitgate_table_from_entries, where lines up to the first 19 are compared by
   their NTP seconds. On these refusals the image is that of the table with no entry. */
uint32_t plaitgate_read_leap_list(const uint8_t *list, size_t list_bytes, uint8_t *image, size_t image_bytes,
                                  uint64_t *line);

/* Joins an entry to the table in an image, at its end; a table with no entry takes any. Refuses with 8 where the image
   holds no valid table, with 5 where it has 64 entries, with 3 where the threshold is not above the last, with 7 where
   the last offset is 2147483647, with 4 where the offset is not one more than the last, in this order. On a refusal the
   image is as it was, else it has changed in its number of entries and in the slot after the last entry; the expiry
   stays. */
uint32_t plaitgate_table_try_extend(uint8_t *image, size_t image_bytes, uint64_t tai_nanos, int32_t tai_minus_utc);

/* The threshold of a leap-second event, for an entry with the offset that begins then. The date is the UTC day that
   begins with the new offset, as IERS Bulletin C gives it: 2017-01-01 and 37 give 1167264037 s. It is the UTC count of
   that midnight, less 252892800 s, plus the offset. (plaitgate_builtin_utc_to_gps and plaitgate_gps_to_tai give the
   inserted second, one earlier.) Takes any fields, as plaitgate_civil_to_utc_nanos. Refuses with 1 where the date has
   no UTC count, and where the threshold is below 0 or above 64 bits. */
uint32_t plaitgate_entry_of_event(int32_t year, uint8_t month, uint8_t day, int32_t tai_minus_utc,
                                  uint64_t *tai_nanos);

/* The number of entries, 0 to 64. Refuses with 8. */
uint32_t plaitgate_table_len(const uint8_t *image, size_t image_bytes, uint64_t *len);

/* 1 where the table has no entry, else 0. Refuses with 8. */
uint32_t plaitgate_table_is_empty(const uint8_t *image, size_t image_bytes, uint8_t *yes);

/* The entry at a place, from 0 on, and found 1; past the last entry there is nothing, and all three results are 0.
   Refuses with 8. */
uint32_t plaitgate_table_entry_at(const uint8_t *image, size_t image_bytes, uint64_t place, uint8_t *found,
                                  uint64_t *tai_nanos, int32_t *tai_minus_utc);

/* The last threshold, and found 1; where the table has no entry or only one there is nothing, and both results are 0.
   Refuses with 8. */
uint32_t plaitgate_table_last_update(const uint8_t *image, size_t image_bytes, uint8_t *found, uint64_t *tai);

/* The expiry, and found 1; where the table has none there is nothing, and both results are 0. Refuses with 8. */
uint32_t plaitgate_table_expiry(const uint8_t *image, size_t image_bytes, uint8_t *found, uint64_t *tai);

/* Gives the table in an image this expiry in place of its own; 18446744073709551615 takes the expiry away. Refuses with
   8, and the image is as it was; else it has changed in its expiry alone. */
uint32_t plaitgate_table_set_expiry(uint8_t *image, size_t image_bytes, uint64_t tai);

/* The last offset, or 19 where the table has no entry. Refuses with 8. */
uint32_t plaitgate_table_current_tai_minus_utc(const uint8_t *image, size_t image_bytes, int32_t *offset);

/* The offset in force at a TAI count: that of the last entry whose threshold is not above it, the first offset before
   the first threshold, 19 where the table has no entry. `stale`: whether the table has expired at that count. Refuses
   with 8. */
uint32_t plaitgate_table_tai_minus_utc_at(const uint8_t *image, size_t image_bytes, uint64_t tai, int32_t *offset,
                                          uint8_t *stale);

/* ---- Two tables ---- */

/* How far two tables convert alike. */
enum plaitgate_alike {
    /* nothing is said: the tables differ, and one of them is not regular */
    PLAITGATE_ALIKE_IRREGULAR = 0,
    /* everywhere: they have the same entries */
    PLAITGATE_ALIKE_EVERYWHERE = 1,
    /* before two counts: one table extends the other */
    PLAITGATE_ALIKE_BEFORE = 2,
    /* before two counts: neither table extends the other */
    PLAITGATE_ALIKE_APART = 3
};

/* How far the table in an old image and the one in a new image convert alike: `how` is one of enum plaitgate_alike.
   Asked before a new table is sent to a station that has the old one, it tells which answers there may change. Where
   `how` is 2 or 3, `gps` is the first GPS count whose UTC count may differ, and `utc` the first UTC count whose GPS
   count may differ; where it is 0 or 1, both are 0. They are those of the first entry that one table has and the other
   has not: `gps` is its threshold less 19 s, and `utc` is one second past its event, which is the threshold less the
   offset in seconds, plus 252892800 s. (A table is regular if it begins (0, 19) and each threshold after the first is
   at least 86400 s above the one before.)
   Below these counts both tables give the same count or the same refusal: from GPS to UTC, GLONASS and Unix seconds,
   and from Galileo and BeiDou to UTC and GLONASS, where the GPS count is below `gps`; from UTC, GLONASS and Unix
   seconds to GPS, where the UTC count is below `utc`. From UTC and GLONASS to Galileo and BeiDou they do so where, in
   addition, the GPS count that plaitgate_table_utc_to_gps gives is not before the epoch of the scale. Nothing is said
   of civil readings, or of `stale`: the expiry does not matter here.
   Both images are only read, so they may be the same bytes. Refuses with 8 where the old image holds no valid table,
   with 8 where the new one holds none, and with 1 where `gps` or `utc` is below 0 or above 64 bits, in this order. */
uint32_t plaitgate_table_alike(const uint8_t *old_image, size_t old_image_bytes, const uint8_t *new_image,
                               size_t new_image_bytes, uint8_t *how, uint64_t *gps, uint64_t *utc);

/* ---- Lent lists of entries ---- */

/*
 * A list of entries may also be used as it is, with any number of them and no image: it is read in place, and
 * nothing is written to it. A list is valid if its thresholds rise and its offsets rise by exactly 1; one of no entries
 * is. Where the bytes are no whole number of entries, and where the list is not valid, each call but the check refuses
 * with 8.
 */

/* Whether a table could have these entries, leaving their number aside. Refuses with 8 where the bytes are no whole
   number of entries, with 6 where there are none; then for the first entry that cannot follow the one before it: with 3
   where its threshold is not above that one's, with 7 where that one's offset is 2147483647, with 4 where its offset is
   not one more. */
uint32_t plaitgate_list_check(const uint8_t *entries, size_t entries_bytes);

/* The number of entries. Refuses with 8. */
uint32_t plaitgate_list_len(const uint8_t *entries, size_t entries_bytes, uint64_t *len);

/* 1 where the list has no entry, else 0. Refuses with 8. */
uint32_t plaitgate_list_is_empty(const uint8_t *entries, size_t entries_bytes, uint8_t *yes);

/* The last threshold, and found 1; where the list has no entry or only one there is nothing, and both results are 0.
   Refuses with 8. */
uint32_t plaitgate_list_last_update(const uint8_t *entries, size_t entries_bytes, uint8_t *found, uint64_t *tai);

/* The last offset, or 19 where the list has no entry. Refuses with 8. */
uint32_t plaitgate_list_current_tai_minus_utc(const uint8_t *entries, size_t entries_bytes, int32_t *offset);

/* The offset in force at a TAI count: that of the last entry whose threshold is not above it, the first offset before
   the first threshold, 19 where the list has no entry. `stale` is 0: a list has no expiry. Refuses with 8. */
uint32_t plaitgate_list_tai_minus_utc_at(const uint8_t *entries, size_t entries_bytes, uint64_t tai, int32_t *offset,
                                         uint8_t *stale);

/* ---- Conversions by a table ---- */

/* The UTC count of a GPS count: by the offset n in force at the TAI count, which is GPS + 19 s, it is GPS - (n - 19) s
   + 252892800 s. `stale`: whether the table has expired at that TAI count. Refuses with 8 where the image holds no valid
   table, with 1 where the TAI count is above 64 bits, with 9 where n is below -2147483629, with 1 where the UTC count is
   below 0 or above 64 bits, in this order. */
uint32_t plaitgate_table_gps_to_utc(uint64_t gps, const uint8_t *image, size_t image_bytes, uint64_t *utc,
                                    uint8_t *stale);

/* The GPS count of a UTC count: by an offset n, it is UTC - 252892800 s + (n - 19) s. To find n, the offset in force is
   looked up at a, which is UTC - 252892800 s + 19 s, or 0 where that is no count; then n is the offset in force at b,
   which is UTC - 252892800 s + that offset in seconds, or a where that is no count. `stale`: whether the table has
   expired at b. Refuses with 8 where the image holds no valid table, with 9 where n is below -2147483629, with 1 where
   the GPS count is below 0 or above 64 bits, in this order. */
uint32_t plaitgate_table_utc_to_gps(uint64_t utc, const uint8_t *image, size_t image_bytes, uint64_t *gps,
                                    uint8_t *stale);

/* The GPS count of a GLONASS count, by way of UTC. `stale`: as plaitgate_table_utc_to_gps. Refuses with 8, then as
   plaitgate_glonass_to_utc, then as plaitgate_table_utc_to_gps. */
uint32_t plaitgate_table_glonass_to_gps(uint64_t glonass, const uint8_t *image, size_t image_bytes, uint64_t *gps,
                                        uint8_t *stale);

/* The GLONASS count of a GPS count, by way of UTC. `stale`: as plaitgate_table_gps_to_utc. Refuses as
   plaitgate_table_gps_to_utc, then as plaitgate_utc_to_glonass. */
uint32_t plaitgate_table_gps_to_glonass(uint64_t gps, const uint8_t *image, size_t image_bytes, uint64_t *glonass,
                                        uint8_t *stale);

/* The GPS count of seconds since 1970-01-01, by way of UTC. `stale`: as plaitgate_table_utc_to_gps. Refuses with 8,
   then as plaitgate_utc_from_unix_seconds, then as plaitgate_table_utc_to_gps. */
uint32_t plaitgate_table_gps_from_unix_seconds(int64_t seconds, const uint8_t *image, size_t image_bytes, uint64_t *gps,
                                               uint8_t *stale);

/* The whole seconds since 1970-01-01 of a GPS count, by way of UTC, rounded down. `stale`: as
   plaitgate_table_gps_to_utc. Refuses as plaitgate_table_gps_to_utc. */
uint32_t plaitgate_table_gps_as_unix_seconds(uint64_t gps, const uint8_t *image, size_t image_bytes, int64_t *seconds,
                                             uint8_t *stale);

/* ---- Civil readings with 23:59:60 ---- */

/*
 * In a civil reading an inserted second is 23:59:60 of the day that it ends, with its nanoseconds, so that no two GPS
 * counts have the same reading, and a later count has a later one. The days begin with 1980-01-06 at GPS 0. A day has
 * 86401 s where the TAI count 86401 s after its beginning is the threshold of an entry after the first, and else 86400 s.
 * A table must be regular (it begins (0, 19), and each threshold after the first is at least 86400 s above the one
 * before), and each threshold after the first, less its offset in seconds, must be a multiple of 86400 s. The built-in
 * table is such a table.
 */

/* The date and the time of day of a GPS count by the built-in table. Refuses as plaitgate_builtin_gps_to_utc. */
uint32_t plaitgate_builtin_gps_to_civil(uint64_t gps, int32_t *year, uint8_t *month, uint8_t *day, uint8_t *hour,
                                        uint8_t *minute, uint8_t *second, uint32_t *nanos);

/* The GPS count of a date and a time of day by the built-in table: the count whose reading is these fields. Refuses fields
   that do not exist, by the first that is out of range: month with 15, day with 16 (31 February; 29 February of 2023),
   hour with 17, minute with 18, second above 60 with 19, nanos with 11. Then refuses with 14 a second of 60 that is the
   reading of no count, and any other fields with 1 before 1980-01-06 and past the range of counts.
   plaitgate_civil_to_utc_nanos takes any fields. */
uint32_t plaitgate_builtin_civil_to_gps(int32_t year, uint8_t month, uint8_t day, uint8_t hour, uint8_t minute,
                                        uint8_t second, uint32_t nanos, uint64_t *gps);

/* The same two by the table in an image. `stale`: whether the table has expired at the TAI count of the GPS count, which
   is 19 s more. Each refuses with 8 first where the image holds no valid table, then with 13 where the table cannot be
   read by. */
uint32_t plaitgate_table_gps_to_civil(uint64_t gps, const uint8_t *image, size_t image_bytes, int32_t *year,
                                      uint8_t *month, uint8_t *day, uint8_t *hour, uint8_t *minute, uint8_t *second,
                                      uint32_t *nanos, uint8_t *stale);
uint32_t plaitgate_table_civil_to_gps(int32_t year, uint8_t month, uint8_t day, uint8_t hour, uint8_t minute,
                                      uint8_t second, uint32_t nanos, const uint8_t *image, size_t image_bytes,
                                      uint64_t *gps, uint8_t *stale);

/* shifted scales, by tools/write-scales */

/* ---- Galileo to GPS, UTC and GLONASS, and back ---- */

/* The GPS count of a Galileo count, which is behind it by a fixed number of seconds (above). Refuses with 1 where the
   GPS count is above 64 bits. */
uint32_t plaitgate_galileo_to_gps(uint64_t galileo, uint64_t *gps);

/* The Galileo count of a GPS count. Refuses with 1 before the epoch of Galileo. */
uint32_t plaitgate_gps_to_galileo(uint64_t gps, uint64_t *galileo);

/* The UTC count of a Galileo count by the built-in table, by way of GPS. Refuses with 1 where the GPS count is above 64
   bits, then as plaitgate_builtin_gps_to_utc. */
uint32_t plaitgate_builtin_galileo_to_utc(uint64_t galileo, uint64_t *utc);

/* The Galileo count of a UTC count by the built-in table, by way of GPS. A UTC count that two Galileo counts have
   becomes the earlier of them. Refuses as plaitgate_builtin_utc_to_gps, then with 1 where every GPS count of the UTC
   count is before the epoch of Galileo. */
uint32_t plaitgate_builtin_utc_to_galileo(uint64_t utc, uint64_t *galileo);

/* The GLONASS count of a Galileo count by the built-in table, by way of UTC. Refuses as
   plaitgate_builtin_galileo_to_utc, then as plaitgate_utc_to_glonass. */
uint32_t plaitgate_builtin_galileo_to_glonass(uint64_t galileo, uint64_t *glonass);

/* The Galileo count of a GLONASS count by the built-in table, by way of UTC. Refuses as plaitgate_glonass_to_utc, then
   as plaitgate_builtin_utc_to_galileo. */
uint32_t plaitgate_builtin_glonass_to_galileo(uint64_t glonass, uint64_t *galileo);

/* The same four by the table in an image. Each refuses with 8 first where the image holds no valid table. `stale`: as
   the conversion by way of GPS; where the later GPS count is taken, whether the table has expired at the TAI count of
   that one. From UTC and from GLONASS, a table that is not regular gives no more than the first GPS count of a UTC
   count, and refuses with 1 where that is before the epoch of Galileo. (A table is regular if it begins (0, 19) and each
   threshold after the first is at least 86400 s above the one before.) */
uint32_t plaitgate_table_galileo_to_utc(uint64_t galileo, const uint8_t *image, size_t image_bytes, uint64_t *utc,
    uint8_t *stale);
uint32_t plaitgate_table_utc_to_galileo(uint64_t utc, const uint8_t *image, size_t image_bytes, uint64_t *galileo,
    uint8_t *stale);
uint32_t plaitgate_table_galileo_to_glonass(uint64_t galileo, const uint8_t *image, size_t image_bytes,
    uint64_t *glonass, uint8_t *stale);
uint32_t plaitgate_table_glonass_to_galileo(uint64_t glonass, const uint8_t *image, size_t image_bytes,
    uint64_t *galileo, uint8_t *stale);

/* ---- BeiDou to GPS, UTC and GLONASS, and back ---- */

/* The GPS count of a BeiDou count, which is behind it by a fixed number of seconds (above). Refuses with 1 where the
   GPS count is above 64 bits. */
uint32_t plaitgate_beidou_to_gps(uint64_t beidou, uint64_t *gps);

/* The BeiDou count of a GPS count. Refuses with 1 before the epoch of BeiDou. */
uint32_t plaitgate_gps_to_beidou(uint64_t gps, uint64_t *beidou);

/* The UTC count of a BeiDou count by the built-in table, by way of GPS. Refuses with 1 where the GPS count is above 64
   bits, then as plaitgate_builtin_gps_to_utc. */
uint32_t plaitgate_builtin_beidou_to_utc(uint64_t beidou, uint64_t *utc);

/* The BeiDou count of a UTC count by the built-in table, by way of GPS. A UTC count that two BeiDou counts have
   becomes the earlier of them. Refuses as plaitgate_builtin_utc_to_gps, then with 1 where every GPS count of the UTC
   count is before the epoch of BeiDou. */
uint32_t plaitgate_builtin_utc_to_beidou(uint64_t utc, uint64_t *beidou);

/* The GLONASS count of a BeiDou count by the built-in table, by way of UTC. Refuses as
   plaitgate_builtin_beidou_to_utc, then as plaitgate_utc_to_glonass. */
uint32_t plaitgate_builtin_beidou_to_glonass(uint64_t beidou, uint64_t *glonass);

/* The BeiDou count of a GLONASS count by the built-in table, by way of UTC. Refuses as plaitgate_glonass_to_utc, then
   as plaitgate_builtin_utc_to_beidou. */
uint32_t plaitgate_builtin_glonass_to_beidou(uint64_t glonass, uint64_t *beidou);

/* The same four by the table in an image. Each refuses with 8 first where the image holds no valid table. `stale`: as
   the conversion by way of GPS; where the later GPS count is taken, whether the table has expired at the TAI count of
   that one. From UTC and from GLONASS, a table that is not regular gives no more than the first GPS count of a UTC
   count, and refuses with 1 where that is before the epoch of BeiDou. (A table is regular if it begins (0, 19) and each
   threshold after the first is at least 86400 s above the one before.) */
uint32_t plaitgate_table_beidou_to_utc(uint64_t beidou, const uint8_t *image, size_t image_bytes, uint64_t *utc,
    uint8_t *stale);
uint32_t plaitgate_table_utc_to_beidou(uint64_t utc, const uint8_t *image, size_t image_bytes, uint64_t *beidou,
    uint8_t *stale);
uint32_t plaitgate_table_beidou_to_glonass(uint64_t beidou, const uint8_t *image, size_t image_bytes,
    uint64_t *glonass, uint8_t *stale);
uint32_t plaitgate_table_glonass_to_beidou(uint64_t glonass, const uint8_t *image, size_t image_bytes,
    uint64_t *beidou, uint8_t *stale);
/* end of shifted scales */

/* ---- Galileo and BeiDou ---- */

/* The BeiDou count of a Galileo count, by way of GPS. Refuses with 1 where the GPS count is above 64 bits, and before
   the epoch of BeiDou. */
uint32_t plaitgate_galileo_to_beidou(uint64_t galileo, uint64_t *beidou);

/* The Galileo count of a BeiDou count, by way of GPS. Refuses with 1 where the GPS count is above 64 bits. */
uint32_t plaitgate_beidou_to_galileo(uint64_t beidou, uint64_t *galileo);

#ifdef __cplusplus
}
#endif

#endif
