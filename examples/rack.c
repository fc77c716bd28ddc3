/*
 * A rack's stamp, in C: a GPS week and second become a count, the count becomes UTC by the built-in table and by one
 * that the rack keeps itself, and the UTC count becomes a civil date and time. The second that was inserted at the end
 * of 2016 shows that one UTC count can name two instants; the civil reading 23:59:60 names that second alone. A refusal
 * tells an operator which field to type again. From the expiry of the rack's table on, the rack lights a lamp and goes
 * on stamping. Before a station is sent a new table, the call on two tables says from which counts on its stamps may
 * change.
 *
 * ./test compiles it with include/plaitgate.h, links the library and compares what it writes with rack.out.
 */
#include <inttypes.h>
#include <stdio.h>
#include <string.h>

#include "plaitgate.h"

static void stamp(uint64_t gps)
{
    uint64_t utc, back;
    int32_t year;
    uint8_t month, day, hour, minute, second;
    uint32_t nanos;
    uint32_t why = plaitgate_builtin_gps_to_utc(gps, &utc);

    if (why != PLAITGATE_ANSWERED) {
        printf("GPS %" PRIu64 ": refused %" PRIu32 "\n", gps, why);
        return;
    }
    plaitgate_civil_from_utc_nanos(utc, &year, &month, &day, &hour, &minute, &second, &nanos);
    plaitgate_builtin_utc_to_gps(utc, &back);
    printf("GPS %" PRIu64 " is %04" PRId32 "-%02u-%02uT%02u:%02u:%02u.%09" PRIu32 "Z, first of GPS %" PRIu64 "\n",
           gps, year, month, day, hour, minute, second, nanos, back);
}

/* The civil reading, in which an inserted second is 23:59:60, and the count that it is read back to. */
static void read_and_read_back(uint64_t gps)
{
    uint64_t back;
    int32_t year;
    uint8_t month, day, hour, minute, second;
    uint32_t nanos;

    plaitgate_builtin_gps_to_civil(gps, &year, &month, &day, &hour, &minute, &second, &nanos);
    plaitgate_builtin_civil_to_gps(year, month, day, hour, minute, second, nanos, &back);
    printf("GPS %" PRIu64 " reads %04" PRId32 "-%02u-%02uT%02u:%02u:%02u.%09" PRIu32 "Z, which is GPS %" PRIu64 "\n",
           gps, year, month, day, hour, minute, second, nanos, back);
}

/* What an operator keyed in: the stamp, or which field to type again. */
static void keyed_in(uint32_t week, uint64_t seconds, uint32_t nanos)
{
    uint64_t gps;

    switch (plaitgate_gps_from_week_tow(week, seconds, nanos, &gps)) {
    case PLAITGATE_ANSWERED:
        stamp(gps);
        break;
    case PLAITGATE_INVALID_SECONDS:
        printf("%" PRIu64 " seconds: a week has 604800\n", seconds);
        break;
    case PLAITGATE_INVALID_NANOS:
        printf("%" PRIu32 " nanoseconds: a second has 1000000000\n", nanos);
        break;
    default:
        printf("week %" PRIu32 ": counts end in week 30500\n", week);
    }
}

/* A stamp by the rack's own table, and its lamp: lit from the table's expiry on. */
static void stamp_by_table(uint64_t gps, const uint8_t *table, size_t table_bytes)
{
    uint64_t utc;
    uint8_t stale;

    plaitgate_table_gps_to_utc(gps, table, table_bytes, &utc, &stale);
    printf("GPS %" PRIu64 " is UTC %" PRIu64 ", lamp %s\n", gps, utc, stale ? "on" : "off");
}

/* What a new table may change for a station that has an old one. Each result is 9 before the call, which writes it. */
static void compare_tables(const char *which, const uint8_t *old_table, const uint8_t *new_table)
{
    uint8_t how = 9;
    uint64_t gps = 9, utc = 9;
    uint32_t why = plaitgate_table_alike(old_table, PLAITGATE_IMAGE_BYTES, new_table, PLAITGATE_IMAGE_BYTES,
                                         &how, &gps, &utc);

    printf("%s: gives %" PRIu32 ", how %u, GPS %" PRIu64 ", UTC %" PRIu64 "\n", which, why, how, gps, utc);
}

/* The table of 2015 is the built-in one without its last entry, which is that of 2017-01-01. */
static void compare_before_sending(void)
{
    uint8_t built_in[PLAITGATE_IMAGE_BYTES], of_2015[PLAITGATE_IMAGE_BYTES], moved[PLAITGATE_IMAGE_BYTES];
    uint64_t threshold;

    plaitgate_table_from_builtin(built_in, sizeof built_in);
    memcpy(of_2015, built_in, sizeof built_in);
    of_2015[0]--;
    memcpy(moved, of_2015, sizeof of_2015);
    plaitgate_entry_of_event(2017, 7, 1, 37, &threshold);
    plaitgate_table_try_extend(moved, sizeof moved, threshold, 37);

    compare_tables("2015 table to built-in table", of_2015, built_in);
    compare_tables("built-in table to 2015 table", built_in, of_2015);
    compare_tables("built-in table to one with its last leap second half a year later", built_in, moved);
    compare_tables("built-in table to itself", built_in, built_in);
    built_in[8] = 1; /* the first threshold, which is 0 in a regular table */
    compare_tables("2015 table to one that begins at 1 ns", of_2015, built_in);
    built_in[0] = 65;
    compare_tables("forged table to 2015 table", built_in, of_2015);
    compare_tables("2015 table to forged table", of_2015, built_in);
}

int main(void)
{
    uint8_t table[PLAITGATE_IMAGE_BYTES], before[PLAITGATE_IMAGE_BYTES];
    uint64_t gps, back, threshold, expiry, length;
    int32_t offset;
    uint8_t stale;

    /* week 1930, the last seconds of 2016 and the first of 2017 */
    plaitgate_gps_from_week_tow(1930, 16, 0, &gps);
    stamp(gps);
    stamp(gps + UINT64_C(1000000000));
    stamp(gps + UINT64_C(2000000000));
    stamp(UINT64_MAX);

    /* the inserted second and the one after it, each with a reading of its own */
    read_and_read_back(gps + UINT64_C(1000000000));
    read_and_read_back(gps + UINT64_C(2000000000));
    printf("2016-12-30T23:59:60: refused %" PRIu32 "\n",
           plaitgate_builtin_civil_to_gps(2016, 12, 30, 23, 59, 60, 0, &back));

    keyed_in(1930, 604800, 1000000000);
    keyed_in(1930, 18, 1000000000);
    keyed_in(30501, 18, 0);
    keyed_in(1930, 18, 0);

    /* a table of the rack's own: the built-in one, extended by an entry that is refused and by one that is taken,
       that of a bulletin that says "from 2035-01-01 on, TAI minus UTC is 38 s" */
    plaitgate_table_from_builtin(table, sizeof table);
    memcpy(before, table, sizeof table);
    plaitgate_entry_of_event(2035, 1, 1, 39, &threshold);
    printf("an offset of 39 after 37: refused %" PRIu32 "\n",
           plaitgate_table_try_extend(table, sizeof table, threshold, 39));
    printf("the table is %s\n", memcmp(before, table, sizeof table) == 0 ? "as it was" : "changed");
    plaitgate_entry_of_event(2035, 1, 1, 38, &threshold);
    plaitgate_table_try_extend(table, sizeof table, threshold, 38);
    plaitgate_table_len(table, sizeof table, &length);
    plaitgate_table_tai_minus_utc_at(table, sizeof table, threshold, &offset, &stale);
    printf("%" PRIu64 " entries, TAI minus UTC %" PRId32 " s from %" PRIu64 " on\n", length, offset, threshold);

    /* the table is good up to 2035-12-28, which a file would say in its line `#@`; TAI is GPS and 19 s */
    plaitgate_entry_of_event(2035, 12, 28, 38, &expiry);
    plaitgate_table_set_expiry(table, sizeof table, expiry);
    gps = expiry - UINT64_C(19000000000);
    stamp_by_table(gps - 1, table, sizeof table);
    stamp_by_table(gps, table, sizeof table);

    table[0] = 65;
    printf("a length of 65: refused %" PRIu32 "\n", plaitgate_table_len(table, sizeof table, &length));

    compare_before_sending();
    return 0;
}
