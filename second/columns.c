#include "columns.h"

/* "vehicle_type: VERSION d2 K r; VEH_TYPE_NR d8 K r; VEH_TYPE_SEATS d3; .. VEH_TYPE_ACCESS_EQUIP d1, 0 to 2."
 * "VERSION is 1 to 99 everywhere. A d column with no range named takes every number of its width, zero too." */
#define TYPE_COLUMNS_OF_BOTH                                                                                                  \
    {"VERSION", NULL, 'd', 2, 1, 1, 99},                                                                                      \
    {"VEH_TYPE_NR", NULL, 'd', 8, 1, 0, 99999999},                                                                            \
    {"VEH_TYPE_SEATS", NULL, 'd', 3, 0, 0, 999},                                                                              \
    {"VEH_TYPE_STRAPS", NULL, 'd', 3, 0, 0, 999},                                                                             \
    {"PLACES_FOR_DISABLED_PERSONS", "HANDICAP_PLACES", 'd', 3, 0, 0, 999},                                                    \
    {"VEH_TYPE_TEXT", NULL, 'c', 40, 0, 0, 0},                                                                                \
    {"STR_VEH_TYPE", NULL, 'c', 4, 0, 0, 0},                                                                                  \
    {"VEH_TYPE_DOOR_WIDTH", NULL, 'd', 4, 0, 0, 9999},                                                                        \
    {"VEH_TYPE_WIDTH", NULL, 'd', 4, 0, 0, 9999},                                                                             \
    {"VEH_TYPE_HEIGHT", NULL, 'd', 4, 0, 0, 9999}

static const struct column vehicle_type_columns[] = {
    TYPE_COLUMNS_OF_BOTH,
    {"VEH_TYPE_ACCESS_EQUIP", NULL, 'd', 1, 0, 0, 2},
};

/* 5/13: "VEH_TYPE_ACCESS_EQUIP is a set of flags 1 lift, 2 ramp, 4 multi-purpose space, so 0 to 7; VEH_DELFI_TYPE c10 is an
 * optional column 12 of vehicle_type" */
static const struct column vehicle_type_columns_23[] = {
    TYPE_COLUMNS_OF_BOTH,
    {"VEH_TYPE_ACCESS_EQUIP", NULL, 'd', 1, 0, 0, 7},
    {"VEH_DELFI_TYPE", NULL, 'c', 10, 0, 0, 0},
};

/* "depot: VERSION d2 K r; DEPOT_NR d5 K r." */
static const struct column depot_columns[] = {
    {"VERSION", NULL, 'd', 2, 1, 1, 99},
    {"DEPOT_NR", NULL, 'd', 5, 1, 0, 99999},
};

/* "stop: VERSION d2 K r; STOP_NR d5 K r, 1 to 99999; STOP_NAME c50 r." */
static const struct column stop_columns[] = {
    {"VERSION", NULL, 'd', 2, 1, 1, 99},
    {"STOP_NR", NULL, 'd', 5, 1, 1, 99999},
    {"STOP_NAME", NULL, 'c', 50, 1, 0, 0},
};

/* 5/13: "STOP_NAME is up to 255 bytes" */
static const struct column stop_columns_23[] = {
    {"VERSION", NULL, 'd', 2, 1, 1, 99},
    {"STOP_NR", NULL, 'd', 5, 1, 1, 99999},
    {"STOP_NAME", NULL, 'c', 255, 1, 0, 0},
};

/* Request 1/13: "columns 1 VERSION, 2 STOP_NR (both as in stop), 3 STOPPING_POINT_NR (d2), all K r, named as in chapter
 * 5.3.3 of document 003". Document 01: "columns not named are unknown". */
static const struct column stop_point_columns[] = {
    {"VERSION", NULL, 'd', 2, 1, 1, 99},
    {"STOP_NR", NULL, 'd', 5, 1, 1, 99999},
    {"STOPPING_POINT_NR", NULL, 'd', 2, 1, 0, 99},
};

/* "vehicle_block, all r: VERSION d2 K; DAY_TYPE_NR d9 K; DEPOT_NR d5 K; BLOCK_NR d8 K; VEH_TYP_NR d2; .. END_OF_BLOCK d6." The
 * two stop numbers are columns 6 and 9. */
#define BLOCK_COLUMNS(stop_width, stop_least, stop_most)                                                                      \
    {"VERSION", NULL, 'd', 2, 1, 1, 99},                                                                                      \
    {"DAY_TYPE_NR", NULL, 'd', 9, 1, 0, 999999999},                                                                           \
    {"DEPOT_NR", NULL, 'd', 5, 1, 0, 99999},                                                                                  \
    {"BLOCK_NR", NULL, 'd', 8, 1, 0, 99999999},                                                                               \
    {"VEH_TYP_NR", "VEH_TYPE_NR", 'd', 2, 1, 0, 99},                                                                          \
    {"DEP_STOP_NR", NULL, 'd', stop_width, 1, stop_least, stop_most},                                                         \
    {"DEP_STOPPING_POINT_NR", NULL, 'd', 2, 1, 0, 99},                                                                        \
    {"BEGIN_OF_BLOCK", NULL, 'd', 6, 1, 0, 999999},                                                                           \
    {"ARR_STOP_NR", NULL, 'd', stop_width, 1, stop_least, stop_most},                                                         \
    {"ARR_STOPPING_POINT_NR", NULL, 'd', 2, 1, 0, 99},                                                                        \
    {"END_OF_BLOCK", NULL, 'd', 6, 1, 0, 999999}

static const struct column vehicle_block_columns[] = {BLOCK_COLUMNS(6, 0, 999999)};

/* 5/13: "a block's two stop numbers are d5, 1 to 99999" */
static const struct column vehicle_block_columns_23[] = {BLOCK_COLUMNS(5, 1, 99999)};

/* 7/13: "1 version and 2 day (d8, YYYYMMDD, Gregorian), both K, 3 day type (d9), all r, named as there", in chapter 5.2.2 of
 * document 003; "of the years 1600 to 9999". Its DAY_TEXT is not named, and so unknown. */
static const struct column day_type_calendar_columns[] = {
    {"VERSION", NULL, 'd', 2, 1, 1, 99},
    {"DAY", NULL, 'D', 8, 1, 16000101, 99991231},
    {"DAY_TYPE_NR", NULL, 'd', 9, 1, 0, 999999999},
};

/* "Each table has its own number, column count and key width." "The book holds the keys of tables 1 to 3 and the 11 numbers of
 * each block"; of "a table added later" it "keeps its keys and the numbers asked of it": a stop point is asked for its key
 * alone, a day for its day type too. "There are at most 512 rows in each table." Request 1/13: "the new table takes number 6".
 * 7/13: "calendar faults use the present numbers with table 7", "at most 800 rows". */
const struct table tables[EDITIONS][LAST_TABLE + 1] = {
    {
        {NULL, 0, 0, 0, 0}, /* no table has the number 0 */
        {vehicle_type_columns, 11, 2, 2, 512},
        {depot_columns, 2, 2, 2, 512},
        {stop_columns, 3, 2, 2, 512},
        {vehicle_block_columns, 11, 4, 11, 512},
        {NULL, 0, 0, 0, 0}, /* 5 is the slip */
        {stop_point_columns, 3, 3, 3, 512},
        {day_type_calendar_columns, 3, 2, 3, 800},
    },
    {
        {NULL, 0, 0, 0, 0},
        {vehicle_type_columns_23, 12, 2, 2, 512},
        {depot_columns, 2, 2, 2, 512},
        {stop_columns_23, 3, 2, 2, 512},
        {vehicle_block_columns_23, 11, 4, 11, 512},
        {NULL, 0, 0, 0, 0},
        {stop_point_columns, 3, 3, 3, 512},
        {day_type_calendar_columns, 3, 2, 3, 800},
    },
};

uint64_t name_of_edition(unsigned edition)
{
    return edition == DINO_23 ? 23 : 21;
}

/* Request 1/13: "between stop and vehicle_block", "vehicle_block is read fifth". 7/13: the calendar is "read last". */
const unsigned reading_order[TABLES] = {VEHICLE_TYPE, DEPOT, STOP, STOP_POINT, VEHICLE_BLOCK, DAY_TYPE_CALENDAR};

unsigned part_of(unsigned t)
{
    unsigned part = 0;

    while (reading_order[part] != t)
        part++;
    return part;
}

size_t most_rows(unsigned t)
{
    return tables[DINO_21][t].most_rows;
}

size_t first_row(unsigned t)
{
    size_t row = 0;
    unsigned part;

    for (part = 0; reading_order[part] != t; part++)
        row += most_rows(reading_order[part]);
    return row;
}

/* "Gregorian": every fourth year is a leap year, but of the full hundreds only every fourth. */
static int is_leap_year(uint64_t year)
{
    return year % 4 == 0 && (year % 100 != 0 || year % 400 == 0);
}

int is_date(uint64_t day)
{
    static const uint64_t days[12] = {31, 28, 31, 30, 31, 30, 31, 31, 30, 31, 30, 31};
    uint64_t year = day / 10000;
    uint64_t month = day / 100 % 100;
    uint64_t of_month = day % 100;

    if (year < 1600 || year > 9999 || month < 1 || month > 12)
        return 0;
    return of_month >= 1 && of_month <= days[month - 1] + (month == 2 && is_leap_year(year));
}
