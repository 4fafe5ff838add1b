/* The columns of document 01's four tables and of the further ones of requests 1 and 7, by both editions, for the second
 * reader, the generator of cases and the host. */
#ifndef SECOND_COLUMNS_H
#define SECOND_COLUMNS_H

#include <stddef.h>
#include <stdint.h>

/* The tables by their numbers. The slip has a number in places only. */
enum {
    VEHICLE_TYPE = 1, DEPOT = 2, STOP = 3, VEHICLE_BLOCK = 4, SLIP = 5, STOP_POINT = 6, DAY_TYPE_CALENDAR = 7,
    LAST_TABLE = DAY_TYPE_CALENDAR
};

/* How many tables a delivery has. */
enum { TABLES = 6 };

/* The editions, 2.1 and 2.3, as a book's row of marks has them. A caller names them 21 and 23. */
enum { DINO_21, DINO_23, EDITIONS };

/* No table has more columns than vehicle_type by 2.3. Its eleventh is VEH_TYPE_ACCESS_EQUIP in both editions. */
enum { MOST_COLUMNS = 12, ACCESS_EQUIP = 11 };

struct column {
    const char *name;
    const char *other_name; /* a second spelling, or NULL */
    char kind;              /* 'd' or 'c', or 'D' for a d column that takes days alone */
    unsigned width;
    int required;
    uint64_t least, most; /* of a number */
};

struct table {
    const struct column *columns;
    unsigned column_count;
    unsigned key_width;
    unsigned kept;  /* how many of its columns, the first ones, the book keeps */
    size_t most_rows;
};

/* By edition and the table's number; a number that is no table's has no columns. Names, kinds, keys and how many rows there
 * can be are the same in both editions but for the column that 2.3 has more. */
extern const struct table tables[EDITIONS][LAST_TABLE + 1];

/* The number by which a caller names an edition. */
uint64_t name_of_edition(unsigned edition);

/* The tables' numbers in the order in which they are read. The book keeps their rows in this order too. */
extern const unsigned reading_order[TABLES];

/* Where a table stands in that order, from 0. */
unsigned part_of(unsigned t);

/* How many rows a table can have, and where the book has the first of them. */
size_t most_rows(unsigned t);
size_t first_row(unsigned t);

/* Whether a number is a Gregorian date of the years 1600 to 9999, written YYYYMMDD. */
int is_date(uint64_t day);

#endif
