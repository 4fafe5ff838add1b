/* The two sides of a comparison: the library's functions and others of the same shape, each set in a struct, so that the
 * host, the edges and the benchmark do the same with both. */
#ifndef SECOND_SIDES_H
#define SECOND_SIDES_H

#include "columns.h"
#include "reader.h"

#include <stddef.h>
#include <stdint.h>

/* Every table has room for TABLE_ROWS rows but the calendar. The book's last row is its row of marks. */
enum { NUMBERS = 11, TABLE_ROWS = 512, CALENDAR_ROWS = 800, WORK_ROWS = 512 };
enum { MARKS = (TABLES - 1) * TABLE_ROWS + CALENDAR_ROWS, BOOK_ROWS = MARKS + 1 };
enum { RADIO_KEPT = SECOND_KEPT, RADIO_LINES = SECOND_LINES };

typedef uint64_t row[NUMBERS];

/* Bytes that are handed in: a table text or a slip. */
struct text {
    const uint8_t *bytes;
    size_t length;
};

/* The lengths at which what a delivery by radio keeps is lent. */
struct radio_lengths {
    size_t rows, kept, lines;
};

extern const struct radio_lengths right_lengths;

/* What a delivery by radio keeps, as it is lent. The second reader keeps `own` in place of `kept` and `lines`. */
struct radio {
    row *book;
    uint64_t *kept;
    uint8_t *lines;
    struct second_radio *own;
    struct radio_lengths lengths;
};

struct side {
    const char *name;
    uint64_t (*read)(uint64_t edition, const uint8_t *, size_t, const uint8_t *, size_t, const uint8_t *, size_t,
        const uint8_t *, size_t, const uint8_t *, size_t, const uint8_t *, size_t, row *book, size_t rows, uint64_t place[4]);
    uint64_t (*slip)(const uint8_t *, size_t, row *book, size_t rows, row *work, size_t work_rows, uint64_t place[4]);
    uint64_t (*cell)(uint64_t edition, const uint8_t *, size_t, uint64_t table, uint64_t line, uint64_t column,
        uint64_t answer[4], uint64_t place[4]);
    uint64_t (*type)(const row *book, size_t rows, uint64_t version, uint64_t number, uint64_t answer[2],
        uint64_t place[4]);
    uint64_t (*block)(const row *book, size_t rows, uint64_t version, uint64_t day_type, uint64_t depot, uint64_t block,
        uint64_t answer[7], uint64_t place[4]);
    uint64_t (*season)(const row *book, size_t rows, uint64_t version, uint64_t number, uint64_t first, uint64_t last,
        uint64_t seconds[1], uint64_t place[4]);
    uint64_t (*hours)(const row *book, size_t rows, uint64_t version, uint64_t number, double hours[2], uint64_t place[4]);
    uint64_t (*season_hours)(const row *book, size_t rows, uint64_t version, uint64_t number, uint64_t first, uint64_t last,
        double hours[1], uint64_t place[4]);
    uint64_t (*write)(const row *book, size_t rows, uint8_t *out, size_t out_length, uint64_t length[1],
        uint64_t place[4]);
    /* by radio; NULL where a side has none of them */
    uint64_t (*radio_open)(uint64_t edition, const struct radio *radio, uint64_t place[4]);
    uint64_t (*radio_announce)(uint64_t length, const struct radio *radio, uint64_t place[4]);
    uint64_t (*radio_part)(struct text part, const struct radio *radio, uint64_t place[4]);
    uint64_t (*radio_close)(const struct radio *radio, uint64_t place[4]);
};

/* The library, or what stands in for it: built with -DSELF the second reader, with -DPLAIN the benchmark's plain one. */
extern const struct side library_side;

/* The second reader. */
extern const struct side second_side;

/* A reading of a delivery's texts at once; they stand in the order of reading. */
static inline uint64_t side_read(const struct side *side, uint64_t edition, const struct text t[TABLES], row *book,
    size_t rows, uint64_t place[4])
{
    return side->read(edition, t[0].bytes, t[0].length, t[1].bytes, t[1].length, t[2].bytes, t[2].length, t[3].bytes,
        t[3].length, t[4].bytes, t[4].length, t[5].bytes, t[5].length, book, rows, place);
}

#endif
