/* The plain reader. It takes each text in one pass, keeps keys packed in sorted arrays that are searched by halving, and
 * moves two-byte positions where a row is put among others, not rows. Its columns are its own: the same facts as in
 * second/columns.c, in the shape that this reader walks. */
#include "plain.h"

#include <string.h>

enum { ROWS = 512, CALENDAR_ROWS = 800, BOOK_ROWS = 3361 };
enum { TEXT_BYTES = 65536, LINE_BYTES = 2048, HEADER_CELLS = 32, DAY = 86400 };

/* The tables' numbers, and the slip's in places. */
enum { TYPES = 1, DEPOTS = 2, STOPS = 3, BLOCKS = 4, SLIP = 5, POINTS = 6, CALENDAR = 7 };

/* Where their rows begin in a book, and its row of marks. */
enum { TYPES_AT = 0, DEPOTS_AT = 512, STOPS_AT = 1024, POINTS_AT = 1536, BLOCKS_AT = 2048, CALENDAR_AT = 2560 };
enum { MARKS_AT = CALENDAR_AT + CALENDAR_ROWS };

/* The editions, as the row of marks has them. */
enum { DINO_21, DINO_23, EDITIONS };

typedef uint64_t row[11];

/* ---- Columns */

/* A column: its name, how wide it is, and which numbers it takes; least > most marks a text. Of a date column the numbers from
 * least to most that are dates. */
struct col {
    const char *name;
    uint8_t name_length, width, required;
    uint32_t least, most;
    uint8_t date;
};

#define NAME(n) n, sizeof(n) - 1
#define TEXT_OF(width, required) width, required, 1, 0, 0
#define NUMBER(width, required, least, most) width, required, least, most, 0
#define DATE_OF(width, required) width, required, 16000101, 99991231, 1

/* By edition; the last one is a column by 2.3 alone. */
enum { MOST_COLS = 12, ACCESS_EQUIP = 11 };

#define TYPES_COLS(most_equipment)                                                                                            \
    {                                                                                                                         \
        {NAME("VERSION"), NUMBER(2, 1, 1, 99)}, {NAME("VEH_TYPE_NR"), NUMBER(8, 1, 0, 99999999)},                             \
        {NAME("VEH_TYPE_SEATS"), NUMBER(3, 0, 0, 999)}, {NAME("VEH_TYPE_STRAPS"), NUMBER(3, 0, 0, 999)},                      \
        {NAME("PLACES_FOR_DISABLED_PERSONS"), NUMBER(3, 0, 0, 999)}, {NAME("VEH_TYPE_TEXT"), TEXT_OF(40, 0)},                 \
        {NAME("STR_VEH_TYPE"), TEXT_OF(4, 0)}, {NAME("VEH_TYPE_DOOR_WIDTH"), NUMBER(4, 0, 0, 9999)},                          \
        {NAME("VEH_TYPE_WIDTH"), NUMBER(4, 0, 0, 9999)}, {NAME("VEH_TYPE_HEIGHT"), NUMBER(4, 0, 0, 9999)},                    \
        {NAME("VEH_TYPE_ACCESS_EQUIP"), NUMBER(1, 0, 0, most_equipment)}, {NAME("VEH_DELFI_TYPE"), TEXT_OF(10, 0)},           \
    }

static const struct col types_cols[EDITIONS][MOST_COLS] = {TYPES_COLS(2), TYPES_COLS(7)};

static const struct col depots_cols[] = {
    {NAME("VERSION"), NUMBER(2, 1, 1, 99)},
    {NAME("DEPOT_NR"), NUMBER(5, 1, 0, 99999)},
};

#define STOPS_COLS(name_width)                                                                                                \
    {                                                                                                                         \
        {NAME("VERSION"), NUMBER(2, 1, 1, 99)}, {NAME("STOP_NR"), NUMBER(5, 1, 1, 99999)},                                    \
        {NAME("STOP_NAME"), TEXT_OF(name_width, 1)},                                                                          \
    }

static const struct col stops_cols[EDITIONS][3] = {STOPS_COLS(50), STOPS_COLS(255)};

static const struct col points_cols[] = {
    {NAME("VERSION"), NUMBER(2, 1, 1, 99)},
    {NAME("STOP_NR"), NUMBER(5, 1, 1, 99999)},
    {NAME("STOPPING_POINT_NR"), NUMBER(2, 1, 0, 99)},
};

/* The two stop numbers go by edition. */
#define BLOCKS_COLS(stop_number)                                                                                              \
    {                                                                                                                         \
        {NAME("VERSION"), NUMBER(2, 1, 1, 99)}, {NAME("DAY_TYPE_NR"), NUMBER(9, 1, 0, 999999999)},                            \
        {NAME("DEPOT_NR"), NUMBER(5, 1, 0, 99999)}, {NAME("BLOCK_NR"), NUMBER(8, 1, 0, 99999999)},                            \
        {NAME("VEH_TYP_NR"), NUMBER(2, 1, 0, 99)}, {NAME("DEP_STOP_NR"), stop_number},                                        \
        {NAME("DEP_STOPPING_POINT_NR"), NUMBER(2, 1, 0, 99)}, {NAME("BEGIN_OF_BLOCK"), NUMBER(6, 1, 0, 999999)},              \
        {NAME("ARR_STOP_NR"), stop_number}, {NAME("ARR_STOPPING_POINT_NR"), NUMBER(2, 1, 0, 99)},                             \
        {NAME("END_OF_BLOCK"), NUMBER(6, 1, 0, 999999)},                                                                      \
    }
#define STOP_21 NUMBER(6, 1, 0, 999999)
#define STOP_23 NUMBER(5, 1, 1, 99999)

static const struct col blocks_cols[EDITIONS][11] = {BLOCKS_COLS(STOP_21), BLOCKS_COLS(STOP_23)};

static const struct col calendar_cols[] = {
    {NAME("VERSION"), NUMBER(2, 1, 1, 99)},
    {NAME("DAY"), DATE_OF(8, 1)},
    {NAME("DAY_TYPE_NR"), NUMBER(9, 1, 0, 999999999)},
};

/* By edition and the table's number; what is no table has no columns. The fifth column of vehicle_type and of vehicle_block has
 * a second spelling. */
#define TABS(edition, type_count)                                                                                             \
    {                                                                                                                         \
        {NULL, 0, NULL, 0}, {types_cols[edition], type_count, NAME("HANDICAP_PLACES")}, {depots_cols, 2, NULL, 0},            \
        {stops_cols[edition], 3, NULL, 0}, {blocks_cols[edition], 11, NAME("VEH_TYPE_NR")}, {NULL, 0, NULL, 0},               \
        {points_cols, 3, NULL, 0}, {calendar_cols, 3, NULL, 0},                                                               \
    }

static const struct tab {
    const struct col *cols;
    unsigned count;
    const char *other;
    size_t other_length;
} tabs[EDITIONS][8] = {TABS(DINO_21, 11), TABS(DINO_23, 12)};

/* The edition that a caller names, or EDITIONS. */
static unsigned edition_named(uint64_t name)
{
    return name == 21 ? DINO_21 : name == 23 ? DINO_23 : EDITIONS;
}

static uint64_t refuse(uint64_t place[4], uint64_t number, uint64_t table, uint64_t line, uint64_t column)
{
    place[0] = number;
    place[1] = table;
    place[2] = line;
    place[3] = column;
    return number;
}

/* ---- Cells */

/* What a byte is in a cell. */
enum { ORDINARY, SEMICOLON, QUOTE, FAULT };

static const uint8_t class_of[256] = {
    FAULT, FAULT, FAULT, FAULT, FAULT, FAULT, FAULT, FAULT, FAULT, FAULT, FAULT, FAULT, FAULT, FAULT, FAULT, FAULT,
    FAULT, FAULT, FAULT, FAULT, FAULT, FAULT, FAULT, FAULT, FAULT, FAULT, FAULT, FAULT, FAULT, FAULT, FAULT, FAULT,
    [';'] = SEMICOLON, ['"'] = QUOTE, [127] = FAULT,
};

/* A reader's place in a text, the text's edition, and the number of the line there. */
struct reader {
    const uint8_t *at, *end;
    unsigned edition;
    uint64_t line;
};

struct cell {
    const uint8_t *start;
    size_t length; /* of the raw content */
    size_t pairs;  /* doubled quotes in it */
};

/* What stands behind a cell. */
enum { NEXT_CELL, LINE_END, BROKEN };

/* At a line's end, with or without its carriage return, or at the text's: steps over it. Otherwise the cell is broken. */
static int end_line(struct reader *r)
{
    if (r->at == r->end)
        return LINE_END;
    if (*r->at == '\n') {
        r->at++;
        r->line++;
        return LINE_END;
    }
    if (*r->at == '\r' && r->at + 1 < r->end && r->at[1] == '\n') {
        r->at += 2;
        r->line++;
        return LINE_END;
    }
    return BROKEN;
}

/* The bytes of the break at p, in quotes: a line feed, with or without a carriage return before it. 0 where none may stand. */
static inline size_t break_at(const struct reader *r, const uint8_t *p)
{
    if (r->edition == DINO_21)
        return 0;
    return *p == '\n' ? 1 : *p == '\r' && p + 1 < r->end && p[1] == '\n' ? 2 : 0;
}

/* Takes one cell and what stands behind it. */
static inline int take_cell(struct reader *r, struct cell *cell)
{
    const uint8_t *p = r->at;
    const uint8_t *end = r->end;
    int quoted = p < end && *p == '"';

    cell->pairs = 0;
    if (quoted) {
        cell->start = ++p;
        for (;;) {
            while (p < end && (class_of[*p] & ~SEMICOLON) == ORDINARY)
                p++;
            if (p == end)
                return BROKEN;
            if (class_of[*p] == FAULT) {
                size_t skipped = break_at(r, p);

                if (!skipped)
                    return BROKEN;
                r->line++;
                p += skipped;
                continue;
            }
            if (p + 1 < end && p[1] == '"') {
                cell->pairs++;
                p += 2;
                continue;
            }
            break;
        }
        cell->length = (size_t)(p - cell->start);
        p++;
    } else {
        cell->start = p;
        while (p < end && class_of[*p] == ORDINARY)
            p++;
        cell->length = (size_t)(p - cell->start);
    }
    r->at = p;
    if (p < end && *p == ';') {
        r->at++;
        return NEXT_CELL;
    }
    return end_line(r);
}

/* Where the cell's quotes end that begin at p, or the text's end. */
static const uint8_t *behind_quotes(const uint8_t *p, const uint8_t *end)
{
    for (p++; p < end; p++) {
        if (*p != '"')
            continue;
        p++;
        if (p == end || *p != '"')
            return p;
    }
    return end;
}

/* The bytes of the row that begins there, its line end left out. */
static size_t row_length(const uint8_t *start, const struct reader *r)
{
    const uint8_t *end = r->end;
    const uint8_t *p = start;
    int begins = r->edition == DINO_23; /* a cell whose quotes count */

    while (p < end && *p != '\n') {
        if (begins && *p == '"') {
            p = behind_quotes(p, end);
            begins = 0;
            continue;
        }
        begins = r->edition == DINO_23 && *p == ';';
        p++;
    }
    return (size_t)(p - start) - (p < end && p > start && p[-1] == '\r');
}

/* Whether a line is too long, after its cells were taken: a good one is behind the reader, of a broken one the end is still
 * to be found. */
static inline int too_long(const uint8_t *start, const struct reader *r, int behind)
{
    return (behind == BROKEN || r->at - start > LINE_BYTES) && row_length(start, r) > LINE_BYTES;
}

/* Digits to a number: 0, 8, or 21 outside the column's range. At most nine of them stand before a byte that is none. */
static inline unsigned take_number(const uint8_t *p, size_t length, const struct col *col, uint64_t *value)
{
    uint32_t sum = 0;
    size_t i;

    for (i = 0; i < length; i++) {
        uint32_t digit = (uint32_t)p[i] - '0';

        if (digit > 9)
            return 8;
        sum = sum * 10 + digit;
    }
    *value = sum;
    return sum >= col->least && sum <= col->most ? 0 : 21;
}

/* Whether a number YYYYMMDD of the years 1600 to 9999 is a day of the Gregorian calendar. */
static inline int is_date(uint32_t day)
{
    static const uint8_t days_of[13] = {0, 31, 29, 31, 30, 31, 30, 31, 31, 30, 31, 30, 31};
    uint32_t year = day / 10000;
    uint32_t month = day / 100 % 100;
    uint32_t of_month = day % 100;

    if (month > 12 || of_month < 1 || of_month > days_of[month])
        return 0;
    return month != 2 || of_month < 29 || (year % 4 == 0 && (year % 100 != 0 || year % 400 == 0));
}

/* Whether a date column takes the number. */
static inline int takes_day(uint64_t day)
{
    return day >= calendar_cols[1].least && day <= calendar_cols[1].most && is_date((uint32_t)day);
}

/* What the column has against the cell: 19, 20, 8, 21 or 0. The value of a text or an empty cell is 0. */
static inline unsigned judge(const struct cell *cell, const struct col *col, uint64_t *value)
{
    size_t length = cell->length - cell->pairs;
    unsigned fault;

    *value = 0;
    if (length - 1 >= col->width)
        return length > 0 ? 20 : col->required ? 19 : 0;
    if (col->least > col->most)
        return 0;
    fault = take_number(cell->start, cell->length, col, value);
    return col->date && !fault && !is_date((uint32_t)*value) ? 21 : fault;
}

/* ---- The header */

struct header {
    unsigned cells;
    uint8_t col_of[HEADER_CELLS]; /* for each cell its column from 1, or 0 */
    uint32_t present;             /* bit c - 1: column c is there */
};

static unsigned named(const struct tab *tab, const struct cell *cell)
{
    unsigned c;

    for (c = 1; c <= tab->count; c++)
        if (tab->cols[c - 1].name_length == cell->length && memcmp(tab->cols[c - 1].name, cell->start, cell->length) == 0)
            return c;
    if (tab->other_length == cell->length && tab->other && memcmp(tab->other, cell->start, cell->length) == 0)
        return 5;
    return 0;
}

static uint64_t take_header(unsigned t, struct reader *r, struct header *header, uint64_t place[4])
{
    const struct tab *tab = &tabs[r->edition][t];
    const uint8_t *start = r->at;
    unsigned twice = 0;
    unsigned count = 0;
    unsigned c;
    int behind;

    header->present = 0;
    do {
        struct cell cell;

        behind = take_cell(r, &cell);
        count++;
        if (behind == BROKEN || count > HEADER_CELLS)
            continue;
        c = named(tab, &cell);
        header->col_of[count - 1] = (uint8_t)c;
        if (c && (header->present >> (c - 1) & 1) && !twice)
            twice = c;
        if (c)
            header->present |= (uint32_t)1 << (c - 1);
    } while (behind == NEXT_CELL);
    header->cells = count;
    if (too_long(start, r, behind))
        return refuse(place, 17, t, 1, 0);
    if (behind == BROKEN)
        return refuse(place, 6, t, 1, count);
    if (count > HEADER_CELLS)
        return refuse(place, 4, t, 1, 0);
    if (twice)
        return refuse(place, 3, t, 1, twice);
    for (c = 1; c <= tab->count; c++)
        if (tab->cols[c - 1].required && !(header->present >> (c - 1) & 1))
            return refuse(place, 2, t, 1, c);
    return 0;
}

/* ---- Rows */

/* Takes a line: its numbers by column, or its 17, 6, 7, or 19, 20, 8 or 21 of a cell. A bad cell is only noted, as the line's
 * 17, a later cell's 6 or the line's 7 come first, and the lowest column's fault. */
static inline uint64_t take_row(unsigned t, struct reader *r, const struct header *header, uint64_t *numbers,
    uint64_t place[4])
{
    const struct col *cols = tabs[r->edition][t].cols;
    const uint8_t *start = r->at;
    uint64_t line = r->line;
    unsigned bad = 0;
    unsigned lowest = MOST_COLS + 1;
    unsigned count = 0;
    int behind;

    do {
        struct cell cell;

        behind = take_cell(r, &cell);
        count++;
        if (behind != BROKEN && count <= header->cells) {
            unsigned c = header->col_of[count - 1];
            unsigned fault = c ? judge(&cell, &cols[c - 1], &numbers[c - 1]) : 0;

            if (fault && c < lowest) {
                bad = fault;
                lowest = c;
            }
        }
    } while (behind == NEXT_CELL);
    if (too_long(start, r, behind))
        return refuse(place, 17, t, line, 0);
    if (behind == BROKEN)
        return refuse(place, 6, t, line, count);
    if (count != header->cells)
        return refuse(place, 7, t, line, 0);
    return bad ? refuse(place, bad, t, line, lowest) : 0;
}

/* ---- Keys */

/* The keys of a table of types, depots, stops or stop points, packed and rising. */
struct keys {
    uint64_t key[ROWS];
    size_t count;
};

static inline uint64_t pack(uint64_t version, uint64_t number)
{
    return version << 32 | number;
}

/* A point is below 100 and a stop below a million, so both have room beside the version. */
static inline uint64_t pack_point(uint64_t version, uint64_t stop, uint64_t point)
{
    return pack(version, stop << 7 | point);
}

/* The first place of n rising keys whose key is not below this one. */
static inline size_t place_among(const uint64_t *keys, size_t n, uint64_t key)
{
    const uint64_t *base = keys;

    if (n == 0)
        return 0;
    while (n > 1) {
        size_t half = n / 2;

        base += base[half - 1] < key ? half : 0;
        n -= half;
    }
    return (size_t)(base - keys) + (*base < key);
}

static inline size_t place_of(const struct keys *keys, uint64_t key)
{
    return place_among(keys->key, keys->count, key);
}

static inline int has(const struct keys *keys, uint64_t key)
{
    size_t at = place_of(keys, key);

    return at < keys->count && keys->key[at] == key;
}

struct book_keys {
    struct keys types, depots, stops, points;
};

/* The column of a block whose reference finds no row, or 0. */
static inline unsigned lost(const struct book_keys *keys, const uint64_t *block)
{
    uint64_t version = block[0];

    if (!has(&keys->depots, pack(version, block[2])))
        return 3;
    if (!has(&keys->types, pack(version, block[4])))
        return 5;
    if (!has(&keys->stops, pack(version, block[5])))
        return 6;
    if (!has(&keys->points, pack_point(version, block[5], block[6])))
        return 7;
    if (!has(&keys->stops, pack(version, block[8])))
        return 9;
    if (!has(&keys->points, pack_point(version, block[8], block[9])))
        return 10;
    return 0;
}

static inline int key_below(const uint64_t *one, const uint64_t *other)
{
    if (one[0] != other[0])
        return one[0] < other[0];
    if (one[1] != other[1])
        return one[1] < other[1];
    if (one[2] != other[2])
        return one[2] < other[2];
    return one[3] < other[3];
}

static inline int key_equal(const uint64_t *one, const uint64_t *other)
{
    return one[0] == other[0] && one[1] == other[1] && one[2] == other[2] && one[3] == other[3];
}

/* END below BEGIN is 11 where one of them is 86,400 or more. Then BEGIN, the greater, is. */
static inline int early(const uint64_t *block)
{
    return block[10] < block[7] && block[7] >= DAY;
}

/* For a block that is not early: END below BEGIN is on the next day. */
static inline uint64_t seconds_of(const uint64_t *block)
{
    return block[10] + (block[10] < block[7] ? DAY : 0) - block[7];
}

/* Blocks in slots that do not move, and their positions by rising key. */
struct order {
    uint16_t slot[ROWS];
    size_t count;
};

static inline size_t place_of_block(const struct order *order, const row *rows, const uint64_t *key)
{
    size_t low = 0;
    size_t high = order->count;

    /* deliveries mostly come in key order */
    if (high > 0 && key_below(rows[order->slot[high - 1]], key))
        return high;
    while (low < high) {
        size_t middle = (low + high) / 2;

        if (key_below(rows[order->slot[middle]], key))
            low = middle + 1;
        else
            high = middle;
    }
    return low;
}

static inline int stands(const struct order *order, const row *rows, const uint64_t *key, size_t at)
{
    return at < order->count && key_equal(rows[order->slot[at]], key);
}

static void put_slot(struct order *order, size_t at, size_t slot)
{
    memmove(order->slot + at + 1, order->slot + at, (order->count - at) * sizeof order->slot[0]);
    order->slot[at] = (uint16_t)slot;
    order->count++;
}

/* Copies the blocks by rising key into a book's rows and clears the rest. */
static void lay_out(const struct order *order, const row *rows, row *blocks)
{
    size_t i;

    for (i = 0; i < order->count; i++)
        memcpy(blocks[i], rows[order->slot[i]], sizeof(row));
    memset(blocks[order->count], 0, (ROWS - order->count) * sizeof(row));
}

/* ---- Reading */

/* A table of keys. Those of stop points are packed in their own way and refer to the stops. */
static inline uint64_t read_keys(unsigned edition, unsigned t, const uint8_t *text, size_t length, struct keys *keys,
    const struct keys *stops, uint64_t place[4])
{
    struct reader r = {text, text + length, edition, 1};
    struct header header;
    uint64_t number;
    uint64_t numbers[MOST_COLS];

    keys->count = 0;
    if (length > TEXT_BYTES)
        return refuse(place, 1, t, 0, 0);
    number = take_header(t, &r, &header, place);
    if (number)
        return number;
    while (r.at < r.end) {
        uint64_t line = r.line;
        uint64_t key;
        size_t at;

        if (keys->count == ROWS)
            return refuse(place, 5, t, line, 0);
        number = take_row(t, &r, &header, numbers, place);
        if (number)
            return number;
        key = t == POINTS ? pack_point(numbers[0], numbers[1], numbers[2]) : pack(numbers[0], numbers[1]);
        at = keys->count > 0 && keys->key[keys->count - 1] < key ? keys->count : place_of(keys, key);
        if (at < keys->count && keys->key[at] == key)
            return refuse(place, 9, t, line, 0);
        if (t == POINTS && !has(stops, pack(numbers[0], numbers[1])))
            return refuse(place, 10, t, line, 2);
        memmove(keys->key + at + 1, keys->key + at, (keys->count - at) * sizeof keys->key[0]);
        keys->key[at] = key;
        keys->count++;
    }
    return 0;
}

static uint64_t read_blocks(unsigned edition, const uint8_t *text, size_t length, const struct book_keys *keys,
    struct order *order, row rows[ROWS], uint64_t place[4])
{
    struct reader r = {text, text + length, edition, 1};
    struct header header;
    uint64_t number;

    order->count = 0;
    if (length > TEXT_BYTES)
        return refuse(place, 1, BLOCKS, 0, 0);
    number = take_header(BLOCKS, &r, &header, place);
    if (number)
        return number;
    while (r.at < r.end) {
        size_t slot = order->count;
        uint64_t *numbers = rows[slot];
        uint64_t line = r.line;
        unsigned column;
        size_t at;

        if (slot == ROWS)
            return refuse(place, 5, BLOCKS, line, 0);
        number = take_row(BLOCKS, &r, &header, numbers, place);
        if (number)
            return number;
        if (early(numbers))
            return refuse(place, 11, BLOCKS, line, 11);
        at = place_of_block(order, (const row *)rows, numbers);
        if (stands(order, (const row *)rows, numbers, at))
            return refuse(place, 9, BLOCKS, line, 0);
        column = lost(keys, numbers);
        if (column)
            return refuse(place, 10, BLOCKS, line, column);
        put_slot(order, at, slot);
    }
    return 0;
}

/* A calendar's days, packed and rising: 7 bits of version, 27 of day and 30 of day type, so that the key stands above. */
struct days {
    uint64_t day[CALENDAR_ROWS];
    size_t count;
};

enum { DAY_TYPE_BITS = 30, DAY_BITS = 27 };

static inline uint64_t pack_day(const uint64_t *numbers)
{
    return (numbers[0] << DAY_BITS | numbers[1]) << DAY_TYPE_BITS | numbers[2];
}

static uint64_t read_days(unsigned edition, const uint8_t *text, size_t length, struct days *days, uint64_t place[4])
{
    struct reader r = {text, text + length, edition, 1};
    struct header header;
    uint64_t number;
    uint64_t numbers[MOST_COLS];

    days->count = 0;
    if (length > TEXT_BYTES)
        return refuse(place, 1, CALENDAR, 0, 0);
    number = take_header(CALENDAR, &r, &header, place);
    if (number)
        return number;
    while (r.at < r.end) {
        uint64_t line = r.line;
        size_t count = days->count;
        uint64_t day, key;
        size_t at;

        if (count == CALENDAR_ROWS)
            return refuse(place, 5, CALENDAR, line, 0);
        number = take_row(CALENDAR, &r, &header, numbers, place);
        if (number)
            return number;
        day = pack_day(numbers);
        key = day >> DAY_TYPE_BITS;
        at = count > 0 && days->day[count - 1] >> DAY_TYPE_BITS < key ? count
                                                                       : place_among(days->day, count, key << DAY_TYPE_BITS);
        if (at < count && days->day[at] >> DAY_TYPE_BITS == key)
            return refuse(place, 9, CALENDAR, line, 0);
        memmove(days->day + at + 1, days->day + at, (count - at) * sizeof days->day[0]);
        days->day[at] = day;
        days->count++;
    }
    return 0;
}

static void lay_out_days(const struct days *days, row *rows)
{
    size_t i;

    memset(rows, 0, CALENDAR_ROWS * sizeof(row));
    for (i = 0; i < days->count; i++) {
        rows[i][0] = days->day[i] >> (DAY_TYPE_BITS + DAY_BITS);
        rows[i][1] = days->day[i] >> DAY_TYPE_BITS & ((1u << DAY_BITS) - 1);
        rows[i][2] = days->day[i] & ((1u << DAY_TYPE_BITS) - 1);
    }
}

static void lay_out_keys(const struct keys *keys, row *rows)
{
    size_t i;

    memset(rows, 0, ROWS * sizeof(row));
    for (i = 0; i < keys->count; i++) {
        rows[i][0] = keys->key[i] >> 32;
        rows[i][1] = keys->key[i] & 0xFFFFFFFFu;
    }
}

static void lay_out_points(const struct keys *keys, row *rows)
{
    size_t i;

    memset(rows, 0, ROWS * sizeof(row));
    for (i = 0; i < keys->count; i++) {
        rows[i][0] = keys->key[i] >> 32;
        rows[i][1] = (keys->key[i] & 0xFFFFFFFFu) >> 7;
        rows[i][2] = keys->key[i] & 127;
    }
}

uint64_t plain_read(uint64_t edition_name, const uint8_t *vehicle_type, size_t vehicle_type_length, const uint8_t *depot,
    size_t depot_length, const uint8_t *stop, size_t stop_length, const uint8_t *stop_point, size_t stop_point_length,
    const uint8_t *vehicle_block, size_t vehicle_block_length, const uint8_t *day_type_calendar,
    size_t day_type_calendar_length, uint64_t (*book)[11], size_t rows, uint64_t place[4])
{
    unsigned e = edition_named(edition_name);
    struct book_keys keys;
    struct order order;
    struct days days;
    row blocks[ROWS];
    uint64_t number;

    if (rows != BOOK_ROWS)
        return refuse(place, 16, 0, 0, 0);
    number = e == EDITIONS ? refuse(place, 22, 0, 0, 0) : 0;
    if (!number)
        number = read_keys(e, TYPES, vehicle_type, vehicle_type_length, &keys.types, NULL, place);
    if (!number)
        number = read_keys(e, DEPOTS, depot, depot_length, &keys.depots, NULL, place);
    if (!number)
        number = read_keys(e, STOPS, stop, stop_length, &keys.stops, NULL, place);
    if (!number)
        number = read_keys(e, POINTS, stop_point, stop_point_length, &keys.points, &keys.stops, place);
    if (!number)
        number = read_blocks(e, vehicle_block, vehicle_block_length, &keys, &order, blocks, place);
    if (!number)
        number = read_days(e, day_type_calendar, day_type_calendar_length, &days, place);
    if (number) {
        memset(book, 0, BOOK_ROWS * sizeof(row));
        return number;
    }
    lay_out_keys(&keys.types, book + TYPES_AT);
    lay_out_keys(&keys.depots, book + DEPOTS_AT);
    lay_out_keys(&keys.stops, book + STOPS_AT);
    lay_out_points(&keys.points, book + POINTS_AT);
    lay_out(&order, (const row *)blocks, book + BLOCKS_AT);
    lay_out_days(&days, book + CALENDAR_AT);
    memset(book[MARKS_AT], 0, sizeof(row));
    book[MARKS_AT][0] = e;
    return refuse(place, 0, 0, 0, 0);
}

/* ---- The book rule */

/* Whether all numbers of some rows are 0. */
static int all_zero(const row *rows, size_t count)
{
    const uint64_t *p = rows[0];
    size_t n = count * 11;
    uint64_t sum = 0;
    size_t i;

    for (i = 0; i < n; i++)
        sum |= p[i];
    return sum == 0;
}

/* The numbers of a row from the fourth on, all at once. */
static inline uint64_t rest_of(const row numbers)
{
    return numbers[3] | numbers[4] | numbers[5] | numbers[6] | numbers[7] | numbers[8] | numbers[9] | numbers[10];
}

/* One of the first three tables; its keys, packed, are kept for the references. */
static int check_keys(const row *rows, const struct col *col, struct keys *keys)
{
    size_t n;

    for (n = 0; n < ROWS && rows[n][0] != 0; n++) {
        uint64_t rest = rows[n][2] | rest_of(rows[n]);
        uint64_t key;

        if (rows[n][0] > 99 || rows[n][1] < col->least || rows[n][1] > col->most || rest)
            return 0;
        key = pack(rows[n][0], rows[n][1]);
        if (n > 0 && keys->key[n - 1] >= key)
            return 0;
        keys->key[n] = key;
    }
    keys->count = n;
    return n == ROWS || all_zero(rows + n, ROWS - n);
}

static int check_points(const row *rows, const struct keys *stops, struct keys *keys)
{
    size_t n;

    for (n = 0; n < ROWS && rows[n][0] != 0; n++) {
        uint64_t key;

        if (rows[n][0] > 99 || rows[n][1] > points_cols[1].most || rows[n][2] > points_cols[2].most || rest_of(rows[n]))
            return 0;
        key = pack_point(rows[n][0], rows[n][1], rows[n][2]);
        if ((n > 0 && keys->key[n - 1] >= key) || !has(stops, pack(rows[n][0], rows[n][1])))
            return 0;
        keys->key[n] = key;
    }
    keys->count = n;
    return n == ROWS || all_zero(rows + n, ROWS - n);
}

static int check_blocks(const row *rows, const struct book_keys *keys, size_t *count)
{
    size_t n;
    unsigned c;

    for (n = 0; n < ROWS && rows[n][0] != 0; n++) {
        int over = 0;

        for (c = 0; c < 11; c++)
            over |= rows[n][c] > blocks_cols[DINO_21][c].most; /* a stop by 2.3 is held to its range by its reference */
        if (over || early(rows[n]) || (n > 0 && !key_below(rows[n - 1], rows[n])) || lost(keys, rows[n]))
            return 0;
    }
    *count = n;
    return n == ROWS || all_zero(rows + n, ROWS - n);
}

static int check_days(const row *rows)
{
    uint64_t above = 0; /* the key of the row above */
    size_t n;

    for (n = 0; n < CALENDAR_ROWS && rows[n][0] != 0; n++) {
        uint64_t key;

        if (rows[n][0] > 99 || !takes_day(rows[n][1]) || rows[n][2] > calendar_cols[2].most || rest_of(rows[n]))
            return 0;
        key = pack(rows[n][0], rows[n][1]);
        if (above >= key)
            return 0;
        above = key;
    }
    return n == CALENDAR_ROWS || all_zero(rows + n, CALENDAR_ROWS - n);
}

/* Whether the rows are a book; its keys and how many blocks it has. */
static int check_book(const row *book, size_t rows, struct book_keys *keys, size_t *blocks)
{
    return rows == BOOK_ROWS && book[MARKS_AT][0] < EDITIONS && !(book[MARKS_AT][1] | book[MARKS_AT][2])
        && !rest_of(book[MARKS_AT]) && check_keys(book + TYPES_AT, &types_cols[DINO_21][1], &keys->types)
        && check_keys(book + DEPOTS_AT, &depots_cols[1], &keys->depots)
        && check_keys(book + STOPS_AT, &stops_cols[DINO_21][1], &keys->stops)
        && check_points(book + POINTS_AT, &keys->stops, &keys->points) && check_blocks(book + BLOCKS_AT, keys, blocks)
        && check_days(book + CALENDAR_AT);
}

/* ---- Questions */

/* Goes to the row that starts on a line, or to the text's end: 0, or by 2.3 the 17 or 6 of a row above. By 2.1 lines above are
 * passed over to their line feeds, whatever stands in them. */
static uint64_t pass_rows(unsigned t, struct reader *r, uint64_t line, uint64_t place[4])
{
    while (r->line < line && r->at < r->end) {
        const uint8_t *start = r->at;
        uint64_t above = r->line;
        unsigned count = 0;
        int behind;

        if (r->edition == DINO_21) {
            while (r->at < r->end && *r->at++ != '\n')
                ;
            r->line++;
            continue;
        }
        do {
            struct cell cell;

            behind = take_cell(r, &cell);
            count++;
        } while (behind == NEXT_CELL);
        if (too_long(start, r, behind))
            return refuse(place, 17, t, above, 0);
        if (behind == BROKEN)
            return refuse(place, 6, t, above, count);
    }
    return 0;
}

uint64_t plain_cell(uint64_t edition, const uint8_t *text, size_t length, uint64_t table, uint64_t line, uint64_t column,
    uint64_t answer[4], uint64_t place[4])
{
    struct reader r = {text, text + length, edition_named(edition), 1};
    struct header header;
    struct cell asked = {text, 0, 0};
    const uint8_t *start;
    const struct col *col;
    uint64_t number, value;
    unsigned t = (unsigned)table;
    unsigned count = 0;
    int behind;

    memset(answer, 0, 4 * sizeof answer[0]);
    if (r.edition == EDITIONS)
        return refuse(place, 22, 0, 0, 0);
    if (table > CALENDAR || column < 1 || column > tabs[r.edition][t].count)
        return refuse(place, 15, 0, 0, 0);
    col = &tabs[r.edition][t].cols[column - 1];
    if (length > TEXT_BYTES)
        return refuse(place, 1, t, 0, 0);
    number = take_header(t, &r, &header, place);
    if (number)
        return number;
    number = pass_rows(t, &r, line, place);
    if (number)
        return number;
    if (line < 2 || r.line != line || r.at == r.end)
        return refuse(place, 15, 0, 0, 0);
    start = r.at;
    do {
        struct cell cell;

        behind = take_cell(&r, &cell);
        count++;
        if (behind != BROKEN && count <= header.cells && header.col_of[count - 1] == column)
            asked = cell;
    } while (behind == NEXT_CELL);
    if (too_long(start, &r, behind))
        return refuse(place, 17, t, line, 0);
    if (behind == BROKEN)
        return refuse(place, 6, t, line, count);
    if (count != header.cells)
        return refuse(place, 7, t, line, 0);
    if (!(header.present >> (column - 1) & 1))
        return refuse(place, 0, 0, 0, 0);
    number = judge(&asked, col, &value);
    if (number)
        return refuse(place, number, t, line, column);
    if (asked.length > 0 && col->least > col->most) {
        answer[0] = 2;
        answer[2] = (uint64_t)(asked.start - text);
        answer[3] = asked.length;
    } else if (asked.length > 0) {
        answer[0] = t != TYPES || column != ACCESS_EQUIP ? 1 : r.edition == DINO_21 ? 3 : 4;
        answer[1] = value;
    }
    return refuse(place, 0, 0, 0, 0);
}

uint64_t plain_type(const uint64_t (*book)[11], size_t rows, uint64_t version, uint64_t number, uint64_t answer[2],
    uint64_t place[4])
{
    struct book_keys keys;
    uint64_t seconds = 0;
    uint64_t blocks = 0;
    size_t count, i;

    answer[0] = 0;
    answer[1] = 0;
    if (!check_book(book, rows, &keys, &count))
        return refuse(place, 16, 0, 0, 0);
    if (version > 99 || number > 99999999 || !has(&keys.types, pack(version, number)))
        return refuse(place, 15, 0, 0, 0);
    for (i = BLOCKS_AT; i < BLOCKS_AT + count; i++) {
        uint64_t of_type = book[i][0] == version && book[i][4] == number;

        seconds += of_type * seconds_of(book[i]);
        blocks += of_type;
    }
    answer[0] = seconds;
    answer[1] = blocks;
    return refuse(place, 0, 0, 0, 0);
}

uint64_t plain_block(const uint64_t (*book)[11], size_t rows, uint64_t version, uint64_t day_type, uint64_t depot,
    uint64_t block, uint64_t answer[7], uint64_t place[4])
{
    struct book_keys keys;
    const uint64_t key[4] = {version, day_type, depot, block};
    size_t low, high, count;

    memset(answer, 0, 7 * sizeof answer[0]);
    if (!check_book(book, rows, &keys, &count))
        return refuse(place, 16, 0, 0, 0);
    low = BLOCKS_AT;
    high = low + count;
    while (low < high) {
        size_t middle = (low + high) / 2;

        if (key_below(book[middle], key))
            low = middle + 1;
        else
            high = middle;
    }
    if (low == BLOCKS_AT + count || !key_equal(book[low], key))
        return refuse(place, 15, 0, 0, 0);
    memcpy(answer, book[low] + 4, 7 * sizeof answer[0]);
    return refuse(place, 0, 0, 0, 0);
}

/* The seconds of a type's blocks of one day type. */
struct share {
    uint64_t day_type, seconds;
};

/* The shares of a type by rising day type, which blocks by rising key have together. */
static size_t share_out(const row *blocks, size_t count, uint64_t version, uint64_t number, struct share shares[ROWS])
{
    size_t n = 0;
    size_t i;

    for (i = 0; i < count; i++) {
        if (blocks[i][0] != version || blocks[i][4] != number)
            continue;
        if (n == 0 || shares[n - 1].day_type != blocks[i][1]) {
            shares[n].day_type = blocks[i][1];
            shares[n].seconds = 0;
            n++;
        }
        shares[n - 1].seconds += seconds_of(blocks[i]);
    }
    return n;
}

/* The seconds of the share of a day type, found by halving, or 0. */
static inline uint64_t share_of(const struct share *shares, size_t n, uint64_t day_type)
{
    while (n > 1) {
        size_t half = n / 2;

        shares += shares[half].day_type <= day_type ? half : 0;
        n -= half;
    }
    return shares->day_type == day_type ? shares->seconds : 0;
}

/* Each day of the span adds the share of its day type, so that days times blocks is never walked. */
uint64_t plain_season(const uint64_t (*book)[11], size_t rows, uint64_t version, uint64_t number, uint64_t first,
    uint64_t last, uint64_t seconds[1], uint64_t place[4])
{
    const row *days = book + CALENDAR_AT;
    struct book_keys keys;
    struct share shares[ROWS];
    uint64_t sum = 0;
    size_t low = 0;
    size_t high = CALENDAR_ROWS;
    size_t count, n;

    seconds[0] = 0;
    if (!check_book(book, rows, &keys, &count))
        return refuse(place, 16, 0, 0, 0);
    if (version > 99 || number > 99999999 || !has(&keys.types, pack(version, number)))
        return refuse(place, 15, 0, 0, 0);
    if (!takes_day(first) || !takes_day(last))
        return refuse(place, 23, 0, 0, 0);
    n = share_out(book + BLOCKS_AT, count, version, number, shares);
    while (low < high) {
        size_t middle = (low + high) / 2;

        /* rows behind the last day are zero */
        if (days[middle][0] != 0 && pack(days[middle][0], days[middle][1]) < pack(version, first))
            low = middle + 1;
        else
            high = middle;
    }
    for (; n > 0 && low < CALENDAR_ROWS && days[low][0] == version && days[low][1] <= last; low++)
        sum += share_of(shares, n, days[low][2]);
    seconds[0] = sum;
    return refuse(place, 0, 0, 0, 0);
}

/* One pass over the blocks: the seconds as a whole number, and the clerk's sum by rising key. */
uint64_t plain_hours(const uint64_t (*book)[11], size_t rows, uint64_t version, uint64_t number, double hours[2],
    uint64_t place[4])
{
    struct book_keys keys;
    uint64_t seconds = 0;
    double clerk = 0.0;
    size_t count, i;

    hours[0] = 0.0;
    hours[1] = 0.0;
    if (!check_book(book, rows, &keys, &count))
        return refuse(place, 16, 0, 0, 0);
    if (version > 99 || number > 99999999 || !has(&keys.types, pack(version, number)))
        return refuse(place, 15, 0, 0, 0);
    for (i = BLOCKS_AT; i < BLOCKS_AT + count; i++)
        if (book[i][0] == version && book[i][4] == number) {
            uint64_t of_block = seconds_of(book[i]);

            seconds += of_block;
            clerk += (double)of_block / 3600.0;
        }
    hours[0] = (double)seconds / 3600.0;
    hours[1] = clerk;
    return refuse(place, 0, 0, 0, 0);
}

uint64_t plain_season_hours(const uint64_t (*book)[11], size_t rows, uint64_t version, uint64_t number, uint64_t first,
    uint64_t last, double hours[1], uint64_t place[4])
{
    uint64_t seconds[1];
    uint64_t refusal = plain_season(book, rows, version, number, first, last, seconds, place);

    hours[0] = (double)seconds[0] / 3600.0;
    return refusal;
}

/* ---- Slips */

/* Blocks in slots of the working area, and the slots that are free below the first that was never used. */
struct stock {
    row *rows;
    struct order order;
    uint16_t free[ROWS];
    size_t free_count, next;
};

/* Takes the tab and the number behind it. What the column has against it is noted in *fault; a wrong field count shows at the
 * end. */
static inline int take_field(struct reader *r, const struct col *col, uint64_t *value, unsigned *fault)
{
    struct cell field = {NULL, 0, 0};

    if (r->at == r->end || *r->at != '\t')
        return 0;
    field.start = ++r->at;
    while (r->at < r->end && *r->at != '\t' && *r->at != '\n')
        r->at++;
    field.length = (size_t)(r->at - field.start);
    *fault = judge(&field, col, value);
    return 1;
}

/* Takes `count` fields and the line's end: 0 if the count is another one. *bad is the fault of the first column that has one,
 * and 0 where none has. */
static inline int take_fields(struct reader *r, unsigned count, row numbers, unsigned *bad, unsigned *column)
{
    unsigned c;

    *bad = 0;
    for (c = 0; c < count; c++) {
        unsigned fault;

        if (!take_field(r, &blocks_cols[r->edition][c], &numbers[c], &fault))
            return 0;
        if (fault && !*bad) {
            *bad = fault;
            *column = c + 1;
        }
    }
    if (r->at == r->end)
        return 1;
    return *r->at++ == '\n';
}

static void add(struct stock *stock, size_t at, const row numbers)
{
    size_t slot = stock->free_count > 0 ? stock->free[--stock->free_count] : stock->next++;

    memcpy(stock->rows[slot], numbers, sizeof(row));
    put_slot(&stock->order, at, slot);
}

static void take_out(struct stock *stock, size_t at)
{
    struct order *order = &stock->order;

    stock->free[stock->free_count++] = order->slot[at];
    memmove(order->slot + at, order->slot + at + 1, (order->count - at - 1) * sizeof order->slot[0]);
    order->count--;
}

static uint64_t slip_line(struct reader *r, uint64_t line, const struct book_keys *keys, struct stock *stock,
    uint64_t place[4])
{
    row numbers;
    uint8_t kind = *r->at++;
    unsigned bad, column;
    size_t at;
    int known;

    if ((kind != 'A' && kind != 'R' && kind != 'D') || !take_fields(r, kind == 'D' ? 4 : 11, numbers, &bad, &column))
        return refuse(place, 12, SLIP, line, 0);
    if (kind == 'A' && stock->order.count == ROWS)
        return refuse(place, 5, SLIP, line, 0);
    if (bad)
        return refuse(place, bad, SLIP, line, column);
    if (kind != 'D' && early(numbers))
        return refuse(place, 11, SLIP, line, 11);
    at = place_of_block(&stock->order, (const row *)stock->rows, numbers);
    known = stands(&stock->order, (const row *)stock->rows, numbers, at);
    if (known == (kind == 'A'))
        return refuse(place, known ? 9 : 13, SLIP, line, 0);
    if (kind == 'D') {
        take_out(stock, at);
        return 0;
    }
    column = lost(keys, numbers);
    if (column)
        return refuse(place, 10, SLIP, line, column);
    if (kind == 'A')
        add(stock, at, numbers);
    else
        memcpy(stock->rows[stock->order.slot[at]], numbers, sizeof(row));
    return 0;
}

static uint64_t slip_lines(unsigned edition, const uint8_t *slip, size_t length, const struct book_keys *keys,
    struct stock *stock, uint64_t place[4])
{
    struct reader r = {slip, slip + length, edition, 1};
    uint64_t line;

    if (length > TEXT_BYTES)
        return refuse(place, 1, SLIP, 0, 0);
    for (line = 1; r.at < r.end; line++) {
        uint64_t number = slip_line(&r, line, keys, stock, place);

        if (number)
            return number;
    }
    return refuse(place, 0, 0, 0, 0);
}

uint64_t plain_slip(const uint8_t *slip, size_t slip_length, uint64_t (*book)[11], size_t book_rows, uint64_t (*work)[11],
    size_t work_rows, uint64_t place[4])
{
    struct book_keys keys;
    struct stock stock;
    uint64_t number = 16;
    size_t count, i;

    if (work_rows != ROWS)
        return refuse(place, 16, 0, 0, 0);
    if (check_book((const row *)book, book_rows, &keys, &count)) {
        memcpy(work, book + BLOCKS_AT, count * sizeof(row));
        for (i = 0; i < count; i++)
            stock.order.slot[i] = (uint16_t)i;
        stock.rows = work;
        stock.order.count = stock.next = count;
        stock.free_count = 0;
        number = slip_lines((unsigned)book[MARKS_AT][0], slip, slip_length, &keys, &stock, place);
        if (number == 0)
            lay_out(&stock.order, (const row *)work, book + BLOCKS_AT);
    } else {
        refuse(place, 16, 0, 0, 0);
    }
    memset(work, 0, ROWS * sizeof(row));
    return number;
}

/* ---- The writer */

static const char written_header[] = "VERSION;DAY_TYPE_NR;DEPOT_NR;BLOCK_NR;VEH_TYP_NR;DEP_STOP_NR;DEP_STOPPING_POINT_NR;"
                                     "BEGIN_OF_BLOCK;ARR_STOP_NR;ARR_STOPPING_POINT_NR;END_OF_BLOCK\n";

static inline size_t digits_of(uint32_t number)
{
    size_t n = 1;

    while (number >= 10) {
        number /= 10;
        n++;
    }
    return n;
}

static size_t written_length(const row *blocks, size_t count)
{
    size_t length = sizeof written_header - 1 + count * 11;
    size_t i, c;

    for (i = 0; i < count; i++)
        for (c = 0; c < 11; c++)
            length += digits_of((uint32_t)blocks[i][c]);
    return length;
}

static inline uint8_t *write_number(uint8_t *out, uint32_t number)
{
    uint8_t digits[10];
    size_t n = 0;

    do {
        digits[n++] = (uint8_t)('0' + number % 10);
        number /= 10;
    } while (number > 0);
    while (n > 0)
        *out++ = digits[--n];
    return out;
}

uint64_t plain_write(const uint64_t (*book)[11], size_t rows, uint8_t *out, size_t out_length, uint64_t length[1],
    uint64_t place[4])
{
    const row *blocks = book + BLOCKS_AT;
    struct book_keys keys;
    uint8_t *at = out;
    size_t count, i, c;

    length[0] = 0;
    if (!check_book(book, rows, &keys, &count))
        return refuse(place, 16, 0, 0, 0);
    /* no book needs as many as 34,000 bytes: then there is nothing to count in advance */
    if (out_length < 34000 && out_length < written_length(blocks, count))
        return refuse(place, 14, 0, 0, 0);
    memcpy(at, written_header, sizeof written_header - 1);
    at += sizeof written_header - 1;
    for (i = 0; i < count; i++)
        for (c = 0; c < 11; c++) {
            at = write_number(at, (uint32_t)blocks[i][c]);
            *at++ = c < 10 ? ';' : '\n';
        }
    length[0] = (uint64_t)(at - out);
    return refuse(place, 0, 0, 0, 0);
}
