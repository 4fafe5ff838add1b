#include "cases.h"

#include "columns.h"
#include "dice.h"

#include <stdlib.h>
#include <string.h>

/* The places of a block's numbers in its row. */
enum { B_VERSION, B_DAY_TYPE, B_DEPOT, B_BLOCK, B_TYPE, B_DEP_STOP, B_DEP_POINT, B_BEGIN, B_ARR_STOP, B_ARR_POINT, B_END };

/* And of a day's numbers. */
enum { C_VERSION, C_DAY, C_DAY_TYPE };

enum {
    TOO_MANY = 208,   /* rows past a table's last, so that 5 can come and a line behind it can be asked for */
    MOST_ROWS = CALENDAR_ROWS + TOO_MANY,
    MOST_CELLS = 48,  /* of a line: past 32 */
    MOST_BYTES = 140000,
    TEXT_LIMIT = 65536,
    LINE_LIMIT = 2048,
    DAY = 86400,
    LATEST = 999999,   /* that a time can be */
    EXACT = 225        /* seconds whose multiples are hours without a rest in binary64: 3,600 is 16 times 225 */
};

/* ---- Dice */

/* C does not say in which order the arguments of a call, or the two sides of an assignment, are worked out. So that a case is
 * the same whoever compiles it, no expression rolls in two such places. */

static uint64_t dice;

static uint64_t roll(void)
{
    return dice_roll(&dice);
}

/* 0 to n - 1. */
static size_t below(size_t n)
{
    return (size_t)(roll() % n);
}

static size_t between(size_t least, size_t most)
{
    return least + below(most - least + 1);
}

static int chance(unsigned percent)
{
    return below(100) < percent;
}

/* ---- Editions */

/* The edition that the case's tables, slips and books are made by. */
static unsigned edition;

static unsigned other_edition(void)
{
    return edition == DINO_21 ? DINO_23 : DINO_21;
}

/* 22: a name that no edition has. */
static uint64_t strange_edition(void)
{
    static const uint64_t strange[] = {0, 1, 2, 3, 20, 22, 24, 210, 230, 213, 4294967296u + 21, 4294967296u + 23, UINT64_MAX};

    return strange[below(sizeof strange / sizeof strange[0])];
}

/* The name that a call gets: mostly that of the case's edition, in so many of a hundred the other one's, at times a strange
 * one. */
static uint64_t edition_to_name(unsigned other_percent)
{
    if (chance(2))
        return strange_edition();
    return name_of_edition(chance(other_percent) ? other_edition() : edition);
}

/* ---- Texts that grow */

struct growing {
    uint8_t *bytes;
    size_t length, room;
};

/* A byte that finds no room is left out: a text at its room's end is long enough to be refused anyway. */
static void put_byte(struct growing *text, uint8_t byte)
{
    if (text->length < text->room)
        text->bytes[text->length++] = byte;
}

static void put_bytes(struct growing *text, const uint8_t *bytes, size_t length)
{
    size_t i;

    for (i = 0; i < length; i++)
        put_byte(text, bytes[i]);
}

static void put(struct growing *text, const char *words)
{
    put_bytes(text, (const uint8_t *)words, strlen(words));
}

static size_t digits_of(uint64_t number)
{
    size_t n = 1;

    while (number >= 10) {
        number /= 10;
        n++;
    }
    return n;
}

/* A number with leading zeros up to a width. */
static void put_number(struct growing *text, uint64_t number, size_t width)
{
    uint8_t digits[20];
    size_t n = digits_of(number);
    size_t i;

    for (i = n; i < width; i++)
        put_byte(text, '0');
    for (i = n; i > 0; i--) {
        digits[i - 1] = (uint8_t)('0' + number % 10);
        number /= 10;
    }
    put_bytes(text, digits, n);
}

/* Makes a text exactly that long. */
static void set_length(struct growing *text, size_t length)
{
    if (text->length > length)
        text->length = length;
    while (text->length < length)
        put_byte(text, 'x');
}

static struct text text_of(const struct growing *text)
{
    struct text t;

    t.bytes = text->bytes;
    t.length = text->length;
    return t;
}

/* ---- Damage by the byte */

static uint8_t any_byte(void)
{
    static const uint8_t telling[] = {'"', '"', ';', ';', '\n', '\n', '\r', '\t', 0, 31, 32, 127, 128, 255, '0', '9', 'A', '-'};

    return chance(80) ? telling[below(sizeof telling)] : (uint8_t)below(256);
}

static void change_byte(struct growing *text)
{
    uint8_t byte = any_byte();

    if (text->length > 0)
        text->bytes[below(text->length)] = byte;
}

static void insert_byte(struct growing *text)
{
    size_t at = below(text->length + 1);

    if (text->length == text->room)
        return;
    memmove(text->bytes + at + 1, text->bytes + at, text->length - at);
    text->bytes[at] = any_byte();
    text->length++;
}

static void take_stretch(struct growing *text, size_t most)
{
    size_t at, length;

    if (text->length == 0)
        return;
    at = below(text->length);
    length = between(1, most);
    if (length > text->length - at)
        length = text->length - at;
    memmove(text->bytes + at, text->bytes + at + length, text->length - at - length);
    text->length -= length;
}

static void double_stretch(struct growing *text)
{
    size_t at, length;

    if (text->length == 0)
        return;
    at = below(text->length);
    length = between(1, text->length - at < 60 ? text->length - at : 60);
    if (text->length + length > text->room)
        return;
    memmove(text->bytes + at + length, text->bytes + at, text->length - at);
    text->length += length;
}

static void cut_short(struct growing *text)
{
    text->length = below(text->length + 1);
}

static void damage_bytes(struct growing *text)
{
    size_t times = between(1, 3);

    for (; times > 0; times--)
        switch (below(6)) {
        case 0: insert_byte(text); break;
        case 1: take_stretch(text, 1); break;
        case 2: take_stretch(text, 40); break;
        case 3: double_stretch(text); break;
        case 4: if (chance(40)) cut_short(text); else change_byte(text); break;
        default: change_byte(text); break;
        }
}

/* ---- A delivery in numbers */

static struct {
    size_t count[LAST_TABLE + 1];
    row rows[LAST_TABLE + 1][MOST_ROWS];
} delivery;

static int same_key(const uint64_t *one, const uint64_t *other, unsigned width)
{
    return memcmp(one, other, width * sizeof one[0]) == 0;
}

/* Where a key stands among n rows, or n. */
static size_t find_key(const row *rows, size_t n, const uint64_t *key, unsigned width)
{
    size_t i;

    for (i = 0; i < n; i++)
        if (same_key(rows[i], key, width))
            return i;
    return n;
}

/* Most rows of a case share one version: blocks find what they refer to only within a version. */
static uint64_t main_version;

static uint64_t any_version(void)
{
    static const uint64_t common[] = {1, 2, 9, 10, 99};

    return chance(75) ? main_version : chance(90) ? common[below(5)] : between(1, 99);
}

/* A number from zero up to the column's greatest: often small, at times the greatest. */
static uint64_t any_number(const struct column *column, uint64_t small)
{
    uint64_t number;

    if (small > column->most)
        small = column->most;
    number = chance(75) ? roll() % (small + 1) : chance(20) ? column->most : roll() % (column->most + 1);
    return number < column->least ? column->least : number;
}

/* Rows of tables 1 to 3: two numbers each, no key twice. `small` is how far numbers mostly go. */
static void make_keys(unsigned t, size_t n)
{
    size_t tries;

    delivery.count[t] = 0;
    for (tries = 0; delivery.count[t] < n && tries < 20 * n; tries++) {
        uint64_t *fresh = delivery.rows[t][delivery.count[t]];

        memset(fresh, 0, sizeof(row));
        fresh[0] = any_version();
        fresh[1] = any_number(&tables[edition][t].columns[1], n < 60 ? 30 : 99);
        if (find_key((const row *)delivery.rows[t], delivery.count[t], fresh, 2) == delivery.count[t])
            delivery.count[t]++;
    }
}

/* A row of a table whose VERSION is this one and whose number is not above `most`, or NULL. */
static const uint64_t *any_row_of(const row *rows, size_t n, uint64_t version, uint64_t most)
{
    size_t start, i;

    if (n == 0)
        return NULL;
    start = below(n);
    for (i = 0; i < n; i++) {
        const uint64_t *found = rows[(start + i) % n];

        if (found[0] == version && found[1] <= most)
            return found;
    }
    return NULL;
}

/* Rows of stop points: a stop of the delivery and a number at it, no key twice. */
static void make_points(size_t n)
{
    row *points = delivery.rows[STOP_POINT];
    size_t count = 0;
    size_t tries;

    for (tries = 0; delivery.count[STOP] > 0 && count < n && tries < 20 * n; tries++) {
        const uint64_t *stop = delivery.rows[STOP][below(delivery.count[STOP])];

        memset(points[count], 0, sizeof(row));
        points[count][0] = stop[0];
        points[count][1] = stop[1];
        points[count][2] = any_number(&tables[edition][STOP_POINT].columns[2], n < 60 ? 6 : 99);
        if (find_key((const row *)points, count, points[count], 3) == count)
            count++;
    }
    delivery.count[STOP_POINT] = count;
}

/* The tables that a block can refer to, by number. */
struct others {
    const row *rows[LAST_TABLE + 1];
    size_t count[LAST_TABLE + 1];
};

/* 2/13: END below BEGIN and both below 86,400. Often at the ends of the day. */
static void overnight_times(uint64_t *block)
{
    block[B_BEGIN] = chance(20) ? DAY - 1 : between(1, DAY - 1);
    block[B_END] = chance(20) ? 0 : chance(20) ? block[B_BEGIN] - 1 : roll() % block[B_BEGIN];
}

/* END below BEGIN: mostly 11, by one or by more; where BEGIN is below 86,400 it is none. Often on both sides of that edge. */
static void early_times(uint64_t *begin, uint64_t *end)
{
    *begin = chance(40) ? between(DAY - 1, DAY + 2) : between(1, 999999);
    *end = chance(60) ? *begin - 1 : roll() % *begin;
}

static void any_times(uint64_t *block)
{
    if (chance(20)) {
        overnight_times(block);
        return;
    }
    if (chance(3)) {
        block[B_BEGIN] = 0;
        block[B_END] = LATEST;
        return;
    }
    block[B_BEGIN] = chance(90) ? roll() % 90000 : roll() % 1000000;
    block[B_END] = block[B_BEGIN] + (chance(15) ? 0 : chance(8) ? 1 : chance(10) ? EXACT * below(200) : roll() % 40000);
    if (chance(3))
        block[B_END] = LATEST;
    if (block[B_END] > LATEST)
        block[B_END] = block[B_BEGIN];
}

/* A block whose references are there. It fails where the depot's version lacks one. */
static int any_block(const struct others *others, uint64_t *block)
{
    const struct column *columns = tables[edition][VEHICLE_BLOCK].columns;
    const uint64_t *depot, *type, *dep_point, *arr_point;

    if (others->count[DEPOT] == 0)
        return 0;
    depot = others->rows[DEPOT][below(others->count[DEPOT])];
    type = any_row_of(others->rows[VEHICLE_TYPE], others->count[VEHICLE_TYPE], depot[0], 99);
    dep_point = any_row_of(others->rows[STOP_POINT], others->count[STOP_POINT], depot[0], 99999);
    arr_point = any_row_of(others->rows[STOP_POINT], others->count[STOP_POINT], depot[0], 99999);
    if (!type || !dep_point || !arr_point)
        return 0;
    block[B_VERSION] = depot[0];
    block[B_DAY_TYPE] = any_number(&columns[B_DAY_TYPE], 6);
    block[B_DEPOT] = depot[1];
    block[B_BLOCK] = any_number(&columns[B_BLOCK], 200);
    block[B_TYPE] = type[1];
    block[B_DEP_STOP] = dep_point[1];
    block[B_DEP_POINT] = dep_point[2];
    block[B_ARR_STOP] = arr_point[1];
    block[B_ARR_POINT] = arr_point[2];
    any_times(block);
    return 1;
}

static struct others others_of_delivery(void)
{
    struct others others;
    unsigned t;

    for (t = 1; t <= LAST_TABLE; t++) {
        others.rows[t] = (const row *)delivery.rows[t];
        others.count[t] = delivery.count[t];
    }
    return others;
}

/* Gives all blocks of a version the type of the first one: a type of many blocks. */
static void gather_blocks(row *blocks, size_t n)
{
    size_t i, first;

    for (i = 0; i < n; i++) {
        first = find_key((const row *)blocks, i, blocks[i], 1);
        blocks[i][B_TYPE] = blocks[first][B_TYPE];
    }
}

static void make_blocks(size_t n)
{
    struct others others = others_of_delivery();
    row *blocks = delivery.rows[VEHICLE_BLOCK];
    size_t count = 0;
    size_t tries;

    for (tries = 0; count < n && tries < 20 * n; tries++)
        if (any_block(&others, blocks[count]) && find_key((const row *)blocks, count, blocks[count], 4) == count)
            count++;
    if (chance(25))
        gather_blocks(blocks, count);
    delivery.count[VEHICLE_BLOCK] = count;
}

/* Dates at the edges: leap days, the ends of months and of years, the first day of all and the last. */
static uint64_t edge_date(void)
{
    static const uint64_t dates[] = {16000101, 16000131, 16000228, 16000229, 16000301, 17000228, 17000301, 18000228, 19000228,
        19000301, 19991231, 20000101, 20000228, 20000229, 20000301, 20230228, 20240229, 20240430, 20241231, 21000228, 24000229,
        96000229, 99960229, 99990228, 99991201, 99991231};

    return dates[below(sizeof dates / sizeof dates[0])];
}

/* And what looks like a date and is none: days that a month does not have, months that no year has, years that are none here,
 * digits that are too few. All but the last have no more than eight digits. */
static uint64_t no_date(void)
{
    static const uint64_t numbers[] = {16000100, 16000132, 16000230, 15991231, 15960229, 17000229, 18000229, 19000229, 19000230,
        20000230, 21000229, 20230229, 20240230, 20240231, 20240431, 20240631, 20240931, 20241131, 20240100, 20240132, 20241232,
        20240001, 20241301, 20240000, 20249999, 20240199, 20249901, 99990229, 99991131, 99991232, 99991301, 99999999, 0, 1, 101,
        2024, 240229, 2024229, 2024101, 9999123, 1600101, 10000101, 101010, 20240229 + 100000000};

    return numbers[below(sizeof numbers / sizeof numbers[0])];
}

/* Mostly of some months, so that the days of a calendar and those asked for stand close together. */
static uint64_t any_date(void)
{
    uint64_t day;

    if (chance(15))
        return edge_date();
    do {
        uint64_t year = chance(95) ? 2024 : between(1600, 9999);
        uint64_t month = chance(80) ? between(1, 3) : between(1, 12);

        day = (year * 100 + month) * 100 + between(1, 31);
    } while (!is_date(day));
    return day;
}

/* Of a date that is not the last one. */
static uint64_t next_day(uint64_t day)
{
    do
        day++;
    while (!is_date(day));
    return day;
}

/* The version and the day type of some block, at times others. */
static void any_day_type(uint64_t *day)
{
    const struct column *column = &tables[edition][DAY_TYPE_CALENDAR].columns[C_DAY_TYPE];
    size_t blocks = delivery.count[VEHICLE_BLOCK];

    day[C_VERSION] = any_version();
    day[C_DAY_TYPE] = any_number(column, 6);
    if (blocks > 0 && chance(75)) {
        const uint64_t *block = delivery.rows[VEHICLE_BLOCK][below(blocks)];

        day[C_VERSION] = block[B_VERSION];
        day[C_DAY_TYPE] = block[B_DAY_TYPE];
    }
}

/* Days of the calendar, no key twice: here and there, or one behind the other where there are many. */
static void make_calendar(size_t n)
{
    row *days = delivery.rows[DAY_TYPE_CALENDAR];
    uint64_t day = (uint64_t)between(1600, 9990) * 10000 + 101;
    size_t count = 0;
    size_t tries;

    for (tries = 0; count < n && tries < 20 * n; tries++) {
        memset(days[count], 0, sizeof(row));
        any_day_type(days[count]);
        day = n > 60 ? next_day(day) : any_date();
        days[count][C_DAY] = day;
        if (find_key((const row *)days, count, days[count], 2) == count)
            count++;
    }
    delivery.count[DAY_TYPE_CALENDAR] = count;
}

static size_t any_size(void)
{
    size_t dial = below(100);

    return dial < 4 ? 0 : dial < 25 ? between(1, 3) : dial < 90 ? between(4, 14) : between(15, 60);
}

static void make_delivery(size_t types, size_t depots, size_t stops, size_t points, size_t blocks, size_t days)
{
    make_keys(VEHICLE_TYPE, types);
    make_keys(DEPOT, depots);
    make_keys(STOP, stops);
    make_points(points);
    make_blocks(blocks);
    make_calendar(days);
}

static void make_any_delivery(void)
{
    size_t types = any_size();
    size_t depots = any_size();
    size_t stops = any_size();
    size_t points = any_size();
    size_t blocks = any_size();

    make_delivery(types, depots, stops, points, blocks, any_size());
}

static void make_full_delivery(void)
{
    make_delivery(512, 512, 512, 512, 512, 800);
}

/* ---- Rows in key order */

static int compare_rows(const void *one, const void *other)
{
    const uint64_t *a = one;
    const uint64_t *b = other;
    size_t i;

    for (i = 0; i < NUMBERS; i++)
        if (a[i] != b[i])
            return a[i] < b[i] ? -1 : 1;
    return 0;
}

static void sort_rows(row *rows, size_t n)
{
    qsort(rows, n, sizeof rows[0], compare_rows);
}

static void swap_rows(row *rows, size_t a, size_t b)
{
    row kept;

    memcpy(kept, rows[a], sizeof kept);
    memcpy(rows[a], rows[b], sizeof kept);
    memcpy(rows[b], kept, sizeof kept);
}

/* The delivery's rows come in any order: mostly as they were made, at times rising or falling. */
static void order_rows(unsigned t)
{
    size_t n = delivery.count[t];
    size_t i;
    size_t way = below(4);

    if (way > 1)
        return;
    sort_rows(delivery.rows[t], n);
    if (way == 1)
        for (i = 0; i < n / 2; i++)
            swap_rows(delivery.rows[t], i, n - 1 - i);
}

/* ---- Content against a column's rules */

/* The column that the next faults are for; 0: any one. */
static unsigned meant_column;

static uint8_t any_letter(void)
{
    static const uint8_t letters[] = "abcxyzABC 0159.,-_'/";
    static const uint8_t rare[] = {';', '"', '"', 0xC3, 0xA4, 0x80, 0xFF, ' ', '~', '!'};

    return chance(75) ? letters[below(sizeof letters - 1)] : rare[below(sizeof rare)];
}

/* So many bytes of content. By 2.3 there are at times breaks among them, each a line feed with or without a carriage return. */
static void put_letters(struct growing *content, size_t n)
{
    int broken = edition == DINO_23 && chance(20);

    while (n > 0)
        if (broken && n >= 2 && chance(10)) {
            put(content, "\r\n");
            n -= 2;
        } else {
            put_byte(content, broken && chance(15) ? '\n' : any_letter());
            n--;
        }
}

/* One or two bytes of content become a break: a d cell is then no digits, and as long as it was. */
static void break_content(struct growing *content)
{
    size_t at;

    if (content->length == 0)
        return;
    at = below(content->length);
    content->bytes[at] = '\n';
    if (at > 0 && chance(40))
        content->bytes[at - 1] = '\r';
}

/* A byte that is no digit, often one that stands beside the digits or before a number. */
static uint8_t no_digit(void)
{
    static const uint8_t bytes[] = {'x', 'A', 'e', '-', '+', ' ', ' ', '.', ',', '/', ':', '"', '"', ';', 0x80, 0xB2, 0xFF};

    return bytes[below(sizeof bytes)];
}

static void put_digits(struct growing *content, size_t n)
{
    for (; n > 0; n--)
        put_byte(content, (uint8_t)(chance(50) ? '0' : '0' + below(10)));
}

/* 20: more bytes than the column's width, mostly one. Often zeros before a number that the column would take. */
static void put_too_long(struct growing *content, const struct column *column)
{
    size_t n = column->width + (chance(80) ? 1 : between(2, 30));

    if (column->kind == 'D' && chance(60)) {
        uint64_t day = any_date();

        put_number(content, day, chance(50) ? n : 1);
        if (content->length < n)
            put_digits(content, n - content->length);
        return;
    }
    switch (below(3)) {
    case 0: put_number(content, 1, n); break;
    case 1: put_digits(content, n); break;
    default: put_letters(content, n); break;
    }
}

/* 8: digits but for one byte, often as many as the column's width. */
static void put_not_digits(struct growing *content, size_t width)
{
    size_t n = chance(50) ? width : between(1, width);
    size_t at = content->length + below(n);

    put_digits(content, n);
    content->bytes[at] = no_digit();
}

/* 21: a number beside the column's range, mostly the next one. Above the greatest number of its width it is 20. */
static void put_beside_range(struct growing *content, const struct column *column)
{
    uint64_t number = column->most + (meant_column || chance(60) ? 1 : between(1, 7));

    if (column->kind == 'D' && chance(90))
        number = no_date();
    else if (column->least > 0 && (meant_column || chance(85)))
        number = column->least - 1;
    put_number(content, number, chance(30) ? between(1, column->width) : 1);
}

/* The four faults of content. */
enum against { EMPTY, TOO_LONG, NOT_DIGITS, BESIDE_RANGE, AGAINST };

/* Content with that fault. A text has the first two only, and an optional column may be empty. */
static void put_against(struct growing *content, const struct column *column, enum against way)
{
    switch (way) {
    case EMPTY: break;
    case TOO_LONG: put_too_long(content, column); break;
    case NOT_DIGITS: put_not_digits(content, column->width); break;
    default: put_beside_range(content, column); break;
    }
}

/* ---- A table as cells */

/* One cell as it stands in the text, quotes and all. */
struct raw {
    uint32_t start, length;
};

static uint8_t pool_bytes[600000];

/* Line 0 is the header. A cell of the header has in column_of the number of its column, 0 for an unknown one. */
static struct {
    unsigned table;
    unsigned column_of[MOST_CELLS];
    size_t lines;
    size_t cells[MOST_ROWS + 1];
    struct raw cell[MOST_ROWS + 1][MOST_CELLS];
    uint8_t returns[MOST_ROWS + 1]; /* whether a carriage return stands before the line feed */
    int last_lacks;                 /* whether the last line lacks its line feed */
    int bare_return;                /* and ends in a carriage return without it */
    size_t long_row;                /* the line here that was made long, or 0: one to ask for */
    struct growing pool;
} sheet;

static struct raw open_raw(void)
{
    struct raw raw;

    raw.start = (uint32_t)sheet.pool.length;
    raw.length = 0;
    return raw;
}

static struct raw close_raw(struct raw raw)
{
    raw.length = (uint32_t)sheet.pool.length - raw.start;
    return raw;
}

static struct raw raw_words(const char *words)
{
    struct raw raw = open_raw();

    put(&sheet.pool, words);
    return close_raw(raw);
}

/* Content in quotes, those inside doubled. */
static struct raw raw_quoted(const uint8_t *content, size_t length)
{
    struct raw raw = open_raw();
    size_t i;

    put_byte(&sheet.pool, '"');
    for (i = 0; i < length; i++) {
        put_byte(&sheet.pool, content[i]);
        if (content[i] == '"')
            put_byte(&sheet.pool, '"');
    }
    put_byte(&sheet.pool, '"');
    return close_raw(raw);
}

static int needs_quotes(const uint8_t *content, size_t length)
{
    size_t i;

    for (i = 0; i < length; i++)
        if (content[i] == ';' || content[i] == '"' || content[i] == '\n')
            return 1;
    return 0;
}

static struct raw raw_content(const uint8_t *content, size_t length, unsigned quoted_percent)
{
    struct raw raw;

    if (needs_quotes(content, length) || chance(quoted_percent))
        return raw_quoted(content, length);
    raw = open_raw();
    put_bytes(&sheet.pool, content, length);
    return close_raw(raw);
}

static struct raw raw_empty(void)
{
    return raw_words(chance(70) ? "" : "\"\"");
}

/* A number as a d column may have it: leading zeros, quotes. */
static struct raw raw_number(uint64_t number, unsigned width)
{
    uint8_t bytes[24];
    struct growing digits = {bytes, 0, sizeof bytes};

    put_number(&digits, number, chance(20) ? between(1, width) : 1);
    return raw_content(bytes, digits.length, 12);
}

static struct raw raw_text(size_t length)
{
    uint8_t bytes[256];
    struct growing content = {bytes, 0, sizeof bytes};

    put_letters(&content, length);
    return raw_content(bytes, content.length, 25);
}

/* How long a text of that width is: often as long as can be, and of a wide one about as long as 2.1 lets a stop's name be. */
static size_t any_length(size_t width)
{
    if (chance(20))
        return width;
    if (width > 60)
        return chance(20) ? between(49, 52) : between(1, chance(5) ? width : 30);
    return between(1, width);
}

/* The number of a named column in this row, 0 where the delivery has none. */
static struct raw raw_value(const struct column *column, uint64_t number)
{
    if (column->kind != 'c')
        return raw_number(number, column->width);
    return raw_text(any_length(column->width));
}

/* An optional column's cell: the delivery has no number for it. */
static struct raw raw_optional(const struct column *column)
{
    if (chance(35))
        return raw_empty();
    return raw_value(column, column->most ? roll() % (column->most + 1) : 0);
}

/* A cell of exactly that many bytes as it stands, well quoted. In quotes some of those inside are doubled, often the last, and
 * by 2.3 some are breaks. */
static struct raw raw_of_length(size_t length)
{
    struct raw raw = open_raw();
    int quoted = length >= 2 && chance(edition == DINO_23 ? 75 : 50);
    size_t inside = quoted ? length - 2 : length;
    int last_doubled = quoted && chance(50);
    unsigned broken = quoted && edition == DINO_23 && chance(80) ? 2 : 0;

    put(&sheet.pool, quoted ? "\"" : "");
    while (inside > 0)
        if (quoted && inside >= 2 && (chance(2) || (last_doubled && inside == 2))) {
            put(&sheet.pool, "\"\"");
            inside -= 2;
        } else if (broken && inside >= 2 && chance(broken)) {
            put(&sheet.pool, "\r\n");
            inside -= 2;
        } else if (broken && chance(broken)) {
            put_byte(&sheet.pool, '\n');
            inside--;
        } else {
            put_byte(&sheet.pool, (uint8_t)('a' + inside % 26));
            inside--;
        }
    put(&sheet.pool, quoted ? "\"" : "");
    return close_raw(raw);
}

static struct raw raw_unknown(void)
{
    return chance(30) ? raw_empty() : raw_text(between(1, chance(95) ? 12 : 120));
}

/* Names that are no column's here, though some look like one. */
static struct raw raw_unknown_name(void)
{
    static const char *const broken[] = {"\"a\nb\"", "\"\n\"", "\"\r\n\"", "\"VERSION\n\"", "\"\nVERSION\"", "\"VER\r\nSION\"",
        "\"a\"\"\n\"\"b\"", "\"\n;\r\n\n\""};
    /* the last of them is a column of vehicle_type by 2.3 */
    static const char *const names[] = {"", "\"\"", "X", "X", "version", "VERSION ", " VERSION", "\"VERSION \"", "STOP_AREA_NR",
        "\"a;b\"", "\"\"\"\"", "VERSIO", "VERSIONS", "DAY_TEXT", "BLOCK", "\xC3\x84", "VEH_DELFI_TYPES", "VEH_DELFI_TYPE"};
    size_t count = sizeof names / sizeof names[0] - (edition == DINO_23 && sheet.table == VEHICLE_TYPE);

    if (edition == DINO_23 && chance(30))
        return raw_words(broken[below(sizeof broken / sizeof broken[0])]);
    return raw_words(names[below(count)]);
}

/* A name of another table is unknown too, but not the block's second spelling of its type. */
static struct raw raw_foreign_name(void)
{
    if (sheet.table == DEPOT)
        return raw_words(chance(50) ? "HANDICAP_PLACES" : "STOP_NAME");
    if (sheet.table == VEHICLE_BLOCK)
        return raw_words(chance(50) ? "STOPPING_POINT_NR" : chance(50) ? "DAY" : "VEH_TYPE_SEATS");
    if (sheet.table == STOP_POINT)
        return raw_words(chance(50) ? "STOP_NAME" : "DEP_STOPPING_POINT_NR");
    if (sheet.table == DAY_TYPE_CALENDAR)
        return raw_words(chance(50) ? "DAY_TEXT" : "DAY_TYPE");
    return raw_words(chance(50) ? "VEH_TYP_NR" : "DEPOT_NR");
}

static struct raw raw_name(unsigned c)
{
    const struct column *column = &tables[edition][sheet.table].columns[c - 1];
    const char *name = column->other_name && chance(40) ? column->other_name : column->name;

    return raw_content((const uint8_t *)name, strlen(name), 8);
}

/* ---- Columns of a sheet */

static void insert_cell(size_t line, size_t at, struct raw raw)
{
    size_t n = sheet.cells[line];

    if (n == MOST_CELLS)
        return;
    memmove(&sheet.cell[line][at + 1], &sheet.cell[line][at], (n - at) * sizeof raw);
    sheet.cell[line][at] = raw;
    sheet.cells[line]++;
}

static void remove_cell(size_t line, size_t at)
{
    size_t n = sheet.cells[line];

    memmove(&sheet.cell[line][at], &sheet.cell[line][at + 1], (n - at - 1) * sizeof(struct raw));
    sheet.cells[line]--;
}

/* A column more, before cell `at`: known, or unknown with column 0. The rows' cells are what an unknown column may have, or
 * a number where it is known. */
static void insert_column(size_t at, unsigned column, struct raw name)
{
    size_t n = sheet.cells[0];
    size_t line;

    if (n == MOST_CELLS)
        return;
    memmove(&sheet.column_of[at + 1], &sheet.column_of[at], (n - at) * sizeof sheet.column_of[0]);
    sheet.column_of[at] = column;
    insert_cell(0, at, name);
    for (line = 1; line < sheet.lines; line++)
        if (at <= sheet.cells[line])
            insert_cell(line, at, column ? raw_words("1") : raw_unknown());
}

/* Somewhere among the others. */
static void insert_column_anywhere(unsigned column, struct raw name)
{
    insert_column(below(sheet.cells[0] + 1), column, name);
}

static void remove_column(size_t at)
{
    size_t n = sheet.cells[0];
    size_t line;

    memmove(&sheet.column_of[at], &sheet.column_of[at + 1], (n - at - 1) * sizeof sheet.column_of[0]);
    for (line = 0; line < sheet.lines; line++)
        if (at < sheet.cells[line])
            remove_cell(line, at);
}

/* The cell of a column, or MOST_CELLS where the header lacks it. */
static size_t cell_of(unsigned column)
{
    size_t i;

    for (i = 0; i < sheet.cells[0]; i++)
        if (sheet.column_of[i] == column)
            return i;
    return MOST_CELLS;
}

/* ---- Making a sheet of the delivery's rows */

static void choose_columns(unsigned t)
{
    unsigned optional = chance(30) ? 0 : chance(30) ? 100 : 50;
    size_t n = 0;
    unsigned c;

    for (c = 1; c <= tables[edition][t].column_count; c++)
        if (tables[edition][t].columns[c - 1].required || chance(optional))
            sheet.column_of[n++] = c;
    sheet.cells[0] = n;
}

static void shuffle_columns(void)
{
    size_t i;

    for (i = sheet.cells[0]; i > 1; i--) {
        size_t other = below(i);
        unsigned kept = sheet.column_of[i - 1];

        sheet.column_of[i - 1] = sheet.column_of[other];
        sheet.column_of[other] = kept;
    }
}

static struct raw make_cell(unsigned t, unsigned c, const uint64_t *numbers)
{
    const struct column *column = &tables[edition][t].columns[c - 1];

    if (!column->required)
        return raw_optional(column);
    return raw_value(column, numbers[c - 1]);
}

static void make_unknown_columns(void)
{
    size_t more = chance(65) ? 0 : chance(90) ? between(1, 4) : 32 - sheet.cells[0];

    for (; more > 0 && sheet.cells[0] < 32; more--)
        insert_column_anywhere(0, chance(80) ? raw_unknown_name() : raw_foreign_name());
}

/* Chosen with the cells and not when printing, so that a sheet that is printed twice is the same text. */
static void choose_line_ends(void)
{
    unsigned returns = chance(60) ? 0 : chance(60) ? 100 : 50;
    size_t line;

    for (line = 0; line < sheet.lines; line++)
        sheet.returns[line] = (uint8_t)chance(returns);
    sheet.last_lacks = chance(25);
    sheet.bare_return = 0;
}

static void make_sheet(unsigned t)
{
    size_t line, i;

    sheet.table = t;
    sheet.pool.bytes = pool_bytes;
    sheet.pool.length = 0;
    sheet.pool.room = sizeof pool_bytes;
    sheet.lines = delivery.count[t] + 1;
    sheet.long_row = 0;
    choose_columns(t);
    if (chance(60))
        shuffle_columns();
    for (i = 0; i < sheet.cells[0]; i++)
        sheet.cell[0][i] = raw_name(sheet.column_of[i]);
    for (line = 1; line < sheet.lines; line++) {
        sheet.cells[line] = sheet.cells[0];
        for (i = 0; i < sheet.cells[0]; i++)
            sheet.cell[line][i] = make_cell(t, sheet.column_of[i], delivery.rows[t][line - 1]);
    }
    make_unknown_columns();
    choose_line_ends();
}

/* ---- Faults in a sheet */

/* 6: one cell that is not well quoted, or has a byte that no cell may have. */
static struct raw raw_fault(struct raw old)
{
    static const char *const badly[] = {"a\"b", "\"", "\"a", "\"a\"b", "\"a\" ", "\"\"\"", " \"a\"", "1\"", "\"1\"2",
        "\"a\nb\"", "\"\"\"a", "\"a\"\"", "\"a;b", "a\"", "\"1\"\"", "\"a\"\"\"b\"", "\"a\rb\"", "\"a\r\"", "\"\r\"",
        "\"a\r\r\nb\"", "\"a\r\nb\r\"", "\"a\nb", "\"a\r\n", "\"a\nb\"c", "\"a\nb\"c\"d", "\"a\"b\"c\nd\"", "a\"b\nc\"",
        "a\"\n", "\"\n\"\"", "\"a\t\nb\"", "\"a\n\x7f\""};
    static const uint8_t bytes[] = {0, 1, 8, 9, 11, 12, 13, 27, 30, 31, 127};
    struct raw raw;
    size_t at, i;

    if (chance(60))
        return raw_words(badly[below(sizeof badly / sizeof badly[0])]);
    /* the cell as it was with one of those bytes at some place in it */
    raw = open_raw();
    at = below(old.length + 1);
    for (i = 0; i <= old.length; i++) {
        if (i == at)
            put_byte(&sheet.pool, bytes[below(sizeof bytes)]);
        if (i < old.length)
            put_byte(&sheet.pool, sheet.pool.bytes[old.start + i]);
    }
    return close_raw(raw);
}

static void fault_quotes(size_t line)
{
    size_t at;

    /* at times in a cell past the header's count: 6 comes before 7 */
    if (line > 0 && chance(15))
        insert_cell(line, sheet.cells[line], raw_words("x"));
    if (sheet.cells[line] == 0)
        return;
    at = chance(10) ? sheet.cells[line] - 1 : below(sheet.cells[line]);
    sheet.cell[line][at] = raw_fault(sheet.cell[line][at]);
}

static unsigned any_column(void)
{
    return meant_column ? meant_column : (unsigned)between(1, tables[edition][sheet.table].column_count);
}

/* 4: cells past the 32nd. */
static void fault_many_cells(void)
{
    size_t wanted = chance(60) ? 33 : between(33, 40);

    while (sheet.cells[0] < wanted)
        insert_column_anywhere(0, raw_unknown_name());
}

/* 3: a known column once more, to the left or the right of the first. */
static void fault_twice(void)
{
    unsigned c = any_column();
    size_t at = cell_of(c);

    if (at == MOST_CELLS)
        insert_column_anywhere(c, raw_name(c));
    insert_column_anywhere(c, raw_name(c));
}

/* 2: a required column less. */
static void fault_missing(void)
{
    unsigned c;
    size_t at;

    do {
        c = any_column();
        meant_column = 0; /* an optional one was not meant */
    } while (!tables[edition][sheet.table].columns[c - 1].required);
    at = cell_of(c);
    if (at == MOST_CELLS)
        return;
    if (chance(50)) {
        remove_column(at);
    } else {
        sheet.column_of[at] = 0;
        sheet.cell[0][at] = raw_unknown_name();
    }
}

/* 7: a cell more or less, or a blank line. */
static void fault_count(size_t line)
{
    size_t way = below(4);

    if (way == 0)
        insert_cell(line, sheet.cells[line], raw_unknown());
    else if (way == 1 || sheet.cells[line] == 0)
        insert_cell(line, below(sheet.cells[line] + 1), raw_words("1"));
    else if (way == 2)
        remove_cell(line, below(sheet.cells[line]));
    else
        sheet.cells[line] = 0;
}

/* A cell with one of the four faults. */
static struct raw raw_against(const struct column *column, enum against way)
{
    uint8_t bytes[512];
    struct growing content = {bytes, 0, sizeof bytes};

    if (way == EMPTY)
        return raw_empty();
    put_against(&content, column, way);
    if (edition == DINO_23 && way != BESIDE_RANGE && chance(25))
        break_content(&content);
    return raw_content(bytes, content.length, 25);
}

/* The column for a fault of a cell. Few have a named range; VERSION has one in every table. */
static unsigned column_against(enum against way)
{
    return way == BESIDE_RANGE && meant_column == 0 && chance(40) ? 1 : any_column();
}

static void fault_cell(size_t line, enum against way)
{
    size_t tries;

    for (tries = 0; tries < 8; tries++) {
        unsigned c = column_against(way);
        size_t at = cell_of(c);

        if (at < sheet.cells[line]) {
            sheet.cell[line][at] = raw_against(&tables[edition][sheet.table].columns[c - 1], way);
            return;
        }
    }
}

/* 19, 20, 8 or 21. At times a second cell has one too, and the lower column is to be named. */
static void fault_value(size_t line, enum against way)
{
    fault_cell(line, way);
    if (meant_column == 0 && chance(30))
        fault_cell(line, (enum against)below(AGAINST));
}

static void set_number(size_t line, unsigned c, uint64_t number)
{
    size_t at = cell_of(c);

    if (at < sheet.cells[line])
        sheet.cell[line][at] = raw_number(number, tables[edition][sheet.table].columns[c - 1].width);
}

/* 9: the key of an earlier row, with zeros of its own. */
static void fault_key(size_t line)
{
    const uint64_t *earlier;
    unsigned c;

    if (line < 2)
        return;
    earlier = delivery.rows[sheet.table][below(line - 1)];
    for (c = 1; c <= tables[edition][sheet.table].key_width; c++)
        set_number(line, c, earlier[c - 1]);
}

/* 10: a number that is mostly nowhere. */
static void lose_reference(size_t line)
{
    static const unsigned of_block[] = {3, 5, 6, 7, 9, 10, 6, 7, 9, 10, 1};
    static const unsigned of_point[] = {2, 2, 2, 1};
    unsigned c = sheet.table == STOP_POINT ? of_point[below(sizeof of_point / sizeof of_point[0])]
                                           : of_block[below(sizeof of_block / sizeof of_block[0])];
    const struct column *column = &tables[edition][sheet.table].columns[c - 1];

    set_number(line, c, chance(60) ? any_number(column, 40) : column->most);
}

/* At times two are lost, and the lower column is to be named. */
static void fault_reference(size_t line)
{
    lose_reference(line);
    if (chance(40))
        lose_reference(line);
}

/* 11 */
static void fault_times(size_t line)
{
    uint64_t begin, end;

    early_times(&begin, &end);
    set_number(line, 8, begin);
    set_number(line, 11, end);
}

static size_t line_length(size_t line)
{
    size_t length = sheet.cells[line] > 0 ? sheet.cells[line] - 1 : 0;
    size_t i;

    for (i = 0; i < sheet.cells[line]; i++)
        length += sheet.cell[line][i].length;
    return length;
}

/* 17, or just none yet: one cell makes the line as long as that, mostly a cell of an unknown column. The last line may lack
 * its line feed, and then a carriage return counts. */
static void fault_long_line(size_t line)
{
    static const size_t lengths[] = {2046, 2047, 2047, 2048, 2048, 2048, 2049, 2049, 2049, 2050, 2051, 2500, 6000};
    size_t wanted = lengths[below(sizeof lengths / sizeof lengths[0])];
    size_t at, others;

    if (cell_of(0) == MOST_CELLS)
        insert_column_anywhere(0, raw_unknown_name());
    at = sheet.cells[line] > 0 && chance(15) ? below(sheet.cells[line]) : cell_of(0);
    if (at >= sheet.cells[line])
        return;
    others = line_length(line) - sheet.cell[line][at].length;
    if (others > wanted)
        return;
    sheet.cell[line][at] = raw_of_length(wanted - others);
    sheet.long_row = line;
    if (line + 1 < sheet.lines || chance(40))
        return;
    sheet.last_lacks = 1;
    sheet.bare_return = chance(50);
}

/* Those of a header first. */
enum fault {
    F_LONG_HEADER, F_HEADER_QUOTES, F_MANY_CELLS, F_TWICE, F_MISSING,
    F_LONG_LINE, F_QUOTES, F_COUNT, F_EMPTY, F_TOO_LONG, F_NOT_DIGITS, F_BESIDE_RANGE, F_KEY, F_REFERENCE, F_TIMES
};

static void make_fault(enum fault fault, size_t line)
{
    int blocks = sheet.table == VEHICLE_BLOCK;
    int refers = blocks || sheet.table == STOP_POINT;

    if (line == 0 && fault > F_MISSING)
        fault = (enum fault)below(F_MISSING + 1);
    if ((!refers && fault == F_REFERENCE) || (!blocks && fault == F_TIMES))
        fault = chance(50) ? F_KEY : F_NOT_DIGITS;
    switch (fault) {
    case F_LONG_HEADER: fault_long_line(0); break;
    case F_LONG_LINE: fault_long_line(line); break;
    case F_HEADER_QUOTES: fault_quotes(0); break;
    case F_MANY_CELLS: fault_many_cells(); break;
    case F_TWICE: fault_twice(); break;
    case F_MISSING: fault_missing(); break;
    case F_QUOTES: fault_quotes(line); break;
    case F_COUNT: fault_count(line); break;
    case F_EMPTY: fault_value(line, EMPTY); break;
    case F_TOO_LONG: fault_value(line, TOO_LONG); break;
    case F_NOT_DIGITS: fault_value(line, NOT_DIGITS); break;
    case F_BESIDE_RANGE: fault_value(line, BESIDE_RANGE); break;
    case F_KEY: fault_key(line); break;
    case F_REFERENCE: fault_reference(line); break;
    default: fault_times(line); break;
    }
}

/* A fault of a row; those between rows and tables are the more telling ones. */
static enum fault any_row_fault(void)
{
    static const enum fault faults[] = {F_LONG_LINE, F_QUOTES, F_COUNT, F_EMPTY, F_TOO_LONG, F_NOT_DIGITS, F_BESIDE_RANGE,
        F_KEY, F_KEY, F_REFERENCE, F_REFERENCE, F_TIMES, F_TIMES};

    return faults[below(sizeof faults / sizeof faults[0])];
}

/* The table of a case that gets most of its faults. */
static unsigned any_table(void)
{
    return chance(35) ? VEHICLE_BLOCK : reading_order[below(TABLES)];
}

/* One that is not the blocks. */
static unsigned any_other_table(void)
{
    unsigned t = reading_order[below(TABLES - 1)];

    return t == VEHICLE_BLOCK ? DAY_TYPE_CALENDAR : t;
}

/* Some faults in one sheet. Where there are two, the second is often on the first one's line, or a header fault beside a
 * header fault: only so the order between them shows. */
static void make_faults(size_t count)
{
    size_t line = sheet.lines > 1 ? between(1, sheet.lines - 1) : 0;
    int in_header = chance(30);
    size_t i;

    for (i = 0; i < count; i++) {
        enum fault fault = in_header ? (enum fault)below(F_MISSING + 1) : any_row_fault();

        make_fault(fault, line);
        if (sheet.lines > 1 && chance(40))
            line = between(1, sheet.lines - 1);
        if (chance(20))
            in_header = !in_header;
    }
}

/* ---- Printing a sheet */

static uint8_t text_bytes[LAST_TABLE + 1][MOST_BYTES];
static struct growing table_text[LAST_TABLE + 1];

/* Of each table's text: the lines that its rows start on, and that of the row that was made long, or 0. */
static struct {
    size_t rows;
    uint64_t starts[MOST_ROWS];
    uint64_t long_line;
} printed[LAST_TABLE + 1];

static uint64_t line_feeds(const uint8_t *bytes, size_t length)
{
    uint64_t count = 0;
    size_t i;

    for (i = 0; i < length; i++)
        count += bytes[i] == '\n';
    return count;
}

static void print_line(struct growing *text, size_t line)
{
    size_t i;

    for (i = 0; i < sheet.cells[line]; i++) {
        if (i > 0)
            put_byte(text, ';');
        put_bytes(text, sheet.pool.bytes + sheet.cell[line][i].start, sheet.cell[line][i].length);
    }
}

static void print_sheet(void)
{
    struct growing *text = &table_text[sheet.table];
    uint64_t start = 1;
    size_t counted = 0; /* the bytes whose line feeds are counted */
    size_t line;

    text->bytes = text_bytes[sheet.table];
    text->length = 0;
    text->room = MOST_BYTES;
    printed[sheet.table].rows = sheet.lines - 1;
    printed[sheet.table].long_line = 0;
    for (line = 0; line < sheet.lines; line++) {
        start += line_feeds(text->bytes + counted, text->length - counted);
        counted = text->length;
        if (line > 0)
            printed[sheet.table].starts[line - 1] = start;
        if (line > 0 && line == sheet.long_row)
            printed[sheet.table].long_line = start;
        print_line(text, line);
        if (line + 1 == sheet.lines && sheet.last_lacks) {
            if (sheet.bare_return)
                put_byte(text, '\r');
            return;
        }
        if (sheet.returns[line])
            put_byte(text, '\r');
        put_byte(text, '\n');
    }
}

/* Makes the sheet's text exactly that long, by an unknown column whose cells make the lines long, as evenly as can be or one
 * after the other. None comes over 2,048 bytes but the last, where the others do not suffice. */
static void pad_sheet(size_t wanted)
{
    int evenly = chance(50);
    size_t missing, i;

    print_sheet();
    missing = table_text[sheet.table].length + sheet.lines; /* with a semicolon on each line */
    if (sheet.cells[0] == 32 || missing >= wanted)
        return;
    missing = wanted - missing;
    for (i = 0; i < sheet.lines; i++)
        if (sheet.cells[i] == 0)
            return;
    insert_column(sheet.cells[0], 0, raw_words(""));
    for (i = 0; i < sheet.lines; i++) {
        size_t last = sheet.cells[i] - 1;
        size_t length = line_length(i) - sheet.cell[i][last].length;
        size_t room = length < LINE_LIMIT ? LINE_LIMIT - length : 0;
        size_t share = evenly ? (missing + sheet.lines - i - 1) / (sheet.lines - i) : missing;

        if (share > room)
            share = room;
        if (i + 1 == sheet.lines)
            share = missing;
        sheet.cell[i][last] = raw_of_length(share);
        missing -= share;
    }
}

/* ---- Books */

static row made_book[BOOK_ROWS];
static uint8_t other_bytes[LAST_TABLE + 1][20000];

static row *rows_of(row *book, unsigned t)
{
    return book + first_row(t);
}

static const row *rows_of_in(const row *book, unsigned t)
{
    return book + first_row(t);
}

/* How many rows of table t are used. */
static size_t used(const row *rows, unsigned t)
{
    size_t room = most_rows(t);
    size_t n = 0;

    while (n < room && rows[n][0] != 0)
        n++;
    return n;
}

/* The book of the delivery, made of its numbers and not by reading. */
static void make_book(void)
{
    size_t i;

    memset(made_book, 0, sizeof made_book);
    for (i = 0; i < TABLES; i++) {
        unsigned t = reading_order[i];
        row *rows = rows_of(made_book, t);

        memcpy(rows, delivery.rows[t], delivery.count[t] * sizeof rows[0]);
        sort_rows(rows, delivery.count[t]);
    }
    made_book[MARKS][0] = edition;
}

/* The text of a table that has these rows, as plain as it can be. */
static struct text plain_text(const row *book, unsigned t)
{
    struct growing text = {other_bytes[t], 0, sizeof other_bytes[t]};
    const row *rows = rows_of_in(book, t);
    size_t n = used(rows, t);
    size_t i, c;

    for (c = 0; c < tables[edition][t].column_count; c++)
        if (tables[edition][t].columns[c].required) {
            put(&text, c > 0 ? ";" : "");
            put(&text, tables[edition][t].columns[c].name);
        }
    put_byte(&text, '\n');
    for (i = 0; i < n; i++) {
        for (c = 0; c < tables[edition][t].kept; c++) {
            put(&text, c > 0 ? ";" : "");
            put_number(&text, rows[i][c], 1);
        }
        put(&text, t == STOP ? ";a\n" : "\n");
    }
    return text_of(&text);
}

static void put_made_book(const struct cases_host *host)
{
    struct text others[TABLES] = {{NULL, 0}};
    size_t i;

    for (i = 0; i < TABLES; i++)
        if (reading_order[i] != VEHICLE_BLOCK)
            others[i] = plain_text((const row *)made_book, reading_order[i]);
    host->put_book(host->self, (const row *)made_book, others);
}

/* ---- Questions */

/* A number to ask for that is mostly no row's, or none that any row can have. */
static uint64_t strange_number(void)
{
    static const uint64_t strange[] = {0, 1, 2, 5, 99, 100, 99999, 100000, 4294967295u, 4294967296u, 4294967297u, UINT64_MAX,
        UINT64_MAX - 1, (uint64_t)1 << 63};

    return strange[below(sizeof strange / sizeof strange[0])];
}

/* A type to ask for, mostly one that is there. */
static void choose_type(const struct cases_host *host, uint64_t *version, uint64_t *number)
{
    const row *types = rows_of_in(host->book(host->self), VEHICLE_TYPE);
    size_t n = used(types, VEHICLE_TYPE);

    *version = any_version();
    *number = below(20);
    if (n > 0 && chance(80)) {
        size_t i = below(n);

        *version = types[i][0];
        *number = types[i][1];
    }
    if (chance(8))
        *version = strange_number();
    if (chance(8))
        *number = strange_number();
}

static void ask_type(const struct cases_host *host, size_t book_rows)
{
    uint64_t version, number;

    choose_type(host, &version, &number);
    host->type(host->self, book_rows, version, number);
}

/* A day of the book's calendar, or one beside it or elsewhere. */
static uint64_t day_to_ask(const struct cases_host *host)
{
    const row *days = rows_of_in(host->book(host->self), DAY_TYPE_CALENDAR);
    size_t n = used(days, DAY_TYPE_CALENDAR);
    uint64_t day;

    if (n == 0 || chance(15))
        return any_date();
    day = days[below(n)][C_DAY];
    return is_date(day) && day < 99991231 && chance(25) ? next_day(day) : day;
}

/* A span: all days, one day, some days, or one that ends before it begins. */
static void choose_span(const struct cases_host *host, uint64_t *first, uint64_t *last)
{
    size_t way = below(10);

    *first = 16000101;
    *last = 99991231;
    if (way < 3)
        return;
    *first = day_to_ask(host);
    *last = way < 5 ? *first : day_to_ask(host);
    if (*last < *first && chance(80)) {
        uint64_t kept = *first;

        *first = *last;
        *last = kept;
    }
}

/* The type of some block, or any type. */
static void choose_busy_type(const struct cases_host *host, uint64_t *version, uint64_t *number)
{
    const row *blocks = rows_of_in(host->book(host->self), VEHICLE_BLOCK);
    size_t n = used(blocks, VEHICLE_BLOCK);

    choose_type(host, version, number);
    if (n > 0 && chance(60)) {
        size_t i = below(n);

        *version = blocks[i][B_VERSION];
        *number = blocks[i][B_TYPE];
    }
}

/* A season's seconds or its hours, at times between ends that are no dates. */
static void ask_season(const struct cases_host *host, size_t book_rows)
{
    uint64_t version, number, first, last;

    choose_busy_type(host, &version, &number);
    choose_span(host, &first, &last);
    if (chance(10))
        first = chance(90) ? no_date() : strange_number();
    if (chance(10))
        last = chance(90) ? no_date() : strange_number();
    if (chance(60))
        host->season(host->self, book_rows, version, number, first, last);
    else
        host->season_hours(host->self, book_rows, version, number, first, last);
}

static void ask_hours(const struct cases_host *host, size_t book_rows)
{
    uint64_t version, number;

    choose_busy_type(host, &version, &number);
    host->hours(host->self, book_rows, version, number);
}

static void ask_block(const struct cases_host *host, size_t book_rows)
{
    const row *blocks = rows_of_in(host->book(host->self), VEHICLE_BLOCK);
    size_t n = used(blocks, VEHICLE_BLOCK);
    uint64_t key[4];
    size_t i;

    for (i = 0; i < 4; i++)
        key[i] = strange_number();
    if (n > 0 && chance(90))
        memcpy(key, blocks[below(n)], sizeof key);
    if (chance(25)) {
        i = below(4);
        key[i] = chance(50) ? strange_number() : below(10);
    }
    host->block(host->self, book_rows, key);
}

/* How long the book's blocks are when they are written. */
static size_t written_length(const row *book)
{
    const row *blocks = rows_of_in(book, VEHICLE_BLOCK);
    size_t n = used(blocks, VEHICLE_BLOCK);
    size_t length = 0;
    size_t i, c;

    for (c = 0; c < NUMBERS; c++)
        length += strlen(tables[edition][VEHICLE_BLOCK].columns[c].name) + 1;
    for (i = 0; i < n; i++)
        for (c = 0; c < NUMBERS; c++)
            length += digits_of(blocks[i][c]) + 1;
    return length;
}

static void ask_write(const struct cases_host *host, size_t book_rows)
{
    size_t exact = written_length(host->book(host->self));
    size_t length;

    switch (below(7)) {
    case 0: length = exact; break;
    case 1: length = exact - 1; break;
    case 2: length = exact + 1; break;
    case 3: length = below(exact); break;
    case 4: length = 0; break;
    case 5: length = exact + below(2000); break;
    default: length = 40000; break;
    }
    host->write(host->self, book_rows, length);
}

static size_t lines_of(const struct growing *text)
{
    size_t lines = 0;
    size_t i;

    for (i = 0; i < text->length; i++)
        lines += text->bytes[i] == '\n' || i + 1 == text->length;
    return lines;
}

static void ask_cell(const struct cases_host *host, const struct growing *text, unsigned t)
{
    uint64_t name = edition_to_name(10);
    uint64_t table = t;
    size_t lines = lines_of(text);
    uint64_t line = lines < 2 || chance(3) ? lines + 1 : between(2, lines);
    uint64_t column = between(1, tables[edition][t].column_count);

    if (printed[t].rows > 0 && chance(60))
        line = printed[t].starts[below(printed[t].rows)];
    if (t == VEHICLE_TYPE && chance(20))
        column = ACCESS_EQUIP;
    if (printed[t].long_line && chance(40))
        line = printed[t].long_line + (chance(20) ? between(0, 2) : 0);
    if (chance(4))
        table = chance(50) ? below(10) : strange_number();
    if (chance(6))
        line = chance(70) ? below(4) : strange_number();
    if (chance(4))
        column = chance(70) ? below(14) : strange_number();
    host->cell(host->self, name, text_of(text), table, line, column);
}

/* One column on every line that a text has, and on those before and behind. */
static void ask_lines(const struct cases_host *host, const struct growing *text, unsigned t)
{
    uint64_t lines = lines_of(text);
    uint64_t column = between(1, tables[edition][t].column_count);
    uint64_t line;

    for (line = 0; line <= lines + 1; line++)
        host->cell(host->self, name_of_edition(edition), text_of(text), t, line, column);
}

/* Cells of one table's text: some at random, at times a whole row, by 2.3 at times a column on every line. */
static void ask_cells(const struct cases_host *host, unsigned t, size_t times)
{
    const struct growing *text = &table_text[t];
    size_t lines = lines_of(text);
    uint64_t line, c;

    for (; times > 0; times--)
        ask_cell(host, text, t);
    if (edition == DINO_23 && lines <= 40 && chance(30))
        ask_lines(host, text, t);
    if (lines < 2 || !chance(20))
        return;
    line = printed[t].rows > 0 ? printed[t].starts[below(printed[t].rows)] : between(2, lines);
    for (c = 0; c <= tables[edition][t].column_count + 1; c++)
        host->cell(host->self, name_of_edition(edition), text_of(text), t, line, c);
}

static void ask_all(const struct cases_host *host)
{
    size_t i;

    for (i = below(3); i > 0; i--)
        ask_type(host, BOOK_ROWS);
    for (i = below(3); i > 0; i--)
        ask_block(host, BOOK_ROWS);
    if (chance(60))
        ask_season(host, BOOK_ROWS);
    if (chance(35))
        ask_hours(host, BOOK_ROWS);
    if (chance(60))
        ask_write(host, BOOK_ROWS);
}

/* ---- Slips */

static uint8_t slip_bytes[MOST_BYTES];

/* The blocks as the slip's good lines leave them, in any order. */
static struct {
    row blocks[TABLE_ROWS];
    size_t count;
    struct others others;
} slip_sees;

static void look_at_book(const row *book)
{
    const row *blocks = rows_of_in(book, VEHICLE_BLOCK);
    size_t i;

    slip_sees.count = used(blocks, VEHICLE_BLOCK);
    memcpy(slip_sees.blocks, blocks, slip_sees.count * sizeof blocks[0]);
    for (i = 0; i < TABLES; i++) {
        unsigned t = reading_order[i];

        slip_sees.others.rows[t] = rows_of_in(book, t);
        slip_sees.others.count[t] = used(slip_sees.others.rows[t], t);
    }
}

static size_t seen_at(const uint64_t *key)
{
    return find_key((const row *)slip_sees.blocks, slip_sees.count, key, 4);
}

/* The bytes that stand in a field in place of its number. */
struct field {
    int stands;
    size_t length;
    uint8_t bytes[64];
};

/* A line's numbers as fields. Twelve of them and the kind: at most thirteen. */
struct slip_line {
    const char *kind;
    uint64_t numbers[NUMBERS];
    size_t fields; /* numbers that are written */
    struct field instead[NUMBERS];
    const char *tail;
};

static void print_slip_line(struct growing *slip, const struct slip_line *line)
{
    size_t c;

    put(slip, line->kind);
    for (c = 0; c < line->fields; c++) {
        put_byte(slip, '\t');
        if (c >= NUMBERS)
            put_number(slip, 1, 1);
        else if (line->instead[c].stands)
            put_bytes(slip, line->instead[c].bytes, line->instead[c].length);
        else
            put_number(slip, line->numbers[c], chance(12) ? between(1, tables[edition][VEHICLE_BLOCK].columns[c].width) : 1);
    }
    put(slip, line->tail);
    put_byte(slip, '\n');
}

/* A block to add whose key is not there. */
static int fresh_block(uint64_t *block)
{
    size_t tries;

    for (tries = 0; tries < 5; tries++)
        if (any_block(&slip_sees.others, block) && seen_at(block) == slip_sees.count)
            return 1;
    return 0;
}

/* Other numbers for a block that stands: its key and version stay. */
static void other_numbers(uint64_t *block)
{
    const uint64_t *type = any_row_of(slip_sees.others.rows[VEHICLE_TYPE], slip_sees.others.count[VEHICLE_TYPE], block[0], 99);
    const uint64_t *point = any_row_of(slip_sees.others.rows[STOP_POINT], slip_sees.others.count[STOP_POINT], block[0],
        99999);

    if (type)
        block[B_TYPE] = type[1];
    if (point) {
        block[B_ARR_STOP] = point[1];
        block[B_ARR_POINT] = point[2];
    }
    any_times(block);
}

/* A good line, and what it does to the blocks that are seen. It fails where the kind cannot be good now. */
static int good_line(struct slip_line *line, char kind)
{
    size_t at;

    line->tail = "";
    line->fields = kind == 'D' ? 4 : NUMBERS;
    line->kind = kind == 'A' ? "A" : kind == 'R' ? "R" : "D";
    if (kind == 'A') {
        if (slip_sees.count == TABLE_ROWS || !fresh_block(line->numbers))
            return 0;
        memcpy(slip_sees.blocks[slip_sees.count++], line->numbers, sizeof line->numbers);
        return 1;
    }
    if (slip_sees.count == 0)
        return 0;
    at = below(slip_sees.count);
    memcpy(line->numbers, slip_sees.blocks[at], sizeof line->numbers);
    if (kind == 'R') {
        other_numbers(line->numbers);
        memcpy(slip_sees.blocks[at], line->numbers, sizeof line->numbers);
    } else {
        slip_sees.count--;
        memcpy(slip_sees.blocks[at], slip_sees.blocks[slip_sees.count], sizeof line->numbers);
    }
    return 1;
}

static int any_good_line(struct slip_line *line)
{
    static const char kinds[] = "AAARRRDD";
    size_t tries;

    for (tries = 0; tries < 6; tries++)
        if (good_line(line, kinds[below(sizeof kinds - 1)]))
            return 1;
    return 0;
}

/* A field's number with one byte more, as it is or at its column's full width: 8, or 20. Often a carriage return. */
static void put_with_byte(struct growing *content, uint64_t number, size_t width)
{
    static const uint8_t bytes[] = {'\r', '\r', '\r', ' ', 'x', 0, 127, '"', ';'};
    uint8_t byte = bytes[below(sizeof bytes)];
    int before = chance(20);

    if (before)
        put_byte(content, byte);
    put_number(content, number, chance(40) ? width : 1);
    if (!before)
        put_byte(content, byte);
}

/* A field that has a range of its own: VERSION, and by 2.3 the two stop numbers. */
static size_t field_with_range(size_t fields)
{
    static const size_t ranged[] = {B_VERSION, B_DEP_STOP, B_ARR_STOP};

    return edition == DINO_23 && fields == NUMBERS ? ranged[below(3)] : B_VERSION;
}

/* 19, 20, 8 or 21 in one field. */
static void bad_field(struct slip_line *line)
{
    enum against way = (enum against)below(AGAINST);
    size_t fields = line->fields < NUMBERS ? line->fields : NUMBERS;
    size_t at = way == BESIDE_RANGE && chance(70) ? field_with_range(fields) : below(fields + (fields == 0));
    const struct column *column = &tables[edition][VEHICLE_BLOCK].columns[at];
    struct growing content = {line->instead[at].bytes, 0, sizeof line->instead[at].bytes};

    if (way == NOT_DIGITS && chance(50))
        put_with_byte(&content, line->numbers[at], column->width);
    else
        put_against(&content, column, way);
    line->instead[at].stands = 1;
    line->instead[at].length = content.length;
}

static void bad_kind(struct slip_line *line)
{
    static const char *const kinds[] = {"a", "AA", " A", "A ", "", "X", "\"A\"", "D\r", "0", "r", "RD", "\xC3\x84", "\x7F"};

    line->kind = kinds[below(sizeof kinds / sizeof kinds[0])];
}

static void bad_count(struct slip_line *line)
{
    switch (below(5)) {
    case 0: line->tail = "\t"; break;
    case 1: line->fields = below(13); break;
    case 2: line->fields++; break;
    case 3: line->fields = 4; break;
    default: line->fields -= line->fields > 0; break;
    }
}

/* Numbers for a line that no good block can be found for. */
static void any_numbers(struct slip_line *line)
{
    size_t c;

    for (c = 0; c < NUMBERS; c++)
        line->numbers[c] = any_number(&tables[edition][VEHICLE_BLOCK].columns[c], 20);
    any_times(line->numbers);
}

static void bad_reference(struct slip_line *line)
{
    static const size_t referring[] = {B_DEPOT, B_TYPE, B_TYPE, B_DEP_STOP, B_DEP_POINT, B_ARR_STOP, B_ARR_POINT, B_VERSION};
    size_t at = referring[below(sizeof referring / sizeof referring[0])];

    line->numbers[at] = any_number(&tables[edition][VEHICLE_BLOCK].columns[at], 40);
}

static void bad_times(struct slip_line *line)
{
    early_times(&line->numbers[B_BEGIN], &line->numbers[B_END]);
}

/* A key that is there, or one that is mostly not. */
static void other_key(struct slip_line *line)
{
    if (slip_sees.count > 0 && chance(60))
        memcpy(line->numbers, slip_sees.blocks[below(slip_sees.count)], 4 * sizeof line->numbers[0]);
    else if (chance(70))
        line->numbers[B_BLOCK] = between(0, 999);
    else
        line->numbers[B_DAY_TYPE] = between(0, 999);
}

/* A line with one fault, or with some at once for their order. */
static void bad_line(struct slip_line *line)
{
    static const char *const kinds[] = {"A", "R", "D"};
    int full = slip_sees.count == TABLE_ROWS;
    size_t faults = chance(60) ? 1 : between(2, 3);

    memset(line, 0, sizeof *line);
    line->tail = "";
    line->kind = full && chance(60) ? "A" : kinds[below(3)];
    line->fields = *line->kind == 'D' ? 4 : NUMBERS;
    if (*line->kind == 'A' ? !fresh_block(line->numbers) : slip_sees.count == 0)
        any_numbers(line);
    else if (*line->kind != 'A')
        memcpy(line->numbers, slip_sees.blocks[below(slip_sees.count)], sizeof line->numbers);
    for (; faults > 0; faults--)
        switch (below(12)) {
        case 0: bad_kind(line); break;
        case 1: bad_count(line); break;
        case 2: case 3: bad_field(line); break;
        case 4: case 5: bad_times(line); break;
        case 6: case 7: case 8: bad_reference(line); break;
        default: other_key(line); break;
        }
}

static size_t any_line_count(void)
{
    size_t dial = below(100);

    return dial < 8 ? 0 : dial < 55 ? between(1, 4) : dial < 94 ? between(5, 20) : between(50, 900);
}

/* A slip on this book: its lines are good but for one, or all good. */
static struct growing make_slip(const row *book)
{
    struct growing slip = {slip_bytes, 0, sizeof slip_bytes};
    size_t lines = any_line_count();
    size_t bad_at = chance(45) ? lines : below(lines + 1);
    size_t i;

    look_at_book(book);
    for (i = 0; i < lines; i++) {
        struct slip_line line;

        memset(&line, 0, sizeof line);
        if (i == bad_at && chance(6)) {
            put_byte(&slip, '\n'); /* a blank line */
            continue;
        }
        if (i == bad_at || !any_good_line(&line))
            bad_line(&line);
        print_slip_line(&slip, &line);
    }
    if (slip.length > 0 && chance(30))
        slip.length--; /* the last line feed may lack */
    if (chance(6))
        damage_bytes(&slip);
    return slip;
}

static void take_slips(const struct cases_host *host, size_t times)
{
    for (; times > 0; times--) {
        struct growing slip = make_slip(host->book(host->self));

        host->slip(host->self, text_of(&slip), BOOK_ROWS, WORK_ROWS);
        ask_all(host);
    }
}

/* A slip of 65,536 bytes or some more, all lines good: 64 bytes each, 1,024 of them. */
static struct growing make_long_slip(const row *book)
{
    const row *blocks = rows_of_in(book, VEHICLE_BLOCK);
    struct growing slip = {slip_bytes, 0, sizeof slip_bytes};
    size_t n = used(blocks, VEHICLE_BLOCK);
    size_t more = chance(50) ? 0 : between(1, 3);
    size_t i, c;

    for (i = 0; i < 1024 && n > 0; i++) {
        const uint64_t *block = blocks[below(n)];
        size_t shorter = i < more ? 2 : 3; /* how many fields lack a zero: 67 bytes at full width, by 2.3 65 */

        if (edition == DINO_23)
            shorter -= 2;

        put_byte(&slip, 'R');
        for (c = 0; c < NUMBERS; c++) {
            unsigned width = tables[edition][VEHICLE_BLOCK].columns[c].width;

            if (shorter > 0 && digits_of(block[c]) < width) {
                width--;
                shorter--;
            }
            put_byte(&slip, '\t');
            put_number(&slip, block[c], width);
        }
        put_byte(&slip, '\n');
    }
    return slip;
}

/* ---- By radio */

/* A number of another length than the right one. */
static size_t other_length(size_t right)
{
    const size_t lengths[] = {0, 1, right - 1, right + 1, right / 2, right * 2, 511, 513, 2047, 2048, 2049, 2561, 600};
    size_t length;

    do
        length = lengths[below(sizeof lengths / sizeof lengths[0])];
    while (length == right);
    return length;
}

/* Where a text is cut. */
enum cutting { IN_ONE_PART, ANYWHERE, AT_TELLING_PLACES, INTO_BYTES, SOME_BYTES, LAST_BYTES };

enum { MOST_PARTS = 8, MOST_SINGLE_BYTES = 120, SOME_SINGLE_BYTES = 16, LAST_SINGLE_BYTES = 60 };

/* The delivery that is on its way. */
static struct {
    const struct cases_host *host;
    size_t closed;  /* how many tables are closed */
    int announced;  /* whether the next one is announced */
    unsigned odd;   /* how often, in a hundred, a call stands between that is none of the delivery */
} sending;

static struct text text_at(const uint8_t *bytes, size_t length)
{
    struct text text;

    text.bytes = bytes;
    text.length = length;
    return text;
}

static void open_radio(void)
{
    uint64_t name = name_of_edition(chance(8) ? other_edition() : edition);

    sending.host->radio_open(sending.host->self, name, right_lengths);
    sending.closed = 0;
    sending.announced = 0;
}

static void announce(uint64_t length)
{
    sending.host->radio_announce(sending.host->self, length, right_lengths);
    sending.announced = 1;
}

static void send_part(const uint8_t *bytes, size_t length)
{
    sending.host->radio_part(sending.host->self, text_at(bytes, length), right_lengths);
}

static void close_table(void)
{
    sending.host->radio_close(sending.host->self, right_lengths);
    sending.announced = 0;
    sending.closed++;
}

/* Some bytes that belong to no delivery. */
static struct text stray_bytes(void)
{
    static const char *const words[] = {"", "", "\n", "\"", "1;3\n", "VERSION;DEPOT_NR\n1;3\n", "\r", ";", "x"};
    const char *chosen = words[below(sizeof words / sizeof words[0])];

    return text_at((const uint8_t *)chosen, strlen(chosen));
}

/* One of the four calls, lent at these lengths, in turn or out of it. */
static void any_call(struct radio_lengths lengths, size_t way)
{
    const struct cases_host *host = sending.host;

    switch (way) {
    case 0: host->radio_announce(host->self, chance(50) ? below(100) : strange_number(), lengths); break;
    case 1: host->radio_part(host->self, stray_bytes(), lengths); break;
    case 2: host->radio_close(host->self, lengths); break;
    default: host->radio_open(host->self, edition_to_name(50), lengths); break;
    }
}

/* 15: what may not come now. */
static void call_out_of_turn(void)
{
    if (sending.announced)
        any_call(right_lengths, 0);
    else
        any_call(right_lengths, sending.closed == TABLES ? below(3) : between(1, 2));
}

/* 22: a delivery that stands there goes on. */
static void open_by_strange_edition(void)
{
    sending.host->radio_open(sending.host->self, strange_edition(), right_lengths);
}

/* 16: one of the lengths is wrong, or more. */
static void call_at_wrong_length(void)
{
    struct radio_lengths lengths = right_lengths;
    size_t wrong = between(1, 7);

    if (wrong & 1)
        lengths.rows = other_length(BOOK_ROWS);
    if (wrong & 2)
        lengths.kept = other_length(RADIO_KEPT);
    if (wrong & 4)
        lengths.lines = other_length(RADIO_LINES);
    any_call(lengths, below(4));
}

static struct damage any_damage(void)
{
    static const uint64_t numbers[] = {0, 1, 2, 3, 4, 5, 6, 10, 11, 17, 18, 19, 2047, 2048, 2049, 2050, 65535, 65536, 65537,
        4294967296u, UINT64_MAX, (uint64_t)1 << 63};
    static const uint8_t bytes[] = {0, '\n', '\r', '"', ';', '0', '1', 'x', 127, 255};
    struct damage damage;

    damage.where = chance(20) ? IN_BOOK : chance(60) ? IN_KEPT : IN_LINES;
    damage.row = chance(60) ? first_row(reading_order[below(TABLES)]) : below(BOOK_ROWS - 6);
    damage.row += below(6);
    damage.at = below(NUMBERS);
    if (chance(20)) {
        damage.row = MARKS;
        damage.at = chance(70) ? 0 : damage.at;
    }
    damage.how = chance(50) ? SET : chance(60) ? ADD : FLIP;
    damage.number = numbers[below(sizeof numbers / sizeof numbers[0])];
    if (damage.how == ADD)
        damage.number = chance(50) ? 1 : (uint64_t)0 - 1;
    else if (damage.how == FLIP)
        damage.number = (uint64_t)1 << (chance(70) ? below(8) : below(64));
    if (damage.where == IN_LINES) {
        /* what stands where is the library's own: the beginning, the middle, the end, and anywhere */
        damage.at = below(RADIO_LINES);
        if (chance(70))
            damage.at = chance(50) ? below(120) : chance(90) ? LINE_LIMIT + below(60) : RADIO_LINES - 1;
        if (damage.how == SET)
            damage.number = bytes[below(sizeof bytes)];
    }
    return damage;
}

/* What is kept is damaged, and the delivery goes on for some calls and up to its last close, whatever is answered. Then it
 * goes on as if nothing had been. */
static void damage_and_go_on(void)
{
    const struct cases_host *host = sending.host;
    size_t i;

    for (i = chance(80) ? 1 : 2; i > 0; i--) {
        struct damage damage = any_damage();

        host->radio_damage(host->self, &damage);
    }
    for (i = between(1, 4); i > 0; i--)
        any_call(right_lengths, below(3));
    for (i = sending.closed; i <= TABLES; i++) {
        any_call(right_lengths, 2);
        if (chance(60))
            any_call(right_lengths, 0);
        else
            host->radio_announce(host->self, 0, right_lengths);
        if (chance(20))
            any_call(right_lengths, 1);
    }
    host->radio_mend(host->self);
}

/* A call, now and then, that the delivery does not need. */
static void disturb(void)
{
    static const uint8_t nothing[1];

    if (!chance(sending.odd))
        return;
    switch (below(5)) {
    case 0: call_out_of_turn(); break;
    case 1: call_at_wrong_length(); break;
    case 2: damage_and_go_on(); break;
    case 3: open_by_strange_edition(); break;
    default: if (sending.announced) send_part(nothing, 0); break;
    }
}

/* The next place behind `at` with one of these before it and one behind it, or the text's end. */
static size_t telling_cut(struct text text, size_t at)
{
    static const struct {
        uint8_t before, behind; /* 0: any byte */
    } places[] = {{'\r', '\n'}, {'"', '"'}, {0, '\n'}, {'\n', 0}, {';', 0}, {0, '"'}, {'"', 0}, {'\r', 0}};
    size_t way = below(sizeof places / sizeof places[0]);
    size_t i = at + 1 + below((text.length - at + 2) / 3);

    for (; i < text.length; i++)
        if ((!places[way].before || text.bytes[i - 1] == places[way].before)
            && (!places[way].behind || text.bytes[i] == places[way].behind))
            return i;
    return text.length;
}

/* Where the part that begins at `at` ends. */
static size_t cut_behind(struct text text, size_t at, size_t parts, enum cutting cutting)
{
    size_t rest = text.length - at;

    switch (cutting) {
    case INTO_BYTES: return at + 1;
    case LAST_BYTES: return parts == 0 && rest > LAST_SINGLE_BYTES ? text.length - LAST_SINGLE_BYTES : at + 1;
    case SOME_BYTES: return parts == 0 ? at + below(rest) : parts <= SOME_SINGLE_BYTES ? at + 1 : text.length;
    case ANYWHERE: return parts < MOST_PARTS ? at + between(1, chance(50) ? rest : (rest + 7) / 8) : text.length;
    case AT_TELLING_PLACES: return parts < MOST_PARTS ? telling_cut(text, at) : text.length;
    default: return text.length;
    }
}

static void send_in_parts(struct text text)
{
    static const enum cutting ways[] = {IN_ONE_PART, IN_ONE_PART, ANYWHERE, ANYWHERE, AT_TELLING_PLACES, AT_TELLING_PLACES,
        SOME_BYTES, INTO_BYTES, LAST_BYTES};
    enum cutting cutting = ways[below(sizeof ways / sizeof ways[0])];
    size_t at = 0;
    size_t parts;

    if (cutting == INTO_BYTES && text.length > MOST_SINGLE_BYTES)
        cutting = SOME_BYTES;
    for (parts = 0; at < text.length; parts++) {
        size_t end = cut_behind(text, at, parts, cutting);

        disturb();
        send_part(text.bytes + at, end - at);
        at = end;
    }
    disturb();
}

/* What is announced for a text of that length, where it is to be something else. */
static uint64_t wrong_announcement(size_t length)
{
    switch (below(8)) {
    case 0: return (uint64_t)length + 1;
    case 1: return (uint64_t)length - 1; /* of nothing the greatest number there is */
    case 2: return 0;
    case 3: return length + below(3000);
    case 4: return TEXT_LIMIT;
    case 5: return TEXT_LIMIT + 1;
    case 6: return strange_number();
    default: return ((uint64_t)1 << 32) + length;
    }
}

static void send_surplus(void)
{
    static uint8_t many[70000];
    struct text stray = stray_bytes();

    send_part(stray.bytes, stray.length);
    if (!chance(20))
        return;
    memset(many, chance(50) ? '\n' : 'x', sizeof many);
    send_part(many, sizeof many);
    send_part(many, below(sizeof many));
}

/* A table, announced and sent as it is, or with some bytes more or fewer than announced. */
static void send_table(struct text text, int wrong)
{
    disturb();
    announce(wrong && chance(60) ? wrong_announcement(text.length) : text.length);
    if (wrong && chance(30))
        text.length = chance(50) ? below(text.length + 1) : text.length - (text.length > 0);
    send_in_parts(text);
    if (wrong && chance(30))
        send_surplus();
    close_table();
}

/* Sends the texts that were read also by radio: mostly as they are, at times with one table announced wrongly, begun anew on
 * the way, or with calls between that do not belong there. */
static void send_by_radio(const struct cases_host *host)
{
    size_t wrong = chance(75) ? TABLES : below(TABLES);
    size_t again = chance(95) ? TABLES : below(TABLES);
    size_t i;

    sending.host = host;
    sending.odd = chance(60) ? 0 : 5;
    open_radio();
    for (i = 0; i < TABLES; i++) {
        if (i == again) {
            again = TABLES;
            if (chance(50))
                announce(below(100));
            open_radio();
            i = 0;
        }
        send_table(text_of(&table_text[reading_order[i]]), i == wrong);
    }
    disturb();
}

/* ---- Stories */

static void read_texts(const struct cases_host *host, size_t book_rows)
{
    struct text texts[TABLES];
    size_t i;

    for (i = 0; i < TABLES; i++)
        texts[i] = text_of(&table_text[reading_order[i]]);
    /* what stands in the book before a reading does not matter, and so another one may come first */
    if (chance(12))
        host->read(host->self, name_of_edition(other_edition()), texts, book_rows);
    if (chance(3))
        host->read(host->self, strange_edition(), texts, book_rows);
    host->read(host->self, name_of_edition(edition), texts, book_rows);
    if (chance(40))
        send_by_radio(host);
}

/* A delivery, good or with faults, and what can be asked of its texts and of the book it leaves. */
static void story_of_a_delivery(const struct cases_host *host)
{
    size_t faults = chance(35) ? 0 : chance(55) ? 1 : 2;
    unsigned first = any_table();
    size_t i;

    make_any_delivery();
    for (i = 0; i < TABLES; i++) {
        unsigned t = reading_order[i];

        order_rows(t);
        make_sheet(t);
        if (t == first && faults > 0)
            make_faults(chance(70) ? faults : 1);
        else if (faults > 1 && chance(30))
            make_faults(1);
        print_sheet();
        if (faults > 0 && chance(5))
            damage_bytes(&table_text[t]);
    }
    read_texts(host, BOOK_ROWS);
    for (i = 0; i < TABLES; i++)
        ask_cells(host, reading_order[i], reading_order[i] == first ? 6 : 1);
    /* a refused reading leaves the empty book, which has little to ask */
    if (used(rows_of_in(host->book(host->self), DEPOT), DEPOT) > 0 || chance(15)) {
        ask_all(host);
        take_slips(host, below(4));
    }
}

/* That many rows of one table, and what they refer to and refers to them. */
static void make_rows(unsigned big, size_t rows)
{
    make_any_delivery();
    if (big == VEHICLE_BLOCK) {
        make_delivery(30, 30, 30, 30, rows, 30);
    } else if (big == STOP_POINT) {
        make_delivery(30, 30, 30, rows, 30, 30);
    } else if (big == DAY_TYPE_CALENDAR) {
        make_calendar(rows);
    } else {
        make_keys(big, rows);
        make_points(delivery.count[STOP_POINT]);
        make_blocks(delivery.count[VEHICLE_BLOCK]);
    }
}

/* 5 */
static void story_of_a_row_too_many(const struct cases_host *host, unsigned big)
{
    size_t i;

    make_rows(big, most_rows(big) + 1);
    for (i = 0; i < TABLES; i++) {
        make_sheet(reading_order[i]);
        print_sheet();
    }
    read_texts(host, BOOK_ROWS);
    ask_cells(host, big, 2);
}

/* One fault at one place, each in its turn, so that none is left to luck: 3, 2 and the four faults of a cell at every column of
 * every table by both editions, and lines about as long as they may be; and behind the columns 5 of every table. */
static void story_of_a_place(const struct cases_host *host, uint64_t turn)
{
    static const enum fault faults[] = {F_TWICE, F_MISSING, F_EMPTY, F_TOO_LONG, F_NOT_DIGITS, F_BESIDE_RANGE, F_LONG_LINE};
    enum { FAULTS = sizeof faults / sizeof faults[0] };
    enum fault fault = faults[turn / EDITIONS % FAULTS];
    uint64_t place = turn / EDITIONS / FAULTS;
    uint64_t places;
    unsigned meant;
    size_t i;

    edition = turn % EDITIONS;
    places = edition == DINO_23 ? 12 + 2 + 3 + 3 + 11 + 3 : 11 + 2 + 3 + 3 + 11 + 3;
    place %= places + 2;
    if (place >= places) {
        story_of_a_row_too_many(host, reading_order[turn / EDITIONS % FAULTS % TABLES]);
        return;
    }
    for (i = 0; place >= tables[edition][reading_order[i]].column_count; i++)
        place -= tables[edition][reading_order[i]].column_count;
    meant = reading_order[i];
    do
        make_delivery(8, 8, 8, 8, 8, 8);
    while (delivery.count[meant] == 0);
    for (i = 0; i < TABLES; i++) {
        unsigned t = reading_order[i];

        make_sheet(t);
        if (t == meant) {
            unsigned c = (unsigned)place + 1;

            if (cell_of(c) == MOST_CELLS)
                insert_column_anywhere(c, raw_name(c));
            meant_column = c;
            make_fault(fault, sheet.lines > 1 ? between(1, sheet.lines - 1) : 0);
            meant_column = 0;
        }
        print_sheet();
    }
    read_texts(host, BOOK_ROWS);
    ask_cells(host, meant, 4);
}

/* Tables damaged by the byte alone. */
static void story_of_bytes(const struct cases_host *host)
{
    unsigned first = any_table();
    size_t i;

    make_any_delivery();
    for (i = 0; i < TABLES; i++) {
        unsigned t = reading_order[i];

        make_sheet(t);
        print_sheet();
        if (t == first || chance(10))
            damage_bytes(&table_text[t]);
    }
    read_texts(host, BOOK_ROWS);
    ask_cells(host, first, 8);
}

/* A text of few kinds of bytes behind a good header, at times in its last cells: quotes and line ends in all ways of standing
 * together. */
static void print_scribble(unsigned t)
{
    static const uint8_t letters[] = {'"', '"', '"', ';', ';', '\n', '\n', '\r', '1', '1', '7', 'a', 0xC3};
    struct growing *text = &table_text[t];
    size_t length = below(60);

    make_sheet(t);
    sheet.lines = 1;
    sheet.last_lacks = 1;
    print_sheet();
    put_byte(text, chance(85) ? '\n' : ';');
    for (; length > 0; length--)
        put_byte(text, letters[below(sizeof letters)]);
}

/* Behind good rows one whose quotes are not closed, mostly: the row goes to the text's end and is about as long as it may be,
 * made of the bytes that could end it. */
static void print_open_row(unsigned t)
{
    static const char *const stretches[] = {"\n", "\r\n", ";", "1;3\n", "\"\"", "a", "abcdefghijklmnopqrstuvwxyz", "\r\n\r\n"};
    static const char *const ends[] = {"", "", "\n", "\r\n", "\r", "\"", "\"\n", "\"\r\n", "\"\"", "\"x\n"};
    struct growing *text = &table_text[t];
    size_t wanted = chance(20) ? between(1, 100) : between(2040, 2056);
    size_t cells = below(4);

    make_sheet(t);
    sheet.last_lacks = 0;
    print_sheet();
    wanted += text->length;
    for (; cells > 0; cells--)
        put(text, chance(50) ? "1;" : chance(50) ? "\"\n\";" : "a\";");
    put_byte(text, '"');
    while (text->length < wanted)
        put(text, stretches[below(sizeof stretches / sizeof stretches[0])]);
    if (text->length > wanted)
        text->length = wanted; /* at times within a doubled quote, which then closes the cell */
    put(text, ends[below(sizeof ends / sizeof ends[0])]);
}

static void story_of_scribbles(const struct cases_host *host)
{
    unsigned first = any_other_table();
    size_t i;

    make_delivery(2, 2, 2, 2, 0, 2);
    for (i = 0; i < TABLES; i++) {
        unsigned t = reading_order[i];

        if (t == first && chance(15)) {
            print_open_row(t);
        } else if (t == first) {
            print_scribble(t);
        } else {
            make_sheet(t);
            print_sheet();
        }
    }
    read_texts(host, BOOK_ROWS);
    ask_cells(host, first, 12);
}

/* A run of slips on a book. */
static void story_of_slips(const struct cases_host *host)
{
    if (chance(2)) /* few: the second reader takes its time over a full book */
        make_full_delivery();
    else
        make_any_delivery();
    make_book();
    if (chance(10))
        made_book[MARKS][0] = other_edition();
    put_made_book(host);
    ask_all(host);
    take_slips(host, between(1, 6));
}

/* Tables at their size: 512 rows and more, of the calendar 800, texts at 65,536 bytes and over. */
static void story_of_sizes(const struct cases_host *host)
{
    unsigned big = reading_order[below(TABLES)];
    size_t room = most_rows(big);
    size_t rows = chance(30) ? room : chance(60) ? room + 1 : between(room - 12, room + TOO_MANY);
    size_t i;

    make_rows(big, rows);
    for (i = 0; i < TABLES; i++) {
        unsigned t = reading_order[i];

        order_rows(t);
        make_sheet(t);
        if (t == big && chance(40))
            make_faults(1);
        print_sheet();
    }
    read_texts(host, BOOK_ROWS);
    ask_cells(host, big, 4);
    ask_all(host);
    take_slips(host, 1);
}

static void story_of_long_texts(const struct cases_host *host)
{
    static const size_t lengths[] = {65535, 65536, 65536, 65537, 65537, 65538, 66000, 100000};
    unsigned first = any_table();
    size_t i;

    make_delivery(60, 60, 60, 60, 60, 60); /* enough lines for 65,536 bytes, and one more */
    for (i = 0; i < TABLES; i++) {
        unsigned t = reading_order[i];

        make_sheet(t);
        if (t == first || chance(10)) {
            if (chance(20))
                make_faults(1);
            pad_sheet(lengths[below(sizeof lengths / sizeof lengths[0])]);
        }
        print_sheet();
    }
    read_texts(host, BOOK_ROWS);
    ask_cells(host, first, 3);
    if (chance(50)) {
        struct growing slip = make_long_slip(host->book(host->self));

        host->slip(host->self, text_of(&slip), BOOK_ROWS, WORK_ROWS);
        set_length(&slip, between(TEXT_LIMIT - 1, TEXT_LIMIT + 2));
        host->slip(host->self, text_of(&slip), BOOK_ROWS, WORK_ROWS);
    }
}

/* ---- Books that break the rule */

/* Numbers at and past the ends of what columns take. */
static uint64_t edge_number(size_t column)
{
    static const uint64_t edges[] = {0, 1, 2, 3, 99, 100, 86399, 86400, 99999, 100000, 999999, 1000000, 99999999,
        100000000, 999999999, 1000000000, 4294967295u, 4294967296u, UINT64_MAX, (uint64_t)1 << 63};

    if (chance(40))
        return tables[edition][VEHICLE_BLOCK].columns[column].most + below(2);
    return edges[below(sizeof edges / sizeof edges[0])];
}

/* A used row of a table, or row 0 where there is none. */
static size_t any_used(unsigned t)
{
    size_t n = used((const row *)rows_of(made_book, t), t);

    return n == 0 ? 0 : below(n);
}

static void remove_row(unsigned t)
{
    row *rows = rows_of(made_book, t);
    size_t n = used((const row *)rows, t);
    size_t at = any_used(t);

    if (n == 0)
        return;
    memmove(rows[at], rows[at + 1], (n - at - 1) * sizeof rows[0]);
    memset(rows[n - 1], 0, sizeof rows[0]);
}

/* END at BEGIN or one below it, which BEGIN 0 makes the greatest number there is; or 11. */
static void break_times(uint64_t *block)
{
    if (chance(50))
        block[B_END] = block[B_BEGIN] - below(2);
    else
        early_times(&block[B_BEGIN], &block[B_END]);
}

/* One break of the book rule, or now and then a change that keeps it. */
static void break_book(void)
{
    static const size_t referring[] = {B_TYPE, B_TYPE, B_DEP_STOP, B_DEP_POINT, B_ARR_STOP, B_ARR_POINT};
    unsigned t = any_table();
    unsigned keyed = any_other_table();
    row *rows = rows_of(made_book, t);
    row *keys = rows_of(made_book, keyed);
    row *points = rows_of(made_book, STOP_POINT);
    row *blocks = rows_of(made_book, VEHICLE_BLOCK);
    row *days = rows_of(made_book, DAY_TYPE_CALENDAR);
    size_t room = most_rows(t);
    size_t n = used((const row *)rows, t);
    size_t one = any_used(t);
    size_t other = any_used(t);
    size_t point = any_used(STOP_POINT);
    size_t block = any_used(VEHICLE_BLOCK);
    size_t day = any_used(DAY_TYPE_CALENDAR);
    size_t other_day = any_used(DAY_TYPE_CALENDAR);
    size_t column = below(NUMBERS);
    size_t kept = tables[edition][keyed].kept;
    size_t unused = n < room ? between(n, room - 1) : n - 1;
    uint64_t bit = (uint64_t)1 << below(64);
    size_t reference = referring[below(sizeof referring / sizeof referring[0])];

    switch (below(22)) {
    case 0: swap_rows(rows, one, other); break;
    case 1: memcpy(rows[one], rows[other], sizeof rows[0]); break;
    case 2: memset(rows[one], 0, sizeof rows[0]); break;
    case 3: rows[unused][column] = chance(50) ? 1 : edge_number(column); break;
    case 4: keys[other % 3][column < kept ? kept : column] = edge_number(0); break;
    case 5: rows[one][column] = edge_number(column); break;
    case 6: remove_row(keyed); break;
    case 7: blocks[block][reference] = below(60); break;
    case 8: break_times(blocks[block]); break;
    case 9: blocks[block][column] = chance(50) ? below(10) : edge_number(column); break;
    case 10: rows[one][0] = chance(50) ? 0 : 100; break;
    case 11: swap_rows(rows, 0, n < room ? n : 0); break; /* the first row moves behind the last: a hole in front */
    case 12: rows[one][1] = rows[other][1]; break;
    case 13: points[point][1] = chance(80) ? below(60) : edge_number(B_DEP_STOP); break;
    case 14: points[point][2] = chance(60) ? below(10) : edge_number(B_DEP_POINT); break;
    case 15: made_book[MARKS][0] = chance(30) ? other_edition() : chance(50) ? 2 : edge_number(0); break;
    case 16: made_book[MARKS][between(1, NUMBERS - 1)] = chance(50) ? 1 : edge_number(0); break;
    case 17: days[day][C_DAY] = chance(70) ? no_date() : edge_date(); break;
    case 18: days[day][C_DAY_TYPE] = chance(50) ? below(10) : edge_number(B_DAY_TYPE); break;
    case 19: swap_rows(days, day, other_day); break;
    case 20: days[day][C_VERSION] = chance(50) ? below(3) : edge_number(B_VERSION); break;
    default: if (chance(50)) rows[one][column] ^= bit; else rows[unused][column] ^= bit; break;
    }
}

static void story_of_broken_books(const struct cases_host *host)
{
    static row whole[BOOK_ROWS];
    struct growing slip;
    size_t times;

    if (chance(2)) /* few: the second reader takes its time over a full book */
        make_full_delivery();
    else
        make_any_delivery();
    make_book();
    memcpy(whole, made_book, sizeof whole);
    for (times = between(2, 6); times > 0; times--) {
        memcpy(made_book, whole, sizeof whole);
        slip = make_slip((const row *)made_book);
        break_book();
        if (chance(15))
            break_book();
        put_made_book(host);
        if (chance(60))
            ask_type(host, BOOK_ROWS);
        else
            ask_hours(host, BOOK_ROWS);
        ask_block(host, BOOK_ROWS);
        ask_season(host, BOOK_ROWS);
        ask_write(host, BOOK_ROWS);
        if (chance(5))
            set_length(&slip, chance(50) ? 0 : TEXT_LIMIT + 1);
        host->slip(host->self, text_of(&slip), BOOK_ROWS, WORK_ROWS);
    }
}

/* ---- Lent lengths */

static void story_of_lengths(const struct cases_host *host)
{
    struct growing slip;
    size_t book_rows = BOOK_ROWS;
    size_t work_rows = WORK_ROWS;
    size_t i;

    make_any_delivery();
    make_book();
    if (chance(20))
        break_book();
    put_made_book(host);
    ask_type(host, other_length(BOOK_ROWS));
    ask_block(host, other_length(BOOK_ROWS));
    ask_season(host, other_length(BOOK_ROWS));
    ask_hours(host, other_length(BOOK_ROWS));
    ask_write(host, other_length(BOOK_ROWS));
    slip = make_slip(host->book(host->self));
    if (chance(10))
        set_length(&slip, TEXT_LIMIT + 1);
    if (chance(60))
        book_rows = other_length(BOOK_ROWS);
    if (book_rows == BOOK_ROWS || chance(40))
        work_rows = other_length(WORK_ROWS);
    host->slip(host->self, text_of(&slip), book_rows, work_rows);
    for (i = 0; i < TABLES; i++) {
        unsigned t = reading_order[i];

        make_sheet(t);
        if (chance(10))
            make_faults(1);
        print_sheet();
    }
    read_texts(host, other_length(BOOK_ROWS));
}

void cases_play(uint64_t seed, uint64_t number, const struct cases_host *host)
{
    enum { PLACES_EACH = 20 };
    size_t dial;

    dice = seed * 0xD1342543DE82EF95u + 1;
    dice = roll() ^ number * 0x9E6C63D0876A9A47u;
    roll();
    main_version = chance(70) ? 1 : between(1, 99);
    edition = chance(55) ? DINO_23 : DINO_21;
    meant_column = 0;
    memset(printed, 0, sizeof printed);
    if (number % PLACES_EACH == 0) {
        story_of_a_place(host, number / PLACES_EACH);
        return;
    }
    dial = below(1000);
    if (dial < 430)
        story_of_a_delivery(host);
    else if (dial < 560)
        story_of_bytes(host);
    else if (dial < 680)
        story_of_scribbles(host);
    else if (dial < 840)
        story_of_slips(host);
    else if (dial < 920)
        story_of_broken_books(host);
    else if (dial < 960)
        story_of_lengths(host);
    else if (dial < 985)
        story_of_long_texts(host);
    else
        story_of_sizes(host);
}
