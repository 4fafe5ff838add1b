/* The benchmark: the library and the plain reader do the same work by turns in one process, and each time both must give
 * the same answers. Printed are medians of many turns: times, their ratio, bytes per second, and how the time grows as the
 * number of rows doubles. By radio the library is measured against its own reading of the whole. */
#include "plain.h"
#include "../second/dice.h"
#include "../second/sides.h"

#include <inttypes.h>
#include <stdio.h>
#include <stdlib.h>
#include <string.h>
#include <time.h>

enum { SIZES = 4, SMALLEST = 64, MOST_SAMPLES = 2001, DEFAULT_SAMPLES = 201, TEXT_ROOM = 65536, WRITTEN_ROOM = 34000 };

enum { LIBRARY, PLAIN_C, SIDES };

static const struct side plain_side = {"the plain reader", plain_read, plain_slip, plain_cell, plain_type, plain_block,
    plain_season, plain_hours, plain_season_hours, plain_write, NULL, NULL, NULL, NULL};

static const struct side *sides[SIDES] = {&library_side, &plain_side};

/* ---- Time */

static uint64_t now(void)
{
    struct timespec t;

    clock_gettime(CLOCK_MONOTONIC, &t);
    return (uint64_t)t.tv_sec * 1000000000u + (uint64_t)t.tv_nsec;
}

static int compare_times(const void *one, const void *other)
{
    uint64_t a = *(const uint64_t *)one;
    uint64_t b = *(const uint64_t *)other;

    return a < b ? -1 : a > b;
}

static double median(uint64_t *times, size_t count)
{
    qsort(times, count, sizeof times[0], compare_times);
    return (double)times[count / 2];
}

/* ---- A delivery of n rows in each table */

struct growing {
    uint8_t bytes[TEXT_ROOM];
    size_t length;
};

/* The last is in key order too, with line breaks inside quotes: texts for 2.3. */
enum order { RISING, FALLING, SHUFFLED, BROKEN_UP, ORDERS };

enum { BY_21 = 21, BY_23 = 23 };

/* Where days and day types begin, and how many day types there are. */
enum { FIRST_DAY = 20251214, FIRST_DAY_TYPE = 100000000, DAY_TYPES = 8 };

/* How many types the two questions are asked for in a turn, from 10 on. */
enum { ASKED_TYPES = 8 };

static struct {
    size_t rows;
    row types[TABLE_ROWS], depots[TABLE_ROWS], stops[TABLE_ROWS], points[TABLE_ROWS], blocks[TABLE_ROWS], days[TABLE_ROWS];
    struct growing texts[ORDERS][TABLES]; /* in the order of reading */
    struct growing replacing, renewing; /* slips */
    row book[BOOK_ROWS];
    row season[BOOK_ROWS]; /* the season question's book */
    uint64_t last;         /* its last day */
} work_load;

static uint64_t dice;

static uint64_t roll(void)
{
    return dice_roll(&dice);
}

static void put(struct growing *text, const char *words)
{
    size_t length = strlen(words);

    if (text->length + length > TEXT_ROOM) {
        puts("the benchmark's own texts are too long");
        exit(2);
    }
    memcpy(text->bytes + text->length, words, length);
    text->length += length;
}

static void put_number(struct growing *text, uint64_t number)
{
    char digits[21];
    size_t at = sizeof digits - 1;

    digits[at] = 0;
    do {
        digits[--at] = (char)('0' + number % 10);
        number /= 10;
    } while (number > 0);
    put(text, digits + at);
}

/* The next day; 29 February is left out. */
static uint64_t next_day(uint64_t day)
{
    static const uint8_t days_of[] = {31, 28, 31, 30, 31, 30, 31, 31, 30, 31, 30, 31};
    uint64_t month = day / 100 % 100;

    if (day % 100 < days_of[month - 1])
        return day + 1;
    return month < 12 ? (day / 100 + 1) * 100 + 1 : (day / 10000 + 1) * 10000 + 101;
}

/* Row i of 512: 64 rows to a version, since a block can name no more than 100 types of its own. Numbers rise with i, so that
 * the rows are in key order as they are made. */
static void make_rows(size_t n)
{
    uint64_t day = FIRST_DAY;
    size_t i;

    work_load.rows = n;
    for (i = 0; i < n; i++) {
        uint64_t version = 1 + i / 64;
        size_t first = i / 64 * 64;
        const uint64_t *dep_point = work_load.points[first + roll() % (i % 64 + 1)];
        const uint64_t *arr_point = work_load.points[first + roll() % (i % 64 + 1)];
        uint64_t *point = work_load.points[i];
        uint64_t *block = work_load.blocks[i];

        work_load.types[i][0] = work_load.depots[i][0] = work_load.stops[i][0] = point[0] = block[0] = version;
        work_load.days[i][0] = version;
        work_load.days[i][1] = day;
        work_load.days[i][2] = FIRST_DAY_TYPE + roll() % DAY_TYPES;
        day = next_day(day);
        work_load.types[i][1] = i % 64 + 10;
        work_load.depots[i][1] = 10000 + i * 150;
        work_load.stops[i][1] = point[1] = 20000 + i * 150;
        point[2] = 1 + roll() % 9;
        block[1] = FIRST_DAY_TYPE + i % 64 / 8;
        block[2] = work_load.depots[first + i % 64 / 8 * 8][1];
        block[3] = 10000000 + i * 1000;
        block[4] = work_load.types[first + roll() % (i % 64 + 1)][1];
        block[5] = dep_point[1];
        block[6] = dep_point[2];
        block[7] = 10000 + roll() % 40000;
        block[8] = arr_point[1];
        block[9] = arr_point[2];
        block[10] = block[7] + roll() % 40000;
    }
}

/* A book of one version, so that no block and no day can be left out for its version: n blocks of the types that are asked for,
 * and 25 days to 16 blocks, 800 to 512, both over all day types. */
static void make_season(size_t n)
{
    row *book = work_load.season;
    size_t days = n * 25 / 16;
    uint64_t day = FIRST_DAY;
    size_t i;

    memset(book, 0, sizeof work_load.season);
    for (i = 0; i < n; i++) {
        uint64_t *type = book[i];
        uint64_t *depot = book[TABLE_ROWS + i];
        uint64_t *stop = book[2 * TABLE_ROWS + i];
        uint64_t *point = book[3 * TABLE_ROWS + i];
        uint64_t *block = book[4 * TABLE_ROWS + i];

        if (i < ASKED_TYPES) {
            type[0] = 1;
            type[1] = 10 + i;
        }
        depot[0] = stop[0] = point[0] = 1;
        depot[1] = 10000 + i * 150;
        stop[1] = point[1] = 20000 + i * 150;
        point[2] = 1;
        memcpy(block, work_load.blocks[i], sizeof(row));
        block[0] = 1;
        block[1] = FIRST_DAY_TYPE + i * DAY_TYPES / n;
        block[2] = depot[1];
        block[4] = 10 + roll() % ASKED_TYPES;
        block[6] = block[9] = 1;
    }
    for (i = 0; i < days; i++) {
        uint64_t *numbers = book[5 * TABLE_ROWS + i];

        numbers[0] = 1;
        numbers[1] = work_load.last = day;
        numbers[2] = FIRST_DAY_TYPE + roll() % DAY_TYPES;
        day = next_day(day);
    }
}

static void make_order(size_t *order, size_t n, enum order way)
{
    size_t i;

    for (i = 0; i < n; i++)
        order[i] = way == FALLING ? n - 1 - i : i;
    if (way != SHUFFLED)
        return;
    for (i = n; i > 1; i--) {
        size_t other = (size_t)(roll() % i);
        size_t kept = order[i - 1];

        order[i - 1] = order[other];
        order[other] = kept;
    }
}

static void print_key(struct growing *text, const row numbers, const char *rest)
{
    put_number(text, numbers[0]);
    put(text, ";");
    put_number(text, numbers[1]);
    put(text, rest);
}

static void print_numbers(struct growing *text, const uint64_t *numbers, size_t count, const char *between)
{
    size_t c;

    for (c = 0; c < count; c++) {
        if (c > 0)
            put(text, between);
        put_number(text, numbers[c]);
    }
    put(text, "\n");
}

static void make_texts(enum order way)
{
    struct growing *texts = work_load.texts[way];
    const char *type_rest = ";44;61;2;\"articulated; low floor\";ART;1250;2550;3020;2\n";
    const char *stop_rest = ";Market place, town hall\n";
    const char *day_rest = ";\"school holidays; all lines\";";
    size_t order[TABLE_ROWS];
    size_t n = work_load.rows;
    size_t t, i;

    if (way == BROKEN_UP) {
        type_rest = ";44;61;2;\"articulated;\nlow floor\";ART;1250;2550;3020;2\n";
        stop_rest = ";\"Market place,\ntown hall\"\n";
        day_rest = ";\"school holidays;\nall lines\";";
    }
    for (t = 0; t < TABLES; t++)
        texts[t].length = 0;
    put(&texts[0], "VERSION;VEH_TYPE_NR;VEH_TYPE_SEATS;VEH_TYPE_STRAPS;PLACES_FOR_DISABLED_PERSONS;VEH_TYPE_TEXT;STR_VEH_TYPE;"
                   "VEH_TYPE_DOOR_WIDTH;VEH_TYPE_WIDTH;VEH_TYPE_HEIGHT;VEH_TYPE_ACCESS_EQUIP\n");
    put(&texts[1], "VERSION;DEPOT_NR\n");
    put(&texts[2], "VERSION;STOP_NR;STOP_NAME\n");
    put(&texts[3], "VERSION;STOP_NR;STOPPING_POINT_NR\n");
    put(&texts[4], "VERSION;DAY_TYPE_NR;DEPOT_NR;BLOCK_NR;VEH_TYP_NR;DEP_STOP_NR;DEP_STOPPING_POINT_NR;BEGIN_OF_BLOCK;"
                   "ARR_STOP_NR;ARR_STOPPING_POINT_NR;END_OF_BLOCK\n");
    put(&texts[5], "VERSION;DAY;DAY_TEXT;DAY_TYPE_NR\n");
    make_order(order, n, way);
    for (i = 0; i < n; i++) {
        print_key(&texts[0], work_load.types[order[i]], type_rest);
        print_key(&texts[1], work_load.depots[order[i]], "\n");
        print_key(&texts[2], work_load.stops[order[i]], stop_rest);
        print_numbers(&texts[3], work_load.points[order[i]], 3, ";");
        print_numbers(&texts[4], work_load.blocks[order[i]], NUMBERS, ";");
        print_key(&texts[5], work_load.days[order[i]], day_rest);
        print_numbers(&texts[5], work_load.days[order[i]] + 2, 1, ";");
    }
}

/* One slip replaces every block, another deletes all and adds them again, both in no order. */
static void make_slips(void)
{
    size_t order[TABLE_ROWS];
    size_t n = work_load.rows;
    size_t i;

    work_load.replacing.length = 0;
    work_load.renewing.length = 0;
    make_order(order, n, SHUFFLED);
    for (i = 0; i < n; i++) {
        row numbers;

        memcpy(numbers, work_load.blocks[order[i]], sizeof numbers);
        numbers[10] += 1;
        put(&work_load.replacing, "R\t");
        print_numbers(&work_load.replacing, numbers, NUMBERS, "\t");
        put(&work_load.renewing, "D\t");
        print_numbers(&work_load.renewing, numbers, 4, "\t");
    }
    make_order(order, n, SHUFFLED);
    for (i = 0; i < n; i++) {
        put(&work_load.renewing, "A\t");
        print_numbers(&work_load.renewing, work_load.blocks[order[i]], NUMBERS, "\t");
    }
}

static void make_load(size_t n)
{
    uint64_t place[4];
    struct text texts[TABLES];
    size_t t;
    int way;

    dice = n;
    make_rows(n);
    for (way = 0; way < ORDERS; way++)
        make_texts((enum order)way);
    make_slips();
    make_season(n);
    for (t = 0; t < TABLES; t++) {
        texts[t].bytes = work_load.texts[RISING][t].bytes;
        texts[t].length = work_load.texts[RISING][t].length;
    }
    if (side_read(&plain_side, BY_21, texts, work_load.book, BOOK_ROWS, place) != 0) {
        puts("the benchmark's own delivery is refused");
        exit(2);
    }
}

/* ---- One turn of an operation */

/* What a side holds and answers. */
static struct {
    row book[BOOK_ROWS];
    row work[WORK_ROWS];
    uint8_t out[WRITTEN_ROOM];
    uint64_t returned, place[4], numbers[2];
} held[SIDES];

struct operation {
    const char *words;
    void (*turn)(int s, const struct operation *operation);
    const row *book; /* that a turn begins with */
    enum order order;
    uint64_t edition; /* of a reading; all else goes by the book's, which is 2.1 */
    size_t calls; /* in one turn: the short ones are called some times, so that the clock's steps do not matter */
    size_t (*bytes)(const struct operation *operation);
};

static void turn_read(int s, const struct operation *operation)
{
    const struct growing *t = work_load.texts[operation->order];

    held[s].returned = sides[s]->read(operation->edition, t[0].bytes, t[0].length, t[1].bytes, t[1].length, t[2].bytes,
        t[2].length, t[3].bytes, t[3].length, t[4].bytes, t[4].length, t[5].bytes, t[5].length, held[s].book, BOOK_ROWS,
        held[s].place);
}

static size_t bytes_read(const struct operation *operation)
{
    const struct growing *t = work_load.texts[operation->order];

    return t[0].length + t[1].length + t[2].length + t[3].length + t[4].length + t[5].length;
}

static void slip(int s, const struct growing *text)
{
    held[s].returned = sides[s]->slip(text->bytes, text->length, held[s].book, BOOK_ROWS, held[s].work, WORK_ROWS,
        held[s].place);
}

static void turn_replace(int s, const struct operation *operation)
{
    (void)operation;
    slip(s, &work_load.replacing);
}

static size_t bytes_replaced(const struct operation *operation)
{
    (void)operation;
    return work_load.replacing.length;
}

static void turn_renew(int s, const struct operation *operation)
{
    (void)operation;
    slip(s, &work_load.renewing);
}

static size_t bytes_renewed(const struct operation *operation)
{
    (void)operation;
    return work_load.renewing.length;
}

static void turn_type(int s, const struct operation *operation)
{
    size_t i;

    for (i = 0; i < operation->calls; i++)
        held[s].returned = sides[s]->type((const row *)held[s].book, BOOK_ROWS, 1, 10 + i, held[s].numbers, held[s].place);
}

static void turn_season(int s, const struct operation *operation)
{
    size_t i;

    for (i = 0; i < operation->calls; i++)
        held[s].returned = sides[s]->season((const row *)held[s].book, BOOK_ROWS, 1, 10 + i, FIRST_DAY, work_load.last,
            held[s].numbers, held[s].place);
}

/* A question looks at the whole book. */
static size_t bytes_of_book(const struct operation *operation)
{
    (void)operation;
    return sizeof work_load.book;
}

static void turn_write(int s, const struct operation *operation)
{
    size_t i;

    for (i = 0; i < operation->calls; i++)
        held[s].returned = sides[s]->write((const row *)held[s].book, BOOK_ROWS, held[s].out, WRITTEN_ROOM, held[s].numbers,
            held[s].place);
}

static size_t bytes_written(const struct operation *operation)
{
    (void)operation;
    return (size_t)held[PLAIN_C].numbers[0];
}

#define DELIVERED (const row *)work_load.book

static const struct operation operations[] = {
    {"read, in key order", turn_read, DELIVERED, RISING, BY_21, 1, bytes_read},
    {"read, reversed", turn_read, DELIVERED, FALLING, BY_21, 1, bytes_read},
    {"read, shuffled", turn_read, DELIVERED, SHUFFLED, BY_21, 1, bytes_read},
    {"read by 2.3, with breaks", turn_read, DELIVERED, BROKEN_UP, BY_23, 1, bytes_read},
    {"slip, replace all", turn_replace, DELIVERED, RISING, BY_21, 1, bytes_replaced},
    {"slip, delete and add all", turn_renew, DELIVERED, RISING, BY_21, 1, bytes_renewed},
    {"type question", turn_type, DELIVERED, RISING, BY_21, ASKED_TYPES, bytes_of_book},
    {"season question", turn_season, (const row *)work_load.season, RISING, BY_21, ASKED_TYPES, bytes_of_book},
    {"write", turn_write, DELIVERED, RISING, BY_21, 8, bytes_written},
};

enum { OPERATIONS = sizeof operations / sizeof operations[0] };

/* Both sides start a turn from the same; this is not timed. */
static void prepare(int s, const row *book)
{
    memcpy(held[s].book, book, sizeof held[s].book);
    memset(held[s].place, 0xAB, sizeof held[s].place);
    memset(held[s].numbers, 0, sizeof held[s].numbers);
}

static void want_same(const struct operation *operation)
{
    if (memcmp(&held[LIBRARY], &held[PLAIN_C], sizeof held[0]) == 0 && held[LIBRARY].returned == 0)
        return;
    printf("FAILED: %s, %" PRIu64 " rows: the sides differ, or refuse (%" PRIu64 ", %" PRIu64 ")\n", operation->words,
        (uint64_t)work_load.rows, held[LIBRARY].returned, held[PLAIN_C].returned);
    exit(1);
}

/* ---- Measuring */

struct result {
    double time[SIDES]; /* nanoseconds a call */
    size_t bytes;
};

static struct result results[OPERATIONS][SIZES];

static void measure(const struct operation *operation, size_t samples, struct result *result)
{
    static uint64_t times[SIDES][MOST_SAMPLES];
    size_t i;
    int s, turn;

    memset(held, 0, sizeof held);
    for (i = 0; i < samples; i++) {
        for (turn = 0; turn < SIDES; turn++) {
            uint64_t began;

            s = (turn + (int)(i & 1)) % SIDES; /* neither is always the first */
            prepare(s, operation->book);
            began = now();
            operation->turn(s, operation);
            times[s][i] = now() - began;
        }
        want_same(operation);
    }
    for (s = 0; s < SIDES; s++)
        result->time[s] = median(times[s], samples) / (double)operation->calls;
    result->bytes = operation->bytes(operation);
}

static void print_result(const struct operation *operation, size_t size)
{
    const struct result *result = &results[operation - operations][size];
    const struct result *half = result - 1;
    int s;

    printf("%-26s %4" PRIu64 " %7" PRIu64 " %9.1f %9.1f %6.2f", operation->words, (uint64_t)SMALLEST << size,
        (uint64_t)result->bytes, result->time[LIBRARY] / 1000, result->time[PLAIN_C] / 1000,
        result->time[LIBRARY] / result->time[PLAIN_C]);
    for (s = 0; s < SIDES; s++)
        printf(" %9.1f", (double)result->bytes * 1000 / result->time[s]);
    for (s = 0; s < SIDES && size > 0; s++)
        printf(" %6.2f", result->time[s] / half->time[s]);
    putchar('\n');
}

/* The ratios of the full size, the worst of each kind of operation: what the targets are set for. */
static void print_worst(const char *words, size_t first, size_t last)
{
    double worst = 0;
    size_t o;

    for (o = first; o <= last; o++) {
        const struct result *result = &results[o][SIZES - 1];
        double ratio = result->time[LIBRARY] / result->time[PLAIN_C];

        if (ratio > worst)
            worst = ratio;
    }
    printf("  %-8s %6.2f\n", words, worst);
}

/* ---- By radio */

/* How a delivery of 512 rows is cut, and in how many turns it is measured: a part costs more than its bytes, so the smaller
 * the parts the fewer the turns. */
static const struct cut {
    const char *words;
    size_t bytes;        /* of a part; 0: a table is one */
    size_t turns_in_200; /* of 200 that the whole reading has */
} cuts[] = {
    {"a table in one part", 0, 200},
    {"parts of 1,024 bytes", 1024, 200},
    {"parts of 64 bytes", 64, 20},
    {"parts of 1 byte", 1, 1},
};

/* What the library keeps between the calls; the book is the one that is held. */
static struct {
    uint64_t kept[RADIO_KEPT];
    uint8_t lines[RADIO_LINES];
    struct second_radio own;
} kept_by_radio;

static void send_table(const struct radio *radio, const struct growing *text, size_t bytes)
{
    const struct side *side = sides[LIBRARY];
    size_t size = bytes ? bytes : text->length;
    size_t at;

    side->radio_announce(text->length, radio, held[LIBRARY].place);
    for (at = 0; at < text->length; at += size) {
        struct text part;

        part.bytes = text->bytes + at;
        part.length = size < text->length - at ? size : text->length - at;
        side->radio_part(part, radio, held[LIBRARY].place);
    }
    held[LIBRARY].returned = side->radio_close(radio, held[LIBRARY].place);
}

static void send_delivery(size_t bytes)
{
    struct radio radio = {held[LIBRARY].book, kept_by_radio.kept, kept_by_radio.lines, &kept_by_radio.own, right_lengths};
    size_t t;

    sides[LIBRARY]->radio_open(BY_21, &radio, held[LIBRARY].place);
    for (t = 0; t < TABLES; t++)
        send_table(&radio, &work_load.texts[RISING][t], bytes);
}

/* Times of the whole reading and of the radio by turns; both must leave the book that the load was made with. */
static void measure_cut(const struct cut *cut, size_t samples)
{
    static uint64_t whole[MOST_SAMPLES], parts[MOST_SAMPLES];
    size_t turns = (samples * cut->turns_in_200 + 199) / 200;
    size_t calls = 1;
    double whole_time, parts_time;
    size_t i, t;

    for (i = 0; i < turns; i++) {
        uint64_t began;

        prepare(LIBRARY, DELIVERED);
        began = now();
        turn_read(LIBRARY, &operations[0]);
        whole[i] = now() - began;
        prepare(LIBRARY, DELIVERED);
        began = now();
        send_delivery(cut->bytes);
        parts[i] = now() - began;
        if (held[LIBRARY].returned != 0 || memcmp(held[LIBRARY].book, work_load.book, sizeof work_load.book) != 0) {
            printf("FAILED: by radio, %s: another answer than the whole reading's\n", cut->words);
            exit(1);
        }
    }
    for (t = 0; t < TABLES; t++) {
        size_t length = work_load.texts[RISING][t].length;

        calls += 2 + (cut->bytes ? (length + cut->bytes - 1) / cut->bytes : 1);
    }
    whole_time = median(whole, turns);
    parts_time = median(parts, turns);
    printf("%-26s %6" PRIu64 " %11.1f %11.1f %9.2f %9.1f\n", cut->words, (uint64_t)calls, parts_time / 1000,
        whole_time / 1000, parts_time / whole_time, parts_time / 1000 / (double)calls);
}

static void measure_radio(size_t samples)
{
    size_t i;

    if (!sides[LIBRARY]->radio_open)
        return;
    printf("by radio at %" PRIu64 " rows, in key order, against the library's own reading of the whole:\n",
        (uint64_t)work_load.rows);
    printf("%-26s %6s %11s %11s %9s %9s\n", "", "calls", "by radio", "whole", "ratio", "a call");
    printf("%-26s %6s %11s %11s %9s %9s\n", "", "", "us", "us", "", "us");
    for (i = 0; i < sizeof cuts / sizeof cuts[0]; i++)
        measure_cut(&cuts[i], samples);
}

int main(int words, char **word)
{
    size_t samples = DEFAULT_SAMPLES;
    size_t size, o;

    if (words == 3 && strcmp(word[1], "--samples") == 0)
        samples = (size_t)strtoull(word[2], NULL, 10);
    else if (words != 1)
        samples = 0;
    if (samples < 1 || samples > MOST_SAMPLES) {
        printf("bench [--samples N]   N from 1 to %d\n", MOST_SAMPLES);
        return 2;
    }
    for (size = 0; size < SIZES; size++) {
        make_load((size_t)SMALLEST << size);
        for (o = 0; o < OPERATIONS; o++)
            measure(&operations[o], samples, &results[o][size]);
    }
    printf("library: %s; plain: a plain C reader; medians of %" PRIu64 " turns\n", library_side.name, (uint64_t)samples);
    printf("%-26s %4s %7s %9s %9s %6s %9s %9s %13s\n", "", "rows", "bytes", "library", "plain", "ratio", "library", "plain",
        "growth from");
    printf("%-26s %4s %7s %9s %9s %6s %9s %9s %13s\n", "", "", "", "us", "us", "", "MB/s", "MB/s", "half the rows");
    for (o = 0; o < OPERATIONS; o++)
        for (size = 0; size < SIZES; size++)
            print_result(&operations[o], size);
    puts("the season question is asked of a book with 25 days to 16 rows, 800 to 512, and 8 day types");
    printf("worst ratio at %d rows:\n", SMALLEST << (SIZES - 1));
    print_worst("reading", 0, 3);
    print_worst("slip", 4, 5);
    print_worst("question", 6, 6);
    print_worst("season", 7, 7);
    print_worst("writing", 8, 8);
    measure_radio(samples); /* on the load of the full size, which was made last */
    return 0;
}
