/* The host: plays cases on the library and on the second reader and compares every answer, place, book row, output byte
 * and working area, and that nothing else was touched. */
#include "cases.h"
#include "columns.h"
#include "edges.h"

#include <inttypes.h>
#include <signal.h>
#include <stdio.h>
#include <stdlib.h>
#include <string.h>

enum { DEFAULT_SEED = 1, DEFAULT_COUNT = 10000, WANTED_EACH = 20, SHOWN_FAILURES = 10, REFUSALS = 24, GUARD = 64 };

/* The two sides of everything that is lent: 0 the library's, 1 the second reader's. */
enum { SIDES = 2, SECOND = 1 };

static const struct side *const sides[SIDES] = {&library_side, &second_side};

static struct {
    uint64_t seed, number; /* the case that is played */
    uint64_t calls;        /* in this case */
    uint64_t all_calls;
    int failed; /* this case */
    int shown;  /* failures so far */
    int verbose;
    row book[SIDES][BOOK_ROWS];     /* the standing book */
    uint8_t other_bytes[TABLES][140000]; /* the standing book's other tables, as texts; the blocks have none */
    struct text others[TABLES];
    unsigned edition; /* of the call */
    uint64_t came[REFUSALS];
    uint64_t seasons;      /* that have some seconds */
    uint64_t season_hours; /* that are not 0 */
    uint64_t apart;        /* hours whose two numbers differ */
    uint64_t came_at[EDITIONS][REFUSALS][LAST_TABLE + 1][34]; /* by edition, table and column */
} host;

/* ---- Printing */

static void show_bytes(const uint8_t *bytes, size_t length)
{
    size_t i;

    putchar('"');
    for (i = 0; i < length; i++) {
        if (bytes[i] == '\n')
            printf(i + 1 < length ? "\\n\"\n      \"" : "\\n");
        else if (bytes[i] == '\r')
            printf("\\r");
        else if (bytes[i] == '\t')
            printf("\\t");
        else if (bytes[i] == '"' || bytes[i] == '\\')
            printf("\\%c", bytes[i]);
        else if (bytes[i] >= 32 && bytes[i] < 127)
            putchar(bytes[i]);
        else
            printf("\\%03o", bytes[i]);
    }
    printf("\"\n");
}

static void show_text(const char *name, struct text text)
{
    printf("    %s, %" PRIu64 " bytes:\n      ", name, (uint64_t)text.length);
    show_bytes(text.bytes, text.length);
}

static void show_numbers(const char *name, const uint64_t *numbers, size_t count)
{
    size_t i;

    printf("    %s:", name);
    for (i = 0; i < count; i++)
        printf(" %" PRIu64, numbers[i]);
    putchar('\n');
}

static void show_bits(const uint64_t *numbers, size_t count)
{
    size_t i;

    printf("    in hexadecimal digits:");
    for (i = 0; i < count; i++)
        printf(" %016" PRIx64, numbers[i]);
    putchar('\n');
}

/* The rows that are not all zero. */
static void show_rows(const char *name, const row *rows, size_t count)
{
    static const row zeros;
    size_t i;

    printf("    %s, %" PRIu64 " rows, of them not zero:\n", name, (uint64_t)count);
    for (i = 0; i < count; i++)
        if (memcmp(rows[i], zeros, sizeof zeros) != 0) {
            printf("  %5" PRIu64, (uint64_t)i);
            show_numbers(" row", rows[i], NUMBERS);
        }
}

/* ---- Comparing */

/* `edition` is the caller's name of one. What is refused for another one counts with 2.1. */
static void begin_call(const char *what, uint64_t edition)
{
    host.edition = edition == name_of_edition(DINO_23) ? DINO_23 : DINO_21;
    host.calls++;
    host.all_calls++;
    if (host.verbose)
        printf("call %" PRIu64 ": %s\n", host.calls, what);
}

static void fail(const char *what)
{
    host.failed = 1;
    if (host.shown++ >= SHOWN_FAILURES && !host.verbose)
        return;
    printf("FAILED: seed %" PRIu64 ", case %" PRIu64 ", call %" PRIu64 ": %s\n", host.seed, host.number, host.calls, what);
    if (!host.verbose)
        printf("  its inputs: second/run --seed %" PRIu64 " --case %" PRIu64 "\n", host.seed, host.number);
}

static void want_same(const char *what, const void *one, const void *other, size_t length)
{
    if (memcmp(one, other, length) != 0)
        fail(what);
}

/* Rows in place of bytes: the first that differs is shown. */
static void want_same_rows(const char *what, const row *one, const row *other, size_t count)
{
    size_t i;

    for (i = 0; i < count; i++)
        if (memcmp(one[i], other[i], sizeof one[i]) != 0) {
            fail(what);
            if (host.verbose) {
                printf("    row %" PRIu64 " is the first:\n", (uint64_t)i);
                show_numbers(sides[0]->name, one[i], NUMBERS);
                show_numbers(sides[1]->name, other[i], NUMBERS);
            }
            return;
        }
}

static void want_zero(const char *what, const row *rows, size_t count)
{
    static const row zeros;
    size_t i;

    for (i = 0; i < count; i++)
        want_same(what, rows[i], zeros, sizeof zeros);
}

/* What every call answers on each side. */
struct answers {
    uint64_t returned[SIDES];
    uint64_t place[SIDES][4];
    uint64_t numbers[SIDES][8];
};

/* Answers start as something that no call may leave. */
static struct answers fresh_answers(void)
{
    struct answers answers;

    memset(&answers, 0xAB, sizeof answers);
    return answers;
}

static void count_refusal(const uint64_t place[4])
{
    if (place[0] >= REFUSALS)
        return;
    host.came[place[0]]++;
    if (place[1] <= LAST_TABLE && place[3] < 34)
        host.came_at[host.edition][place[0]][place[1]][place[3]]++;
}

static void compare_answers(const struct answers *answers)
{
    int s;

    count_refusal(answers->place[SECOND]);
    if (host.verbose)
        for (s = 0; s < SIDES; s++) {
            printf("  %s returned %" PRIu64 "\n", sides[s]->name, answers->returned[s]);
            show_numbers("place", answers->place[s], 4);
            show_numbers("numbers", answers->numbers[s], 8);
        }
    want_same("the returned numbers differ", &answers->returned[0], &answers->returned[1], sizeof answers->returned[0]);
    want_same("the places differ", answers->place[0], answers->place[1], sizeof answers->place[0]);
    want_same("the numbers answered differ", answers->numbers[0], answers->numbers[1], sizeof answers->numbers[0]);
    for (s = 0; s < SIDES; s++)
        if (answers->returned[s] != answers->place[s][0])
            fail("the returned number is not the place's");
}

/* ---- Rooms: memory of exactly the length that is lent, so that a checked build sees a step past its end */

static void *room_of(size_t length)
{
    void *room = malloc(length ? length : 1);

    if (!room) {
        puts("no memory");
        exit(2);
    }
    return room;
}

static void *copy_of(const void *from, size_t length)
{
    void *room = room_of(length);

    memcpy(room, from, length);
    return room;
}

static struct text copy_of_text(struct text text)
{
    struct text copy;

    copy.bytes = copy_of(text.bytes, text.length);
    copy.length = text.length;
    return copy;
}

/* Frees a copy, after a look whether it is still what it was. */
static void end_copy(const char *what, void *copy, const void *original, size_t length)
{
    want_same(what, copy, original, length);
    free(copy);
}

static void end_text(struct text copy, struct text original)
{
    end_copy("an input text was changed", (void *)copy.bytes, original.bytes, original.length);
}

/* Garbage, the same for both sides: what a call may not rely on. */
static void fill_with_garbage(uint64_t *room, size_t count)
{
    uint64_t state = host.seed * 31 + host.number * 7 + host.calls;
    size_t i;

    for (i = 0; i < count; i++) {
        state = state * 6364136223846793005u + 1442695040888963407u;
        room[i] = state >> (state & 1 ? 60 : 11);
    }
}

static void fill_rows_with_garbage(row *room, size_t rows)
{
    fill_with_garbage(room[0], rows * NUMBERS);
}

/* A book to lend. Those of the right length are lent so often that they have a place of their own. */
static row *open_book(int s, size_t rows)
{
    static row usual[SIDES][BOOK_ROWS];

    return rows == BOOK_ROWS ? usual[s] : room_of(rows * sizeof usual[0][0]);
}

static void close_book(row *room, size_t rows)
{
    if (rows != BOOK_ROWS)
        free(room);
}

/* The standing book of one side, lent at some length: cut short, or with zeros behind it. */
static row *lend_book(int s, size_t rows)
{
    row *room = open_book(s, rows);
    size_t kept = rows < BOOK_ROWS ? rows : BOOK_ROWS;

    memset(room + kept, 0, (rows - kept) * sizeof room[0]);
    memcpy(room, host.book[s], kept * sizeof room[0]);
    return room;
}

/* Takes back a book that was lent for looking at. */
static void end_looking(const char *what, row *room, int s, size_t rows)
{
    size_t kept = rows < BOOK_ROWS ? rows : BOOK_ROWS;

    want_same(what, room, host.book[s], kept * sizeof room[0]);
    want_zero(what, (const row *)room + kept, rows - kept);
    close_book(room, rows);
}

/* ---- The calls */

/* After a failure the two sides may hold different books, so the rest of the case would only repeat it. */
static int is_over(void)
{
    return host.failed;
}

static void keep_others(const struct text others[TABLES])
{
    size_t i;

    for (i = 0; i < TABLES; i++) {
        if (reading_order[i] == VEHICLE_BLOCK)
            continue;
        memcpy(host.other_bytes[i], others[i].bytes, others[i].length);
        host.others[i].bytes = host.other_bytes[i];
        host.others[i].length = others[i].length;
    }
}

/* The other tables of the book that a refused reading leaves. */
static void keep_empty_others(void)
{
    static const char *const headers[TABLES] = {"VERSION;VEH_TYPE_NR\n", "VERSION;DEPOT_NR\n", "VERSION;STOP_NR;STOP_NAME\n",
        "VERSION;STOP_NR;STOPPING_POINT_NR\n", "", "VERSION;DAY;DAY_TYPE_NR\n"};
    struct text others[TABLES];
    size_t i;

    for (i = 0; i < TABLES; i++) {
        others[i].bytes = (const uint8_t *)headers[i];
        others[i].length = strlen(headers[i]);
    }
    keep_others(others);
}

static void call_read(void *self, uint64_t edition, const struct text texts[TABLES], size_t book_rows)
{
    struct answers answers = fresh_answers();
    row *books[SIDES];
    size_t i;
    int s;

    (void)self;
    if (is_over())
        return;
    begin_call("read", edition);
    if (host.verbose) {
        show_text("vehicle_type", texts[0]);
        show_text("depot", texts[1]);
        show_text("stop", texts[2]);
        show_text("stop_point", texts[3]);
        show_text("vehicle_block", texts[4]);
        show_text("day_type_calendar", texts[5]);
        printf("    by edition %" PRIu64 ", into a book of %" PRIu64 " rows of garbage\n", edition, (uint64_t)book_rows);
    }
    for (s = 0; s < SIDES; s++) {
        struct text copies[TABLES];

        books[s] = open_book(s, book_rows);
        fill_rows_with_garbage(books[s], book_rows);
        for (i = 0; i < TABLES; i++)
            copies[i] = copy_of_text(texts[i]);
        answers.returned[s] = side_read(sides[s], edition, copies, books[s], book_rows, answers.place[s]);
        for (i = 0; i < TABLES; i++)
            end_text(copies[i], texts[i]);
    }
    compare_answers(&answers);
    want_same_rows("the books read differ", (const row *)books[0], (const row *)books[1], book_rows);
    for (s = 0; s < SIDES; s++) {
        if (book_rows == BOOK_ROWS)
            memcpy(host.book[s], books[s], sizeof host.book[s]);
        close_book(books[s], book_rows);
    }
    if (book_rows != BOOK_ROWS)
        return;
    if (answers.returned[SECOND] == 0)
        keep_others(texts);
    else
        keep_empty_others();
}

/* The name of the standing book's edition. */
static uint64_t edition_of_book(int s)
{
    return name_of_edition(host.book[s][MARKS][0] == 1 ? DINO_23 : DINO_21);
}

static void call_put_book(void *self, const row *book, const struct text others[TABLES])
{
    int s;

    (void)self;
    if (is_over())
        return;
    if (host.verbose)
        show_rows("from here on the standing book is", book, BOOK_ROWS);
    for (s = 0; s < SIDES; s++)
        memcpy(host.book[s], book, sizeof host.book[s]);
    keep_others(others);
}

/* Whether the book that a slip left is the one that a fresh reading of its written blocks leaves, on this side, by the book's
 * own edition. */
static void compare_afresh(int s)
{
    static uint8_t written[40000];
    static row afresh[BOOK_ROWS];
    uint64_t place[4], length[1];
    struct text texts[TABLES];

    if (sides[s]->write((const row *)host.book[s], BOOK_ROWS, written, sizeof written, length, place) != 0) {
        fail("the book that a slip left is not written");
        return;
    }
    memcpy(texts, host.others, sizeof texts);
    texts[part_of(VEHICLE_BLOCK)].bytes = written;
    texts[part_of(VEHICLE_BLOCK)].length = (size_t)length[0];
    if (side_read(sides[s], edition_of_book(s), texts, afresh, BOOK_ROWS, place) != 0) {
        fail("the blocks written after a slip are not read");
        return;
    }
    want_same("the book after a slip is not that of reading it afresh", afresh, host.book[s], sizeof afresh);
}

static void call_slip(void *self, struct text slip, size_t book_rows, size_t work_rows)
{
    struct answers answers = fresh_answers();
    row *books[SIDES];
    row *works[SIDES];
    int s;

    (void)self;
    if (is_over())
        return;
    begin_call("slip", edition_of_book(SECOND));
    if (host.verbose) {
        show_text("slip", slip);
        show_rows("book", (const row *)host.book[SECOND], BOOK_ROWS);
        printf("    lent: %" PRIu64 " rows of book, %" PRIu64 " of working area\n", (uint64_t)book_rows, (uint64_t)work_rows);
    }
    for (s = 0; s < SIDES; s++) {
        struct text copy = copy_of_text(slip);

        books[s] = lend_book(s, book_rows);
        works[s] = room_of(work_rows * sizeof works[s][0]);
        fill_rows_with_garbage(works[s], work_rows);
        answers.returned[s] = sides[s]->slip(copy.bytes, copy.length, books[s], book_rows, works[s], work_rows,
            answers.place[s]);
        end_text(copy, slip);
    }
    compare_answers(&answers);
    want_same_rows("the books after a slip differ", (const row *)books[0], (const row *)books[1], book_rows);
    want_same_rows("the working areas after a slip differ", (const row *)works[0], (const row *)works[1], work_rows);
    for (s = 0; s < SIDES; s++) {
        if (book_rows == BOOK_ROWS)
            memcpy(host.book[s], books[s], sizeof host.book[s]);
        close_book(books[s], book_rows);
        free(works[s]);
        if (!is_over() && answers.returned[s] == 0)
            compare_afresh(s);
    }
}

static void call_cell(void *self, uint64_t edition, struct text text, uint64_t table, uint64_t line, uint64_t column)
{
    struct answers answers = fresh_answers();
    int s;

    (void)self;
    if (is_over())
        return;
    begin_call("cell", edition);
    if (host.verbose) {
        show_text("text", text);
        printf("    edition %" PRIu64 ", table %" PRIu64 ", line %" PRIu64 ", column %" PRIu64 "\n", edition, table, line,
            column);
    }
    for (s = 0; s < SIDES; s++) {
        struct text copy = copy_of_text(text);

        answers.returned[s] = sides[s]->cell(edition, copy.bytes, copy.length, table, line, column, answers.numbers[s],
            answers.place[s]);
        end_text(copy, text);
    }
    compare_answers(&answers);
}

static void call_type(void *self, size_t book_rows, uint64_t version, uint64_t number)
{
    struct answers answers = fresh_answers();
    int s;

    (void)self;
    if (is_over())
        return;
    begin_call("type", edition_of_book(SECOND));
    if (host.verbose)
        printf("    version %" PRIu64 ", number %" PRIu64 ", %" PRIu64 " rows of book\n", version, number, (uint64_t)book_rows);
    for (s = 0; s < SIDES; s++) {
        row *book = lend_book(s, book_rows);

        answers.returned[s] = sides[s]->type((const row *)book, book_rows, version, number, answers.numbers[s],
            answers.place[s]);
        end_looking("a type question changed the book", book, s, book_rows);
    }
    compare_answers(&answers);
}

static void call_block(void *self, size_t book_rows, const uint64_t key[4])
{
    struct answers answers = fresh_answers();
    int s;

    (void)self;
    if (is_over())
        return;
    begin_call("block", edition_of_book(SECOND));
    if (host.verbose) {
        show_numbers("key", key, 4);
        printf("    %" PRIu64 " rows of book\n", (uint64_t)book_rows);
    }
    for (s = 0; s < SIDES; s++) {
        row *book = lend_book(s, book_rows);

        answers.returned[s] = sides[s]->block((const row *)book, book_rows, key[0], key[1], key[2], key[3],
            answers.numbers[s], answers.place[s]);
        end_looking("a block question changed the book", book, s, book_rows);
    }
    compare_answers(&answers);
}

static void call_season(void *self, size_t book_rows, uint64_t version, uint64_t number, uint64_t first, uint64_t last)
{
    struct answers answers = fresh_answers();
    int s;

    (void)self;
    if (is_over())
        return;
    begin_call("season", edition_of_book(SECOND));
    if (host.verbose)
        printf("    version %" PRIu64 ", number %" PRIu64 ", from %" PRIu64 " to %" PRIu64 ", %" PRIu64 " rows of book\n",
            version, number, first, last, (uint64_t)book_rows);
    for (s = 0; s < SIDES; s++) {
        row *book = lend_book(s, book_rows);

        answers.returned[s] = sides[s]->season((const row *)book, book_rows, version, number, first, last, answers.numbers[s],
            answers.place[s]);
        end_looking("a season question changed the book", book, s, book_rows);
    }
    compare_answers(&answers);
    host.seasons += answers.returned[SECOND] == 0 && answers.numbers[SECOND][0] > 0;
}

/* Hours are compared by their bits, and so they have a room of their own: as many doubles as an answer has numbers. */
enum { MOST_HOURS = 8 };

struct hours {
    double room[MOST_HOURS];
};

static struct hours fresh_hours(void)
{
    struct hours hours;

    memset(&hours, 0xAB, sizeof hours);
    return hours;
}

/* An array of negative length where the bits of a double are not those of a number. */
typedef char doubles_are_numbers[sizeof(struct hours) == MOST_HOURS * sizeof(uint64_t) ? 1 : -1];

static void keep_bits(struct answers *answers, int s, const struct hours *hours)
{
    memcpy(answers->numbers[s], hours->room, sizeof answers->numbers[s]);
    if (host.verbose)
        show_bits(answers->numbers[s], 2);
}

static void call_hours(void *self, size_t book_rows, uint64_t version, uint64_t number)
{
    struct answers answers = fresh_answers();
    int s;

    (void)self;
    if (is_over())
        return;
    begin_call("hours", edition_of_book(SECOND));
    if (host.verbose)
        printf("    version %" PRIu64 ", number %" PRIu64 ", %" PRIu64 " rows of book\n", version, number, (uint64_t)book_rows);
    for (s = 0; s < SIDES; s++) {
        row *book = lend_book(s, book_rows);
        struct hours hours = fresh_hours();

        answers.returned[s] = sides[s]->hours((const row *)book, book_rows, version, number, hours.room, answers.place[s]);
        keep_bits(&answers, s, &hours);
        end_looking("a question for hours changed the book", book, s, book_rows);
    }
    compare_answers(&answers);
    host.apart += answers.numbers[SECOND][0] != answers.numbers[SECOND][1];
}

static void call_season_hours(void *self, size_t book_rows, uint64_t version, uint64_t number, uint64_t first, uint64_t last)
{
    struct answers answers = fresh_answers();
    int s;

    (void)self;
    if (is_over())
        return;
    begin_call("hours of a season", edition_of_book(SECOND));
    if (host.verbose)
        printf("    version %" PRIu64 ", number %" PRIu64 ", from %" PRIu64 " to %" PRIu64 ", %" PRIu64 " rows of book\n",
            version, number, first, last, (uint64_t)book_rows);
    for (s = 0; s < SIDES; s++) {
        row *book = lend_book(s, book_rows);
        struct hours hours = fresh_hours();

        answers.returned[s] = sides[s]->season_hours((const row *)book, book_rows, version, number, first, last, hours.room,
            answers.place[s]);
        keep_bits(&answers, s, &hours);
        end_looking("a question for a season's hours changed the book", book, s, book_rows);
    }
    compare_answers(&answers);
    host.season_hours += answers.numbers[SECOND][0] != 0;
}

static void call_write(void *self, size_t book_rows, size_t out_length)
{
    struct answers answers = fresh_answers();
    uint8_t *outs[SIDES];
    int s;

    (void)self;
    if (is_over())
        return;
    begin_call("write", edition_of_book(SECOND));
    if (host.verbose)
        printf("    %" PRIu64 " rows of book, %" PRIu64 " bytes of output\n", (uint64_t)book_rows, (uint64_t)out_length);
    for (s = 0; s < SIDES; s++) {
        row *book = lend_book(s, book_rows);

        outs[s] = room_of(out_length + GUARD);
        memset(outs[s], 0xC7, out_length + GUARD);
        answers.returned[s] = sides[s]->write((const row *)book, book_rows, outs[s], out_length, answers.numbers[s],
            answers.place[s]);
        end_looking("a writing changed the book", book, s, book_rows);
    }
    compare_answers(&answers);
    want_same("the outputs differ", outs[0], outs[1], out_length + GUARD);
    for (s = 0; s < SIDES; s++)
        free(outs[s]);
}

/* ---- The calls by radio */

/* What is kept between the calls, all that the library's side is lent. */
struct kept {
    row book[BOOK_ROWS];
    uint64_t kept[RADIO_KEPT];
    uint8_t lines[RADIO_LINES];
};

static struct {
    struct kept kept[SIDES];
    struct second_radio own[SIDES]; /* and what a side that is the second reader keeps */
    struct kept before;             /* the library's, before the call */
    uint64_t edition;               /* that the delivery was opened by */
    /* While what the library keeps is damaged: what it kept before, and whether it has taken a call since. */
    int damaged, taken;
    struct kept whole;
    struct second_radio whole_own;
} radio;

/* Whether both sides take deliveries by radio. Where not, nothing is sent. */
static int has_radio(void)
{
    return sides[0]->radio_open && sides[1]->radio_open;
}

enum radio_call { OPEN, ANNOUNCE, PART, CLOSE };

/* `number` is the edition of an opening and the length of an announcement. */
static uint64_t make_radio_call(const struct side *side, enum radio_call call, uint64_t number, struct text part,
    const struct radio *lent, uint64_t place[4])
{
    switch (call) {
    case OPEN: return side->radio_open(number, lent, place);
    case ANNOUNCE: return side->radio_announce(number, lent, place);
    case PART: return side->radio_part(part, lent, place);
    default: return side->radio_close(lent, place);
    }
}

static int is_edition(uint64_t name)
{
    return name == name_of_edition(DINO_21) || name == name_of_edition(DINO_23);
}

static int are_right(struct radio_lengths lengths)
{
    return lengths.rows == BOOK_ROWS && lengths.kept == RADIO_KEPT && lengths.lines == RADIO_LINES;
}

static struct radio lend_kept(int s)
{
    struct radio lent = {radio.kept[s].book, radio.kept[s].kept, radio.kept[s].lines, &radio.own[s], right_lengths};

    return lent;
}

/* Rooms of the lengths that are lent, with garbage where what is kept does not reach. */
static void *room_like(const void *kept, size_t length, size_t lent_length, size_t size)
{
    size_t words = lent_length * size / 8 + 1;
    uint64_t *room = room_of(words * 8);
    void *exact;

    fill_with_garbage(room, words);
    memcpy(room, kept, (length < lent_length ? length : lent_length) * size);
    exact = copy_of(room, lent_length * size);
    free(room);
    return exact;
}

/* A call with some length wrong: 16, and every room is as it came. */
static uint64_t call_at_lengths(int s, enum radio_call call, uint64_t number, struct text part, struct radio_lengths lengths,
    uint64_t place[4])
{
    const struct kept *kept = &radio.kept[s];
    row *book = room_like(kept->book, BOOK_ROWS, lengths.rows, sizeof(row));
    uint64_t *numbers = room_like(kept->kept, RADIO_KEPT, lengths.kept, sizeof numbers[0]);
    uint8_t *lines = room_like(kept->lines, RADIO_LINES, lengths.lines, 1);
    struct radio lent = {copy_of(book, lengths.rows * sizeof(row)), copy_of(numbers, lengths.kept * sizeof numbers[0]),
        copy_of(lines, lengths.lines), &radio.own[s], lengths};
    uint64_t returned = make_radio_call(sides[s], call, number, part, &lent, place);

    end_copy("a call by radio at a wrong length changed the book", lent.book, book, lengths.rows * sizeof(row));
    end_copy("a call by radio at a wrong length changed what is kept", lent.kept, numbers, lengths.kept * sizeof numbers[0]);
    end_copy("a call by radio at a wrong length changed the lines", lent.lines, lines, lengths.lines);
    free(book);
    free(numbers);
    free(lines);
    return returned;
}

/* Whether what the library keeps is byte for byte what it was before the call. */
static void want_kept(const char *what)
{
    want_same(what, radio.kept[0].book, radio.before.book, sizeof radio.before.book);
    want_same(what, radio.kept[0].kept, radio.before.kept, sizeof radio.before.kept);
    want_same(what, radio.kept[0].lines, radio.before.lines, sizeof radio.before.lines);
}

/* The numbers of a call that was not taken. */
static int changes_nothing(uint64_t returned)
{
    return returned == 15 || returned == 16 || returned == 22;
}

static void want_no_place(const uint64_t place[4])
{
    static const uint64_t zeros[3];

    want_same("15, 16 or 22 by radio has a place", place + 1, zeros, sizeof zeros);
}

/* Whether a book is one that every question takes. */
static void want_book(const char *what, const row *book)
{
    static uint8_t written[40000];
    uint64_t length[1], place[4];

    if (sides[0]->write(book, BOOK_ROWS, written, sizeof written, length, place) != 0)
        fail(what);
}

/* A call on what was damaged, of the library alone: 16 as long as it finds the damage, and otherwise the call is taken and
 * leaves what keeps the rule. */
static void call_on_damaged(enum radio_call call, uint64_t number, struct text part)
{
    struct radio lent = lend_kept(0);
    uint64_t place[4] = {99, 99, 99, 99};
    uint64_t returned;

    radio.before = radio.kept[0];
    returned = make_radio_call(sides[0], call, number, part, &lent, place);
    if (host.verbose)
        show_numbers("on what is damaged", place, 4);
    if (returned != place[0])
        fail("the returned number is not the place's");
    if (changes_nothing(returned)) {
        want_kept("a call by radio that is 15, 16 or 22 changed something");
        want_no_place(place);
    }
    if (returned == 16 && radio.taken)
        fail("what a call by radio left breaks the rule");
    if (returned != 16 && returned != 22)
        radio.taken = 1;
    if (call != CLOSE && returned != 0 && !changes_nothing(returned))
        fail("a call by radio that is no close gives a verdict");
    if (returned >= 12 && returned <= 14)
        fail("a call by radio gives a number of a slip or of the writer");
    if (call == CLOSE && !changes_nothing(returned))
        want_book("a table is closed with a book that breaks the book rule", (const row *)radio.kept[0].book);
}

static void show_radio_call(enum radio_call call, uint64_t number, struct text part, struct radio_lengths lengths)
{
    if (call == OPEN)
        printf("    by edition %" PRIu64 "\n", number);
    if (call == ANNOUNCE)
        printf("    of length %" PRIu64 "\n", number);
    if (call == PART)
        show_text("part", part);
    if (!are_right(lengths))
        printf("    lent: %" PRIu64 " rows of book, %" PRIu64 " numbers, %" PRIu64 " bytes\n", (uint64_t)lengths.rows,
            (uint64_t)lengths.kept, (uint64_t)lengths.lines);
}

/* The library's answer is the second reader's. Where that is 15, 16 or 22, or the part is empty, nothing that the library keeps
 * may change; at a close both have the book of the tables closed so far. */
static void call_radio(enum radio_call call, uint64_t number, struct text part, struct radio_lengths lengths)
{
    static const char *const words[] = {"radio, open", "radio, announce", "radio, part", "radio, close"};
    struct answers answers = fresh_answers();
    struct text copy;
    int stays = 0;
    int s;

    if (is_over() || !has_radio())
        return;
    if (call == OPEN && is_edition(number) && are_right(lengths))
        radio.edition = number;
    begin_call(words[call], radio.edition);
    if (host.verbose)
        show_radio_call(call, number, part, lengths);
    copy = copy_of_text(part);
    if (radio.damaged) {
        call_on_damaged(call, number, copy);
        end_text(copy, part);
        return;
    }
    for (s = SIDES - 1; s >= 0; s--) {
        struct radio lent = lend_kept(s);

        if (s != SECOND)
            stays = changes_nothing(answers.returned[SECOND]) || (call == PART && part.length == 0);
        if (stays)
            radio.before = radio.kept[0];
        if (are_right(lengths))
            answers.returned[s] = make_radio_call(sides[s], call, number, copy, &lent, answers.place[s]);
        else
            answers.returned[s] = call_at_lengths(s, call, number, copy, lengths, answers.place[s]);
        if (stays)
            want_kept("a call by radio that changes nothing changed something");
    }
    end_text(copy, part);
    compare_answers(&answers);
    if (call == CLOSE && !stays)
        want_same_rows("the books by radio differ", (const row *)radio.kept[0].book, (const row *)radio.kept[1].book,
            BOOK_ROWS);
}

static const struct text no_part = {(const uint8_t *)"", 0};

/* What stood there before does not matter: every other time it is garbage. */
static void call_radio_open(void *self, uint64_t edition, struct radio_lengths lengths)
{
    int s;

    (void)self;
    if (is_edition(edition) && are_right(lengths) && !radio.damaged && host.calls % 2 == 0)
        for (s = 0; s < SIDES; s++) {
            fill_rows_with_garbage(radio.kept[s].book, BOOK_ROWS);
            fill_with_garbage(radio.kept[s].kept, RADIO_KEPT);
            memset(radio.kept[s].lines, (int)(host.calls % 251), RADIO_LINES);
        }
    call_radio(OPEN, edition, no_part, lengths);
}

static void call_radio_announce(void *self, uint64_t length, struct radio_lengths lengths)
{
    (void)self;
    call_radio(ANNOUNCE, length, no_part, lengths);
}

static void call_radio_part(void *self, struct text part, struct radio_lengths lengths)
{
    (void)self;
    call_radio(PART, 0, part, lengths);
}

static void call_radio_close(void *self, struct radio_lengths lengths)
{
    (void)self;
    call_radio(CLOSE, 0, no_part, lengths);
}

static uint64_t damaged_number(uint64_t old, const struct damage *damage)
{
    return damage->how == SET ? damage->number : damage->how == ADD ? old + damage->number : old ^ damage->number;
}

static void call_radio_damage(void *self, const struct damage *damage)
{
    struct kept *kept = &radio.kept[0];
    uint64_t *number = damage->where == IN_BOOK ? &kept->book[damage->row][damage->at] : &kept->kept[damage->at % RADIO_KEPT];

    (void)self;
    if (is_over() || !has_radio())
        return;
    if (!radio.damaged) {
        radio.whole = *kept;
        radio.whole_own = radio.own[0];
    }
    radio.damaged = 1;
    radio.taken = 0;
    if (host.verbose)
        printf("  damage: %s, row %" PRIu64 ", at %" PRIu64 "\n",
            damage->where == IN_BOOK ? "book" : damage->where == IN_KEPT ? "kept" : "lines", (uint64_t)damage->row,
            (uint64_t)damage->at);
    if (damage->where == IN_LINES)
        kept->lines[damage->at] = (uint8_t)damaged_number(kept->lines[damage->at], damage);
    else
        *number = damaged_number(*number, damage);
}

static void call_radio_mend(void *self)
{
    (void)self;
    if (!radio.damaged)
        return;
    radio.kept[0] = radio.whole;
    radio.own[0] = radio.whole_own;
    radio.damaged = 0;
}

static const row *standing_book(void *self)
{
    (void)self;
    return (const row *)host.book[SECOND];
}

static const struct cases_host calls = {NULL, call_read, call_put_book, call_slip, call_cell, call_type, call_block,
    call_season, call_hours, call_season_hours, call_write, call_radio_open, call_radio_announce, call_radio_part,
    call_radio_close, call_radio_damage, call_radio_mend, standing_book};

/* ---- Runs */

static int play(uint64_t seed, uint64_t number)
{
    host.seed = seed;
    host.number = number;
    host.calls = 0;
    host.failed = 0;
    radio.damaged = 0;
    memset(host.book, 0, sizeof host.book);
    keep_empty_others();
    cases_play(seed, number, &calls);
    return !host.failed;
}

/* A side that breaks off the process would take the name of its case with it. */
static void tell_and_end(int reason)
{
    printf("FAILED: seed %" PRIu64 ", case %" PRIu64 ", call %" PRIu64 ": the process was ended (signal %d)\n", host.seed,
        host.number, host.calls, reason);
    exit(1);
}

static void print_counts(int places)
{
    size_t number, table, column;
    unsigned edition;

    puts("How often each number of refusal came:");
    for (number = 0; number < REFUSALS; number++)
        printf("%3" PRIu64 " %8" PRIu64 "\n", (uint64_t)number, host.came[number]);
    printf("Seasons that have some seconds: %" PRIu64 "\n", host.seasons);
    printf("And some hours: %" PRIu64 "\n", host.season_hours);
    printf("Hours whose two numbers differ: %" PRIu64 "\n", host.apart);
    if (!places)
        return;
    puts("And where (edition, number, table, column):");
    for (edition = 0; edition < EDITIONS; edition++)
        for (number = 1; number < REFUSALS; number++)
            for (table = 0; table <= LAST_TABLE; table++)
                for (column = 0; column < 34; column++)
                    if (host.came_at[edition][number][table][column])
                        printf("%2" PRIu64 " %3" PRIu64 " %2" PRIu64 " %3" PRIu64 " %8" PRIu64 "\n", name_of_edition(edition),
                            (uint64_t)number, (uint64_t)table, (uint64_t)column, host.came_at[edition][number][table][column]);
}

static int came_often(const char *what, uint64_t times)
{
    if (times >= WANTED_EACH)
        return 1;
    printf("FAILED: fewer than %d %s\n", WANTED_EACH, what);
    return 0;
}

/* The default run promises that each number comes often enough. */
static int counts_are_enough(void)
{
    int enough = 1;
    size_t number;

    for (number = 0; number < REFUSALS; number++)
        if (host.came[number] < WANTED_EACH && (number != 18 || has_radio())) {
            printf("FAILED: number %" PRIu64 " came fewer than %d times\n", (uint64_t)number, WANTED_EACH);
            enough = 0;
        }
    enough &= came_often("seasons have some seconds", host.seasons);
    enough &= came_often("seasons have some hours", host.season_hours);
    enough &= came_often("times the two numbers of hours differ", host.apart);
    return enough;
}

static int came_at(unsigned edition, uint64_t number, uint64_t table, uint64_t column)
{
    if (host.came_at[edition][number][table][column] > 0)
        return 1;
    printf("FAILED: edition %" PRIu64 ": number %" PRIu64 " never came at table %" PRIu64 ", column %" PRIu64 "\n",
        name_of_edition(edition), number, table, column);
    return 0;
}

/* A column without a named range has none but that of its width. */
static int has_range(const struct column *column)
{
    uint64_t most = 1;
    unsigned i;

    for (i = 0; i < column->width; i++)
        most *= 10;
    return column->least > 0 || column->most + 1 < most;
}

/* Which of 19, 20, 8 and 21 a column can have. */
static int cell_faults_came_at(unsigned edition, uint64_t table, const struct column *column, uint64_t c)
{
    int enough = came_at(edition, 20, table, c);

    if (column->required)
        enough &= came_at(edition, 19, table, c);
    if (column->kind != 'c')
        enough &= came_at(edition, 8, table, c);
    if (column->kind != 'c' && has_range(column))
        enough &= came_at(edition, 21, table, c);
    return enough;
}

/* And at every place where it can arise, by an edition: the tables, and the columns where a column is named. */
static int places_came(unsigned edition)
{
    static const uint64_t without_column[] = {1, 4, 5, 7, 9, 17};
    static const uint64_t referring[] = {3, 5, 6, 7, 9, 10};
    static const uint64_t of_slips[] = {1, 5, 9, 12, 13};
    int enough = came_at(edition, 10, STOP_POINT, 2);
    uint64_t t, c;
    size_t part, i;

    for (part = 0; part < TABLES; part++) {
        t = reading_order[part];
        for (i = 0; i < sizeof without_column / sizeof without_column[0]; i++)
            enough &= came_at(edition, without_column[i], t, 0);
        enough &= !has_radio() || came_at(edition, 18, t, 0);
        for (c = 1; c <= tables[edition][t].column_count; c++) {
            const struct column *column = &tables[edition][t].columns[c - 1];

            enough &= came_at(edition, 3, t, c) & came_at(edition, 6, t, c) & cell_faults_came_at(edition, t, column, c);
            if (column->required)
                enough &= came_at(edition, 2, t, c);
        }
    }
    for (c = 1; c <= NUMBERS; c++)
        enough &= cell_faults_came_at(edition, SLIP, &tables[edition][VEHICLE_BLOCK].columns[c - 1], c);
    for (t = VEHICLE_BLOCK; t <= SLIP; t++) {
        enough &= came_at(edition, 11, t, 11);
        for (i = 0; i < sizeof referring / sizeof referring[0]; i++)
            enough &= came_at(edition, 10, t, referring[i]);
    }
    for (i = 0; i < sizeof of_slips / sizeof of_slips[0]; i++)
        enough &= came_at(edition, of_slips[i], SLIP, 0);
    return enough;
}

static int places_are_enough(void)
{
    int by_21 = places_came(DINO_21);

    return places_came(DINO_23) & by_21;
}

struct options {
    uint64_t seed, count, number;
    int chosen, single, places;
};

static int usage(void)
{
    puts("compare [--seed N] [--count N] [--places]   plays that many cases of that seed");
    puts("compare --seed N --case K                   plays one case and prints what it hands in and gets");
    return 2;
}

/* Whether the words were understood. */
static int take_options(struct options *options, int words, char **word)
{
    int i;

    for (i = 1; i < words; i++) {
        uint64_t *number = NULL;
        char *end;

        if (strcmp(word[i], "--places") == 0) {
            options->places = 1;
            continue;
        }
        if (strcmp(word[i], "--seed") == 0)
            number = &options->seed;
        else if (strcmp(word[i], "--count") == 0)
            number = &options->count;
        else if (strcmp(word[i], "--case") == 0)
            number = &options->number;
        if (!number || i + 1 == words)
            return 0;
        *number = strtoull(word[++i], &end, 10);
        if (*word[i] == 0 || *end != 0)
            return 0;
        options->chosen = 1;
        options->single |= number == &options->number;
    }
    return 1;
}

int main(int words, char **word)
{
    struct options options = {DEFAULT_SEED, DEFAULT_COUNT, 0, 0, 0, 0};
    size_t passed = 0;
    size_t failed = 0;
    uint64_t k;

    if (!take_options(&options, words, word))
        return usage();
    signal(SIGSEGV, tell_and_end);
    signal(SIGABRT, tell_and_end);
    signal(SIGILL, tell_and_end);
    signal(SIGFPE, tell_and_end);
    if (options.single) {
        host.verbose = 1;
        if (play(options.seed, options.number))
            passed++;
        else
            failed++;
    } else {
        edges_run(&second_side, &passed, &failed);
        edges_run(&library_side, &passed, &failed);
        for (k = 0; k < options.count; k++)
            if (play(options.seed, k))
                passed++;
            else
                failed++;
        print_counts(options.places);
        if (!options.chosen) {
            if (counts_are_enough())
                passed++;
            else
                failed++;
            if (places_are_enough())
                passed++;
            else
                failed++;
        }
        printf("%" PRIu64 " calls on %s and %s\n", host.all_calls, library_side.name, second_side.name);
    }
    printf("%" PRIu64 " passed, %" PRIu64 " failed\n", (uint64_t)passed, (uint64_t)failed);
    return failed != 0;
}
