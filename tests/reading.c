/* tests/reading.c: plays the cases of tests/reading.cases, which come on standard input, on the library, and holds each
 * answer to the one that the case names. How a case is written stands at the head of that file. */
#include "../include/workshop.h"

#include <inttypes.h>
#include <stdio.h>
#include <stdlib.h>
#include <string.h>

/* Every table has room for 512 rows in the book, the calendar for 800. The book's last row is its row of marks. */
enum { TABLES = 6, TABLE_ROWS = 512, CALENDAR_ROWS = 800 };
enum { MARKS = WORKSHOP_BOOK_ROWS - 1, MOST_ROWS = WORKSHOP_BOOK_ROWS + 1 };
enum { MOST_BYTES = 70000, MOST_NAMES = 32, MOST_FILE = 1000000, MOST_WAYS = 8, MOST_PARTS = 256 };

/* Every number that is lent, before a call. */
enum { BEFORE = 7 };

typedef uint64_t row[WORKSHOP_NUMBERS];

struct text {
    size_t length;
    uint8_t bytes[MOST_BYTES + 1]; /* one more, for a 0 behind the text */
};

/* In the order of reading, which is that of the book. */
static const char *const tables[TABLES] = {"vehicle_type", "depot", "stop", "stop_point", "vehicle_block",
    "day_type_calendar"};

static const uint64_t zeros[4];

static struct {
    uint64_t line; /* of the file of cases */
    size_t names;
    const char *name[MOST_NAMES]; /* texts that have a name */
    struct text named[MOST_NAMES];
    struct text beside[TABLES]; /* what is handed in for a table that a case does not name */
    size_t ways;                /* of sending a delivery by radio */
    uint64_t parts[MOST_WAYS];  /* and how many bytes a part has in each; 0: a table is one part */
    uint64_t passed, failed;
} file;

/* The case that is played. */
static struct {
    const char *name; /* NULL before the first */
    int answers;
    uint64_t edition;
    struct text texts[TABLES];
    int is_named[TABLES];
    int is_radio; /* some table is announced otherwise than it comes, which only the radio can tell */
    uint64_t announced[TABLES];
    size_t book_rows;
    row book[MOST_ROWS];
    row book_read[MOST_ROWS];
    uint64_t kept[WORKSHOP_RADIO_KEPT];
    uint8_t lines[WORKSHOP_RADIO_LINES];
    /* the reading, the cell question in its place, or another question on the book that it leaves */
    enum { READS, ASKS_CELL, ASKS_SEASON, ASKS_HOURS, ASKS_SEASON_HOURS } asks;
    uint64_t asked[4];
    struct text asked_text;
} played;

static void end_with(const char *why)
{
    printf("reading: line %" PRIu64 " of the cases: %s\n", file.line, why);
    exit(2);
}

/* ---- Texts as they are written in the cases */

static void put(struct text *out, uint8_t byte)
{
    if (out->length == MOST_BYTES)
        end_with("the text is too long");
    out->bytes[out->length++] = byte;
}

static void put_number(struct text *out, uint64_t number)
{
    if (number >= 10)
        put_number(out, number / 10);
    put(out, (uint8_t)('0' + number % 10));
}

/* The number that stands there; `at` goes behind it. */
static uint64_t take_number(const char **at)
{
    char *end;
    uint64_t number = strtoull(*at, &end, 10);

    if (**at < '0' || **at > '9')
        end_with("a number is missing");
    *at = end;
    return number;
}

static void take_byte(const char **at, char wanted)
{
    if (**at != wanted)
        end_with("a text or an answer is written wrongly");
    ++*at;
}

/* What stands behind a backslash. */
static const char *put_escaped(struct text *out, const char *at)
{
    char digits[3] = {0, 0, 0};
    char *end;

    if (*at == 'n')
        put(out, '\n');
    else if (*at == 'r')
        put(out, '\r');
    else if (*at == 't')
        put(out, '\t');
    else {
        take_byte(&at, 'x');
        memcpy(digits, at, 2);
        put(out, (uint8_t)strtoull(digits, &end, 16));
        if (end != digits + 2)
            end_with("\\x takes two digits");
        return at + 2;
    }
    return at + 1;
}

static const char *put_named(struct text *out, const char *at)
{
    size_t i, k;

    for (i = 0; i < file.names; i++) {
        size_t length = strlen(file.name[i]);

        if (memcmp(at, file.name[i], length) == 0 && at[length] == '}') {
            for (k = 0; k < file.named[i].length; k++)
                put(out, file.named[i].bytes[k]);
            return at + length + 1;
        }
    }
    end_with("no text has the name in braces");
    return at;
}

static const char *put_repeated(struct text *out, const char *at);

/* What is written up to the end of the line, or of the repetition that it stands in; then # is the number. */
static const char *put_written(struct text *out, const char *at, int repeated, uint64_t number)
{
    while (*at != 0 && !(repeated && *at == '}'))
        if (*at == '\\')
            at = put_escaped(out, at + 1);
        else if (*at == '{')
            at = at[1] >= '0' && at[1] <= '9' ? put_repeated(out, at + 1) : put_named(out, at + 1);
        else if (repeated && *at == '#') {
            put_number(out, number);
            at++;
        } else
            put(out, (uint8_t)*at++);
    return at;
}

static const char *put_repeated(struct text *out, const char *at)
{
    uint64_t number = take_number(&at);
    const char *body;
    uint64_t last;

    take_byte(&at, '.');
    take_byte(&at, '.');
    last = take_number(&at);
    take_byte(&at, ':');
    body = at;
    at = put_written(out, body, 1, number);
    while (number != last) {
        number = number < last ? number + 1 : number - 1;
        at = put_written(out, body, 1, number);
    }
    take_byte(&at, '}');
    return at;
}

static void set_text(struct text *text, const char *written)
{
    text->length = 0;
    put_written(text, written, 0, 0);
}

/* ---- The library's answer */

struct answer {
    uint64_t returned;
    uint64_t place[4];
    uint64_t numbers[4]; /* a cell's, a season's seconds, or the bits of hours, and zeros behind them; zeros for a reading */
};

static void fill(uint64_t *numbers, size_t count, uint64_t with)
{
    size_t i;

    for (i = 0; i < count; i++)
        numbers[i] = with;
}

static void fill_book(void)
{
    size_t r;

    for (r = 0; r < MOST_ROWS; r++)
        fill(played.book[r], WORKSHOP_NUMBERS, BEFORE);
}

static uint64_t read_texts(size_t book_rows, uint64_t place[4])
{
    const struct text *t = played.texts;

    return workshop_read(played.edition, t[0].bytes, t[0].length, t[1].bytes, t[1].length, t[2].bytes, t[2].length, t[3].bytes,
        t[3].length, t[4].bytes, t[4].length, t[5].bytes, t[5].length, played.book, book_rows, place);
}

static uint64_t ask_cell(struct answer *answer)
{
    fill(answer->numbers, 4, BEFORE);
    return workshop_cell(played.edition, played.asked_text.bytes, played.asked_text.length, played.asked[0], played.asked[1],
        played.asked[2], answer->numbers, answer->place);
}

static int asks_book(void)
{
    return played.asks != READS && played.asks != ASKS_CELL;
}

/* Hours are held to their bits. */
static uint64_t ask_hours(struct answer *answer)
{
    const row *book = (const row *)played.book;
    const uint64_t *asked = played.asked;
    double hours[2];
    uint64_t returned;

    if (sizeof hours != 2 * sizeof answer->numbers[0])
        end_with("a double has not 64 bits here");
    fill(answer->numbers, played.asks == ASKS_HOURS ? 2 : 1, BEFORE);
    memcpy(hours, answer->numbers, sizeof hours);
    if (played.asks == ASKS_HOURS)
        returned = workshop_hours(book, played.book_rows, asked[0], asked[1], hours, answer->place);
    else
        returned = workshop_season_hours(book, played.book_rows, asked[0], asked[1], asked[2], asked[3], hours, answer->place);
    memcpy(answer->numbers, hours, sizeof hours);
    return returned;
}

/* Of the book that the reading leaves, which is kept to be looked at. Where the reading is refused, that is the answer. */
static uint64_t ask_book(struct answer *answer)
{
    uint64_t returned = read_texts(WORKSHOP_BOOK_ROWS, answer->place);

    memcpy(played.book_read, played.book, sizeof played.book);
    if (returned)
        return returned;
    fill(answer->place, 4, BEFORE);
    if (played.asks != ASKS_SEASON)
        return ask_hours(answer);
    fill(answer->numbers, 1, BEFORE);
    return workshop_season((const row *)played.book, played.book_rows, played.asked[0], played.asked[1], played.asked[2],
        played.asked[3], answer->numbers, answer->place);
}

static struct answer call(void)
{
    struct answer answer;

    fill_book();
    fill(answer.place, 4, BEFORE);
    fill(answer.numbers, 4, 0);
    if (played.asks == ASKS_CELL)
        answer.returned = ask_cell(&answer);
    else if (asks_book())
        answer.returned = ask_book(&answer);
    else
        answer.returned = read_texts(played.book_rows, answer.place);
    return answer;
}

static void show(const char *what, const uint64_t *numbers, size_t count)
{
    size_t i;

    printf("    %s", what);
    for (i = 0; i < count; i++)
        printf(" %" PRIu64, numbers[i]);
    putchar('\n');
}

static int fail(const char *what)
{
    printf("reading: line %" PRIu64 " of the cases: FAILED: %s: %s\n", file.line, played.name, what);
    return 0;
}

static int same(const char *what, const uint64_t *wanted, const uint64_t *came, size_t count)
{
    if (memcmp(wanted, came, count * sizeof *wanted) == 0)
        return 1;
    fail(what);
    show("wanted", wanted, count);
    show("came  ", came, count);
    return 0;
}

/* ---- The same by radio */

#define KEPT played.book, played.book_rows, played.kept, WORKSHOP_RADIO_KEPT, played.lines, WORKSHOP_RADIO_LINES, place

/* Sends a table that the case names in parts of so many bytes, or of more where it would have too many; another one in one.
 * Whether every part is answered with this number. */
static int is_sent(size_t table, uint64_t bytes, uint64_t answer)
{
    const struct text *text = &played.texts[table];
    size_t least = (text->length + MOST_PARTS - 1) / MOST_PARTS;
    size_t size = !played.is_named[table] || bytes == 0 ? text->length : bytes < least ? least : (size_t)bytes;
    uint64_t place[4];
    size_t at;

    for (at = 0; at < text->length; at += size)
        if (workshop_radio_part(text->bytes + at, size < text->length - at ? size : text->length - at, KEPT) != answer)
            return 0;
    return 1;
}

/* What is lent, before a delivery. */
static void fill_kept(void)
{
    fill_book();
    fill(played.kept, WORKSHOP_RADIO_KEPT, BEFORE);
    memset(played.lines, BEFORE, sizeof played.lines);
}

/* Sends the delivery; place is the last close's. Whether all that is no close is accepted, or is 16 for a book of another
 * length. */
static int is_taken(uint64_t bytes, uint64_t place[4])
{
    uint64_t answer = played.book_rows == WORKSHOP_BOOK_ROWS ? 0 : 16;
    int good;
    size_t t;

    fill_kept();
    good = workshop_radio_open(played.edition, KEPT) == answer;
    for (t = 0; t < TABLES; t++) {
        good = good && workshop_radio_announce(played.is_radio ? played.announced[t] : played.texts[t].length, KEPT) == answer;
        good = good && is_sent(t, bytes, answer);
        if (workshop_radio_close(KEPT) != place[0])
            return fail("the number that a close returns");
    }
    return good || fail("a call by radio is not taken");
}

/* By radio an unknown edition shows when the delivery is opened. Whether that is this answer, and all that is lent is as it
 * was. */
static int is_not_opened(const uint64_t wanted[4])
{
    uint64_t place[4];
    size_t i;

    fill_kept();
    fill(place, 4, BEFORE);
    if (workshop_radio_open(played.edition, KEPT) != wanted[0])
        return fail("the number that opening returns");
    for (i = 0; i < WORKSHOP_RADIO_LINES; i++)
        if (played.lines[i] != BEFORE)
            return fail("the lines after an opening that is refused");
    for (i = 0; i < WORKSHOP_RADIO_KEPT; i++)
        if (played.kept[i] != BEFORE)
            return fail("what is kept after an opening that is refused");
    for (i = 0; i < MOST_ROWS * WORKSHOP_NUMBERS; i++)
        if (played.book[i / WORKSHOP_NUMBERS][i % WORKSHOP_NUMBERS] != BEFORE)
            return fail("the book after an opening that is refused");
    return same("the place of an opening", wanted, place, 4);
}

/* Plays the case by radio in one way; whether place and book are those of the reading. */
static int is_same_by_radio(uint64_t bytes, const uint64_t wanted[4])
{
    uint64_t place[4];

    if (wanted[0] == 22)
        return is_not_opened(wanted);
    if (is_taken(bytes, place) && same("the place by radio", wanted, place, 4)
        && (memcmp(played.book, played.book_read, sizeof played.book) == 0 || fail("the book by radio")))
        return 1;
    printf("    in parts of %" PRIu64 " bytes\n", bytes);
    return 0;
}

/* Plays the case; whether it is answered with this place and, where something is asked, with these numbers, and a reading by
 * radio too. */
static int answers_with(const uint64_t place[4], const uint64_t numbers[4])
{
    struct answer came;
    uint64_t radio_place[4];
    size_t i;

    if (!played.name)
        end_with("an answer stands before the first case");
    if (played.is_radio) {
        if (!is_taken(0, radio_place) || !same("the place by radio", place, radio_place, 4))
            return 0;
    } else {
        came = call();
        if (!same("the place", place, came.place, 4) || !same("the number returned", place, &came.returned, 1)
            || !same("the numbers answered", numbers, came.numbers, 4))
            return 0;
        if (asks_book() && memcmp(played.book_read, played.book, sizeof played.book) != 0)
            return fail("the book after a question");
    }
    memcpy(played.book_read, played.book, sizeof played.book);
    for (i = 0; i < file.ways && played.asks == READS; i++)
        if (!is_same_by_radio(file.parts[i], place))
            return 0;
    memcpy(played.book, played.book_read, sizeof played.book);
    return 1;
}

/* ---- The lines of a case */

/* Ends the line's first word; answers what stands behind it and one blank. */
static char *cut_word(char *line)
{
    while (*line != 0 && *line != ' ')
        line++;
    if (*line == ' ')
        *line++ = 0;
    return line;
}

static size_t table_of(const char *word)
{
    size_t t;

    for (t = 0; t < TABLES; t++)
        if (strcmp(tables[t], word) == 0)
            return t;
    end_with("there is no such table, and no such word at the beginning of a line");
    return t;
}

static void count(int good)
{
    played.answers++;
    if (good)
        file.passed++;
    else
        file.failed++;
}

static void take_let(char *rest)
{
    if (file.names == MOST_NAMES)
        end_with("too many names");
    file.name[file.names] = rest;
    set_text(&file.named[file.names], cut_word(rest));
    file.names++;
}

static void take_parts(char *rest)
{
    const char *at = rest;

    for (file.ways = 0; *at != 0; file.ways++) {
        if (file.ways == MOST_WAYS)
            end_with("too many ways of sending");
        file.parts[file.ways] = take_number(&at);
        if (*at != 0)
            take_byte(&at, ' ');
    }
}

static void take_beside(char *rest)
{
    char *written = cut_word(rest);

    set_text(&file.beside[table_of(rest)], written);
}

static void end_case(void)
{
    if (played.name && !played.answers)
        end_with("the case above has no answer");
}

static void take_case(char *rest)
{
    end_case();
    played.name = rest;
    played.answers = 0;
    played.asks = READS;
    played.edition = 21;
    played.is_radio = 0;
    memset(played.is_named, 0, sizeof played.is_named);
    played.book_rows = WORKSHOP_BOOK_ROWS;
    memcpy(played.texts, file.beside, sizeof played.texts);
}

static void take_edition(char *rest)
{
    const char *at = rest;

    played.edition = take_number(&at);
    take_byte(&at, 0);
}

static void take_book(char *rest)
{
    const char *at = rest;

    played.book_rows = take_number(&at);
    if (played.book_rows > MOST_ROWS)
        end_with("the book is too long");
}

/* Stands behind the texts: what is announced for the other tables is what they have. */
static void take_announced(char *rest)
{
    const char *at = cut_word(rest);
    size_t table = table_of(rest);
    size_t t;

    for (t = 0; t < TABLES && !played.is_radio; t++)
        played.announced[t] = played.texts[t].length;
    played.is_radio = 1;
    played.announced[table] = take_number(&at);
    take_byte(&at, 0);
}

/* The numbers that are asked for; what stands behind them and a blank. */
static const char *take_asked(const char *at, size_t numbers)
{
    size_t i;

    for (i = 0; i < numbers; i++) {
        played.asked[i] = take_number(&at);
        if (*at != 0)
            take_byte(&at, ' ');
    }
    return at;
}

static void take_cell(char *rest)
{
    played.asks = ASKS_CELL;
    set_text(&played.asked_text, take_asked(rest, 3));
}

static void take_season(char *rest)
{
    const char *at = take_asked(rest, 4);

    played.asks = ASKS_SEASON;
    take_byte(&at, 0);
}

static void take_hours(char *rest)
{
    const char *at = take_asked(rest, 2);

    played.asks = ASKS_HOURS;
    take_byte(&at, 0);
}

static void take_season_hours(char *rest)
{
    take_season(rest);
    played.asks = ASKS_SEASON_HOURS;
}

/* Rows written as numbers with semicolons between them, and zeros behind them up to the table's last row. */
static void lay_out(const char *written, row rows[CALENDAR_ROWS], size_t room)
{
    static struct text text;
    const char *at = (const char *)text.bytes;
    size_t r, c;

    set_text(&text, written);
    text.bytes[text.length] = 0;
    memset(rows, 0, room * sizeof rows[0]);
    for (r = 0; *at != 0; r++) {
        if (r == room)
            end_with("more rows than a table has");
        rows[r][0] = take_number(&at);
        for (c = 1; c < WORKSHOP_NUMBERS && *at == ';'; c++) {
            at++;
            rows[r][c] = take_number(&at);
        }
        take_byte(&at, '\n');
    }
}

static void want_accepted(char *rest)
{
    static row rows[CALENDAR_ROWS];
    row marks = {0};
    char *written = cut_word(rest);
    size_t table = table_of(rest);
    size_t room = table == TABLES - 1 ? CALENDAR_ROWS : TABLE_ROWS;
    const row *came = (const row *)played.book + table * TABLE_ROWS; /* the calendar stands last */
    int good = answers_with(zeros, zeros);
    size_t r;

    lay_out(written, rows, room);
    for (r = 0; r < room && good; r++)
        good = same("a row of the book", rows[r], came[r], WORKSHOP_NUMBERS);
    marks[0] = played.edition == 23;
    count(good && same("the row of marks", marks, played.book[MARKS], WORKSHOP_NUMBERS));
}

/* A refused reading leaves the empty book; one of another length stays as it came. */
static int book_is_left(void)
{
    uint64_t left = played.book_rows == WORKSHOP_BOOK_ROWS ? 0 : BEFORE;
    size_t r, c;

    for (r = 0; r < MOST_ROWS; r++)
        for (c = 0; c < WORKSHOP_NUMBERS; c++)
            if (played.book[r][c] != (r < played.book_rows ? left : BEFORE))
                return fail("the book after a refusal");
    return 1;
}

static void want_refused(char *rest)
{
    const char *at = rest;
    uint64_t place[4];
    size_t i;

    for (i = 0; i < 4; i++) {
        place[i] = take_number(&at);
        take_byte(&at, i < 3 ? ' ' : 0);
    }
    count(answers_with(place, zeros) && (played.asks != READS || book_is_left()));
}

static void want_value(uint64_t kind, const char *at)
{
    uint64_t cell[4] = {0, 0, 0, 0};

    cell[0] = kind;
    cell[1] = take_number(&at);
    take_byte(&at, 0);
    count(answers_with(zeros, cell));
}

static void want_number(char *rest)
{
    want_value(1, rest);
}

static void want_equipment(char *rest)
{
    want_value(3, rest);
}

static void want_flags(char *rest)
{
    want_value(4, rest);
}

static void want_text(char *rest)
{
    static struct text text;
    const char *at = rest;
    uint64_t cell[4] = {2, 0, 0, 0};
    int good;

    cell[2] = take_number(&at);
    take_byte(&at, ' ');
    set_text(&text, at);
    cell[3] = text.length;
    good = answers_with(zeros, cell);
    if (good && memcmp(played.asked_text.bytes + cell[2], text.bytes, text.length) != 0)
        good = fail("the bytes of the text");
    count(good);
}

static void want_nothing(char *rest)
{
    const char *at = rest;

    take_byte(&at, 0);
    if (played.asks != ASKS_CELL)
        end_with("the case asks for no cell");
    count(answers_with(zeros, zeros));
}

static void want_seconds(char *rest)
{
    const char *at = rest;
    uint64_t seconds[4] = {0, 0, 0, 0};

    seconds[0] = take_number(&at);
    take_byte(&at, 0);
    if (played.asks != ASKS_SEASON)
        end_with("the case asks for no season");
    count(answers_with(zeros, seconds));
}

/* The bits of a binary64 number, as 16 hexadecimal digits; `at` goes behind them. */
static uint64_t take_bits(const char **at)
{
    char *end;
    uint64_t bits = strtoull(*at, &end, 16);

    if (end - *at != 16)
        end_with("the bits of a number of hours are 16 hexadecimal digits");
    *at = end;
    return bits;
}

static void want_hours(char *rest)
{
    const char *at = rest;
    uint64_t hours[4] = {0, 0, 0, 0};

    if (played.asks != ASKS_HOURS && played.asks != ASKS_SEASON_HOURS)
        end_with("the case asks for no hours");
    hours[0] = take_bits(&at);
    if (played.asks == ASKS_HOURS) {
        take_byte(&at, ' ');
        hours[1] = take_bits(&at);
    }
    take_byte(&at, 0);
    count(answers_with(zeros, hours));
}

static void take_line(char *line)
{
    static const struct {
        const char *word;
        void (*take)(char *rest);
    } lines[] = {{"let", take_let}, {"beside", take_beside}, {"parts", take_parts}, {"case", take_case},
        {"edition", take_edition}, {"book", take_book}, {"cell", take_cell}, {"season", take_season},
        {"hours", take_hours}, {"season-hours", take_season_hours}, {"announced", take_announced},
        {"accepted", want_accepted}, {"refused", want_refused}, {"number", want_number}, {"equipment", want_equipment},
        {"flags", want_flags}, {"text", want_text}, {"nothing", want_nothing}, {"seconds", want_seconds},
        {"binary64", want_hours}};
    char *rest;
    size_t i, t;

    file.line++;
    if (*line == 0 || *line == '#')
        return;
    rest = cut_word(line);
    for (i = 0; i < sizeof lines / sizeof lines[0]; i++)
        if (strcmp(lines[i].word, line) == 0) {
            lines[i].take(rest);
            return;
        }
    t = table_of(line);
    set_text(&played.texts[t], rest);
    played.is_named[t] = 1;
}

int main(void)
{
    static char cases[MOST_FILE];
    size_t length = 0;
    size_t start = 0;
    int byte;

    while ((byte = getchar()) >= 0) {
        if (length + 2 >= MOST_FILE)
            end_with("the cases are too long");
        cases[length++] = (char)byte;
        if (byte == '\n') {
            cases[length - 1] = 0;
            take_line(cases + start);
            start = length;
        }
    }
    if (start != length)
        end_with("the last line lacks its line feed");
    end_case();
    printf("%" PRIu64 " passed, %" PRIu64 " failed\n", file.passed, file.failed);
    return file.failed != 0 || file.passed == 0;
}
