/* The second reader. Each rule stands below the sentence of document 01 that it follows, in quotation marks; a sentence of
 * document 02 has its request's number before it. Searches walk from the first row to the last: what is compared with the
 * library should be plain enough to be believed. */
#include "reader.h"

#include "columns.h"

#include <float.h>
#include <string.h>

enum { BLOCKS = 512, NUMBERS = 11, BOOK_ROWS = SECOND_BOOK_ROWS, WORK_ROWS = BLOCKS, TEXT_BYTES = SECOND_TEXT_BYTES };
enum { LINE_BYTES = 2048, HEADER_CELLS = 32 };

/* Rows that are only looked at. */
typedef const uint64_t (*rows_in)[NUMBERS];

/* The places of a block's numbers in its row. */
enum { B_VERSION, B_DAY_TYPE, B_DEPOT, B_BLOCK, B_TYPE, B_DEP_STOP, B_DEP_POINT, B_BEGIN, B_ARR_STOP, B_ARR_POINT, B_END };

/* And those of a day of the calendar. */
enum { C_VERSION, C_DAY, C_DAY_TYPE };

/* ---- Answers */

static uint64_t refuse(uint64_t place[4], uint64_t number, uint64_t table, uint64_t line, uint64_t column)
{
    place[0] = number;
    place[1] = table;
    place[2] = line;
    place[3] = column;
    return number;
}

/* "0 | accepted | 0, 0" */
static uint64_t accept(uint64_t place[4])
{
    return refuse(place, 0, 0, 0, 0);
}

/* "The table number belongs to each place (0 for 0, 14, 15, 16)." These three have the place 0, 0. "For numbers added later,
 * any part of a place that is not named is 0, and so is the table where no line is named": 5/13 names no place for 22, nor 7/13
 * for 23. */
static uint64_t refuse_without_place(uint64_t place[4], uint64_t number)
{
    return refuse(place, number, 0, 0, 0);
}

/* ---- Editions */

/* 5/13: "both editions stay, chosen by the caller for a whole delivery". The edition of that name, or EDITIONS. */
static unsigned edition_named(uint64_t name)
{
    return name == 21 ? DINO_21 : name == 23 ? DINO_23 : EDITIONS;
}

/* ---- Rows */

/* The header or a row, without its line end: the bytes from start up to, not with, end. `number` is that of its line. In 2.1 it
 * is one line. 5/13: in 2.3 "its line is the one it starts on". */
struct line {
    size_t start, end;
    uint64_t number;
};

/* Where the next row begins, and the number of its line. */
struct cursor {
    size_t at;
    uint64_t line;
};

static const struct cursor top = {0, 1};

/* Where the line feed stands that ends the row beginning at `at`, or the text's end. In 2.1 "A line feed always ends the
 * line, quotes or no." 5/13: "A row ends at the first line feed outside a cell's quotes (an unclosed one runs to the text's
 * end)". The quotes of a cell are those of one "that begins with a double quote", and it "runs to the next one that is not
 * doubled"; what stands behind that, and a quote in any other cell, opens nothing. */
static size_t row_end(unsigned edition, const uint8_t *text, size_t length, size_t at)
{
    enum { CELL_BEGINS, IN_CELL, IN_QUOTES } state = CELL_BEGINS;

    for (; at < length; at++) {
        if (state == IN_QUOTES) {
            int doubled = at + 1 < length && text[at + 1] == '"';

            if (text[at] == '"' && doubled)
                at++;
            else if (text[at] == '"')
                state = IN_CELL;
        } else if (text[at] == '\n') {
            return at;
        } else if (text[at] == ';') {
            state = CELL_BEGINS;
        } else if (text[at] == '"' && state == CELL_BEGINS && edition == DINO_23) {
            state = IN_QUOTES;
        } else {
            state = IN_CELL;
        }
    }
    return length;
}

/* "A line feed ends a line": how many of these bytes do, in quotes or not. */
static uint64_t line_feeds(const uint8_t *text, size_t from, size_t to)
{
    uint64_t count = 0;

    for (; from < to; from++)
        if (text[from] == '\n')
            count++;
    return count;
}

/* Takes the header or row that begins at the cursor, and moves it to where the next one begins. None begins at the end of a
 * text. */
static int next_line(unsigned edition, const uint8_t *text, size_t length, struct cursor *cursor, struct line *line)
{
    size_t end;

    /* "after a final line feed no further line begins" */
    if (cursor->at >= length)
        return 0;
    end = row_end(edition, text, length, cursor->at);
    line->start = cursor->at;
    line->end = end;
    line->number = cursor->line;
    /* "A last line may lack its line feed": then the text's end is the line's end, and a carriage return there stands
     * before no line feed, so it is not dropped. */
    if (end == length) {
        cursor->at = length;
        return 1;
    }
    /* "A line feed ends a line; one carriage return just before it is dropped." */
    if (line->end > line->start && text[line->end - 1] == '\r')
        line->end--;
    cursor->at = end + 1;
    cursor->line += line_feeds(text, line->start, end + 1);
    return 1;
}

/* "Line 1 is the header." "A text of length 0 counts as one header line with one empty cell." */
static struct line header_line(unsigned edition, const uint8_t *text, size_t length, struct cursor *cursor)
{
    struct line line = {0, 0, 1};

    *cursor = top;
    next_line(edition, text, length, cursor, &line);
    return line;
}

/* 3/13: "a line of more than 2,048 bytes is 17". "A line's length leaves its line end out." 5/13: "17 counts the row", the
 * breaks in it with it. */
static int is_too_long(struct line line)
{
    return line.end - line.start > LINE_BYTES;
}

/* ---- Cells */

/* A cell: the bytes between its quotes, or all of them where it has none. Doubled quotes still stand doubled. */
struct cell {
    size_t start, end;
};

/* "So are bytes 0 to 31 and 127 in any cell." */
static int is_fault_byte(uint8_t byte)
{
    return byte <= 31 || byte == 127;
}

/* 5/13: "line breaks may stand inside double quotes"; "A break is a line feed, with or without a carriage return before it".
 * How many bytes of a break stand here, or 0. A carriage return without its line feed is none. In 2.1 no line has a line feed
 * in it. */
static size_t break_bytes(unsigned edition, const uint8_t *text, size_t end, size_t at)
{
    if (edition != DINO_23)
        return 0;
    if (text[at] == '\n')
        return 1;
    return text[at] == '\r' && at + 1 < end && text[at + 1] == '\n' ? 2 : 0;
}

/* "A cell that begins with a double quote runs to the next one that is not doubled, and then its semicolon or line end
 * must follow." *at is at the opening quote; it is left behind the closing one. */
static int take_quoted(unsigned edition, const uint8_t *text, size_t end, size_t *at, struct cell *cell)
{
    size_t i = *at + 1;

    cell->start = i;
    for (;;) {
        size_t skipped;

        if (i == end)
            return 0;
        skipped = break_bytes(edition, text, end, i);
        if (skipped > 0) {
            i += skipped;
        } else if (is_fault_byte(text[i])) {
            return 0;
        } else if (text[i] != '"') {
            i++;
        } else if (i + 1 < end && text[i + 1] == '"') {
            i += 2;
        } else {
            break;
        }
    }
    cell->end = i;
    *at = i + 1;
    return *at == end || text[*at] == ';';
}

/* "A double quote inside any other cell is a fault." */
static int take_unquoted(const uint8_t *text, size_t end, size_t *at, struct cell *cell)
{
    size_t i = *at;

    cell->start = i;
    while (i < end && text[i] != ';') {
        if (text[i] == '"' || is_fault_byte(text[i]))
            return 0;
        i++;
    }
    cell->end = i;
    *at = i;
    return 1;
}

/* "Cells are parted by semicolons outside quotes." Counts the cells of a line and keeps the first HEADER_CELLS, which are
 * all that a row of a good header can have. Returns 0, or the cell, counted from 1, that has a quote or byte fault. */
static uint64_t cut_line(unsigned edition, const uint8_t *text, struct line line, struct cell cells[HEADER_CELLS],
    uint64_t *count)
{
    size_t at = line.start;

    *count = 0;
    for (;;) {
        struct cell cell;
        int quoted = at < line.end && text[at] == '"';
        int good = quoted ? take_quoted(edition, text, line.end, &at, &cell) : take_unquoted(text, line.end, &at, &cell);

        *count += 1;
        if (!good)
            return *count;
        if (*count <= HEADER_CELLS)
            cells[*count - 1] = cell;
        if (at == line.end)
            return 0;
        at++; /* past the semicolon: another cell begins, an empty one perhaps */
    }
}

/* "Content is what stands between the quotes, doubled ones counted once." A well quoted cell has quotes in pairs only. 5/13:
 * a break "counts as content", by each of its bytes. */
static size_t content_length(const uint8_t *text, struct cell cell)
{
    size_t quotes = 0;
    size_t i;

    for (i = cell.start; i < cell.end; i++)
        if (text[i] == '"')
            quotes++;
    return cell.end - cell.start - quotes / 2;
}

/* "Header names are compared byte for byte". No name has a quote in it, so content with a doubled one equals no name
 * however it is counted. */
static int content_is(const uint8_t *text, struct cell cell, const char *name)
{
    size_t length = strlen(name);

    return cell.end - cell.start == length && memcmp(text + cell.start, name, length) == 0;
}

/* ---- What a column takes */

/* Whether a number is in its column's range. 7/13: "a day that is no date of the years 1600 to 9999 is 8 (21 after 4/13)",
 * digits too few for one too. */
static int takes_number(const struct column *column, uint64_t number)
{
    return number >= column->least && number <= column->most && (column->kind != 'D' || is_date(number));
}

/* "A d cell is 1 to N digits, leading zeros allowed, no sign". 4/13: "8 stays for content that is not digits"; "21 outside the
 * named range". Returns 0, 8 or 21. There are not more digits than the column's width. */
static uint64_t judge_digits(const uint8_t *digits, size_t length, const struct column *column, uint64_t *value)
{
    uint64_t sum = 0;
    size_t i;

    for (i = 0; i < length; i++) {
        if (digits[i] < '0' || digits[i] > '9')
            return 8;
        sum = sum * 10 + (uint64_t)(digits[i] - '0');
    }
    if (!takes_number(column, sum))
        return 21;
    *value = sum;
    return 0;
}

/* What is wrong with content: 0, 19, 20, 8 or 21. Its bytes may have doubled quotes in them, which `length` counts once.
 * *value is the number of a d column that is not empty. */
static uint64_t judge_content(const uint8_t *bytes, size_t byte_count, size_t length, const struct column *column,
    uint64_t *value)
{
    *value = 0;
    /* "An optional cell may be empty." 4/13: "19 empty where required" */
    if (length == 0)
        return column->required ? 19 : 0;
    /* 4/13: "20 content longer than the width"; "where two hold, 20 comes first" */
    if (length > column->width)
        return 20;
    /* "A c cell is at most N bytes of content, and not empty where required." */
    if (column->kind == 'c')
        return 0;
    /* A doubled quote is content and no digit, so the bytes as they stand tell. */
    return judge_digits(bytes, byte_count, column, value);
}

static uint64_t judge_cell(const uint8_t *text, struct cell cell, const struct column *column, uint64_t *value)
{
    return judge_content(text + cell.start, cell.end - cell.start, content_length(text, cell), column, value);
}

/* ---- The header */

struct header {
    uint64_t cells;                     /* how many cells the header has */
    uint64_t cell_of[MOST_COLUMNS + 1]; /* for each column, from 1: its cell, counted from 1, or 0 where it is missing */
};

/* The number of the column that a header cell names, or 0: "Unknown columns, unnamed ones too, are passed over". */
static unsigned column_named(const uint8_t *text, struct cell cell, const struct table *table)
{
    unsigned c;

    for (c = 1; c <= table->column_count; c++) {
        const struct column *column = &table->columns[c - 1];

        /* "Two other spellings are read as the same column" */
        if (content_is(text, cell, column->name) || (column->other_name && content_is(text, cell, column->other_name)))
            return c;
    }
    return 0;
}

/* "header 6, 4, 3, 2". 3/13: 17 is "first among header and line checks". The cursor is left where the first row begins. */
static uint64_t read_header(unsigned edition, unsigned t, const uint8_t *text, size_t length, struct header *header,
    struct cursor *cursor, uint64_t place[4])
{
    const struct table *table = &tables[edition][t];
    struct cell cells[HEADER_CELLS];
    struct line line = header_line(edition, text, length, cursor);
    uint64_t fault, i;
    unsigned c;

    /* 3/13: "17 at column 0" */
    if (is_too_long(line))
        return refuse(place, 17, t, 1, 0);
    fault = cut_line(edition, text, line, cells, &header->cells);
    /* "6 | quote or byte fault | line, cell counted from 1": anywhere on the line, a 33rd cell too. */
    if (fault)
        return refuse(place, 6, t, 1, fault);
    /* "4 | more than 32 header cells | 1, 0" */
    if (header->cells > HEADER_CELLS)
        return refuse(place, 4, t, 1, 0);
    /* "3 | known column twice | 1, number of the column whose repeat is leftmost" */
    memset(header->cell_of, 0, sizeof header->cell_of);
    for (i = 1; i <= header->cells; i++) {
        c = column_named(text, cells[i - 1], table);
        if (c && header->cell_of[c])
            return refuse(place, 3, t, 1, c);
        if (c)
            header->cell_of[c] = i;
    }
    /* "2 | required column missing | 1, lowest missing" */
    for (c = 1; c <= table->column_count; c++)
        if (table->columns[c - 1].required && !header->cell_of[c])
            return refuse(place, 2, t, 1, c);
    return 0;
}

/* ---- Rows of the book */

/* -1, 0 or 1 as the first key is below, equal to or above the second, number by number. */
static int compare_keys(const uint64_t *one, const uint64_t *other, unsigned width)
{
    unsigned i;

    for (i = 0; i < width; i++)
        if (one[i] != other[i])
            return one[i] < other[i] ? -1 : 1;
    return 0;
}

/* Keys are as wide in both editions. */
static unsigned key_width(unsigned t)
{
    return tables[DINO_21][t].key_width;
}

/* How many rows of table t are in use: no VERSION is 0, and a row of the unused room is all zero. */
static size_t used(rows_in rows, unsigned t)
{
    size_t room = most_rows(t);
    size_t n = 0;

    while (n < room && rows[n][0] != 0)
        n++;
    return n;
}

static int is_full(rows_in rows, unsigned t)
{
    return used(rows, t) == most_rows(t);
}

/* Where a key stands that no row of table t has. */
static size_t nowhere(unsigned t)
{
    return most_rows(t);
}

/* The row of that key among the used rows of table t, or nowhere. */
static size_t find(rows_in rows, unsigned t, const uint64_t *key)
{
    unsigned width = key_width(t);
    size_t room = most_rows(t);
    size_t i;

    for (i = 0; i < room && rows[i][0] != 0; i++)
        if (compare_keys(rows[i], key, width) == 0)
            return i;
    return nowhere(t);
}

/* Puts a row among the others of table t, "rows by rising key". There is room for it, and its key is not there yet. */
static void insert(uint64_t (*rows)[NUMBERS], unsigned t, const uint64_t row[NUMBERS])
{
    size_t i = used((rows_in)rows, t);

    while (i > 0 && compare_keys(rows[i - 1], row, key_width(t)) > 0) {
        memcpy(rows[i], rows[i - 1], sizeof rows[i]);
        i--;
    }
    memcpy(rows[i], row, sizeof rows[i]);
}

/* Takes a used row of table t out; the rows above it move down, and the room that is left is zero. */
static void delete(uint64_t (*rows)[NUMBERS], unsigned t, size_t at)
{
    size_t n = used((rows_in)rows, t);

    for (; at + 1 < n; at++)
        memcpy(rows[at], rows[at + 1], sizeof rows[at]);
    memset(rows[n - 1], 0, sizeof rows[n - 1]);
}

/* The rows of one table in a book. */
static uint64_t (*rows_of(uint64_t (*book)[NUMBERS], unsigned t))[NUMBERS]
{
    return book + first_row(t);
}

static rows_in rows_of_in(rows_in book, unsigned t)
{
    return book + first_row(t);
}

/* 5/13: "the delivery's edition, which the book keeps (2.1 after a refused reading)". It stands in the book's last row, the
 * row of marks: 0 for 2.1, so that the book after a refused reading is all zero, and 1 for 2.3. */
enum { MARKS = BOOK_ROWS - 1 };

static unsigned edition_of(rows_in book)
{
    return book[MARKS][0] == 1 ? DINO_23 : DINO_21;
}

/* A book of that edition without rows. */
static void begin_book(unsigned edition, uint64_t (*book)[NUMBERS])
{
    memset(book, 0, BOOK_ROWS * sizeof book[0]);
    book[MARKS][0] = edition == DINO_23 ? 1 : 0;
}

/* ---- What holds between a row's numbers, and between the row and the book */

enum { DAY = 86400 };

/* 2/13: "where both times are below 86,400 and the end is lower, the block runs into the next day" */
static int runs_into_next_day(const uint64_t block[NUMBERS])
{
    return block[B_BEGIN] < DAY && block[B_END] < DAY && block[B_END] < block[B_BEGIN];
}

/* "11 | END below BEGIN". 2/13: "11 stays for an end below its begin where either is 86,400 or more." */
static int ends_early(const uint64_t block[NUMBERS])
{
    return block[B_END] < block[B_BEGIN] && (block[B_BEGIN] >= DAY || block[B_END] >= DAY);
}

/* "Seconds of a block: END minus BEGIN." 2/13: one that runs into the next day "has end plus 86,400 minus begin seconds". */
static uint64_t seconds_of(const uint64_t block[NUMBERS])
{
    if (runs_into_next_day(block))
        return block[B_END] + DAY - block[B_BEGIN];
    return block[B_END] - block[B_BEGIN];
}

/* A row of a table whose key is these two numbers. */
static int refers(rows_in book, unsigned t, uint64_t version, uint64_t number)
{
    uint64_t key[2];

    key[0] = version;
    key[1] = number;
    return find(rows_of_in(book, t), t, key) != nowhere(t);
}

static int refers_to_point(rows_in book, uint64_t version, uint64_t stop, uint64_t point)
{
    uint64_t key[3];

    key[0] = version;
    key[1] = stop;
    key[2] = point;
    return find(rows_of_in(book, STOP_POINT), STOP_POINT, key) != nowhere(STOP_POINT);
}

/* 1/13: "A stop point must name a known stop"; "for a stop point, column 2". The column, or 0. */
static uint64_t point_lost_reference(rows_in book, const uint64_t point[NUMBERS])
{
    return refers(book, STOP, point[0], point[1]) ? 0 : 2;
}

/* "References of a block, each together with VERSION: column 3 to depot, 5 to vehicle_type, 6 and 9 to stop."
 * 1/13: "columns 6 with 7 and 9 with 10 of a block must name a known point"; "10 for a block's point names column 7 or 10,
 * after the stop's own". The lowest column whose reference finds no row, or 0: "10 by column number". */
static uint64_t block_lost_reference(rows_in book, const uint64_t block[NUMBERS])
{
    uint64_t version = block[B_VERSION];

    if (!refers(book, DEPOT, version, block[B_DEPOT]))
        return 3;
    if (!refers(book, VEHICLE_TYPE, version, block[B_TYPE]))
        return 5;
    if (!refers(book, STOP, version, block[B_DEP_STOP]))
        return 6;
    if (!refers_to_point(book, version, block[B_DEP_STOP], block[B_DEP_POINT]))
        return 7;
    if (!refers(book, STOP, version, block[B_ARR_STOP]))
        return 9;
    if (!refers_to_point(book, version, block[B_ARR_STOP], block[B_ARR_POINT]))
        return 10;
    return 0;
}

/* The same for a row of any table: those of the first three and of the calendar refer to nothing. */
static uint64_t lost_reference(rows_in book, unsigned t, const uint64_t numbers[NUMBERS])
{
    if (t == STOP_POINT)
        return point_lost_reference(book, numbers);
    if (t == VEHICLE_BLOCK)
        return block_lost_reference(book, numbers);
    return 0;
}

/* ---- Reading a table */

/* Judges the cells of a row under the known columns, "8 by column number", and gathers the numbers by column. 4/13: "all keep
 * 8's place". Returns 0, or the number of what is wrong with the cell of *column, the lowest column with a fault. */
static uint64_t take_cells(const struct table *table, const uint8_t *text, const struct header *header,
    const struct cell cells[HEADER_CELLS], uint64_t numbers[MOST_COLUMNS], uint64_t *column)
{
    unsigned c;

    for (c = 1; c <= table->column_count; c++) {
        uint64_t cell = header->cell_of[c];
        uint64_t number;

        /* "Optional columns may be missing and then every cell of theirs is empty." */
        numbers[c - 1] = 0;
        if (!cell)
            continue;
        number = judge_cell(text, cells[cell - 1], &table->columns[c - 1], &numbers[c - 1]);
        *column = c;
        if (number)
            return number;
    }
    return 0;
}

/* What is wrong with a row by itself: 17, then 6. Its cells and how many they are. */
static uint64_t cut_row(unsigned edition, unsigned t, const uint8_t *text, struct line line, struct cell cells[HEADER_CELLS],
    uint64_t *count, uint64_t place[4])
{
    uint64_t fault;

    /* 3/13: "17 at column 0, first among header and line checks" */
    if (is_too_long(line))
        return refuse(place, 17, t, line.number, 0);
    fault = cut_line(edition, text, line, cells, count);
    /* "6 | quote or byte fault | line, cell counted from 1" */
    if (fault)
        return refuse(place, 6, t, line.number, fault);
    return 0;
}

/* The cells of one row: 17, then 6, then 7. */
static uint64_t take_line(unsigned edition, unsigned t, const uint8_t *text, struct line line, const struct header *header,
    struct cell cells[HEADER_CELLS], uint64_t place[4])
{
    uint64_t count;
    uint64_t number = cut_row(edition, t, text, line, cells, &count, place);

    if (number)
        return number;
    /* "7 | cell count differs from header | line, 0" */
    if (count != header->cells)
        return refuse(place, 7, t, line.number, 0);
    return 0;
}

/* "line by line 5, 6, 7, 8 by column number, 11, 9, 10 by column number"; 3/13: 17 comes "after 5"; 4/13: 19, 20 and 21 "keep
 * 8's place" */
static uint64_t read_row(unsigned edition, unsigned t, const uint8_t *text, struct line line, const struct header *header,
    uint64_t (*book)[NUMBERS], uint64_t place[4])
{
    const struct table *table = &tables[edition][t];
    uint64_t (*rows)[NUMBERS] = rows_of(book, t);
    struct cell cells[HEADER_CELLS];
    uint64_t numbers[MOST_COLUMNS];
    uint64_t row[NUMBERS] = {0};
    uint64_t number, column;

    /* "5 | more than 512 rows | first row too many, 0"; 7/13: "row 801 is 5". Every row above stands in the book. */
    if (is_full((rows_in)rows, t))
        return refuse(place, 5, t, line.number, 0);
    number = take_line(edition, t, text, line, header, cells, place);
    if (number)
        return number;
    number = take_cells(table, text, header, cells, numbers, &column);
    if (number)
        return refuse(place, number, t, line.number, column);
    /* "11 | END below BEGIN | line, 11" */
    if (t == VEHICLE_BLOCK && ends_early(numbers))
        return refuse(place, 11, t, line.number, 11);
    /* "9 | key stands in an earlier row": the rows so far are the earlier ones, and their keys are numbers. */
    if (find((rows_in)rows, t, numbers) != nowhere(t))
        return refuse(place, 9, t, line.number, 0);
    /* "10 | reference finds no row | line, column" */
    column = lost_reference((rows_in)book, t, numbers);
    if (column)
        return refuse(place, 10, t, line.number, column);
    memcpy(row, numbers, table->kept * sizeof row[0]);
    insert(rows, t, (const uint64_t *)row);
    return 0;
}

/* "in each 1; header 6, 4, 3, 2; then line by line". By the edition that the book is begun with. */
static uint64_t read_table(unsigned t, const uint8_t *text, size_t length, uint64_t (*book)[NUMBERS], uint64_t place[4])
{
    unsigned edition = edition_of((rows_in)book);
    struct header header;
    struct cursor cursor;
    struct line line;
    uint64_t number;

    /* "1 | text over 65,536 bytes | 0, 0" */
    if (length > TEXT_BYTES)
        return refuse(place, 1, t, 0, 0);
    number = read_header(edition, t, text, length, &header, &cursor, place);
    if (number)
        return number;
    while (next_line(edition, text, length, &cursor, &line)) {
        /* "The first fault ends the reading." */
        number = read_row(edition, t, text, line, &header, book, place);
        if (number)
            return number;
    }
    return 0;
}

uint64_t second_read(uint64_t edition, const uint8_t *vehicle_type, size_t vehicle_type_length, const uint8_t *depot,
    size_t depot_length, const uint8_t *stop, size_t stop_length, const uint8_t *stop_point, size_t stop_point_length,
    const uint8_t *vehicle_block, size_t vehicle_block_length, const uint8_t *day_type_calendar,
    size_t day_type_calendar_length, uint64_t (*book)[11], size_t rows, uint64_t place[4])
{
    const uint8_t *texts[LAST_TABLE + 1];
    size_t lengths[LAST_TABLE + 1];
    unsigned i;

    /* "one lent at another length is 16, before all else: that one stays as it came" */
    if (rows != BOOK_ROWS)
        return refuse_without_place(place, 16);
    /* 5/13: "an unknown edition is 22, right after 16". "A refused reading leaves an empty book" */
    if (edition_named(edition) == EDITIONS) {
        begin_book(DINO_21, book);
        return refuse_without_place(place, 22);
    }
    texts[VEHICLE_TYPE] = vehicle_type, lengths[VEHICLE_TYPE] = vehicle_type_length;
    texts[DEPOT] = depot, lengths[DEPOT] = depot_length;
    texts[STOP] = stop, lengths[STOP] = stop_length;
    texts[STOP_POINT] = stop_point, lengths[STOP_POINT] = stop_point_length;
    texts[VEHICLE_BLOCK] = vehicle_block, lengths[VEHICLE_BLOCK] = vehicle_block_length;
    texts[DAY_TYPE_CALENDAR] = day_type_calendar, lengths[DAY_TYPE_CALENDAR] = day_type_calendar_length;
    /* What the book held does not matter: it is filled anew. */
    begin_book(edition_named(edition), book);
    /* "in this order: tables 1 to 4"; 1/13: "between stop and vehicle_block"; 7/13: "read last" */
    for (i = 0; i < TABLES; i++) {
        unsigned t = reading_order[i];
        uint64_t number = read_table(t, texts[t], lengths[t], book, place);

        /* "A refused reading leaves an empty book, which is the book of four tables without rows." Now it is six, and 5/13:
         * "2.1 after a refused reading". */
        if (number) {
            begin_book(DINO_21, book);
            return number;
        }
    }
    return accept(place);
}

/* ---- The delivery by radio */

/* 3/13: "handed in against that rule it is 16, before 15". What this reader keeps is its own and never handed in by others,
 * so only a length can be wrong here. */
static int is_lent(const struct second_lent *lent)
{
    return lent->rows == BOOK_ROWS && lent->kept_length == SECOND_KEPT && lent->lines_length == SECOND_LINES;
}

/* Whether the next call may be an announcement: some table is still to come, and none is announced. Otherwise, where one is
 * announced, its parts and its close may come. */
static int awaits_announcement(const struct second_radio *radio)
{
    return radio->closed < TABLES && !radio->is_announced;
}

/* It begins anew whatever stood there. 5/13: "an unknown edition is 22, right after 16"; then, as with 16, nothing changes. */
uint64_t second_radio_open(struct second_radio *radio, uint64_t edition, const struct second_lent *lent, uint64_t place[4])
{
    if (!is_lent(lent))
        return refuse_without_place(place, 16);
    if (edition_named(edition) == EDITIONS)
        return refuse_without_place(place, 22);
    memset(radio, 0, sizeof *radio);
    begin_book(edition_named(edition), radio->book);
    return accept(place);
}

/* "The length of each table is announced before its first byte." A length that is too great shows at the close. */
uint64_t second_radio_announce(struct second_radio *radio, uint64_t length, const struct second_lent *lent,
    uint64_t place[4])
{
    if (!is_lent(lent))
        return refuse_without_place(place, 16);
    /* "a call out of turn is 15 and does nothing" */
    if (!awaits_announcement(radio))
        return refuse_without_place(place, 15);
    radio->is_announced = 1;
    radio->announced = length;
    radio->came = 0;
    return accept(place);
}

/* "Please take each table in parts, cut anywhere": the bytes are kept, and judged when the table is closed. Those behind the
 * 65,536th are only counted: a table that has them is not read. */
uint64_t second_radio_part(struct second_radio *radio, const uint8_t *part, size_t part_length,
    const struct second_lent *lent, uint64_t place[4])
{
    size_t i;

    if (!is_lent(lent))
        return refuse_without_place(place, 16);
    if (!radio->is_announced)
        return refuse_without_place(place, 15);
    for (i = 0; i < part_length; i++) {
        if (radio->came < TEXT_BYTES)
            radio->bytes[radio->came] = part[i];
        radio->came++;
    }
    return accept(place);
}

/* What the table that is closed comes to. */
static uint64_t read_heard(struct second_radio *radio, uint64_t place[4])
{
    unsigned t = reading_order[radio->closed];

    /* "an announced length over 65,536 is 1, before 18" */
    if (radio->announced > TEXT_BYTES)
        return refuse(place, 1, t, 0, 0);
    /* "a table closed with more or fewer bytes than announced is 18 at 0, 0, in place of that table's other faults" */
    if (radio->came != radio->announced)
        return refuse(place, 18, t, 0, 0);
    /* "When the announced bytes have come, verdict, place and book are those of the whole reading, however it was cut." */
    return read_table(t, radio->bytes, (size_t)radio->came, radio->book, place);
}

/* The verdict of the tables closed so far, and their book. */
uint64_t second_radio_close(struct second_radio *radio, uint64_t (*book)[11], const struct second_lent *lent,
    uint64_t place[4])
{
    if (!is_lent(lent))
        return refuse_without_place(place, 16);
    if (!radio->is_announced)
        return refuse_without_place(place, 15);
    /* "The first fault ends the reading." "After a fault, later parts are taken and change no answer, but 18 may still come":
     * where the fault is the table's own, which is judged here and not before. "A refused reading leaves an empty book" */
    if (!radio->place[0] && read_heard(radio, radio->place))
        begin_book(DINO_21, radio->book);
    radio->is_announced = 0;
    radio->closed++;
    memcpy(book, radio->book, sizeof radio->book);
    return refuse(place, radio->place[0], radio->place[1], radio->place[2], radio->place[3]);
}

/* ---- The book rule */

static int is_zero(const uint64_t *numbers, size_t count)
{
    size_t i;

    for (i = 0; i < count; i++)
        if (numbers[i] != 0)
            return 0;
    return 1;
}

/* One table of a book that some delivery leaves: numbers that its columns take, keys that rise, zeros elsewhere. */
static int table_keeps_rule(unsigned edition, rows_in rows, unsigned t)
{
    const struct table *table = &tables[edition][t];
    size_t n = used(rows, t);
    size_t i;
    unsigned c;

    for (i = 0; i < n; i++) {
        for (c = 0; c < table->kept; c++)
            if (!takes_number(&table->columns[c], rows[i][c]))
                return 0;
        if (!is_zero(rows[i] + table->kept, NUMBERS - table->kept))
            return 0;
        /* "rows by rising key"; equal keys would have been 9 */
        if (i > 0 && compare_keys(rows[i - 1], rows[i], table->key_width) >= 0)
            return 0;
    }
    /* "unused room zero" */
    for (i = n; i < table->most_rows; i++)
        if (!is_zero(rows[i], NUMBERS))
            return 0;
    return 1;
}

/* The row of marks: an edition that there is, and nothing else. */
static int marks_keep_rule(const uint64_t marks[NUMBERS])
{
    return marks[0] <= 1 && is_zero(marks + 1, NUMBERS - 1);
}

/* "The book rule: it is a book that some accepted delivery leaves", of the book's own edition. Every book that passes here is
 * left by the delivery of its own rows in their order: rows of full width, 512 or the calendar's 800, stay far below 65,536
 * bytes in each table. */
static int keeps_book_rule(rows_in book)
{
    unsigned part;

    if (!marks_keep_rule(book[MARKS]))
        return 0;
    for (part = 0; part < TABLES; part++) {
        unsigned t = reading_order[part];
        rows_in rows = rows_of_in(book, t);
        size_t n, i;

        if (!table_keeps_rule(edition_of(book), rows, t))
            return 0;
        n = used(rows, t);
        for (i = 0; i < n; i++)
            if ((t == VEHICLE_BLOCK && ends_early(rows[i])) || lost_reference(book, t, rows[i]))
                return 0;
    }
    return 1;
}

/* "16 | handed-in book breaks the book rule, or a lent length is wrong". The length first: a shorter book has no rows to
 * look at where the rule looks. */
static int is_book(rows_in book, size_t rows)
{
    return rows == BOOK_ROWS && keeps_book_rule(book);
}

/* ---- Questions */

/* Goes through the rows from the top to the one on line `wanted`, and gives it in *line. 5/13: "A cell asked on another line
 * is 15, but a 6 or 17 in a row above comes first": of every row that starts above that line, whatever line it is. In 2.1
 * "Other rows and 5 do not matter." */
static uint64_t find_row(unsigned edition, unsigned t, const uint8_t *text, size_t length, struct cursor below_header,
    uint64_t wanted, struct line *line, uint64_t place[4])
{
    struct cursor cursor = below_header;

    while (next_line(edition, text, length, &cursor, line) && line->number <= wanted) {
        struct cell cells[HEADER_CELLS];
        uint64_t count, number;

        if (line->number == wanted)
            return 0;
        number = edition == DINO_23 ? cut_row(edition, t, text, *line, cells, &count, place) : 0;
        if (number)
            return number;
    }
    /* "15 for the line (line 1 included)": no row starts there */
    return refuse_without_place(place, 15);
}

/* 5/13: "A 2 there means a ramp, in 2.1 lift or ramp; the cell answer must name which." It is named for every number there. */
static uint64_t number_answer(unsigned edition, unsigned t, uint64_t column)
{
    if (t != VEHICLE_TYPE || column != ACCESS_EQUIP)
        return 1;
    return edition == DINO_21 ? 3 : 4;
}

/* "The answer is a number, a stretch of text, or nothing, the last for empty content or a missing optional column." `number` is
 * what names a number. */
static void answer_cell(struct cell cell, const struct column *column, uint64_t number, uint64_t value, uint64_t answer[4])
{
    /* `""` is empty, and so the raw bytes tell whether there is content. */
    if (cell.start == cell.end)
        return;
    if (column->kind != 'c') {
        answer[0] = number;
        answer[1] = value;
        return;
    }
    /* "The stretch is the caller's own bytes between the quotes, or the whole cell where unquoted, doubled quotes still
     * doubled." */
    answer[0] = 2;
    answer[2] = cell.start;
    answer[3] = cell.end - cell.start;
}

uint64_t second_cell(uint64_t edition_name, const uint8_t *text, size_t length, uint64_t table, uint64_t line, uint64_t column,
    uint64_t answer[4], uint64_t place[4])
{
    unsigned edition = edition_named(edition_name);
    struct cell cells[HEADER_CELLS];
    struct header header;
    struct cursor cursor;
    struct line found;
    const struct column *asked;
    uint64_t number, value, cell;
    unsigned t;

    /* "Every answer but a text hands back an empty stretch, and every refusal zeros for numbers." */
    memset(answer, 0, 4 * sizeof answer[0]);
    /* 5/13: "an unknown edition is 22, right after 16", which this question does not have */
    if (edition == EDITIONS)
        return refuse_without_place(place, 22);
    /* "Checks: 15 for table or column, 1, header faults, 15 for the line (line 1 included), then 6 and 7 for that line and
     * 8 for that cell. Other rows and 5 do not matter." 3/13: 17 is first among the header's checks and the line's, "in both
     * ways of reading and in the cell question". 4/13: 8 is split "wherever cells are read". */
    if (table > LAST_TABLE || tables[edition][table].column_count == 0)
        return refuse_without_place(place, 15);
    t = (unsigned)table;
    if (column < 1 || column > tables[edition][t].column_count)
        return refuse_without_place(place, 15);
    if (length > TEXT_BYTES)
        return refuse(place, 1, t, 0, 0);
    number = read_header(edition, t, text, length, &header, &cursor, place);
    if (number)
        return number;
    number = find_row(edition, t, text, length, cursor, line, &found, place);
    if (number)
        return number;
    number = take_line(edition, t, text, found, &header, cells, place);
    if (number)
        return number;
    cell = header.cell_of[column];
    if (!cell)
        return accept(place); /* a missing column that the header was let off is optional: nothing */
    asked = &tables[edition][t].columns[column - 1];
    number = judge_cell(text, cells[cell - 1], asked, &value);
    if (number)
        return refuse(place, number, t, line, column);
    answer_cell(cells[cell - 1], asked, number_answer(edition, t, column), value, answer);
    return accept(place);
}

/* "Type: 16, 15, or seconds and count of its blocks." */
uint64_t second_type(const uint64_t (*book)[11], size_t rows, uint64_t version, uint64_t number, uint64_t answer[2],
    uint64_t place[4])
{
    rows_in blocks;
    size_t n, i;

    answer[0] = 0;
    answer[1] = 0;
    if (!is_book(book, rows))
        return refuse_without_place(place, 16);
    if (!refers(book, VEHICLE_TYPE, version, number))
        return refuse_without_place(place, 15);
    blocks = rows_of_in(book, VEHICLE_BLOCK);
    n = used(blocks, VEHICLE_BLOCK);
    for (i = 0; i < n; i++) {
        if (blocks[i][B_VERSION] != version || blocks[i][B_TYPE] != number)
            continue;
        answer[0] += seconds_of(blocks[i]);
        answer[1] += 1;
    }
    return accept(place);
}

/* "Block: 16, 15, or its seven non-key numbers." */
uint64_t second_block(const uint64_t (*book)[11], size_t rows, uint64_t version, uint64_t day_type, uint64_t depot,
    uint64_t block, uint64_t answer[7], uint64_t place[4])
{
    rows_in blocks;
    uint64_t key[4];
    size_t at;

    memset(answer, 0, 7 * sizeof answer[0]);
    if (!is_book(book, rows))
        return refuse_without_place(place, 16);
    blocks = rows_of_in(book, VEHICLE_BLOCK);
    key[0] = version;
    key[1] = day_type;
    key[2] = depot;
    key[3] = block;
    at = find(blocks, VEHICLE_BLOCK, key);
    /* A key of zeros is no row of the unused room: find looks at used rows only. */
    if (at == nowhere(VEHICLE_BLOCK))
        return refuse_without_place(place, 15);
    memcpy(answer, blocks[at] + 4, 7 * sizeof answer[0]);
    return accept(place);
}

/* 7/13: "the number of days in that span with the block's version and day type", "both included". A span whose last day is
 * before its first has none. Days as YYYYMMDD stand in the order of their numbers. */
static uint64_t days_of(rows_in book, const uint64_t block[NUMBERS], uint64_t first, uint64_t last)
{
    rows_in calendar = rows_of_in(book, DAY_TYPE_CALENDAR);
    size_t n = used(calendar, DAY_TYPE_CALENDAR);
    uint64_t days = 0;
    size_t i;

    for (i = 0; i < n; i++)
        if (calendar[i][C_VERSION] == block[B_VERSION] && calendar[i][C_DAY_TYPE] == block[B_DAY_TYPE]
            && calendar[i][C_DAY] >= first && calendar[i][C_DAY] <= last)
            days++;
    return days;
}

/* 7/13: "the sum, over its blocks, of seconds times the number of days"; "a span end that is no such date is 23, after 16 and
 * 15" */
uint64_t second_season(const uint64_t (*book)[11], size_t rows, uint64_t version, uint64_t number, uint64_t first,
    uint64_t last, uint64_t seconds[1], uint64_t place[4])
{
    rows_in blocks;
    size_t n, i;

    seconds[0] = 0;
    if (!is_book(book, rows))
        return refuse_without_place(place, 16);
    if (!refers(book, VEHICLE_TYPE, version, number))
        return refuse_without_place(place, 15);
    if (!is_date(first) || !is_date(last))
        return refuse_without_place(place, 23);
    blocks = rows_of_in(book, VEHICLE_BLOCK);
    n = used(blocks, VEHICLE_BLOCK);
    for (i = 0; i < n; i++)
        if (blocks[i][B_VERSION] == version && blocks[i][B_TYPE] == number)
            seconds[0] += seconds_of(blocks[i]) * days_of(book, blocks[i], first, last);
    return accept(place);
}

/* An array of negative length where a double is no binary64 number, or is worked out in another kind of number. */
typedef char doubles_are_binary64[DBL_MANT_DIG == 53 && DBL_MAX_EXP == 1024 && FLT_EVAL_METHOD == 0 ? 1 : -1];

/* 8/13: "divided by 3,600 at the very end". A double has every number of seconds exactly, since none reaches 2 to the 53rd, and
 * IEEE 754 rounds the quotient once. */
static double hours_of(uint64_t seconds)
{
    return (double)seconds / 3600.0;
}

/* 8/13: "one type's whole seconds S divided by 3,600", and "as the ledger clerk does: each block's hours rounded, added in
 * rising key order", in which the book has its blocks. "No blocks gives 0 exactly, as do 16 and 15." */
uint64_t second_hours(const uint64_t (*book)[11], size_t rows, uint64_t version, uint64_t number, double hours[2],
    uint64_t place[4])
{
    uint64_t sum[2];
    uint64_t refusal = second_type(book, rows, version, number, sum, place);
    rows_in blocks;
    size_t n, i;

    hours[0] = 0.0;
    hours[1] = 0.0;
    if (refusal)
        return refusal;
    blocks = rows_of_in(book, VEHICLE_BLOCK);
    n = used(blocks, VEHICLE_BLOCK);
    for (i = 0; i < n; i++)
        if (blocks[i][B_VERSION] == version && blocks[i][B_TYPE] == number)
            hours[1] = hours[1] + hours_of(seconds_of(blocks[i]));
    hours[0] = hours_of(sum[0]);
    return refusal;
}

/* 8/13: "Calendar sums go by the first rule alone." */
uint64_t second_season_hours(const uint64_t (*book)[11], size_t rows, uint64_t version, uint64_t number, uint64_t first,
    uint64_t last, double hours[1], uint64_t place[4])
{
    uint64_t seconds[1];
    uint64_t refusal = second_season(book, rows, version, number, first, last, seconds, place);

    /* a refused season has 0 seconds */
    hours[0] = hours_of(seconds[0]);
    return refusal;
}

/* ---- Slips */

enum { SLIP_FIELDS = 12 };

/* A line, and a field of it: the bytes from start up to, not with, end. */
struct slip_line {
    size_t start, end;
};

struct field {
    size_t start, end;
};

/* "Lines of tab-parted fields". Counts them and keeps the first twelve, which no kind has more of. */
static size_t cut_fields(const uint8_t *slip, struct slip_line line, struct field fields[SLIP_FIELDS])
{
    size_t count = 0;
    size_t at = line.start;

    for (;;) {
        struct field field;

        field.start = at;
        while (at < line.end && slip[at] != '\t')
            at++;
        field.end = at;
        if (count < SLIP_FIELDS)
            fields[count] = field;
        count++;
        if (at == line.end)
            return count;
        at++;
    }
}

/* "each ended by a line feed (the last may lack it)". A carriage return is a byte like another here: "a field with another
 * byte, a carriage return too, is 8", or 20 where it makes the field too long. */
static int next_slip_line(const uint8_t *slip, size_t length, size_t *at, struct slip_line *line)
{
    size_t i = *at;

    if (i >= length)
        return 0;
    line->start = i;
    while (i < length && slip[i] != '\n')
        i++;
    line->end = i;
    *at = i < length ? i + 1 : i;
    return 1;
}

/* "`A` and 11 numbers, in vehicle_block order: add. `R` and 11: replace the block of that key. `D` and the 4 key numbers:
 * delete." The kind, or 0 for "12 | slip line of unknown kind or field count". A blank line has one field, an empty one. */
static uint8_t kind_of(const uint8_t *slip, const struct field fields[SLIP_FIELDS], size_t count)
{
    uint8_t kind;

    if (fields[0].end - fields[0].start != 1)
        return 0;
    kind = slip[fields[0].start];
    if ((kind == 'A' || kind == 'R') && count == 12)
        return kind;
    if (kind == 'D' && count == 5)
        return kind;
    return 0;
}

/* "Numbers follow their column's rules, unquoted" and "Fields count as the vehicle_block columns." A field is its content, byte
 * for byte. 5/13: "slips being judged by the delivery's edition". Returns 0, or the number of what is wrong with the field of
 * *column, the first one with a fault. */
static uint64_t take_fields(unsigned edition, const uint8_t *slip, const struct field fields[SLIP_FIELDS], size_t count,
    uint64_t numbers[NUMBERS], uint64_t *column)
{
    const struct column *columns = tables[edition][VEHICLE_BLOCK].columns;
    size_t c;

    for (c = 1; c < count; c++) {
        size_t length = fields[c].end - fields[c].start;
        uint64_t number = judge_content(slip + fields[c].start, length, length, &columns[c - 1], &numbers[c - 1]);

        *column = c;
        if (number)
            return number;
    }
    return 0;
}

/* "A: 12, 5, 8, 11, 9, 10. R: 12, 8, 11, 13, 10. D: 12, 8, 13." 4/13: 19, 20 and 21 "keep 8's place". The blocks stand in their
 * own rows here, as the earlier lines left them; the book has the tables that they refer to. */
static uint64_t take_slip_line(const uint8_t *slip, struct slip_line line, uint64_t line_number, rows_in book,
    uint64_t (*blocks)[NUMBERS], uint64_t place[4])
{
    struct field fields[SLIP_FIELDS];
    uint64_t numbers[NUMBERS] = {0};
    size_t count = cut_fields(slip, line, fields);
    uint8_t kind = kind_of(slip, fields, count);
    uint64_t number, column;
    size_t at;

    /* "12 | slip line of unknown kind or field count | slip line, 0" */
    if (!kind)
        return refuse(place, 12, SLIP, line_number, 0);
    /* "An A meets 5 only while 512 blocks stand; a deleted block's room is used again." */
    if (kind == 'A' && is_full((rows_in)blocks, VEHICLE_BLOCK))
        return refuse(place, 5, SLIP, line_number, 0);
    number = take_fields(edition_of(book), slip, fields, count, numbers, &column);
    if (number)
        return refuse(place, number, SLIP, line_number, column);
    if (kind != 'D' && ends_early(numbers))
        return refuse(place, 11, SLIP, line_number, 11);
    at = find((rows_in)blocks, VEHICLE_BLOCK, numbers);
    /* "9 | key stands in an earlier row (A: in the book)" */
    if (kind == 'A' && at != nowhere(VEHICLE_BLOCK))
        return refuse(place, 9, SLIP, line_number, 0);
    /* "13 | slip names a block not in the book" */
    if (kind != 'A' && at == nowhere(VEHICLE_BLOCK))
        return refuse(place, 13, SLIP, line_number, 0);
    column = kind == 'D' ? 0 : block_lost_reference(book, numbers);
    if (column)
        return refuse(place, 10, SLIP, line_number, column);
    if (kind == 'A')
        insert(blocks, VEHICLE_BLOCK, (const uint64_t *)numbers);
    else if (kind == 'R')
        memcpy(blocks[at], numbers, sizeof blocks[at]);
    else
        delete(blocks, VEHICLE_BLOCK, at);
    return 0;
}

/* All lines of a slip, on a copy of the book's blocks. */
static uint64_t take_slip(const uint8_t *slip, size_t length, rows_in book, uint64_t (*blocks)[NUMBERS], uint64_t place[4])
{
    struct slip_line line;
    uint64_t line_number;
    size_t at = 0;

    /* "Order: 16; 1; per line" */
    if (length > TEXT_BYTES)
        return refuse(place, 1, SLIP, 0, 0);
    /* "An empty slip is accepted; a blank line is 12." */
    for (line_number = 1; next_slip_line(slip, length, &at, &line); line_number++) {
        /* "its lines are judged in turn on what the earlier ones left" */
        uint64_t number = take_slip_line(slip, line, line_number, book, blocks, place);

        if (number)
            return number;
    }
    return accept(place);
}

uint64_t second_slip(const uint8_t *slip, size_t slip_length, uint64_t (*book)[11], size_t book_rows, uint64_t (*work)[11],
    size_t work_rows, uint64_t place[4])
{
    uint64_t (*blocks)[NUMBERS];
    uint64_t number;

    /* "Book and working area each have one fixed size; one lent at another length is 16, before all else: that one stays
     * as it came, and the rest ends as after any refusal." */
    if (work_rows != WORK_ROWS)
        return refuse_without_place(place, 16);
    if (!is_book((rows_in)book, book_rows)) {
        memset(work, 0, WORK_ROWS * sizeof work[0]);
        return refuse_without_place(place, 16);
    }
    blocks = rows_of(book, VEHICLE_BLOCK);
    memcpy(work, blocks, WORK_ROWS * sizeof work[0]);
    number = take_slip(slip, slip_length, (rows_in)book, work, place);
    /* "A slip is taken whole or not at all" */
    if (number == 0)
        memcpy(blocks, work, WORK_ROWS * sizeof work[0]);
    /* "A working area lent to a call ends all zero." */
    memset(work, 0, WORK_ROWS * sizeof work[0]);
    return number;
}

/* ---- The writer */

/* Header and rows: eleven names of at most 21 bytes and 512 rows of 54 digits, each byte string with one byte behind it. */
enum { WRITTEN_BYTES = 11 * 22 + BLOCKS * (54 + 11) };

/* Decimal, no leading zeros. */
static size_t write_number(uint8_t *out, uint64_t number)
{
    uint8_t backwards[20];
    size_t n = 0;
    size_t i;

    do {
        backwards[n++] = (uint8_t)('0' + number % 10);
        number /= 10;
    } while (number > 0);
    for (i = 0; i < n; i++)
        out[i] = backwards[n - 1 - i];
    return n;
}

/* "The written table has the 11 names above in order, no quotes, no leading zeros, line feeds, rows by rising key". The names
 * are those of both editions. */
static size_t write_blocks(rows_in blocks, uint8_t out[WRITTEN_BYTES])
{
    size_t n = used(blocks, VEHICLE_BLOCK);
    size_t at = 0;
    size_t i;
    unsigned c;

    for (c = 0; c < NUMBERS; c++) {
        const char *name = tables[DINO_21][VEHICLE_BLOCK].columns[c].name;
        size_t length = strlen(name);

        memcpy(out + at, name, length);
        at += length;
        out[at++] = c + 1 < NUMBERS ? ';' : '\n';
    }
    for (i = 0; i < n; i++)
        for (c = 0; c < NUMBERS; c++) {
            at += write_number(out + at, blocks[i][c]);
            out[at++] = c + 1 < NUMBERS ? ';' : '\n';
        }
    return at;
}

uint64_t second_write(const uint64_t (*book)[11], size_t rows, uint8_t *out, size_t out_length, uint64_t length[1],
    uint64_t place[4])
{
    uint8_t text[WRITTEN_BYTES];
    size_t written;

    /* "The answer is the text's length, 0 if refused. Order: 16, 14." */
    length[0] = 0;
    if (!is_book(book, rows))
        return refuse_without_place(place, 16);
    written = write_blocks(rows_of_in(book, VEHICLE_BLOCK), text);
    /* "14 | output shorter than the text to write" */
    if (out_length < written)
        return refuse_without_place(place, 14);
    /* "Bytes behind the text stay." */
    memcpy(out, text, written);
    length[0] = written;
    return accept(place);
}
