/* workshop.h: the workshop's functions for C.
 *
 * A table text is the bytes of one DINO table: 1 vehicle_type, 2 depot, 3 stop, 4 vehicle_block, 6 stop_point,
 * 7 day_type_calendar, read in the order 1, 2, 3, 6, 4, 7. A slip is the bytes of one correction slip. Both are handed in as
 * a pointer and the number of bytes; neither needs a byte 0 behind it.
 *
 * THE EDITION of DINO is the first parameter of every function that is handed a table text or opens a delivery by radio: 21
 * for 2.1, 23 for 2.3. Any other number is refused with 22. A whole delivery goes by one edition; the book keeps it, and slips
 * go by the book's. By 2.3
 *
 *     STOP_NAME has up to 255 bytes, by 2.1 up to 50
 *     DEP_STOP_NR and ARR_STOP_NR have up to 5 digits and go from 1 to 99999, by 2.1 up to 6 digits and from 0 to 999999
 *     VEH_TYPE_ACCESS_EQUIP goes from 0 to 7, by 2.1 from 0 to 2 (see workshop_cell)
 *     VEH_DELFI_TYPE, a text of up to 10 bytes, is the optional column 12 of vehicle_type; by 2.1 the name is unknown
 *     line breaks may stand inside double quotes
 *
 * A ROW is by 2.1 one line. By 2.3 it ends at the first line feed that is not inside the quotes of a cell, and quotes that are
 * not closed go to the text's end. A line feed inside quotes, with or without one carriage return before it, is content, of one
 * byte or two; any other carriage return there is 6. A row's line is the one that it starts on, counted by all line feeds from
 * the text's beginning; the header may have several lines too.
 *
 * THE BOOK is an array of WORKSHOP_BOOK_ROWS rows of WORKSHOP_NUMBERS numbers that the caller owns:
 *
 *     uint64_t book[WORKSHOP_BOOK_ROWS][WORKSHOP_NUMBERS];
 *
 * Each table has its rows, in the order of reading: 0 to 511 are the vehicle types, 512 to 1023 the depots, 1024 to 1535 the
 * stops, 1536 to 2047 the stop points, 2048 to 2559 the blocks, 2560 to 3359 the days of the calendar. The used rows stand
 * first, by rising key; the others are all zero, and as no VERSION is 0, the first row of a table that begins with 0 ends it.
 * A vehicle type, depot or stop keeps its key (VERSION, number) and nine zeros, a stop point its key (VERSION, STOP_NR,
 * STOPPING_POINT_NR) and eight zeros. A block keeps its 11 numbers in the order of the vehicle_block columns: VERSION,
 * DAY_TYPE_NR, DEPOT_NR, BLOCK_NR (the key), VEH_TYP_NR, DEP_STOP_NR, DEP_STOPPING_POINT_NR, BEGIN_OF_BLOCK, ARR_STOP_NR,
 * ARR_STOPPING_POINT_NR, END_OF_BLOCK. A day of the calendar keeps VERSION, DAY (the key), DAY_TYPE_NR and eight zeros.
 * The last row, 3360, is the row of marks. Its first number is the book's edition, 0 for 2.1 and 1 for 2.3; the others are 0.
 * The empty book, which a refused reading leaves, is all zero and so of 2.1.
 * A book that workshop_read filled may be kept, copied and handed in again later. One that no accepted delivery of its edition
 * can leave (a wrong order, a number out of range, a day that is no date, a missing reference, times that are 11, something in
 * the unused room, another mark) is refused with 16 by every function that looks at a book.
 *
 * A BLOCK'S TIMES: where both are below 86,400 and END_OF_BLOCK is lower, the block runs into the next day and has
 * END_OF_BLOCK + 86,400 - BEGIN_OF_BLOCK seconds; otherwise it has END_OF_BLOCK - BEGIN_OF_BLOCK. The book keeps both numbers
 * as they were delivered, and so does the written table.
 *
 * A DAY is a date of the Gregorian calendar in the years 1600 to 9999, written YYYYMMDD: 20240229 is 29 February 2024. A DAY of
 * fewer than 8 digits is no date, which is 21. No block needs its day type in the calendar, and no day needs a block of its day
 * type.
 *
 * HOURS are handed out as a double, which must be a binary64 number of IEEE 754 where this header is used. Quotients and sums
 * of hours are rounded to the nearest such number, and to the even one of two that are as near. A caller must leave the
 * processor rounding so, as it does when a program begins.
 *
 * BY RADIO a delivery may come in parts: see workshop_radio_open below. Verdict, place and book are those of workshop_read on
 * the whole texts, wherever the parts were cut.
 *
 * LENGTHS of books and working areas are counted in rows. A book must be lent with exactly WORKSHOP_BOOK_ROWS rows, a
 * working area with exactly WORKSHOP_WORK_ROWS, and what a delivery by radio keeps with exactly WORKSHOP_RADIO_KEPT numbers
 * and WORKSHOP_RADIO_LINES bytes; any other true length is safe to hand in, and is 16.
 *
 * EVERY FUNCTION returns the number of refusal, 0 for accepted, and fills place:
 *
 *     place[0] the number of refusal, the same as returned
 *     place[1] the table: 1 to 4, 6 or 7, or 5 for a slip; 0 for the numbers 0, 14, 15, 16, 22 and 23
 *     place[2] the line, counted from 1 (line 1 of a table is its header's), or 0
 *     place[3] the column by its number, for 6 the cell counted from 1 in its row, or 0
 *
 *     0 accepted                                       10 reference finds no row
 *     1 text over 65,536 bytes (by radio: announced)   11 END_OF_BLOCK below BEGIN_OF_BLOCK where one of them is
 *     2 required column missing                           86,400 or more
 *     3 known column twice                             12 slip line of unknown kind or field count
 *     4 more than 32 header cells                      13 slip names a block that is not in the book
 *     5 more than 512 rows (calendar: 800)             14 output shorter than the text to write
 *     6 quote or byte fault                            15 asked table, column, line, type or block does not exist, or a
 *     7 cell count differs from the header                call by radio is out of turn
 *     8 cell not digits                                16 book breaks the book rule, what is kept by radio breaks its own,
 *     9 key stands in an earlier row                      or a lent length is wrong
 *       (slip: in the book)                            17 row of more than 2,048 bytes, its line end left out
 *                                                      18 table closed with more or fewer bytes than announced (by radio)
 *                                                      19 cell empty where its column is required
 *                                                      20 cell longer than its column's width; it comes before 8 and 21
 *                                                      21 number outside its column's range, or a day that is no date
 *                                                      22 unknown edition
 *                                                      23 first or last day is no date
 *
 * A CELL is judged by its content, a field of a slip by its bytes. A text column has 19 and 20 only. Of a row's cells with one
 * of 19, 20, 8 and 21 the lowest column is told, whichever it has.
 *
 * Only the first fault is told. Numbers may be added later; a caller treats one that it does not know as a refusal.
 *
 * POINTERS: each points to at least as many elements as the length beside it says, is not null (not even for length 0),
 * and is aligned for its type. No array that is written to may overlap another argument. Nothing is kept after a call, and no
 * function has state of its own, so calls on different arrays may run at the same time. A call needs some 80 KB of stack.
 *
 * In C before C23 an array of rows that is not const needs a cast where rows of const are asked for:
 *
 *     workshop_type((const uint64_t (*)[WORKSHOP_NUMBERS])book, WORKSHOP_BOOK_ROWS, 1, 4, answer, place);
 */
#ifndef WORKSHOP_H
#define WORKSHOP_H

#include <stddef.h>
#include <stdint.h>

#define WORKSHOP_NUMBERS 11       /* numbers in a row */
#define WORKSHOP_BOOK_ROWS 3361   /* rows in a book */
#define WORKSHOP_WORK_ROWS 512    /* rows in a working area */
#define WORKSHOP_RADIO_KEPT 11    /* numbers that a delivery by radio keeps beside its book */
#define WORKSHOP_RADIO_LINES 4097 /* and bytes */

#ifdef __cplusplus
extern "C" {
#endif

/* Reads a delivery, the six table texts, into the book. What the book held before does not matter. The texts stand in the
 * order in which they are read: a text that a later release adds comes in its table's place, as stop_point did between
 * stop and vehicle_block, so a caller that was compiled against an earlier header must be compiled again.
 *
 * Accepted: the book holds the delivery and its edition. Refused: the book is the empty one, all zero; only where `rows` is not
 * WORKSHOP_BOOK_ROWS (16) it stays as it was. Can refuse with 16, then 22, then 1 to 11, 17 and 19 to 21. */
uint64_t workshop_read(uint64_t edition, const uint8_t *vehicle_type, size_t vehicle_type_length, const uint8_t *depot,
    size_t depot_length, const uint8_t *stop, size_t stop_length, const uint8_t *stop_point, size_t stop_point_length,
    const uint8_t *vehicle_block, size_t vehicle_block_length, const uint8_t *day_type_calendar,
    size_t day_type_calendar_length, uint64_t (*book)[11], size_t rows, uint64_t place[4]);

/* THE DELIVERY BY RADIO, for a caller that has no room for a whole table. Each table is announced with its length, sent in
 * parts that are cut anywhere, even between a quote and its double or a carriage return and its line feed, and closed. The
 * six tables come in the order in which workshop_read takes them. Three arrays of the caller's keep the delivery between the
 * calls; every call is handed all three as the last one left them:
 *
 *     book     WORKSHOP_BOOK_ROWS rows: the book, as far as it is read, and the delivery's edition in its last row
 *     kept     WORKSHOP_RADIO_KEPT numbers
 *     lines    WORKSHOP_RADIO_LINES bytes
 *
 * They are no working area: together they are the delivery as far as it has come. They may be kept, copied and handed in
 * again later, so that a delivery can be laid aside, or taken up again from an earlier copy. What stands in `kept` and
 * `lines` is the functions' own and may change from release to release: a caller neither reads it nor writes into it. The
 * book is the caller's behind the last close; before it, it is a part of the delivery as the other two are.
 *
 *     uint64_t book[WORKSHOP_BOOK_ROWS][WORKSHOP_NUMBERS];
 *     uint64_t kept[WORKSHOP_RADIO_KEPT];
 *     uint8_t lines[WORKSHOP_RADIO_LINES];
 *
 *     #define DELIVERY book, WORKSHOP_BOOK_ROWS, kept, WORKSHOP_RADIO_KEPT, lines, WORKSHOP_RADIO_LINES
 *
 *     uint64_t take_delivery(uint64_t place[4])
 *     {
 *         uint64_t verdict = workshop_radio_open(23, DELIVERY, place);
 *         uint8_t part[256];
 *         size_t table, length;
 *
 *         for (table = 0; table < 6; table++) {
 *             workshop_radio_announce(announced_length(table), DELIVERY, place);
 *             while ((length = receive(part, sizeof part)) > 0)
 *                 workshop_radio_part(part, length, DELIVERY, place);
 *             verdict = workshop_radio_close(DELIVERY, place);
 *         }
 *         return verdict;
 *     }
 *
 * announced_length and receive stand for the link; receive gives 0 at a table's end.
 *
 * THE ANSWERS. All four are first of all 16 where a length is wrong, and all but workshop_radio_open where what is kept
 * breaks its rule, which what these functions leave never does; then workshop_radio_open is 22 for an unknown edition, and the
 * others are 15 out of turn. A call that is 16, 22 or 15 changes nothing. Otherwise opening, announcing and a part are accepted
 * whatever the bytes are, and a fault shows when its table is closed: workshop_radio_close gives the verdict of the tables
 * closed so far, which is accepted or the first fault. Of one table that is 1 where the announced length is over 65,536, then
 * 18 where more or fewer bytes came than were announced, then what workshop_read says of it by the delivery's edition; 1 and
 * 18 have the table in their place, and 0 for line and column.
 * Behind a fault the other tables are still announced and closed in their turn; their parts are taken, and each close gives
 * the same fault again. */

/* Begins a delivery by radio. What the three arrays held does not matter: a delivery that stood there is gone. Accepted, or
 * 16 for a wrong length, then 22; either way nothing changes, so that a delivery that stands there can go on. */
uint64_t workshop_radio_open(uint64_t edition, uint64_t (*book)[11], size_t rows, uint64_t *kept, size_t kept_length,
    uint8_t *lines, size_t lines_length, uint64_t place[4]);

/* Announces the next table, in the order of reading, by the number of its bytes. In turn behind workshop_radio_open and
 * behind the close of every table but the last. A `length` over 65,536 is accepted here, and is 1 at the table's close. */
uint64_t workshop_radio_announce(uint64_t length, uint64_t (*book)[11], size_t rows, uint64_t *kept, size_t kept_length,
    uint8_t *lines, size_t lines_length, uint64_t place[4]);

/* Takes the next part of the announced table. In turn behind its announcement and before its close, as often as there are
 * parts. A part of length 0 changes nothing. Bytes behind the announced ones are taken too, and are 18 at the close. */
uint64_t workshop_radio_part(const uint8_t *part, size_t part_length, uint64_t (*book)[11], size_t rows, uint64_t *kept,
    size_t kept_length, uint8_t *lines, size_t lines_length, uint64_t place[4]);

/* Closes the announced table: its last line may lack its line feed, and the bytes that came are held to those announced. In
 * turn behind the announcement, also where no part came. Accepted, or the first fault of the tables closed so far: 1 to 11
 * or 17 to 21. The close of the last table, day_type_calendar, gives the delivery's verdict, and the book is then the one that
 * workshop_read leaves: that of the delivery, or the empty one, all zero. Behind it only workshop_radio_open is in turn. */
uint64_t workshop_radio_close(uint64_t (*book)[11], size_t rows, uint64_t *kept, size_t kept_length, uint8_t *lines,
    size_t lines_length, uint64_t place[4]);

/* Carries out a correction slip on the book: lines A (add), R (replace) and D (delete), whole or not at all. Its numbers are
 * held to the columns of the book's edition. A line feed always ends a line of a slip.
 *
 * `work` is room that the function works in: WORKSHOP_WORK_ROWS rows of any content, all zero afterwards, whatever the
 * answer. Accepted: the book is the corrected one. Refused: the book stays as it was. Where a length is wrong (16), what
 * was lent at that length stays as it was. Can refuse with 16, then 1, then 5, 8 to 13 or 19 to 21 at a line of the slip
 * (table 5). */
uint64_t workshop_slip(const uint8_t *slip, size_t slip_length, uint64_t (*book)[11], size_t book_rows,
    uint64_t (*work)[11], size_t work_rows, uint64_t place[4]);

/* Looks up one cell of one table text: `table` 1 to 4, 6 or 7, `line` the one that its row starts on, `column` by its number
 * (not by its place in the row). Only the header and that row are judged, so a text that workshop_read refuses may still have
 * answers. By 2.3 the rows that start above `line` are judged too, from the top and for 17 and then 6 alone: behind such a
 * fault no row's beginning is certain.
 *
 *     answer[0] 0 nothing (the cell is empty, or its optional column is missing), 1 a number, 2 a text,
 *               3 VEH_TYPE_ACCESS_EQUIP by 2.1, 4 VEH_TYPE_ACCESS_EQUIP by 2.3
 *     answer[1] the value for 1, 3 and 4, otherwise 0
 *     answer[2] where a text starts: text + answer[2]; otherwise 0
 *     answer[3] a text's length in bytes, otherwise 0
 *
 * A text is the bytes of `text` itself between the quotes, or the whole cell where it has none; doubled quotes inside are
 * still doubled. The access equipment has numbers of its own, whatever its value is: a 2 is a lift or a ramp by 2.1, and a ramp
 * by 2.3, where the value is a sum of flags, 1 a lift, 2 a ramp, 4 a multi-purpose space.
 *
 * Refused: four zeros. Can refuse with 22; 15 for the table or column; 1; 17, 6, 4, 3, 2 of the header; by 2.3 then 17 or 6 of
 * a row above; 15 where no row starts on the line; 17, 6, 7 of the row; and 19, 20, 8 or 21 of the cell, in this order. */
uint64_t workshop_cell(uint64_t edition, const uint8_t *text, size_t length, uint64_t table, uint64_t line, uint64_t column,
    uint64_t answer[4], uint64_t place[4]);

/* Sums up the blocks of one vehicle type: answer[0] their seconds (see A BLOCK'S TIMES) and answer[1] their count.
 * Refused: two zeros; 16 for the book, 15 if no such type is in it. A type without blocks is accepted: 0 and 0. */
uint64_t workshop_type(const uint64_t (*book)[11], size_t rows, uint64_t version, uint64_t number, uint64_t answer[2],
    uint64_t place[4]);

/* Looks up one block by its key. The answer is its other seven numbers, VEH_TYP_NR to END_OF_BLOCK. Refused: seven
 * zeros; 16 for the book, 15 if no such block is in it. */
uint64_t workshop_block(const uint64_t (*book)[11], size_t rows, uint64_t version, uint64_t day_type, uint64_t depot,
    uint64_t block, uint64_t answer[7], uint64_t place[4]);

/* Sums up a season of one vehicle type: seconds[0] is the sum, over its blocks, of the block's seconds times the number of the
 * calendar's days from `first` to `last`, both included, that have the block's VERSION and DAY_TYPE_NR. Both are days (see A
 * DAY). A span that ends before it begins has 0 seconds. No sum is over 512 * 999,999 * 800. Refused: 0 seconds; 16 for the
 * book, 15 if no such type is in it, 23 if `first` or `last` is no date, in this order. */
uint64_t workshop_season(const uint64_t (*book)[11], size_t rows, uint64_t version, uint64_t number, uint64_t first,
    uint64_t last, uint64_t seconds[1], uint64_t place[4]);

/* Gives one vehicle type's hours for the ledger (see HOURS): hours[0] is the seconds of all its blocks divided by 3,600 once,
 * hours[1] the clerk's sum: from 0 on, by rising key of the blocks, each block's seconds are divided by 3,600 and added. Both
 * are finite and not below 0. How near they are: 2^53 times the distance between 3,600 times hours[0] and the seconds is at
 * most the seconds; for n blocks, 2^52 times the distance between 3,600 times hours[1] and the seconds is at most n times the
 * seconds. Refused: two zeros; 16 for the book, 15 if no such type is in it. A type without blocks is accepted: 0 and 0. Each
 * of these zeros is +0.0, of which every bit is 0. */
uint64_t workshop_hours(const uint64_t (*book)[11], size_t rows, uint64_t version, uint64_t number, double hours[2],
    uint64_t place[4]);

/* Gives a season's hours: hours[0] is the seconds that workshop_season sums up, divided by 3,600 once, as near to them as
 * hours[0] of workshop_hours. Refused: +0.0; 16, 15 and 23 as there. A season without seconds is accepted: +0.0. */
uint64_t workshop_season_hours(const uint64_t (*book)[11], size_t rows, uint64_t version, uint64_t number, uint64_t first,
    uint64_t last, double hours[1], uint64_t place[4]);

/* Writes the book's blocks as a vehicle_block table: the header and a line for each block by rising key, no quotes, no
 * leading zeros, each line ended by a line feed. length[0] is the number of bytes written; the bytes of `out` behind them
 * stay. No book needs more than 34,000 bytes. Refused: `out` stays as it was and length[0] is 0; 16 for the book, 14 if
 * `out_length` is too small. */
uint64_t workshop_write(const uint64_t (*book)[11], size_t rows, uint8_t *out, size_t out_length, uint64_t length[1],
    uint64_t place[4]);

#ifdef __cplusplus
}
#endif

#endif
