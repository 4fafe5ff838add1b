/* The second reader: the functions of include/workshop.h once more, under other names, written from documents 01 and 02
 * alone. What each takes, answers and leaves is said there. It is for comparing and made to be read, not to be fast. */
#ifndef SECOND_READER_H
#define SECOND_READER_H

#include <stddef.h>
#include <stdint.h>

enum { SECOND_BOOK_ROWS = 3361 };

uint64_t second_read(uint64_t edition, const uint8_t *vehicle_type, size_t vehicle_type_length, const uint8_t *depot,
    size_t depot_length, const uint8_t *stop, size_t stop_length, const uint8_t *stop_point, size_t stop_point_length,
    const uint8_t *vehicle_block, size_t vehicle_block_length, const uint8_t *day_type_calendar,
    size_t day_type_calendar_length, uint64_t (*book)[11], size_t rows, uint64_t place[4]);

/* The delivery by radio. In place of `kept` and `lines` this reader keeps a struct of its own, with all bytes of the table
 * that is announced; of the other two it is told the lengths at which they are lent. */
enum { SECOND_TEXT_BYTES = 65536, SECOND_KEPT = 11, SECOND_LINES = 4097 };

struct second_radio {
    uint64_t closed;    /* how many tables are closed */
    int is_announced;   /* whether the next one is announced and not yet closed */
    uint64_t announced; /* its length */
    uint64_t came;      /* how many bytes of it came */
    uint8_t bytes[SECOND_TEXT_BYTES];
    uint64_t place[4]; /* the first fault of the closed tables, or four zeros */
    uint64_t book[SECOND_BOOK_ROWS][11]; /* of the delivery's edition, and of 2.1 behind a fault */
};

struct second_lent {
    size_t rows, kept_length, lines_length;
};

uint64_t second_radio_open(struct second_radio *radio, uint64_t edition, const struct second_lent *lent, uint64_t place[4]);

uint64_t second_radio_announce(struct second_radio *radio, uint64_t length, const struct second_lent *lent,
    uint64_t place[4]);

uint64_t second_radio_part(struct second_radio *radio, const uint8_t *part, size_t part_length,
    const struct second_lent *lent, uint64_t place[4]);

/* Every close leaves the book of the tables closed so far. */
uint64_t second_radio_close(struct second_radio *radio, uint64_t (*book)[11], const struct second_lent *lent,
    uint64_t place[4]);

uint64_t second_slip(const uint8_t *slip, size_t slip_length, uint64_t (*book)[11], size_t book_rows, uint64_t (*work)[11],
    size_t work_rows, uint64_t place[4]);

uint64_t second_cell(uint64_t edition, const uint8_t *text, size_t length, uint64_t table, uint64_t line, uint64_t column,
    uint64_t answer[4], uint64_t place[4]);

uint64_t second_type(const uint64_t (*book)[11], size_t rows, uint64_t version, uint64_t number, uint64_t answer[2],
    uint64_t place[4]);

uint64_t second_block(const uint64_t (*book)[11], size_t rows, uint64_t version, uint64_t day_type, uint64_t depot,
    uint64_t block, uint64_t answer[7], uint64_t place[4]);

uint64_t second_season(const uint64_t (*book)[11], size_t rows, uint64_t version, uint64_t number, uint64_t first,
    uint64_t last, uint64_t seconds[1], uint64_t place[4]);

uint64_t second_hours(const uint64_t (*book)[11], size_t rows, uint64_t version, uint64_t number, double hours[2],
    uint64_t place[4]);

uint64_t second_season_hours(const uint64_t (*book)[11], size_t rows, uint64_t version, uint64_t number, uint64_t first,
    uint64_t last, double hours[1], uint64_t place[4]);

uint64_t second_write(const uint64_t (*book)[11], size_t rows, uint8_t *out, size_t out_length, uint64_t length[1],
    uint64_t place[4]);

#endif
