/* The plain reader: the functions of include/workshop.h but those by radio, as a C programmer would write them for speed. The
 * benchmark measures the library against it. What each takes, answers and leaves is said in workshop.h. */
#ifndef BENCH_PLAIN_H
#define BENCH_PLAIN_H

#include <stddef.h>
#include <stdint.h>

uint64_t plain_read(uint64_t edition, const uint8_t *vehicle_type, size_t vehicle_type_length, const uint8_t *depot,
    size_t depot_length, const uint8_t *stop, size_t stop_length, const uint8_t *stop_point, size_t stop_point_length,
    const uint8_t *vehicle_block, size_t vehicle_block_length, const uint8_t *day_type_calendar,
    size_t day_type_calendar_length, uint64_t (*book)[11], size_t rows, uint64_t place[4]);

uint64_t plain_slip(const uint8_t *slip, size_t slip_length, uint64_t (*book)[11], size_t book_rows, uint64_t (*work)[11],
    size_t work_rows, uint64_t place[4]);

uint64_t plain_cell(uint64_t edition, const uint8_t *text, size_t length, uint64_t table, uint64_t line, uint64_t column,
    uint64_t answer[4], uint64_t place[4]);

uint64_t plain_type(const uint64_t (*book)[11], size_t rows, uint64_t version, uint64_t number, uint64_t answer[2],
    uint64_t place[4]);

uint64_t plain_block(const uint64_t (*book)[11], size_t rows, uint64_t version, uint64_t day_type, uint64_t depot,
    uint64_t block, uint64_t answer[7], uint64_t place[4]);

uint64_t plain_season(const uint64_t (*book)[11], size_t rows, uint64_t version, uint64_t number, uint64_t first,
    uint64_t last, uint64_t seconds[1], uint64_t place[4]);

uint64_t plain_hours(const uint64_t (*book)[11], size_t rows, uint64_t version, uint64_t number, double hours[2],
    uint64_t place[4]);

uint64_t plain_season_hours(const uint64_t (*book)[11], size_t rows, uint64_t version, uint64_t number, uint64_t first,
    uint64_t last, double hours[1], uint64_t place[4]);

uint64_t plain_write(const uint64_t (*book)[11], size_t rows, uint8_t *out, size_t out_length, uint64_t length[1],
    uint64_t place[4]);

#endif
