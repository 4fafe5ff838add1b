/* The generator of cases. A case is a short story: a delivery or a book, then questions, slips and writings on what it
 * leaves. It follows from a seed and a number alone, so any case can be played again by itself. */
#ifndef SECOND_CASES_H
#define SECOND_CASES_H

#include "sides.h"

/* One number or byte of what a delivery by radio keeps, and what becomes of it. */
struct damage {
    enum { IN_BOOK, IN_KEPT, IN_LINES } where;
    size_t row; /* of the book */
    size_t at;  /* the number or byte there, counted from 0 */
    enum { SET, ADD, FLIP } how;
    uint64_t number;
};

/* What a story asks of the host, one call for each thing that is done on both sides. The bytes and rows that are handed
 * over hold for the time of the call. The standing book is the one that the last reading, put_book or slip left; where
 * `book_rows` or `work_rows` is another number than the fixed one, that is the length to lend. */
struct cases_host {
    void *self;
    /* reads a delivery, its texts in the order of reading; the book's earlier content is the host's to choose. Editions go by
     * the caller's number here, 21, 23 or another */
    void (*read)(void *self, uint64_t edition, const struct text texts[TABLES], size_t book_rows);
    /* takes a book for the standing one, and the texts of all that is in it but the blocks, whose text is not looked at */
    void (*put_book)(void *self, const row *book, const struct text others[TABLES]);
    void (*slip)(void *self, struct text slip, size_t book_rows, size_t work_rows);
    void (*cell)(void *self, uint64_t edition, struct text text, uint64_t table, uint64_t line, uint64_t column);
    void (*type)(void *self, size_t book_rows, uint64_t version, uint64_t number);
    void (*block)(void *self, size_t book_rows, const uint64_t key[4]);
    void (*season)(void *self, size_t book_rows, uint64_t version, uint64_t number, uint64_t first, uint64_t last);
    void (*hours)(void *self, size_t book_rows, uint64_t version, uint64_t number);
    void (*season_hours)(void *self, size_t book_rows, uint64_t version, uint64_t number, uint64_t first, uint64_t last);
    void (*write)(void *self, size_t book_rows, size_t out_length);
    /* by radio, what is kept lent at these lengths */
    void (*radio_open)(void *self, uint64_t edition, struct radio_lengths lengths);
    void (*radio_announce)(void *self, uint64_t length, struct radio_lengths lengths);
    void (*radio_part)(void *self, struct text part, struct radio_lengths lengths);
    void (*radio_close)(void *self, struct radio_lengths lengths);
    /* damages a copy of what the library keeps; it goes on alone with the copy, up to radio_mend */
    void (*radio_damage)(void *self, const struct damage *damage);
    void (*radio_mend)(void *self);
    /* the standing book, as the second reader has it: stories go on from what really stands there */
    const row *(*book)(void *self);
};

void cases_play(uint64_t seed, uint64_t number, const struct cases_host *host);

#endif
