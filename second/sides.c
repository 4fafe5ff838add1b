#include "sides.h"

#if defined(SELF)
#define OF_LIBRARY(name) second_##name
#define LIBRARY_NAME "the second reader itself"
#elif defined(PLAIN)
#include "../bench/plain.h"
#define OF_LIBRARY(name) plain_##name
#define LIBRARY_NAME "the plain reader"
#else
#include "../include/workshop.h"
#define OF_LIBRARY(name) workshop_##name
#define LIBRARY_NAME "the library"
#endif

#define OF_SECOND(name) second_##name

const struct radio_lengths right_lengths = {BOOK_ROWS, RADIO_KEPT, RADIO_LINES};

/* ---- By radio: the second reader */

static struct second_lent lent_of(const struct radio *radio)
{
    struct second_lent lent = {radio->lengths.rows, radio->lengths.kept, radio->lengths.lines};

    return lent;
}

static uint64_t second_open(uint64_t edition, const struct radio *radio, uint64_t place[4])
{
    struct second_lent lent = lent_of(radio);

    return second_radio_open(radio->own, edition, &lent, place);
}

static uint64_t second_announce(uint64_t length, const struct radio *radio, uint64_t place[4])
{
    struct second_lent lent = lent_of(radio);

    return second_radio_announce(radio->own, length, &lent, place);
}

static uint64_t second_part(struct text part, const struct radio *radio, uint64_t place[4])
{
    struct second_lent lent = lent_of(radio);

    return second_radio_part(radio->own, part.bytes, part.length, &lent, place);
}

static uint64_t second_close(const struct radio *radio, uint64_t place[4])
{
    struct second_lent lent = lent_of(radio);

    return second_radio_close(radio->own, radio->book, &lent, place);
}

#define SECOND_RADIO second_open, second_announce, second_part, second_close

/* ---- By radio: the library */

#if defined(SELF)
#define LIBRARY_RADIO SECOND_RADIO
#elif defined(PLAIN)
#define LIBRARY_RADIO NULL, NULL, NULL, NULL
#else
/* An array of negative length where the header's lengths are other ones than those lent here. */
typedef char lengths_are_the_same[WORKSHOP_BOOK_ROWS == BOOK_ROWS && WORKSHOP_RADIO_KEPT == RADIO_KEPT
            && WORKSHOP_RADIO_LINES == RADIO_LINES ? 1 : -1];

#define LENT radio->book, radio->lengths.rows, radio->kept, radio->lengths.kept, radio->lines, radio->lengths.lines, place

static uint64_t library_open(uint64_t edition, const struct radio *radio, uint64_t place[4])
{
    return workshop_radio_open(edition, LENT);
}

static uint64_t library_announce(uint64_t length, const struct radio *radio, uint64_t place[4])
{
    return workshop_radio_announce(length, LENT);
}

static uint64_t library_part(struct text part, const struct radio *radio, uint64_t place[4])
{
    return workshop_radio_part(part.bytes, part.length, LENT);
}

static uint64_t library_close(const struct radio *radio, uint64_t place[4])
{
    return workshop_radio_close(LENT);
}

#define LIBRARY_RADIO library_open, library_announce, library_part, library_close
#endif

/* ---- The sides */

#define SIDE(name, of)                                                                                                     \
    name, of(read), of(slip), of(cell), of(type), of(block), of(season), of(hours), of(season_hours), of(write)

const struct side library_side = {SIDE(LIBRARY_NAME, OF_LIBRARY), LIBRARY_RADIO};
const struct side second_side = {SIDE("the second reader", OF_SECOND), SECOND_RADIO};
