/* Books to ask for the intervals left, from make.h's seed: each is opened or loaded, takes entries, settings and restarts through
   the calls, and has a ledger beside it that is told the same. */
#ifndef LEFT_BOOKS_H
#define LEFT_BOOKS_H

#include "independent_left.h"

enum { BOOK_WINDOW = 24, BOOK_RING = 88 * BOOK_WINDOW };

struct running {
    guxhamole_book book;
    int32_t ring[BOOK_RING];
    size_t places; /* of the ring that are lent */
    int style;     /* of its prices */
    struct independent_ledger ledger;
};

/* Says what is wrong, with the seed that repeats it, and ends. */
void left_differs(const char *what, uint64_t from);

/* One more entry of a book, its number the next, with no flows and a schedule of zeros. It must be accepted. */
guxhamole_book left_enter(guxhamole_book book, int32_t *ring, size_t places, const int32_t *prices, const uint8_t *marks);

/* Begins a book, by an opening or by the image of the opened book, which must be accepted; enters prices at marks. */
void running_begin(struct running *running, const guxhamole_settings *settings, int loaded);
void running_enter(struct running *running, const int32_t *prices, const uint8_t *marks);

/* Begins a book of any shape, by an image with any threshold too; takes any entry, and before it now and then a threshold or a
   restart. */
void any_running(struct running *running);
void any_step(struct running *running);

/* A price that an entry may bring the market, as the running book's style has them. */
int32_t any_price(const struct running *running, uint32_t market);

#endif
