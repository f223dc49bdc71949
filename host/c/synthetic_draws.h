/* Synthetic intervals drawn both ways, by the call and by the independent code, with all that is lent compared and guarded. */
#ifndef SYNTHETIC_DRAWS_H
#define SYNTHETIC_DRAWS_H

#include "interval_slices.h"

/* What the call is given: a book and slices that may be wrong ones. */
struct draw {
    guxhamole_book book;
    uint32_t seed, entry;
    uint8_t day_kind;
    struct lengths lent;
};

/* Says what is wrong, with the draw that repeats it, and ends. */
void synthetic_differs(const char *what, const struct draw *draw);

/* Draws both ways; answers the call's answer, and the independent interval, zeros where it is refused. */
guxhamole_drawn draw_alike(const struct draw *draw, struct independent_interval *interval);

/* Enters the interval, as the book's next one and on a weekday, with some ring: only a full book may refuse it. */
void enter_drawn(const struct draw *draw, const struct independent_interval *interval);

/* Prints how often each kind came up, and ends where one came up too seldom for a run of that part of the whole. */
void synthetic_counts(int part);

#endif
