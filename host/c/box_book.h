/* What a box asks of its market's book and its schedule: whether a loaded book is the market's, and which rows were given. */
#ifndef BOX_BOOK_H
#define BOX_BOOK_H

#include "box_lines.h"

/* The schedule, zeros where no row was given since the start. */
struct box_schedule {
    int32_t prices[SCHEDULE];
    uint8_t given[PRICES * KINDS];
};

/* Takes a line's row; one that was given before is replaced. */
void schedule_take(struct box_schedule *schedule, const struct line *line);

/* Whether a region of these marks lacks a row. Zeros would be published: a region can be marked once every row of its own is there. */
int schedule_lacks(const struct box_schedule *schedule, const uint8_t *marks);

/* Whether a loaded book is this market's: an image of another one may load as well. */
int same_market(const guxhamole_book *book);

#endif
