/* The slices of an interval that a call is lent, between guards and of lengths that may be wrong, and books to lend with them, from
   make.h's seed. */
#ifndef INTERVAL_SLICES_H
#define INTERVAL_SLICES_H

#include "guxhamole.h"
#include "independent_interval.h"

/* The lengths of an entry's slices. */
struct lengths {
    size_t prices, marks, flows, factors;
};

struct slices {
    int32_t *prices;
    uint8_t *marks;
    int32_t *flows;
    uint32_t *factors;
};

struct lengths right_lengths(const guxhamole_book *book);

/* Slices of these lengths, for a call to fill; each place holds a number that no entry takes as price, mark or factor. */
struct slices slices_to_fill(struct lengths lent);

/* Slices of these lengths, for a call to read: the interval's numbers as far as it has them. */
struct slices slices_to_read(struct lengths lent, const struct independent_interval *interval);

/* Whether slices to fill hold an interval's numbers, or what they held before where there is none. */
int slices_hold(const struct slices *slices, struct lengths lent, const struct independent_interval *interval);

/* 10 or 11, or 0. */
uint32_t lent_refusal(const guxhamole_book *book, struct lengths lent);

/* The book of a random image, of any size, with a window of 1. */
guxhamole_book any_book(void);

/* Changes the ends of the book's link, or any byte of it; it may yet be one. */
void damage_book(guxhamole_book *book);

/* Makes one of the lengths wrong. */
void damage_lengths(struct lengths *lent);

#endif
