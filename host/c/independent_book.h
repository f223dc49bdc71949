/* A lent book and ring in plain C, written from documents 01 and 02 alone and sharing nothing with the proved code: whether rule 10
   refuses the book, and the prices that it counts in the ring, whoever put them there. */
#ifndef INDEPENDENT_BOOK_H
#define INDEPENDENT_BOOK_H

#include "independent_link.h"

int independent_book_bad(const guxhamole_book *book);

/* Whether it is refused for the ends of its additional link alone. */
int independent_only_ends_bad(const guxhamole_book *book);

/* A sum's part of it. */
int independent_sum_bad(int64_t sum);

/* A market's counted prices into `prices`, oldest first; answers how many. The book must be one, and the ring of its length. */
size_t independent_counted(const guxhamole_book *book, const int32_t *ring, unsigned region, unsigned market, int32_t *prices);

/* 22, of a market and of all of them: a counted price is out of range, or the sum is not the total. Likewise. */
int independent_window_bad(const guxhamole_book *book, const int32_t *ring, unsigned region, unsigned market);
int independent_ring_bad(const guxhamole_book *book, const int32_t *ring);

#endif
