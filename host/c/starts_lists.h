/* Random openings held to the independent refusals; and lists of calls over books that begin by an opening, or by an image of any
   threshold, every answer held to the independent ledger. */
#ifndef STARTS_LISTS_H
#define STARTS_LISTS_H

#include <stdint.h>

/* Says what is wrong, with the seed that repeats it, and ends. */
void starts_differ(const char *what, uint64_t from);

void any_opening(void);
void any_list(void);

/* Prints how often each kind came up, and ends where one came up too seldom for a run of that part of the whole. */
void starts_counts(int part);

#endif
