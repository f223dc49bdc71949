/* Interval records that are gone through in turn, held to the independent code by interval_calls.h: every order of an interval's
   regions; a small interval in both orders, with every byte changed, cut everywhere and asked for at every place; intervals of every
   size with wrong lengths, kinds, totals and regions, and with every room; places up to the last; lists of intervals rewritten end to
   end; and entries that come up again and again, which must have one form. */
#ifndef INTERVAL_REWRITES_H
#define INTERVAL_REWRITES_H

/* Does one in `part` of them. */
void interval_rewrites(int part);

/* Prints how many there were. */
void interval_rewrites_counts(void);

#endif
