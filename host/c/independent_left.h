/* Intervals left before a period in plain C, written from documents 01 and 02 alone and sharing nothing with the proved code: the
   tests compare the two. The number is found by entering the price once more and adding the window up anew, again and again: over
   what a ledger kept, or over a lent book and ring. */
#ifndef INDEPENDENT_LEFT_H
#define INDEPENDENT_LEFT_H

#include "independent_ledger.h"

enum { LEFT_REFUSALS = 5 };

/* The numbers that refuse a question, in their order. */
extern const uint32_t left_refusals[LEFT_REFUSALS];

/* The answer to a question, and what the tests count it by. */
struct independent_left {
    uint32_t number, intervals;
    int holds[LEFT_REFUSALS]; /* which refusals hold; beside 10 no other is looked at, and beside 11 not 22 */
    int elsewhere;            /* 22 holds, and not for the market that is asked for */
    int reached;              /* a sum on the way was the threshold itself */
};

/* The answer from what the ledger kept: 21, 43 or a number. */
struct independent_left independent_ledger_left(struct independent_ledger *ledger, uint32_t region, uint32_t market, int32_t price);

/* The answer from a lent book and ring, whatever they hold. */
struct independent_left independent_intervals_left(const guxhamole_book *book, const int32_t *ring, size_t length, uint32_t region,
                                                   uint32_t market, int32_t price);

#endif
