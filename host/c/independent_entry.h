/* An entry in plain C, written from documents 01 and 02 alone and sharing nothing with the proved code: what refuses it, the book
   aside, and what it publishes, limits over links too, the additional one among them. The ledger tells what was entered before. */
#ifndef INDEPENDENT_ENTRY_H
#define INDEPENDENT_ENTRY_H

#include "independent.h"
#include "independent_interval.h"
#include "independent_ledger.h"

/* The lengths of what an entry is lent. */
struct independent_lengths {
    size_t ring, prices, marks, flows, factors, schedule, table;
};

struct independent_lengths independent_entry_lengths(const struct independent_ledger *ledger);

/* 11, of any of them. */
int independent_lengths_bad(const struct independent_ledger *ledger, const struct independent_lengths *lent);

/* 12 to 17, or 0; and the place. */
struct independent_refusal independent_entry_refusal(const struct independent_ledger *ledger, const struct independent_interval *interval);

/* What the interval, an entry that isn't refused, publishes into `table` as the next one, and how many prices that changes. */
uint32_t independent_entry_publish(const struct independent_ledger *ledger, const struct independent_interval *interval,
                                   const int32_t *schedule, int32_t *table);

/* The quotient of two numbers, the second above 0, rounded half away from zero. */
int64_t independent_rounded(int64_t dividend, int64_t divisor);

#endif
