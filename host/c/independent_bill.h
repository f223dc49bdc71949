/* A retailer's bill held against the rules in plain C, written from documents 01 and 02 alone and sharing nothing with the proved
   code: the tests compare the two. The day is played on a ledger of all entries (independent_ledger.h), with the independent reader of
   interval records and the independent entry; then the lines are looked through. Where a book has no history, since others changed it
   or its ring, the ledger is given one: the prices that the book counts, and what each sum has beside their total. */
#ifndef INDEPENDENT_BILL_H
#define INDEPENDENT_BILL_H

#include "independent_ledger.h"

/* The most intervals of a day that is played. */
enum { BILL_INTERVALS = 400 };

/* What is lent. */
struct independent_bill {
    guxhamole_book book;
    const int32_t *ring;
    size_t ring_length, work_length;
    const uint8_t *records;
    size_t records_length;
    const int32_t *schedule;
    size_t schedule_length;
    uint32_t region;
    const uint32_t *numbers, *energy;
    const int32_t *prices;
    const int64_t *amounts;
    size_t numbers_length, energy_length, prices_length, amounts_length;
};

/* A day that was played: its refusal, or 0, and what is due of each accepted interval. */
struct independent_day {
    uint32_t number;
    uint64_t place;
    size_t count;
    uint32_t numbers[BILL_INTERVALS];
    int32_t prices[BILL_INTERVALS];
};

/* The answer, and what the tests count it by. */
struct independent_billed {
    uint32_t number, right;
    uint64_t place, line;
    int played;      /* neither the first 10 nor 11 or 21 */
    size_t accepted; /* intervals */
    int above;       /* a line is above 1,000,000,000 kilowatt-hours, whatever is answered */
    int wrong;       /* a line is wrong, likewise */
    int field;       /* of a wrong line that there is an interval for, what is wrong first: 0 number, 1 price, 2 amount */
};

/* Kilowatt-hours x price / 1,000. */
int64_t independent_amount(uint32_t energy, int32_t price);

/* Gives the ledger a history of which the book, one that rule 10 passes, and the ring of its length can come. */
void independent_ledger_of(struct independent_ledger *ledger, const guxhamole_book *book, const int32_t *ring);

/* Plays the records over the book's ledger, which is then as it was; `work`, a copy of the ring, takes the accepted entries. Region and
   lengths must be right. */
void independent_play(const struct independent_bill *bill, struct independent_ledger *ledger, int32_t *work, struct independent_day *day);

/* The answer. The book's ledger is then as it was; where there is none it is null. `work` becomes what the second ring must be, from
   what it was. */
struct independent_billed independent_billed_of(const struct independent_bill *bill, struct independent_ledger *ledger, int32_t *work);

#endif
