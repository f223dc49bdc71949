/* Bills to hold against the rules, from make.h's seed: books of every shape with a ledger of their history, books from images and books
   that others changed; a day of intervals for each, as records; and its lines, made right. bill_changes.h then makes some of it wrong. */
#ifndef BILL_TRIALS_H
#define BILL_TRIALS_H

#include "independent_bill.h"
#include "independent_interval.h"

/* Room for the real market's ring and day, and in every slice for one place more than is right. */
enum {
    TRIAL_RING = GUXHAMOLE_RING(5, 10, 2016) + 1, TRIAL_SCHEDULE = GUXHAMOLE_SCHEDULE(8, 10, 48) + 1,
    TRIAL_LINES = BILL_INTERVALS + 10, TRIAL_RECORDS = TRIAL_LINES * GUXHAMOLE_INTERVAL(5, 10, 0)
};

/* What is lent. */
struct bill_trial {
    guxhamole_book book;
    int32_t ring[TRIAL_RING], schedule[TRIAL_SCHEDULE];
    uint8_t records[TRIAL_RECORDS];
    uint32_t numbers[TRIAL_LINES], energy[TRIAL_LINES], region;
    int32_t prices[TRIAL_LINES];
    int64_t amounts[TRIAL_LINES];
    size_t ring_length, work_length, schedule_length, records_length;
    size_t numbers_length, energy_length, prices_length, amounts_length;
    struct independent_interval *intervals; /* that the records were made of; they go on to be the day's */
    struct independent_ledger *ledger;      /* of the book's whole history, or null where there is none */
};

/* The same once more, to be changed. */
void trial_copy(struct bill_trial *to, const struct bill_trial *from);

/* What the trial lends, for the independent check. */
struct independent_bill bill_of(const struct bill_trial *trial);

/* Prints what differs, with the seed that repeats it, and ends. */
void bill_differs(const char *what, uint64_t from);

/* Opens the settings' book, or begins with its image where the threshold is none to open with; and its ledger. Lengths are right, and
   there are neither records nor lines. */
void trial_begin(struct bill_trial *trial, const guxhamole_settings *settings);

/* An interval's records, after those that are there. */
void trial_add(struct bill_trial *trial, const struct independent_interval *interval);

/* One line more. */
void trial_line(struct bill_trial *trial, uint32_t number, uint32_t energy, int32_t price, int64_t amount);

/* Makes a line for each interval that can be taken, right but for the kilowatt-hours, which are any: many come to half a cent. */
void trial_bill(struct bill_trial *trial);

/* A book of any kind and a day for it, all of it right. The real market has a whole day. */
void any_bill(struct bill_trial *trial);
void real_bill(struct bill_trial *trial);

#endif
