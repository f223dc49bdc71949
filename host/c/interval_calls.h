/* The calls of interval records, each made beside the independent code, with guards round all that is lent; and what is counted of
   them. Each ends the test at the first difference, with the seed that the trial came from. */
#ifndef INTERVAL_CALLS_H
#define INTERVAL_CALLS_H

#include "interval_trials.h"

/* Prints what differs, and ends. */
void interval_differs(const char *what, uint64_t from);

/* Reads both ways; answers what was found, and the independent interval. */
guxhamole_found read_alike(const struct trial *trial, struct independent_interval *interval, uint64_t from);

/* Writes both ways, into `room` bytes; answers what was stored, and in `told` the first bytes of the buffer, up to TRIAL_BYTES. */
guxhamole_stored write_alike(const struct trial *trial, uint8_t *told, uint64_t from);

/* Rewrites both ways, likewise. */
guxhamole_rewritten rewrite_alike(const struct trial *trial, uint8_t *told, uint64_t from);

/* Reads and rewrites, with room enough at last, and holds the two to one another and to the earlier reader: what reads is rewritten
   to itself and written to the same bytes, what is rewritten reads to the earlier form's entry and is rewritten to itself, and one
   refuses what the other does but for the order. Answers the reading's number. */
uint32_t both_alike(const struct trial *trial, uint64_t from);

/* Prints how often each number was answered; ends where one came up too seldom for a test of which one in `part` is done. */
void interval_counts(int part);

#endif
