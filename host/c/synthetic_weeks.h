/* Days of drawn intervals of the real market, a week among them, entered one after the other beside the independent ledger. */
#ifndef SYNTHETIC_WEEKS_H
#define SYNTHETIC_WEEKS_H

/* Plays them, or that part of each: its first intervals. */
void synthetic_weeks(int part);

/* Prints what came up. */
void synthetic_weeks_counts(void);

#endif
