/* A box is commissioned: `box commission SEED DAYS [THRESHOLD]` plays days of a synthetic load (guxhamole_synthetic) of the box's own
   market on a new book in memory. Neither an image nor standard input is read, and nothing is saved. From the same words two boxes of
   the same market say the same text, byte for byte, so that installers can compare; box_commission.expected is that of
   `commission 2026 7`:

     commission: seed SEED, days DAYS, threshold AMOUNT
       region R market M: ..                           each change of a period, above its day's line, as of any interval (box.c)
     day D: 288 intervals, seed S, prices changed N    each day, from 1 up: the last seed, and the day's total of changed prices
     region R market 0: ..                             each region's report of energy
     last seed S

   The first interval is drawn from SEED, each next one from the seed that the one before handed back. Of each seven days the sixth and
   the seventh are a weekend's. No region is marked, so that no schedule is needed. A threshold that the opening refuses, by 18 or
   44, is all that is said, and the box ends as one that didn't start. */
#ifndef BOX_COMMISSION_H
#define BOX_COMMISSION_H

#include "box_answers.h"

/* The bound of DAYS, a leap year; and the threshold in cents where none is given, 150,000 dollars. At the market's own of 1,823,600
   dollars a test load would begin no period: in a week a region's energy sums to about 178,500 dollars, and whatever the seed to less
   than 346,000, a service to less than 61,000. */
enum { COMMISSION_DAYS_MOST = 366, COMMISSION_THRESHOLD = 15000000 };

struct commission {
    uint32_t seed, days;
    int64_t threshold; /* in cents; any, for the book to refuse */
};

/* The words after `commission`, numbers as lines have them. Answers 0 where they are too few or too many, no numbers, or numbers out
   of their range: SEED 0..4,294,967,295, DAYS 1..366. */
int commission_parsed(int count, char **words, struct commission *commission);

/* Plays it and says how it went; answers how the box ends. */
int commission_played(const struct commission *commission);

#endif
