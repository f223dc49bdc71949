/* A retailer's bill is held against the rules: `box bill IMAGE RECORDS BILL REGION [SCHEDULE]` says whether every line of it is what the
   book's published prices make of the metered energy, and if not, which line is the first that isn't, and why (guxhamole_bill).

     IMAGE      an image of the box's book, saved before the first interval that is billed; IMAGE.old is not looked at
     RECORDS    the file of interval records (docs/INTERVALS.md) from that interval on to the last one billed, of any length
     BILL       the retailer's lines as text (box_bill_lines.h)
     REGION     whose energy was bought
     SCHEDULE   lines `schedule REGION MARKET KIND PRICES` (box_lines.h), for intervals at which a region is priced by schedule

   One line is said:
     right: N lines, D dollars                   each interval has its line, and each line is right; D is the total of their amounts
     wrong line L (line F of the file): why      the first line that isn't, L counted from 0 and F, with the file's first line, from 1
     refused N (meaning) [at P]                  by 21 (REGION); by 46, P being the line, and F beside it; or of an interval that cannot be
                                                 read or entered, with ` in records at place P` after it, where it begins
     not checked: why                            a file cannot be read; a line of BILL or SCHEDULE is bad; or a marked region's rows of
                                                 the schedule were not given, with the interval's place: zeros would be published
   Why a line is wrong, the first of these in their order:
     number 1 where interval 0 is due
     price 700.00 where 600.00 was published
     amount 0.61 where 0.60 is due               the line's kilowatt-hours x price / 1,000, rounded half away from zero
     missing, interval N has none                the file has no such line: (at the file's end)
     surplus, the records have no further interval

   Threshold and limits are the image's for all of the intervals: where they were set in mid-day, the day is checked in two parts, each
   with the image before it. Nothing is written: neither image nor standard input is touched, and a box may run meanwhile. The exit status
   is 0 for a right bill, 3 for a wrong one and 1 where none of that is known. */
#ifndef BOX_BILL_H
#define BOX_BILL_H

#include "box_answers.h"

/* The words after `bill`; schedule is null where there is none. */
struct bill_words {
    const char *image, *records, *bill, *schedule;
    uint32_t region;
};

/* Answers 0 where they are too few or too many, or the region is no number of 32 bits. */
int bill_words_parsed(int count, char **words, struct bill_words *bill);

/* Checks the bill and says how it went; answers how the box ends. */
int bill_checked(const struct bill_words *words);

#endif
