/* The lines that a box reads. A line is a word and whole numbers in decimal, blanks between them, a file's name last where it has
   one, and ends in byte 10:

     interval NUMBER KIND PRICES MARKS FLOWS FACTORS   an entry: 55 prices (region by region, energy first), 5 marks, 5 flows and 5
                                                       factors, as guxhamole_enter takes them; in a market with the additional link
                                                       (box_market.h) 6 flows and 6 factors, the last being the link's
     records PLACE PATH                                entries: the intervals that stand end to end in the file PATH (the line's
                                                       rest, blanks in it too) from byte PLACE to its end, as
                                                       guxhamole_interval_read takes them, regions in number order; a file
                                                       of the earlier form is rewritten before (box_rewrite.h)
     schedule REGION MARKET KIND PRICES                48 prices: the market's row of the suspension schedule for that day kind
     report REGION MARKET
     left REGION MARKET PRICE                          in cents: how many more intervals at this price until the sum exceeds the
                                                       threshold, as guxhamole_intervals_left answers it
     threshold CENTS                                   in whole hundreds of dollars: a multiple of 10,000
     limits CAP FLOOR                                  in cents
     save */
#ifndef BOX_LINES_H
#define BOX_LINES_H

#include "box_market.h"

#include <stdio.h>

/* The most bytes of a line: 74 numbers of 11 characters, with a blank each, have 888. */
enum { LINE_MOST = 2000 };

enum line_word { LINE_INTERVAL, LINE_RECORDS, LINE_SCHEDULE, LINE_REPORT, LINE_LEFT, LINE_THRESHOLD, LINE_LIMITS, LINE_SAVE };

/* A line's numbers, each of the type that the call takes; those of other words are not set. */
struct line {
    enum line_word word;
    uint32_t number, region, market;
    uint8_t kind, marks[REGIONS];
    int32_t prices[PRICES], flows[LINKS], row[HALVES], price, cap, floor;
    uint32_t factors[LINKS];
    int64_t threshold;
    size_t place;
    const char *path; /* in the line's text */
};

/* Reads the next line whole, into `text` of LINE_MOST + 1 bytes, without its end. Answers 0 where the input is at its end. `wrong`
   says why the line is bad (too long, a zero byte in it, cut short by the input's end), or is null. */
int line_read(FILE *input, char *text, const char **wrong);

/* What the line says; answers why it is bad, or null. */
const char *line_parsed(const char *text, struct line *line);

/* Whether the text is one number as lines have them, and nothing else, between `least`, which is not above 0, and `most`. */
int number_parsed(const char *text, int64_t least, int64_t most, int64_t *number);

#endif
