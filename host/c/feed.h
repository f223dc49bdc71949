/* Lines and records for a box, written from what they say: for the programs that feed one. */
#ifndef FEED_H
#define FEED_H

#include "box_lines.h"

/* Writes the line as box_lines.h has it. */
void feed_line(FILE *out, const struct line *line);

/* Writes an interval's numbers as INTERVAL bytes of records, by hand; `order` has the regions in the order of their records, or is
   null for upward. */
void feed_records(FILE *out, const struct line *line, const int *order);

/* The regions in an order that follows from the number: all orders in turn. */
void feed_order(uint32_t number, int *order);

/* An interval of ordinary prices: nothing marked, power to the parents and over the additional link, factors of 1.05; the number
   and the kind are to be set. */
struct line feed_interval(void);

#endif
