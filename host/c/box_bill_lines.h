/* A retailer's bill as text, a line an interval:

     NUMBER,KILOWATT-HOURS,PRICE,AMOUNT

   Number and kilowatt-hours are whole numbers, the price is in dollars a megawatt-hour and the amount in dollars, both with a point and
   exactly two decimals, a minus before them where they are below 0: 7,120,300.00,36.00 or 8,95,-0.05,0.00. Nothing else stands in a line:
   no blanks, quotes or commas within a number. The first line may be `number,kilowatt-hours,price,amount`. A line ends in byte 10, or in
   bytes 13 and 10; the last one's end may be missing. An empty file is a bill without lines. */
#ifndef BOX_BILL_LINES_H
#define BOX_BILL_LINES_H

#include <stddef.h>
#include <stdint.h>

/* The lines as guxhamole_bill takes them, in cents. */
struct bill_lines {
    size_t count;
    int headed; /* the first line of the file names the fields */
    uint32_t *numbers, *energy;
    int32_t *prices;
    int64_t *amounts;
};

/* Why a line is bad, or no memory; and the most bytes of it, or of a total. */
enum { BILL_TEXT = 80 };

/* Reads the bill. Answers 1, and the lines are to be freed; or 0, with the bad line, counted from 1, and why in `why`. The bad line is 0
   where there is no memory for them. */
int bill_parsed(const uint8_t *text, size_t length, struct bill_lines *lines, size_t *bad, char *why);

void bill_free(struct bill_lines *lines);

/* The line of the file that has a line of the bill: the one is counted from 1, the other from 0. */
size_t bill_file_line(const struct bill_lines *lines, size_t line);

/* The total of amounts in dollars and cents, as guxhamole_amount_text has them, also where it is no number of 64 bits. */
void bill_total(const int64_t *amounts, size_t count, char *text);

#endif
