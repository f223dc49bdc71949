/* Random books with an additional link, held to the code of a table (link_code.h): entries to every permutation of the regions, images of
   both kinds, restarts, records, test loads and bills. */
#ifndef LINK_TRIALS_H
#define LINK_TRIALS_H

#include "link_code.h"

/* One book with its entries and restarts; one image; records, a test load; a bill. */
void link_book_trial(const struct link_code *code);
void link_image_trial(const struct link_code *code);
void link_record_trial(const struct link_code *code);
void link_bill_trial(const struct link_code *code);

/* Prints what came up, and counts from 0 again; ends where something came up too seldom for a test of which one in `part` is done. */
void link_counts(int part);

#endif
