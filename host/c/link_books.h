/* Books with an additional link, or without, their entries and what is expected of both, from make.h's seed. Nothing here calls the
   archive. */
#ifndef LINK_BOOKS_H
#define LINK_BOOKS_H

#include "independent_entry.h"

enum { LINK_WINDOW = 4, LINK_HALVES = 2, LINK_RING = 88 * LINK_WINDOW, LINK_SCHEDULE = 88 * 2 * LINK_HALVES };

/* Settings that an opening takes; one in six has no link. */
guxhamole_settings link_settings(void);

void link_set(guxhamole_settings *settings, struct independent_link link);

/* The ends that are good, by a table of all pairs. */
int link_ends_good(unsigned regions, const uint8_t *parents, struct independent_link link);

/* An interval that the ledger takes next. Power goes round the ring in a third of those with one, and by two routes in another. */
struct independent_interval link_interval(const struct independent_ledger *ledger);

/* An interval whose numbers may be any, for records. */
struct independent_interval link_numbers(struct independent_shape shape);

/* A schedule of the longest length. */
const int32_t *link_schedule(void);

/* Whether the tree joins the link's ends, so that it closes a ring. */
int link_closes(const struct independent_ledger *ledger);

#endif
