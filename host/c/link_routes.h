/* What an entry publishes in other ways than by walking routes: by every permutation of the regions as a candidate route, which must come
   to the same; and by ways that are wrong, which the tests must tell apart. */
#ifndef LINK_ROUTES_H
#define LINK_ROUTES_H

#include "independent_entry.h"

/* By permutations, a limit being carried in so many parts of a cent: 10,000, or 1 to round each link to the cent. */
uint32_t link_permuted(const struct independent_ledger *ledger, const struct independent_interval *interval, const int32_t *schedule,
                       int32_t *table, int64_t parts);

/* By a loop that gives each region a limit from its neighbours', R times over: round a ring it comes back to its source. */
uint32_t link_relaxed(const struct independent_ledger *ledger, const struct independent_interval *interval, const int32_t *schedule,
                      int32_t *table);

/* Whether power goes round a ring of the interval's, and whether some region has two routes to another. */
int link_ring_carries(const struct independent_ledger *ledger, const struct independent_interval *interval);
int link_two_routes(const struct independent_ledger *ledger, const struct independent_interval *interval);

#endif
