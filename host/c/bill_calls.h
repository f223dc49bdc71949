/* guxhamole_bill, called beside the independent check; and what is counted of it. All that it may only read lies between forbidden pages
   and can only be read (paged.h); guards stand round the second ring, of which every place is compared. */
#ifndef BILL_CALLS_H
#define BILL_CALLS_H

#include "bill_trials.h"

/* Makes the call both ways; ends the test at the first difference, with what was asked and the seed that it came from. `old` is what
   every place of the second ring held before; afterwards it is in `work`, of TRIAL_RING places, where that isn't null. */
guxhamole_billed bill_alike(const char *asked, const struct bill_trial *trial, int32_t old, int32_t *work, uint64_t from);

/* Ends the test where a call touches what it isn't lent, or writes to what it may only read. */
void bill_watch(void);

/* Prints how often each answer came up; ends where one did too seldom for a test of which one in `part` is done. */
void bill_counts(int part);

#endif
