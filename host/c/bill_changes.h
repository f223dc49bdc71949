/* Changes of a right bill: of its lines, its day's records, or what else is lent. */
#ifndef BILL_CHANGES_H
#define BILL_CHANGES_H

#include "bill_trials.h"

/* Makes one change or more, from make.h's seed, of a trial that had none. One whose book it changes has no ledger afterwards. */
void change_bill(struct bill_trial *trial);

#endif
