/* Memory to lend, with guard bytes before and after it: a call that writes past what it is lent is seen, and so is one that
   writes to what it may only read. */
#ifndef GUARDED_H
#define GUARDED_H

#include <stddef.h>

/* Room for `size` bytes between guards, kept until `guarded_free`. */
void *guarded(size_t size);

/* The same, for what a call may only read: `guarded_keep` notes what all of it holds. */
void *guarded_fixed(size_t size);
void guarded_keep(void);

/* Whether every guard stands, and all that is fixed holds what was noted. */
int guarded_whole(void);

void guarded_free(void);

#endif
