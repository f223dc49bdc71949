/* Memory to lend for reading alone, with pages before and after it that may not be touched: a call that writes to it, or that reads
   past it, is ended by SIGSEGV. Guard bytes don't show a read, nor a write of what was there before. */
#ifndef PAGED_H
#define PAGED_H

#include <stddef.h>

/* How many copies can be lent at a time, each in a room of its own. */
enum { PAGED_ROOMS = 8 };

/* Lends a copy of `size` bytes, until the next lending in the same room. By turns it begins right after a forbidden page, or ends right
   before one. */
const void *paged_copy(int room, const void *bytes, size_t size);

#endif
