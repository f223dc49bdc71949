/* What a box says on standard output, as it reads lines and as it is commissioned. */
#ifndef BOX_ANSWERS_H
#define BOX_ANSWERS_H

#include "guxhamole.h"

/* How a box ends: its exit status. A bill that was checked is right, ENDED, or wrong. */
enum ending { ENDED = 0, NOT_STARTED = 1, BROKEN = 2, WRONG_BILL = 3 };

/* What a box has said is with its reader before it goes on; a box that cannot speak ends. */
void flush(void);

/* Says one line, of a format as printf's, and flushes. */
#if defined __GNUC__
__attribute__((format(printf, 1, 2)))
#endif
void answer(const char *format, ...);

void answer_refused(uint32_t number, uint64_t place);

/* A market's report, or its refusal. */
void answer_report(const guxhamole_book *book, uint32_t region, uint32_t market);

/* A detail for each market whose period began or ended with the last entry, not flushed. */
void tell_periods(const guxhamole_book *before, const guxhamole_book *after);

#endif
