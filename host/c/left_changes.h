/* Questions for the intervals left, and changes of them: of what is asked, of the book and of the ring. */
#ifndef LEFT_CHANGES_H
#define LEFT_CHANGES_H

#include "guxhamole.h"

enum { QUESTION_RING = GUXHAMOLE_RING(8, 10, 2016), QUESTION_SPARE = 4 };

struct question {
    guxhamole_book good; /* the valid book whose places the ring has, changed or not */
    guxhamole_book book;
    int32_t ring[QUESTION_RING + QUESTION_SPARE];
    size_t length;
    uint32_t region, market;
    int32_t price;
};

/* One change, from make.h's seed. Many of them are refused; others leave a question that is answered, and not always as before. */
void change_question(struct question *question);

#endif
