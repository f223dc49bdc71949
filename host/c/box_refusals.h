/* A refusal as the box says it. */
#ifndef BOX_REFUSALS_H
#define BOX_REFUSALS_H

#include <stddef.h>
#include <stdint.h>

enum { REFUSAL_TEXT = 120 };

/* Writes "refused N (meaning)" into `text` of REFUSAL_TEXT bytes, with " at P" where the number has a place. */
void refusal_text(uint32_t number, uint64_t place, char *text);

#endif
