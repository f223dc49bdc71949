/* The cases that were worked out for request 2026-10, held to the code of a table (link_code.h). */
#ifndef LINK_CASES_H
#define LINK_CASES_H

#include "link_code.h"

void link_cases(const struct link_code *code);

#endif
