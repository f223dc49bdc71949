/* The cases worked out for request 2026-09. */
#ifndef BILL_CASES_H
#define BILL_CASES_H

/* Tries them all; ends the test at the first that is answered otherwise. Answers how many they are. */
int bill_cases(void);

#endif
