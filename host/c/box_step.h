/* The moments at which the kill test can end a box: nothing in a plain build, a function of the test in its own. */
#ifndef BOX_STEP_H
#define BOX_STEP_H

#ifdef BOX_STEPS
void box_step(const char *moment);
#else
#define box_step(moment) ((void)(moment))
#endif

#endif
