/* Counts the moments of a box that is built for the kill test, and ends it by SIGKILL at one of them. BOX_KILL_AT is the
   moment's number, from 1; BOX_MOMENTS names a file that the moments are written to, a line each. */
#define _POSIX_C_SOURCE 200809L
#ifndef BOX_STEPS
#define BOX_STEPS
#endif

#include "box_step.h"

#include <signal.h>
#include <stdio.h>
#include <stdlib.h>

void box_step(const char *moment)
{
    static long passed, last;
    static FILE *moments;
    if (passed == 0) {
        const char *at = getenv("BOX_KILL_AT"), *path = getenv("BOX_MOMENTS");
        last = at == NULL ? 0 : atol(at);
        moments = path == NULL ? NULL : fopen(path, "w");
    }
    passed++;
    if (moments != NULL) {
        fprintf(moments, "%s\n", moment);
        fflush(moments);
    }
    if (passed == last)
        raise(SIGKILL);
}
