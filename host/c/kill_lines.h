/* The lines that the kill test feeds a box: from a seed, with every kind of line among them, good, refused and bad. */
#ifndef KILL_LINES_H
#define KILL_LINES_H

#include <stdio.h>

/* Region 3's schedule; then intervals, each with other lines before it or none. Some of them stand in files of records: the lines of a
   file's intervals come one after the other, and then `records PLACE PATH`, which asks for the file from the last one's end on. Answers
   how many files. In the folder there are then for each, from 0 on, N.earlier, in the earlier form and no interval of it in number
   order, and N.upward, the same in number order; PATH is N.records, which is yet to be made of them. */
int kill_lines(FILE *out, int intervals, const char *folder);

#endif
