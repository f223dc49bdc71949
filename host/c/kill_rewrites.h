/* The kill test's files of records come in the earlier form: the box refuses them, and rewrites them, killed or not. */
#ifndef KILL_REWRITES_H
#define KILL_REWRITES_H

/* Makes N.records of each N.earlier in the folder (kill_lines.h). The box refuses the earlier form by 45. It is then killed at each
   step of a rewriting, of the file itself and to another name, where an older file stands or none: there is then the older file or
   the whole new one, and rewriting again gives the new one, which is N.upward, byte for byte. A file that ends in an interval cut
   short is refused by 40, and rewritten without it; a disk that is full leaves all as it was. */
void kill_rewrites(const char *folder);

/* Prints how many there were. */
void kill_rewrites_counts(void);

#endif
