/* Files of records of the earlier form are rewritten, which a box no longer reads: `box rewrite EARLIER LATER` takes the intervals that
   stand end to end in the file EARLIER, each with its regions in any order, and writes them to LATER with the regions in number order
   (guxhamole_interval_rewrite), as a line `records PLACE PATH` reads them. Nothing else changes, and no length: an interval stands in
   LATER at the place that it had in EARLIER. One that is in number order already stays as it is, so that any file may be rewritten, again
   too; and what the fields hold isn't tested, which is for the entry.

     rewritten N intervals, P bytes               LATER is there, safe from a crash; an empty file is 0 intervals, 0 bytes
     refused N (meaning) in records at place P    by 40, 41 or 42: the interval that begins there is none; nothing was written
     not rewritten: why                           a file name is too long or empty, or EARLIER cannot be read; nothing was written
     not saved: why                               LATER cannot be written, or not safely

   EARLIER may have any length that memory holds, and LATER may be the same file. EARLIER is read to its end before anything is written,
   and LATER saved as an image is (box_files.h), by LATER.new, which is synced, and a rename: a box that is killed leaves at LATER what
   was there before or all of what was to come. Whatever file LATER.new was is written over; EARLIER may not be that one.

   The book is of the box's market, in memory alone: neither an image nor standard input is read, no image is written, and a box may
   run meanwhile. */
#ifndef BOX_REWRITE_H
#define BOX_REWRITE_H

#include "box_answers.h"

/* Rewrites the file and says how it went; answers how the box ends: BROKEN where it was not saved, NOT_STARTED where nothing was
   written. */
int records_rewritten(const char *earlier, const char *later);

#endif
