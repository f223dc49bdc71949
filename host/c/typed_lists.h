/* Lists of typed calls over random books, every answer held to guxhamole_replay's or, with an additional link, to the independent ones. */
#ifndef TYPED_LISTS_H
#define TYPED_LISTS_H

struct list_counts {
    long calls, replayed, entries, accepted, linked, changed, restarts, seen[64]; /* linked: accepted, with a link; seen: of each number */
};

/* Plays a random list both ways; answers 0 where an answer differs from the replay's, an opening's, setting's, entry's or restart's from
   the independent ones, or a call wrote to what it wasn't lent. */
int list_alike(struct list_counts *counts);

#endif
