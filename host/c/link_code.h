/* The code of books with an additional link (request 2026-10) as a table of its functions, so that the same tests can be run on the
   independent code, on wrong variants of it, which they must tell apart, and on the archive. */
#ifndef LINK_CODE_H
#define LINK_CODE_H

#include "independent_bill.h"
#include "independent_entry.h"
#include "independent_image.h"

struct link_code {
    uint32_t (*opening)(const guxhamole_settings *settings, size_t ring_length);
    int (*lengths_bad)(const struct independent_ledger *ledger, const struct independent_lengths *lent);
    struct independent_refusal (*refusal)(const struct independent_ledger *ledger, const struct independent_interval *interval);
    uint32_t (*publish)(const struct independent_ledger *ledger, const struct independent_interval *interval, const int32_t *schedule,
                        int32_t *table);
    uint32_t (*restart)(const struct independent_ledger *ledger, unsigned kind, size_t room, size_t other_length);
    uint32_t (*store)(const guxhamole_book *book, const int32_t *ring, size_t ring_length, unsigned kind, uint8_t *buffer, size_t room,
                      size_t *length);
    struct independent_refusal (*load)(const uint8_t *image, size_t length, int32_t *ring, size_t ring_length, guxhamole_book *book);
    uint32_t (*read)(struct independent_shape shape, const uint8_t *records, size_t length, size_t at,
                     struct independent_interval *interval, size_t *after);
    size_t (*write)(struct independent_shape shape, const struct independent_interval *interval, const unsigned *order, uint8_t *records);
    uint32_t (*rewrite)(struct independent_shape shape, const uint8_t *records, size_t length, size_t at, uint8_t *buffer, size_t room,
                        size_t *after);
    uint32_t (*draw)(struct independent_shape shape, uint32_t seed, struct independent_interval *interval);
    guxhamole_billed (*bill)(const struct independent_bill *bill, int32_t *work); /* on a ledger made from the book */
};

/* The independent code as it is, the archive, and wrong variant `i` of the former, with what is wrong with it. */
struct link_code link_right(void);
struct link_code link_archive(void);
struct link_code link_wrong(size_t i, const char **name);
size_t link_wrongs(void);

/* What was held to the code, how much of it failed, and what failed first, from which seed. */
struct link_tally {
    long held, failed;
    const char *first;
    uint64_t from;
};

extern struct link_tally link_tally;

/* Counts one thing that must be so. */
void link_hold(int so, const char *what);

#endif
