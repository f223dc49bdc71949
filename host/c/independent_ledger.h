/* The ledger machine in plain C, written from documents 01 and 02 alone and sharing nothing with the proved code: the tests compare
   the two. It begins with the settings of an opening, or of an image of a book without entries and periods, keeps every price that
   an unmarked interval brought a market, and no sum: a window is added up anew whenever it is asked for. */
#ifndef INDEPENDENT_LEDGER_H
#define INDEPENDENT_LEDGER_H

#include "independent_link.h"

/* Room for the entries of a test, and for a window of copies after them. */
enum { LEDGER_MOST = 2 * 2016 + 100 };

struct independent_ledger {
    guxhamole_settings settings;          /* threshold, cap and floor are those last set */
    uint32_t entries;                     /* accepted */
    uint32_t triggered[88], released[88]; /* the last entry that did so to the market, from 1 up, at 11 x region + market; 0: none */
    size_t counts[8];                     /* of the intervals at which the region was unmarked */
    int32_t prices[88][LEDGER_MOST];      /* that these brought, at 11 x region + market */
    int64_t beside[88];                   /* what others put beside a sum in a forged book; zeros otherwise (independent_bill.h) */
};

/* What an opening, a threshold or limits are refused by, or 0. */
uint32_t independent_opening(const guxhamole_settings *settings, size_t ring_length);
uint32_t independent_threshold(int64_t threshold);
uint32_t independent_limits(int32_t cap, int32_t floor);

/* Begins with an accepted opening, or with an image's settings in its place: the next entry's position is then the first one. */
void independent_ledger_open(struct independent_ledger *ledger, const guxhamole_settings *settings);
void independent_ledger_load(struct independent_ledger *ledger, const uint8_t *image);

/* Step 1: what the next entry's prices are before anything is held within a limit of a period. */
void independent_ledger_effective(const struct independent_ledger *ledger, uint8_t day_kind, const int32_t *prices, const uint8_t *marks,
                                  const int32_t *schedule, int32_t *effective);

/* What the next entry publishes into `table` where no power flows, and how many prices that changes. */
uint32_t independent_ledger_publish(const struct independent_ledger *ledger, uint8_t day_kind, const int32_t *prices,
                                    const uint8_t *marks, const int32_t *schedule, int32_t *table);

/* Takes an accepted entry's prices and marks. */
void independent_ledger_enter(struct independent_ledger *ledger, const int32_t *prices, const uint8_t *marks);

/* Whether the market is administered at the next entry. */
int independent_ledger_administered(const struct independent_ledger *ledger, unsigned region, unsigned market);

/* What a restart by an image of this kind is refused by, or 0: 47, 23 for the room, 11 for the other ring. It changes nothing. */
uint32_t independent_ledger_restart(const struct independent_ledger *ledger, unsigned kind, size_t room, size_t other_length);

guxhamole_reading independent_ledger_report(const struct independent_ledger *ledger, uint32_t region, uint32_t market);

/* The total of a market's last W prices, or of all if there are fewer. */
int64_t independent_sum(const int32_t *prices, size_t count, size_t window);

#endif
