/* Intervals left before a period, by entering them. */
#include "independent_left.h"

#include "independent_book.h"

#include <string.h>

enum { HOLDS_BOOK, HOLDS_LENGTH, HOLDS_MARKET, HOLDS_SUMS, HOLDS_PRICE };

const uint32_t left_refusals[LEFT_REFUSALS] = {10, 11, 21, 22, 43};

/* Enters the price after the kept ones until the sum is above the threshold, at most W times. The copies lie beyond the count, and
   so are not kept. */
static void enter_copies(struct independent_left *left, int32_t *prices, size_t count, size_t window, int32_t price,
                         int64_t threshold)
{
    for (uint32_t entered = 1; entered <= window && left->intervals == 0; entered++) {
        prices[count++] = price;
        int64_t sum = independent_sum(prices, count, window);
        left->reached |= sum == threshold;
        if (sum > threshold)
            left->intervals = entered;
    }
}

static int outside(int64_t number, int64_t least, int64_t most)
{
    return number < least || number > most;
}

static int price_bad(uint32_t market, int64_t price)
{
    return outside(price, market == 0 ? -10000000 : 0, 10000000);
}

/* The first refusal that holds becomes the number. */
static void refuse(struct independent_left *left)
{
    for (int i = LEFT_REFUSALS - 1; i >= 0; i--)
        if (left->holds[i])
            left->number = left_refusals[i];
}

struct independent_left independent_ledger_left(struct independent_ledger *ledger, uint32_t region, uint32_t market, int32_t price)
{
    struct independent_left left;
    memset(&left, 0, sizeof left);
    left.holds[HOLDS_MARKET] = region >= ledger->settings.regions || market > ledger->settings.services;
    left.holds[HOLDS_PRICE] = price_bad(market, price);
    refuse(&left);
    if (left.number == 0)
        enter_copies(&left, ledger->prices[11 * region + market], ledger->counts[region], ledger->settings.window, price,
                     ledger->settings.threshold);
    return left;
}

struct independent_left independent_intervals_left(const guxhamole_book *book, const int32_t *ring, size_t length, uint32_t region,
                                                   uint32_t market, int32_t price)
{
    static int32_t prices[2 * 2016];
    struct independent_left left;
    memset(&left, 0, sizeof left);
    left.holds[HOLDS_BOOK] = independent_book_bad(book);
    if (!left.holds[HOLDS_BOOK]) {
        left.holds[HOLDS_LENGTH] = length != book->regions * (book->services + (size_t)1) * book->window;
        left.holds[HOLDS_MARKET] = region >= book->regions || market > book->services;
        left.holds[HOLDS_SUMS] = !left.holds[HOLDS_LENGTH] && independent_ring_bad(book, ring);
        left.holds[HOLDS_PRICE] = price_bad(market, price);
    }
    refuse(&left);
    left.elsewhere = left.number == 22 && !independent_window_bad(book, ring, region, market);
    if (left.number == 0) {
        size_t count = independent_counted(book, ring, region, market, prices);
        enter_copies(&left, prices, count, book->window, price, book->threshold);
    }
    return left;
}
