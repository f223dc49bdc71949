/* A lent book and ring, by the words of rule 10 and of the ring. */
#include "independent_book.h"

static int outside(int64_t number, int64_t least, int64_t most)
{
    return number < least || number > most;
}

/* 10, of the fields that the book has once. */
static int fields_bad(const guxhamole_book *book)
{
    return outside(book->regions, 1, 8) || book->services > 10 || outside(book->window, 1, 2016) || outside(book->halves, 1, 48) ||
           book->position >= 6 * book->halves || outside(book->threshold, 1, 100000000000) || outside(book->cap, 1, 10000000) ||
           outside(book->floor, -10000000, -1) || book->entries > 10000000;
}

/* 10, of a region. An unused one has no parent and counts nothing. */
static int region_bad(const guxhamole_book *book, unsigned region)
{
    unsigned parent = book->parents[region], count = book->counts[region], place = book->nexts[region];
    if (region >= book->regions)
        return parent != 255 || count != 0 || place != 0;
    if ((parent != 255 && parent >= region) || count > book->window || count > book->entries)
        return 1;
    return count < book->window ? place != count : place >= book->window;
}

int independent_sum_bad(int64_t sum)
{
    return outside(sum, -20160000000, 20160000000);
}

/* 10, of a market. */
static int market_bad(const guxhamole_book *book, unsigned region, unsigned market)
{
    int64_t sum = book->sums[11 * region + market];
    unsigned mark = book->marks[11 * region + market];
    if (region >= book->regions || market > book->services)
        return sum != 0 || mark != 0;
    return independent_sum_bad(sum) || mark > 1;
}

/* The closed book's ends are 0, 0, and bad; by its regions it is refused all the same. */
int independent_book_bad(const guxhamole_book *book)
{
    int bad = fields_bad(book) || independent_ends_bad(book->regions, book->parents, independent_book_link(book));
    for (unsigned region = 0; region < 8; region++) {
        bad |= region_bad(book, region);
        for (unsigned market = 0; market < 11; market++)
            bad |= market_bad(book, region, market);
    }
    return bad;
}

int independent_only_ends_bad(const guxhamole_book *book)
{
    guxhamole_book without = *book;
    without.from = without.to = 255;
    return independent_book_bad(book) && !independent_book_bad(&without);
}

/* From the latest back: it stands before the next place, and place 0 comes after the last. */
size_t independent_counted(const guxhamole_book *book, const int32_t *ring, unsigned region, unsigned market, int32_t *prices)
{
    const int32_t *window = ring + (region * (book->services + (size_t)1) + market) * book->window;
    size_t count = book->counts[region], place = book->nexts[region];
    for (size_t i = count; i > 0; i--) {
        place = (place == 0 ? book->window : place) - 1;
        prices[i - 1] = window[place];
    }
    return count;
}

int independent_window_bad(const guxhamole_book *book, const int32_t *ring, unsigned region, unsigned market)
{
    static int32_t prices[2016];
    int bad = 0;
    int64_t sum = 0;
    size_t count = independent_counted(book, ring, region, market, prices);
    for (size_t i = 0; i < count; i++) {
        bad |= outside(prices[i], market == 0 ? -10000000 : 0, 10000000);
        sum += prices[i];
    }
    return bad || sum != book->sums[11 * region + market];
}

int independent_ring_bad(const guxhamole_book *book, const int32_t *ring)
{
    int bad = 0;
    for (unsigned region = 0; region < book->regions; region++)
        for (unsigned market = 0; market <= book->services; market++)
            bad |= independent_window_bad(book, ring, region, market);
    return bad;
}
