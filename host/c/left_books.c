/* Books to ask for the intervals left. No expression draws two numbers whose order is the compiler's to choose: a seed makes the same
   book in every build. */
#include "left_books.h"

#include "make.h"
#include "test_books.h"

#include <stdio.h>
#include <stdlib.h>
#include <string.h>

/* How a book's prices lie: by ten thousands, as thresholds do, so that sums reach them; the same and a cent about; any; the
   farthest. */
enum style { EVEN, ABOUT, ANY, FAR, STYLES };

void left_differs(const char *what, uint64_t from)
{
    printf("left test: %s, from seed %llu\n", what, (unsigned long long)from);
    exit(1);
}

guxhamole_book left_enter(guxhamole_book book, int32_t *ring, size_t places, const int32_t *prices, const uint8_t *marks)
{
    static const int32_t schedule[GUXHAMOLE_SCHEDULE(8, 10, 48)] = {0}, flows[9] = {0};
    static const uint32_t factors[9] = {10000, 10000, 10000, 10000, 10000, 10000, 10000, 10000, 10000};
    int32_t table[88];
    size_t regions = book.regions, links = GUXHAMOLE_LINKS(book.regions, book.from), count = GUXHAMOLE_PRICES(book.regions, book.services);
    guxhamole_entered entered =
        guxhamole_enter(book, ring, places, book.entries, 0, prices, count, marks, regions, flows, links, factors, links,
                        schedule, GUXHAMOLE_SCHEDULE(book.regions, book.services, book.halves), table, count);
    if (entered.number != 0)
        left_differs("an entry was refused", seed);
    return entered.book;
}

void running_begin(struct running *running, const guxhamole_settings *settings, int loaded)
{
    uint8_t image[BLANK_LINKED];
    size_t length = any_blank(settings, image);
    running->places = GUXHAMOLE_RING(settings->regions, settings->services, settings->window);
    guxhamole_kept kept = loaded ? guxhamole_load(image, length, running->ring, running->places)
                                 : guxhamole_open(*settings, running->ring, running->places);
    if (kept.number != 0)
        left_differs("an opening or a blank image was refused", seed);
    running->book = kept.book;
    running->style = ANY;
    if (loaded)
        independent_ledger_load(&running->ledger, image);
    else
        independent_ledger_open(&running->ledger, settings);
}

void running_enter(struct running *running, const int32_t *prices, const uint8_t *marks)
{
    running->book = left_enter(running->book, running->ring, running->places, prices, marks);
    independent_ledger_enter(&running->ledger, prices, marks);
}

/* In ten thousands; sums lie on both sides of it. */
static int64_t any_threshold(int style, unsigned window)
{
    return 10000 * within(1, (style == FAR ? 800 : 6) * (int64_t)window + 3);
}

void any_running(struct running *running)
{
    guxhamole_settings settings;
    memset(&settings, 0, sizeof settings);
    int style = below(3) ? EVEN : (int)below(STYLES);
    settings.regions = (uint8_t)within(1, below(3) ? 3 : 8);
    settings.services = (uint8_t)(below(5) ? within(0, 3) : 10);
    settings.window = (uint16_t)within(1, below(4) ? 7 : BOOK_WINDOW);
    settings.halves = (uint8_t)within(1, 2);
    memset(settings.parents, 255, sizeof settings.parents);
    for (int region = 1; region < settings.regions; region++)
        if (below(2))
            settings.parents[region] = (uint8_t)below((uint64_t)region);
    struct independent_link link = below(3) == 0 ? independent_no_link() : any_link(settings.regions, settings.parents);
    settings.from = link.from, settings.to = link.to;
    settings.threshold = any_threshold(style, settings.window);
    settings.cap = 60000;
    settings.floor = -60000;
    int loaded = below(3) == 0;
    if (loaded && below(2))
        settings.threshold = threshold_beside(settings.threshold);
    running_begin(running, &settings, loaded);
    running->style = style;
}

/* A store by either kind, if it tells the book, and a load: the windows then begin at their first places. The ledger doesn't see it. */
static void restart(struct running *running)
{
    static uint8_t image[GUXHAMOLE_IMAGE_MAX(8, 10, BOOK_WINDOW)];
    guxhamole_stored stored = below(2) && running->book.from == GUXHAMOLE_NONE
                                  ? guxhamole_store(running->book, running->ring, running->places, image, sizeof image)
                                  : guxhamole_store_kind_2(running->book, running->ring, running->places, image, sizeof image);
    guxhamole_kept kept = guxhamole_load(image, stored.length, running->ring, running->places);
    if (stored.number != 0 || kept.number != 0)
        left_differs("a restart was refused", seed);
    running->book = kept.book;
}

static void set_threshold(struct running *running)
{
    int64_t threshold = any_threshold(running->style, running->book.window);
    if (below(4) == 0)
        threshold = threshold_beside(threshold);
    guxhamole_kept kept = guxhamole_set_threshold(running->book, threshold);
    if (kept.number != independent_threshold(threshold))
        left_differs("a threshold was answered otherwise", seed);
    running->book = kept.book;
    if (kept.number == 0)
        running->ledger.settings.threshold = threshold;
}

int32_t any_price(const struct running *running, uint32_t market)
{
    static const int32_t farthest[] = {-10000000, 10000000, 9999999, -9999999, 0, 1};
    int64_t price = 10000 * within(-6, 9);
    switch (running->style) {
    case EVEN:
        break;
    case ABOUT:
        price += within(-1, 1);
        break;
    case ANY:
        price = within(-60000, 90000);
        break;
    default:
        price = below(2) ? farthest[below(sizeof farthest / sizeof *farthest)] : within(-10000000, 10000000);
    }
    return (int32_t)(market != 0 && price < 0 ? -price : price);
}

void any_step(struct running *running)
{
    int32_t prices[88];
    uint8_t marks[8];
    uint32_t markets = running->book.services + 1u;
    if (below(6) == 0)
        set_threshold(running);
    if (below(9) == 0)
        restart(running);
    for (uint32_t place = 0; place < running->book.regions * markets; place++)
        prices[place] = any_price(running, place % markets);
    for (int region = 0; region < running->book.regions; region++)
        marks[region] = below(7) == 0;
    running_enter(running, prices, marks);
}
