/* Openings and lists of calls from make.h's seed. No expression draws two numbers whose order is the compiler's to choose: a seed
   makes the same list in every build. */
#include "starts_lists.h"

#include "guarded.h"
#include "independent_entry.h"
#include "independent_image.h"
#include "make.h"
#include "test_books.h"

#include <stdio.h>
#include <stdlib.h>
#include <string.h>

enum {
    WINDOW = 4, HALVES = 2, ENTRIES = 60, RING_MOST = GUXHAMOLE_RING(8, 10, WINDOW), SCHEDULE_MOST = GUXHAMOLE_SCHEDULE(8, 10, HALVES),
    IMAGE_MOST = GUXHAMOLE_IMAGE_MAX(8, 10, WINDOW)
};

/* What is counted, and how often it must come up in a whole run. */
enum kind {
    OPENED, OPENED_LINKED, BY_20, BY_20_OF_ENDS, BY_20_OF_44, BY_11, BY_11_OF_44, BY_18, BY_18_OF_19, BY_44, BY_44_OF_19, BY_19,
    FROM_OPENING, FROM_IMAGE_1, FROM_IMAGE_2, FROM_LINKED, FROM_OTHER, SET, NOT_SET_18, NOT_SET_44, ENTERED, LINKED, BESIDE, TOLD_APART,
    CHANGED, RELEASED, RESTARTS_1, RESTARTS_2, RESTARTS_47, RESTARTS_23, RESTARTS_11, KINDS
};

static const struct {
    const char *name;
    long least;
} kinds[KINDS] = {
    {"openings accepted", 1400}, {"with a link", 400}, {"refused by 20", 2000}, {"by 20 of the ends alone", 2000},
    {"by 20 before 44", 500}, {"by 11", 2000}, {"by 11 before 44", 500}, {"by 18", 1000},
    {"by 18 before 19", 250}, {"by 44", 1500}, {"by 44 before 19", 400}, {"by 19", 700},
    {"lists from an opening", 150}, {"from an image of kind 1", 100}, {"of kind 2", 300}, {"lists with a link", 300},
    {"from an image whose threshold is no multiple", 250},
    {"thresholds set", 3000}, {"refused by 18", 600}, {"by 44", 1200},
    {"entries", 60000}, {"with a link", 18000}, {"at a threshold that is no multiple", 4000},
    {"markets on another side of a multiple next to it", 1200},
    {"prices changed", 100000}, {"periods that ended", 10000}, {"restarts by kind 1", 800}, {"by kind 2", 1200},
    {"refused by 47", 800}, {"by 23", 500}, {"by 11", 300}};

static long seen[KINDS];

void starts_differ(const char *what, uint64_t from)
{
    printf("starts test: %s, from seed %llu\n", what, (unsigned long long)from);
    exit(1);
}

static void set_link(guxhamole_settings *settings, struct independent_link link)
{
    settings->from = link.from;
    settings->to = link.to;
}

static guxhamole_settings any_settings(void)
{
    guxhamole_settings settings;
    memset(&settings, 0, sizeof settings);
    settings.regions = (uint8_t)within(1, below(2) ? 2 : 8);
    settings.services = (uint8_t)within(0, below(4) ? 2 : 10);
    settings.window = (uint16_t)within(1, WINDOW);
    settings.halves = (uint8_t)within(1, HALVES);
    settings.first = (uint16_t)within(0, 6 * settings.halves - 1);
    memset(settings.parents, 255, sizeof settings.parents);
    for (int region = 1; region < settings.regions; region++)
        if (below(2))
            settings.parents[region] = (uint8_t)below((uint64_t)region);
    set_link(&settings, below(4) == 0 ? independent_no_link() : any_link(settings.regions, settings.parents));
    settings.threshold = 10000 * within(1, 6 * settings.window);
    settings.cap = (int32_t)within(1, 60000);
    settings.floor = -(int32_t)within(1, 60000);
    return settings;
}

/* Any of the refusals may hold, and more than one. Answers the length of the ring that is lent. */
static size_t spoil(guxhamole_settings *settings)
{
    size_t places = GUXHAMOLE_RING(settings->regions, settings->services, settings->window);
    if (below(3) == 0)
        places += below(2) ? 1u : (size_t)-1;
    if (below(2) == 0)
        settings->threshold = below(3) == 0 ? threshold_out() : threshold_beside(settings->threshold);
    else if (below(10) == 0)
        settings->threshold = below(2) ? 100000000000 : 99999990000;
    if (below(4) == 0)
        set_link(settings, any_ends(settings->regions, settings->parents));
    switch (below(9)) {
    case 0: settings->cap = below(2) ? 0 : 10000001; break;
    case 1: case 2: settings->floor = below(2) ? 0 : -10000001; break;
    case 3: settings->first = (uint16_t)(6 * settings->halves); break;
    case 4: settings->parents[0] = 0; break;
    default: break;
    }
    if (below(8) == 0)
        settings->halves = below(2) ? 0 : 49;
    return places;
}

static void count_opening(uint32_t number, const guxhamole_settings *settings, size_t places)
{
    int hundreds = independent_threshold(settings->threshold) == 44;
    int limits = independent_limits(settings->cap, settings->floor) != 0;
    int linked = independent_has_link(independent_settings_link(settings));
    guxhamole_settings without = *settings;
    set_link(&without, independent_no_link());
    seen[OPENED] += number == 0;
    seen[OPENED_LINKED] += number == 0 && linked;
    seen[BY_20] += number == 20;
    seen[BY_20_OF_ENDS] += number == 20 && independent_opening(&without, places) != 20;
    seen[BY_20_OF_44] += number == 20 && hundreds;
    seen[BY_11] += number == 11;
    seen[BY_11_OF_44] += number == 11 && hundreds;
    seen[BY_18] += number == 18;
    seen[BY_18_OF_19] += number == 18 && limits;
    seen[BY_44] += number == 44;
    seen[BY_44_OF_19] += number == 44 && limits;
    seen[BY_19] += number == 19;
}

static int has_settings(const guxhamole_book *book, const guxhamole_settings *settings)
{
    return book->threshold == settings->threshold && book->from == settings->from && book->to == settings->to;
}

/* Refused, it leaves the ring and answers the closed book; accepted, the ring is zeros and the book has threshold and link. */
void any_opening(void)
{
    uint64_t from = seed;
    guxhamole_settings settings = any_settings();
    size_t places = spoil(&settings);
    uint32_t want = independent_opening(&settings, places);
    int32_t *ring = (int32_t *)guarded(4 * places);
    for (size_t i = 0; i < places; i++)
        ring[i] = 7;
    guxhamole_kept kept = guxhamole_open(settings, ring, places);
    int stayed = 1;
    for (size_t i = 0; i < places; i++)
        stayed &= ring[i] == (want == 0 ? 0 : 7);
    if (kept.number != want || kept.place != 0)
        starts_differ("an opening was answered otherwise", from);
    if (!stayed || !guarded_whole() || (want == 0 ? !has_settings(&kept.book, &settings) : !is_closed(&kept.book)))
        starts_differ("an opening's ring or book", from);
    count_opening(want, &settings, places);
    guarded_free();
}

/* A book, its ring and the one that a restart loads into, an entry's table, and the ledger that is told the same. */
struct started {
    guxhamole_book book;
    int32_t *ring, *other, *table;
    size_t places;
    struct independent_ledger ledger;
    uint64_t from;
};

static void begin(struct started *started)
{
    guxhamole_settings settings = any_settings();
    uint8_t image[BLANK_LINKED];
    guxhamole_kept kept;
    size_t length = 0;
    int loaded = below(3) != 0;
    started->places = GUXHAMOLE_RING(settings.regions, settings.services, settings.window);
    started->ring = (int32_t *)guarded(4 * started->places);
    started->other = (int32_t *)guarded(4 * started->places);
    started->table = (int32_t *)guarded(4 * GUXHAMOLE_PRICES(settings.regions, settings.services));
    if (loaded) {
        if (below(4) != 0)
            settings.threshold = threshold_beside(settings.threshold);
        length = any_blank(&settings, image);
        independent_ledger_load(&started->ledger, image);
        kept = guxhamole_load(image, length, started->ring, started->places);
    } else {
        independent_ledger_open(&started->ledger, &settings);
        kept = guxhamole_open(settings, started->ring, started->places);
    }
    if (kept.number != 0 || !has_settings(&kept.book, &settings))
        starts_differ("a start was refused, or has another threshold or link", started->from);
    started->book = kept.book;
    seen[FROM_OPENING] += !loaded;
    seen[FROM_IMAGE_1] += length == BLANK_IMAGE;
    seen[FROM_IMAGE_2] += length == BLANK_LINKED;
    seen[FROM_LINKED] += settings.from != GUXHAMOLE_NONE;
    seen[FROM_OTHER] += settings.threshold % 10000 != 0;
}

/* The book that a setting hands back is the lent one but for what was set. */
static void set_threshold(struct started *started)
{
    int64_t threshold = 10000 * within(1, 6 * started->ledger.settings.window);
    uint64_t draw = below(8);
    if (draw < 3)
        threshold = draw == 0 ? threshold_out() : threshold_beside(threshold);
    uint32_t want = independent_threshold(threshold);
    if (want == 0)
        started->ledger.settings.threshold = threshold;
    guxhamole_book after = started->book;
    after.threshold = started->ledger.settings.threshold;
    guxhamole_kept kept = guxhamole_set_threshold(started->book, threshold);
    if (kept.number != want || kept.place != 0 || !same_book(&kept.book, &after))
        starts_differ("a threshold was answered otherwise", started->from);
    started->book = kept.book;
    seen[SET] += want == 0;
    seen[NOT_SET_18] += want == 18;
    seen[NOT_SET_44] += want == 44;
}

static void set_limits(struct started *started)
{
    int32_t cap = (int32_t)within(0, 60000), floor = -(int32_t)within(0, below(3) ? 60000 : 1);
    uint32_t want = independent_limits(cap, floor);
    if (want == 0) {
        started->ledger.settings.cap = cap;
        started->ledger.settings.floor = floor;
    }
    guxhamole_book after = started->book;
    after.cap = started->ledger.settings.cap;
    after.floor = started->ledger.settings.floor;
    guxhamole_kept kept = guxhamole_set_limits(started->book, cap, floor);
    if (kept.number != want || kept.place != 0 || !same_book(&kept.book, &after))
        starts_differ("limits were answered otherwise", started->from);
    started->book = kept.book;
}

static void report(const struct started *started, uint32_t region, uint32_t market)
{
    guxhamole_reading want = independent_ledger_report(&started->ledger, region, market);
    guxhamole_reading told = guxhamole_report(started->book, region, market);
    if (told.number != want.number || told.sum != want.sum || told.counted != want.counted || told.mark != want.mark ||
        told.entries != want.entries)
        starts_differ("a report was answered otherwise", started->from);
}

/* Stores by either kind; what is stored is the image of the book that the ledger is. */
static guxhamole_stored store(const struct started *started, unsigned kind, uint8_t *image, size_t room)
{
    static uint8_t wanted[IMAGE_MOST];
    static int32_t ring[RING_MOST];
    guxhamole_book book;
    size_t length;
    guxhamole_stored stored = kind == 1 ? guxhamole_store(started->book, started->ring, started->places, image, room)
                                        : guxhamole_store_kind_2(started->book, started->ring, started->places, image, room);
    independent_book_of(&started->ledger, &book, ring);
    uint32_t number = independent_store(&book, ring, started->places, kind, wanted, room, &length);
    if (stored.number != number || stored.length != length || memcmp(image, wanted, length) != 0)
        starts_differ("a store's answer or image", started->from);
    return stored;
}

/* By kind 2, or by kind 1 where 47 allows it: the book goes on with threshold and link in the other ring, unless room or ring is wrong. */
static void restart(struct started *started)
{
    static uint8_t image[IMAGE_MOST];
    unsigned kind = 1 + (unsigned)below(2);
    int32_t *ring = started->ring;
    size_t room = below(3) ? GUXHAMOLE_IMAGE_MAX(started->book.regions, started->book.services, started->book.window) : 148 + below(40);
    size_t lent = started->places - (below(6) == 0 ? 1 : 0);
    uint32_t want = independent_ledger_restart(&started->ledger, kind, room, lent);
    guxhamole_kept kept = {started->book, 0, 0};
    guxhamole_stored stored = store(started, kind, image, room);
    kept.number = stored.number;
    if (stored.number == 0)
        kept = guxhamole_load(image, (size_t)stored.length, started->other, lent);
    if (kept.number != want)
        starts_differ("a restart was answered otherwise", started->from);
    seen[RESTARTS_47] += want == 47, seen[RESTARTS_23] += want == 23, seen[RESTARTS_11] += want == 11;
    if (want != 0)
        return;
    started->book = kept.book;
    started->ring = started->other;
    started->other = ring;
    seen[kind == 1 ? RESTARTS_1 : RESTARTS_2]++;
}

/* Prices by ten thousands and a cent about, so that sums come near the thresholds. */
static int32_t any_price(uint32_t market)
{
    int64_t price = 10000 * within(-3, 9);
    price += within(-1, 1);
    if (below(5) == 0)
        price = within(-10000, 100000);
    return (int32_t)(market != 0 && price < 0 ? -price : price);
}

/* An entry's numbers. */
struct drawn {
    struct independent_interval interval;
    int32_t schedule[SCHEDULE_MOST];
};

static const struct drawn *any_entry(const guxhamole_book *book)
{
    static struct drawn drawn;
    uint32_t markets = book->services + 1u;
    drawn.interval.entry = book->entries;
    drawn.interval.day_kind = (uint32_t)below(2);
    for (uint32_t place = 0; place < book->regions * markets; place++)
        drawn.interval.prices[place] = any_price(place % markets);
    for (size_t place = 0; place < GUXHAMOLE_SCHEDULE(book->regions, book->services, book->halves); place++)
        drawn.schedule[place] = (int32_t)within(-100000, 100000);
    for (int region = 0; region < book->regions; region++)
        drawn.interval.marks[region] = below(7) == 0;
    for (size_t place = 0; place < GUXHAMOLE_LINKS(book->regions, book->from); place++) {
        drawn.interval.flows[place] = any_link_flow();
        drawn.interval.factors[place] = any_link_factor();
    }
    return &drawn;
}

/* A sum between two multiples of 10,000 next to the threshold is on another side of one of them than of it. */
static void count_markets(const guxhamole_book *before, const guxhamole_book *after)
{
    int64_t lower = after->threshold / 10000 * 10000;
    int other = after->threshold != lower;
    seen[ENTERED]++;
    seen[BESIDE] += other;
    for (int place = 0; place < 88; place++) {
        seen[TOLD_APART] += other && after->sums[place] > lower && after->sums[place] <= lower + 10000;
        seen[RELEASED] += before->marks[place] > after->marks[place];
    }
}

static void enter(struct started *started)
{
    int32_t want[88];
    const guxhamole_book before = started->book;
    const struct drawn *drawn = any_entry(&before);
    const struct independent_interval *interval = &drawn->interval;
    struct independent_lengths lent = independent_entry_lengths(&started->ledger);
    size_t links = GUXHAMOLE_LINKS(before.regions, before.from);
    uint32_t changed = independent_entry_publish(&started->ledger, interval, drawn->schedule, want);
    independent_ledger_enter(&started->ledger, interval->prices, interval->marks);
    guxhamole_entered entered =
        guxhamole_enter(before, started->ring, started->places, before.entries, (uint8_t)interval->day_kind, interval->prices, lent.prices,
                        interval->marks, lent.marks, interval->flows, links, interval->factors, links, drawn->schedule, lent.schedule,
                        started->table, lent.table);
    if (entered.number != 0 || entered.count != changed || memcmp(started->table, want, 4 * lent.table) != 0 || !guarded_whole())
        starts_differ("an entry was answered otherwise", started->from);
    started->book = entered.book;
    seen[CHANGED] += changed;
    seen[LINKED] += before.from != GUXHAMOLE_NONE;
    count_markets(&before, &entered.book);
}

void any_list(void)
{
    static struct started started;
    started.from = seed;
    begin(&started);
    for (int i = 0; i < ENTRIES; i++) {
        enter(&started);
        uint32_t region = (uint32_t)below(started.book.regions + 1u), market = (uint32_t)below(started.book.services + 2u);
        report(&started, region, market);
        if (below(8) == 0)
            set_threshold(&started);
        if (below(12) == 0)
            set_limits(&started);
        if (below(9) == 0)
            restart(&started);
    }
    for (uint32_t region = 0; region < started.book.regions; region++)
        for (uint32_t market = 0; market <= started.book.services; market++)
            report(&started, region, market);
    guarded_free();
}

void starts_counts(int part)
{
    for (int i = 0; i < KINDS; i++) {
        printf(", %s: %ld", kinds[i].name, seen[i]);
        if (seen[i] < kinds[i].least / part) {
            printf("\n");
            starts_differ("too few of these", 0);
        }
    }
    printf("\n");
}
