/* Holds the typed calls to others: lists of calls to guxhamole_replay and the independent code; loads and stores, the schedule maker and
   the amount text to the independent code; books that were damaged, are full or have a wrong sum to the refusals that they must meet; and
   limits over links to cases worked by hand. Guards stand round all that is lent. All from a fixed seed. Exit status 1 with the case at the
   first difference. Given a number, it does that part of it alone: `typed_test 10` a tenth, for slow checkers. */
#include "guarded.h"
#include "guxhamole.h"
#include "independent_image.h"
#include "make.h"
#include "test_books.h"
#include "typed_lists.h"

#include <stdio.h>
#include <stdlib.h>
#include <string.h>

enum { LISTS = 200, IMAGES = 2000, SCHEDULES = 1500, TEXTS = 20000, WIDEST = 12, RING_MOST = 88 * WIDEST };

static long loads, stores, linked, damaged, makings, texts;
static int part = 1;

static void differs(const char *what, uint64_t from)
{
    printf("typed test: %s, from seed %llu\n", what, (unsigned long long)from);
    exit(1);
}

static void lists(struct list_counts *counts)
{
    for (int i = 0; i < LISTS / part; i++) {
        uint64_t from = seed;
        if (!list_alike(counts))
            differs("a list", from);
    }
}

/* The reports of a loaded book are the lines of the independent day sheet. */
static int sheet_alike(const guxhamole_book *book, const uint8_t *image, size_t length)
{
    static char want[8192], told[8192];
    independent_sheet(image, length, want);
    size_t n = (size_t)sprintf(told, "region,market,counted,sum,administered\n");
    for (uint32_t region = 0; region < book->regions; region++)
        for (uint32_t market = 0; market <= book->services; market++) {
            guxhamole_reading reading = guxhamole_report(*book, region, market);
            uint8_t text[GUXHAMOLE_TEXT_MAX];
            size_t width = guxhamole_amount_text(reading.sum, text, sizeof text);
            n += (size_t)sprintf(told + n, "%u,%u,%u,%.*s,%u\n", region, market, reading.counted, (int)width, (const char *)text,
                                 reading.mark);
            if (reading.number != 0 || reading.entries != book->entries)
                return 0;
        }
    return strcmp(want, told) == 0;
}

/* By the kind that an image says, or the other. */
static guxhamole_stored store(const guxhamole_book *book, const int32_t *ring, size_t places, unsigned kind, uint8_t *buffer, size_t room)
{
    return kind == 1 ? guxhamole_store(*book, ring, places, buffer, room) : guxhamole_store_kind_2(*book, ring, places, buffer, room);
}

/* By the other kind than its image's it is the same with eight bytes more or fewer; by kind 1 not with a link. */
static int stores_other(const guxhamole_book *book, const int32_t *ring, size_t places, const uint8_t *image, size_t length)
{
    static const uint8_t none[] = {255, 255, 0, 0, 255, 255, 255, 255};
    static uint8_t buffer[IMAGE_HEAD + 4 * RING_MOST];
    unsigned kind = image[4] == 1 ? 2 : 1;
    guxhamole_stored stored = store(book, ring, places, kind, buffer, sizeof buffer);
    if (book->from != GUXHAMOLE_NONE) {
        linked++;
        return kind == 1 && stored.number == GUXHAMOLE_IMAGE_FIRST && stored.length == 0;
    }
    size_t head = image_head(image), other_head = image_head(buffer);
    return stored.number == 0 && stored.length == length - head + other_head && buffer[4] == kind && buffer[5] == 0 &&
           memcmp(buffer + 6, image + 6, 142) == 0 && memcmp(buffer + other_head, image + head, length - head) == 0 &&
           memcmp((kind == 1 ? image : buffer) + 148, none, sizeof none) == 0;
}

/* A loaded book stores to the image's bytes, into no shorter buffer, and the bytes after them stay. */
static int stores_back(const guxhamole_book *book, const int32_t *ring, size_t places, const uint8_t *image, size_t length)
{
    uint8_t *buffer = (uint8_t *)guarded(length + 5);
    memset(buffer, 77, length + 5);
    guxhamole_stored shorter = store(book, ring, places, image[4], buffer, length - 1);
    int stayed = shorter.number == GUXHAMOLE_BUFFER && shorter.length == 0;
    for (size_t i = 0; i < length + 5; i++)
        stayed &= buffer[i] == 77;
    guxhamole_stored stored = store(book, ring, places, image[4], buffer, length + 5);
    for (size_t i = length; i < length + 5; i++)
        stayed &= buffer[i] == 77;
    stores++;
    return stayed && stored.number == 0 && stored.length == length && memcmp(buffer, image, length) == 0 &&
           stores_other(book, ring, places, image, length);
}

/* A load is answered as the independent one is, 11 before 16; refused, it leaves the ring. */
static void load(const uint8_t *bytes, size_t length, uint64_t from)
{
    uint8_t *image = (uint8_t *)guarded_fixed(length);
    memcpy(image, bytes, length);
    guarded_keep();
    static int32_t wanted[RING_MOST];
    guxhamole_book book;
    uint32_t want = independent_check(image, length);
    size_t right = want == 0 || want == 16 ? GUXHAMOLE_RING(image[6], image[7], image[8] + 256u * image[9]) : 0;
    size_t places = right <= RING_MOST && below(10) != 0 ? right : below(RING_MOST);
    int32_t *ring = (int32_t *)guarded(4 * places), touched = 0;
    for (size_t i = 0; i < places; i++)
        ring[i] = 1234567;
    struct independent_refusal refusal = independent_load(image, length, wanted, places, &book);
    guxhamole_kept kept = guxhamole_load(image, length, ring, places);
    want = refusal.number;
    if (kept.number != want || kept.place != refusal.place || !same_book(&kept.book, &book))
        differs("a load", from);
    if (want == 0 && memcmp(ring, wanted, 4 * places) != 0)
        differs("a loaded ring", from);
    for (size_t i = 0; i < places; i++)
        touched |= ring[i] != 1234567;
    if (want != 0 && touched)
        differs("a refused load's ring", from);
    if (want == 0 && (!sheet_alike(&kept.book, image, length) || !stores_back(&kept.book, ring, places, image, length)))
        differs("a loaded book", from);
    if (!guarded_whole() || guxhamole_image_check(image, length) != independent_check(image, length))
        differs("a guard, or the image check", from);
    guarded_free();
    loads++;
}

static void images(void)
{
    static uint8_t image[IMAGE_HEAD + 4 * RING_MOST];
    for (int i = 0; i < IMAGES / part; i++) {
        uint64_t from = seed;
        size_t length = any_image(WIDEST, image);
        load(image, length, from);
        size_t places = image_places(image, length);
        if (places > 0)
            put_price(image, below(places), below(2) ? 10000001 : -10000001);
        load(image, length, from);
        damage_link(image, length);
        load(image, length, from);
        image[4 + below(length - 4)] = (uint8_t)next();
        load(image, length, from);
        load(image, below(length), from);
    }
}

/* A bill with nothing right: what it is refused by, or 0 where the second ring was changed. */
static uint32_t bill_refusal(guxhamole_book book, const int32_t *ring, size_t places)
{
    static int32_t work[RING_MOST];
    static const int64_t amounts[1] = {0};
    static const uint32_t numbers[2] = {0};
    static const uint8_t records[5] = {0};
    int touched = 0;
    for (size_t i = 0; i < RING_MOST; i++)
        work[i] = 1234567;
    guxhamole_billed billed = guxhamole_bill(book, ring, places, work, RING_MOST, records, sizeof records, ring, 3, 8, numbers, 2, numbers,
                                             1, ring, 3, amounts, 1);
    for (size_t i = 0; i < RING_MOST; i++)
        touched |= work[i] != 1234567;
    return touched || billed.place != 0 || billed.right != 0 || billed.line != 0 ? 0 : billed.number;
}

/* A book with an entry's slices of zeros, of which every call is made. */
static uint32_t refusals_of(guxhamole_book book, int32_t *ring, size_t places)
{
    static int32_t zeros[88 * 2 * 48], table[88], flows[8];
    static uint8_t marks[8], image[IMAGE_HEAD + 4 * RING_MOST];
    static uint32_t factors[8];
    guxhamole_kept threshold = guxhamole_set_threshold(book, 10000), limits = guxhamole_set_limits(book, 1, -1);
    guxhamole_entered entered =
        guxhamole_enter(book, ring, places, 0, 0, zeros, 88, marks, 8, zeros, 8, factors, 8, zeros, 88 * 2 * 48, table, 88);
    if (!same_book(&threshold.book, &book) || !same_book(&limits.book, &book) || !same_book(&entered.book, &book))
        return 0;
    uint32_t number = entered.number;
    if (threshold.number != number || limits.number != number || guxhamole_report(book, 0, 0).number != number)
        return 0;
    guxhamole_left left = guxhamole_intervals_left(book, ring, places, 0, 0, 0);
    if (left.number != number || left.intervals != 0)
        return 0;
    guxhamole_found found = guxhamole_interval_read(book, image, sizeof image, 0, table, 88, marks, 8, flows, 8, factors, 8);
    if (found.number != number || bill_refusal(book, ring, places) != number ||
        guxhamole_interval_write(book, 0, 0, zeros, 88, marks, 8, zeros, 8, factors, 8, image, sizeof image).number != number ||
        guxhamole_interval_rewrite(book, marks, 8, 0, image, sizeof image).number != number ||
        guxhamole_synthetic(book, 1, 0, 0, table, 88, marks, 8, flows, 8, factors, 8).number != number)
        return 0;
    for (unsigned kind = 1; kind <= 2; kind++)
        if (store(&book, ring, places, kind, image, sizeof image).number != number)
            return 0;
    return number;
}

/* A book of the largest shape but for its window, open, with as many entries taken and prices counted as are told. */
static guxhamole_book loaded_book(uint32_t entries, int32_t *ring)
{
    static uint8_t image[IMAGE_HEAD + 4 * RING_MOST];
    struct plan plan = plain();
    plan.regions = 8, plan.services = 10, plan.window = WIDEST, plan.halves = 48, plan.entries = entries, plan.threshold = 100000;
    for (int region = 0; region < 8; region++)
        plan.counts[region] = 3;
    guxhamole_kept kept = guxhamole_load(image, lay_out(&plan, 500, image), ring, RING_MOST);
    if (kept.number != 0)
        differs("a book to damage", 0);
    return kept.book;
}

static void damage_one(guxhamole_book book, int32_t *ring, const char *what)
{
    if (refusals_of(book, ring, RING_MOST) != GUXHAMOLE_BOOK)
        differs(what, 0);
    damaged++;
}

/* Every pair of ends of a book in a chain is 10 to a report, or not, as the independent code has it; the near ones are so to every call. */
static void damaged_ends(guxhamole_book book, int32_t *ring)
{
    for (unsigned region = 1; region < 8; region++)
        book.parents[region] = (uint8_t)(region - 1);
    for (unsigned pair = 0; pair < 65536; pair++) {
        book.from = (uint8_t)pair, book.to = (uint8_t)(pair >> 8);
        int bad = independent_ends_bad(8, book.parents, independent_book_link(&book));
        if ((guxhamole_report(book, 0, 0).number == GUXHAMOLE_BOOK) != bad)
            differs("a book's ends", pair);
        if (bad && (book.from < 10 || book.from == 255) && (book.to < 10 || book.to == 255))
            damage_one(book, ring, "a book's ends");
    }
}

/* Every field of a book one past its bound, one at a time, is 10 to every call. */
static void damaged_books(void)
{
    int32_t *ring = (int32_t *)guarded(4 * RING_MOST);
    const guxhamole_book good = loaded_book(20, ring);
    guxhamole_book book;
#define DAMAGE(change) (book = good, book.change, damage_one(book, ring, #change))
    DAMAGE(regions = 0), DAMAGE(regions = 9), DAMAGE(services = 11), DAMAGE(window = 0), DAMAGE(window = 2017);
    DAMAGE(halves = 0), DAMAGE(halves = 49), DAMAGE(parents[0] = 0), DAMAGE(parents[3] = 3), DAMAGE(parents[7] = 8);
    DAMAGE(threshold = 0), DAMAGE(threshold = 100000000001), DAMAGE(cap = 0), DAMAGE(cap = 10000001), DAMAGE(floor = 0);
    DAMAGE(floor = -10000001), DAMAGE(entries = 10000001), DAMAGE(entries = 2), DAMAGE(position = 288);
    DAMAGE(counts[5] = WIDEST + 1), DAMAGE(counts[5] = 21), DAMAGE(nexts[2] = 4), DAMAGE(nexts[2] = WIDEST);
    DAMAGE(sums[87] = 20160000001), DAMAGE(sums[0] = -20160000001), DAMAGE(marks[40] = 2), DAMAGE(marks[87] = 255);
    DAMAGE(regions = 7), DAMAGE(services = 9), DAMAGE(from = 0), DAMAGE(to = 0);
#undef DAMAGE
    damaged_ends(good, ring);
    memset(&book, 0, sizeof book);
    damage_one(book, ring, "the closed book");
    memset(&book, 0xee, sizeof book);
    damage_one(book, ring, "a book of one byte");
    book = good;
    book.sums[30]++;
    uint8_t image[1] = {0};
    if (guxhamole_store(book, ring, RING_MOST, image, 1).number != GUXHAMOLE_SUMS)
        differs("a sum that is not its prices'", 0);
    guarded_free();
}

static guxhamole_entered enter_plain(guxhamole_book book, int32_t *ring, uint32_t number)
{
    static int32_t zeros[88 * 2 * 48], table[88];
    static uint8_t marks[8];
    static uint32_t factors[8];
    return guxhamole_enter(book, ring, RING_MOST, number, 0, zeros, 88, marks, 8, zeros, 8, factors, 8, zeros, 88 * 2 * 48, table,
                           88);
}

static void full_book(void)
{
    int32_t *ring = (int32_t *)guarded(4 * RING_MOST);
    guxhamole_entered last = enter_plain(loaded_book(9999999, ring), ring, 9999999);
    if (last.number != 0 || last.book.entries != 10000000 || enter_plain(last.book, ring, 10000000).number != GUXHAMOLE_FULL)
        differs("the last entry", 0);
    if (guxhamole_set_limits(last.book, 1, -1).number != 0 || guxhamole_report(last.book, 7, 10).entries != 10000000)
        differs("a full book", 0);
    guarded_free();
}

/* Request 2026-04 of document 02, three links: of regions in a row the first one's energy is administered at entry 1. */
static const struct passed_on {
    int32_t cap, floor, price, flow;
    uint32_t factors[4];
    int32_t published[4];
} passed_on[] = {{60000, -60000, 100000, 1, {0, 10800, 10300, 10300}, {60000, 55556, 53937, 52366}},
                 {60000, -60001, -100000, -1, {0, 10507, 10507, 10507}, {-60001, -63043, -66239, -69598}}};

static void pass_on(const struct passed_on *passed)
{
    static const uint8_t marks[4] = {0};
    static const int32_t still[4] = {0}, schedule[8] = {0}, first[4] = {100000, 0, 0, 0};
    guxhamole_settings settings = {4, 0, 1, 1, 0, {255, 0, 1, 2, 255, 255, 255, 255}, 255, 255, 90000, passed->cap, passed->floor};
    int32_t *ring = (int32_t *)guarded(16), *table = (int32_t *)guarded(16), prices[4], flows[4];
    for (size_t region = 0; region < 4; region++) {
        prices[region] = passed->price;
        flows[region] = passed->flow;
    }
    guxhamole_book book = guxhamole_open(settings, ring, 4).book;
    book = guxhamole_enter(book, ring, 4, 0, 0, first, 4, marks, 4, still, 4, passed->factors, 4, schedule, 8, table, 4).book;
    guxhamole_entered entered =
        guxhamole_enter(book, ring, 4, 1, 0, prices, 4, marks, 4, flows, 4, passed->factors, 4, schedule, 8, table, 4);
    if (entered.number != 0 || entered.count != 4 || memcmp(table, passed->published, 16) != 0 || !guarded_whole())
        differs(passed->flow > 0 ? "a cap over three links" : "a floor over three links", 0);
    guarded_free();
}

static void any_making(int32_t *prices, uint8_t *kinds)
{
    uint64_t from = seed;
    unsigned halves = (unsigned)(below(8) ? 1 + below(3) : below(51)), energy = (unsigned)below(2);
    size_t count = 168 * halves, days = 28;
    int32_t most = below(3) ? 12 : 10000000;
    for (size_t i = 0; i < count; i++)
        prices[i] = (int32_t)below((uint64_t)most + 1) * (energy && below(2) ? -1 : 1);
    for (size_t day = 0; day < 28; day++)
        kinds[day] = day % 7 > 4;
    switch (below(16)) {
    case 0: count -= count > 0; break;
    case 1: days = below(28); break;
    case 2: kinds[below(28)] = (uint8_t)below(256); break;
    case 3: memset(kinds, (int)below(2), 28); break;
    case 4: prices[below(count + 1)] = below(2) ? 10000001 : energy ? -10000001 : -1; break;
    default: break;
    }
    int32_t cap = (int32_t)below(below(2) ? 10000003 : 20), floor = -(int32_t)below(below(2) ? 10000003 : 20);
    guarded_keep();
    uint8_t anything = (uint8_t)(energy ? 1 + below(255) : 0);
    guxhamole_rows told = guxhamole_schedule((uint8_t)halves, cap, floor, anything, prices, count, kinds, days);
    struct independent_rows want = independent_schedule(halves, cap, floor, (int)energy, prices, count, kinds, days);
    if (told.number != want.number || told.place != want.place || memcmp(told.weekday, want.rows[0], sizeof told.weekday) != 0 ||
        memcmp(told.weekend, want.rows[1], sizeof told.weekend) != 0 || !guarded_whole())
        differs("a schedule", from);
    makings++;
}

static void schedules(void)
{
    int32_t *prices = (int32_t *)guarded_fixed(4 * 168 * 51);
    uint8_t *kinds = (uint8_t *)guarded_fixed(28);
    for (int i = 0; i < SCHEDULES / part; i++)
        any_making(prices, kinds);
    guarded_free();
}

static void text_of(int64_t cents, size_t room, uint8_t *buffer)
{
    char want[32];
    size_t length = independent_text(cents, want);
    memset(buffer, '#', GUXHAMOLE_TEXT_MAX + 5);
    size_t told = guxhamole_amount_text(cents, buffer, room), whole = length <= room ? length : 0;
    int alike = told == whole && memcmp(buffer, want, whole) == 0;
    for (size_t i = whole; i < GUXHAMOLE_TEXT_MAX + 5; i++)
        alike &= buffer[i] == '#';
    if (!alike || !guarded_whole()) {
        printf("amount text of %lld in %zu bytes\n", (long long)cents, room);
        exit(1);
    }
    texts++;
}

static void amounts(void)
{
    static const int64_t bounds[] = {INT64_MIN, INT64_MIN + 1, -101, -100, -99, -10, -9, -1, 0, 1, 9, 10, 99, 100, 101, INT64_MAX};
    uint8_t *buffer = (uint8_t *)guarded(GUXHAMOLE_TEXT_MAX + 5);
    for (size_t i = 0; i < sizeof bounds / sizeof *bounds; i++)
        for (size_t room = 0; room <= GUXHAMOLE_TEXT_MAX + 5; room++)
            text_of(bounds[i], room, buffer);
    for (int i = 0; i < TEXTS / part; i++)
        text_of((int64_t)next() >> below(64), below(4) ? GUXHAMOLE_TEXT_MAX : below(GUXHAMOLE_TEXT_MAX + 1), buffer);
    guarded_free();
}

int main(int count, char **words)
{
    static struct list_counts counts;
    if (count > 1 && atoi(words[1]) > 0)
        part = atoi(words[1]);
    if (guxhamole_abi() != GUXHAMOLE_ABI)
        differs("the archive's number", 0);
    lists(&counts);
    images();
    damaged_books();
    full_book();
    for (size_t i = 0; i < sizeof passed_on / sizeof *passed_on; i++)
        pass_on(&passed_on[i]);
    schedules();
    amounts();
    printf("%d lists of %ld calls alike, %ld of them replayed: %ld entries (%ld accepted, %ld with a link, %ld prices changed), %ld "
           "restarts; refusals", LISTS / part, counts.calls, counts.replayed, counts.entries, counts.accepted, counts.linked,
           counts.changed, counts.restarts);
    for (int number = 1; number < 64; number++)
        if (counts.seen[number] != 0)
            printf(" %d: %ld", number, counts.seen[number]);
    printf("; %ld loads, %ld stores (%ld of them with a link), %ld damaged books, %ld schedules, %ld texts\n", loads, stores, linked,
           damaged, makings, texts);
    if (linked < 250 / part || counts.linked < 4000 / part || counts.replayed < 60 / part || counts.seen[47] < 200 / part)
        differs("too few links", 0);
    return 0;
}
