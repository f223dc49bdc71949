/* Random books with an additional link, held to the code of a table. */
#include "link_trials.h"

#include "independent_book.h"
#include "independent_synthetic.h"
#include "link_books.h"
#include "link_routes.h"
#include "make.h"
#include "test_books.h"

#include <stdio.h>
#include <stdlib.h>
#include <string.h>

enum { ENTRIES = 24, IMAGE_MOST = IMAGE_HEAD + 4 * LINK_RING, RECORDS_MOST = 2 * GUXHAMOLE_INTERVAL(8, 10, 0), DAY = 6 };

/* What is counted, and how often it must come up in a whole run. */
enum kind {
    BEGUN_1, BEGUN_2, BOOKS, CLOSING, NOT_CLOSING, WITHOUT, ONE_REGION, EIGHT, UP_ENDS, DOWN_ENDS, BAD_ENDS,
    ENTERED, FLOW_BACK, FLOW_NONE, FLOW_ON, FACTOR_LEAST, FACTOR_MOST, ROUND, TWO, CHANGED, REFUSED_17,
    RESTARTS_1, RESTARTS_2, BY_47, BY_23, BY_11,
    LOADED_1, LOADED_2, LINKED, RELABELLED, BY_24, BY_25, BY_26, BY_27, BY_16, CUT_24, CUT_25, CUT_26, CUT_27,
    READ, REWRITTEN, BY_40, BY_41, NOT_DUE, DRAWN, BILLS, BILLS_17, BILLS_10, KINDS
};

static const struct {
    const char *name;
    long least;
} kinds[KINDS] = {
    {"begun from an image of kind 1", 300}, {"of kind 2", 1500},
    {"books", 2000}, {"whose link closes a ring", 1000}, {"joins two parts", 300}, {"without a link", 400},
    {"of one region", 120}, {"of eight", 15}, {"links from a lower region", 600}, {"from a higher one", 600}, {"ends refused by 20", 1200},
    {"entries", 40000}, {"with the link's flow below 0", 14000}, {"of 0", 6000}, {"above 0", 14000}, {"with its factor of 10,000", 4000},
    {"of 20,000", 4000}, {"with power round a ring", 3000}, {"by two routes", 3000}, {"prices changed", 100000}, {"refused by 17", 1500},
    {"restarts by kind 1", 800}, {"by kind 2", 3000}, {"refused by 47", 3000}, {"by 23", 1500}, {"by 11", 1000},
    {"images of kind 1 loaded", 3000}, {"of kind 2", 3000}, {"with a link", 1500}, {"of another kind than they were", 800},
    {"refused by 24", 20}, {"by 25", 800}, {"by 26", 1500}, {"by 27", 200}, {"by 16", 2000},
    {"cut to 148 to 156 bytes, refused by 24", 1000}, {"by 25", 800}, {"by 26", 40}, {"by 27", 800},
    {"intervals read", 8000}, {"rewritten from another order", 3000}, {"refused by 40", 6000}, {"by 41", 3000},
    {"records of the link where none is due", 4000}, {"test loads", 4000}, {"bills", 1500}, {"refused by 17 of the link", 3000},
    {"by 10 of the ends", 3000}};

static long seen[KINDS];
static struct independent_ledger ledger, other;

static void count_book(void)
{
    const guxhamole_settings *settings = &ledger.settings;
    int linked = independent_has_link(independent_settings_link(settings));
    seen[BOOKS]++;
    seen[linked ? link_closes(&ledger) ? CLOSING : NOT_CLOSING : WITHOUT]++;
    seen[ONE_REGION] += settings->regions == 1;
    seen[EIGHT] += settings->regions == 8;
    seen[UP_ENDS] += linked && settings->from < settings->to;
    seen[DOWN_ENDS] += linked && settings->from > settings->to;
}

/* An opening with any ends: 20 exactly where a table of all pairs has them not. */
static void try_ends(const struct link_code *code)
{
    guxhamole_settings settings = ledger.settings;
    size_t places = GUXHAMOLE_RING(settings.regions, settings.services, settings.window);
    struct independent_link link = any_ends(settings.regions, settings.parents);
    int good = link_ends_good(settings.regions, settings.parents, link);
    link_set(&settings, link);
    seen[BAD_ENDS] += !good;
    link_hold((code->opening(&settings, places) == 20) == !good, "an opening's ends");
}

/* One factor out of range, or more: 17 at the first place of those that are looked at. */
static void try_factors(const struct link_code *code, const struct independent_interval *interval)
{
    struct independent_interval bad = *interval;
    size_t places = independent_places(independent_settings_shape(&ledger.settings)), first;
    for (int i = 0; i < 2; i++) {
        size_t place = below(2) ? places - 1 : below(places);
        bad.factors[place] = below(2) ? 9999 : 20001;
    }
    for (first = 0; first < places; first++)
        if ((first == ledger.settings.regions || ledger.settings.parents[first] != 255) &&
            (bad.factors[first] < 10000 || bad.factors[first] > 20000))
            break;
    struct independent_refusal refusal = code->refusal(&ledger, &bad);
    seen[REFUSED_17] += first < places;
    link_hold(refusal.number == (first < places ? 17u : 0u) && refusal.place == (first < places ? first : 0), "an entry's factors");
}

/* What a restart of the other ledger is refused by, by its store and its load; accepted, it goes on with what was loaded. */
static void restart(const struct link_code *code)
{
    static uint8_t image[IMAGE_MOST];
    static int32_t ring[LINK_RING], loaded_ring[LINK_RING + 1];
    guxhamole_book book, loaded;
    unsigned kind = 1 + (unsigned)below(2);
    size_t places = GUXHAMOLE_RING(ledger.settings.regions, ledger.settings.services, ledger.settings.window), length = 0;
    independent_book_of(&other, &book, ring);
    size_t room = independent_image_length(&book, kind) - (below(5) == 0 ? 1 : 0), lent = places + (below(5) == 0 ? 1 : 0);
    uint32_t number = code->store(&book, ring, places, kind, image, room, &length);
    if (number == 0)
        number = code->load(image, length, loaded_ring, lent, &loaded).number;
    link_hold(code->restart(&other, kind, room, lent) == number, "a restart's number");
    link_hold(number == 0 || number == 47 || number == 23 || number == 11, "a restart's refusal");
    seen[BY_47] += number == 47, seen[BY_23] += number == 23, seen[BY_11] += number == 11;
    if (number != 0)
        return;
    seen[kind == 1 ? RESTARTS_1 : RESTARTS_2]++;
    independent_ledger_of(&other, &loaded, loaded_ring);
}

static void count_entry(const struct independent_interval *interval)
{
    unsigned last = ledger.settings.regions;
    int linked = ledger.settings.from != 255;
    seen[ENTERED]++;
    seen[FLOW_BACK] += linked && interval->flows[last] < 0;
    seen[FLOW_NONE] += linked && interval->flows[last] == 0;
    seen[FLOW_ON] += linked && interval->flows[last] > 0;
    seen[FACTOR_LEAST] += linked && interval->factors[last] == 10000;
    seen[FACTOR_MOST] += linked && interval->factors[last] == 20000;
    seen[ROUND] += link_ring_carries(&ledger, interval);
    seen[TWO] += link_two_routes(&ledger, interval);
}

/* One interval on both ledgers: the second has restarted now and then. */
static void enter(const struct link_code *code)
{
    const int32_t *schedule = link_schedule();
    int32_t table[88] = {0}, permuted[88] = {0}, after[88] = {0};
    struct independent_interval interval = link_interval(&ledger);
    struct independent_refusal refusal = code->refusal(&ledger, &interval);
    uint32_t count = code->publish(&ledger, &interval, schedule, table);
    link_hold(refusal.number == 0 && refusal.place == 0, "an entry is refused");
    link_hold(link_permuted(&ledger, &interval, schedule, permuted, 10000) == count && memcmp(table, permuted, sizeof table) == 0,
              "an entry's table or count, by permutations");
    link_hold(code->publish(&other, &interval, schedule, after) == count && memcmp(table, after, sizeof table) == 0,
              "an entry's table or count, after a restart");
    if (below(4) == 0)
        try_factors(code, &interval);
    independent_ledger_enter(&ledger, interval.prices, interval.marks);
    independent_ledger_enter(&other, interval.prices, interval.marks);
    seen[CHANGED] += count;
    count_entry(&interval);
}

static void compare_reports(void)
{
    for (unsigned region = 0; region < ledger.settings.regions; region++)
        for (unsigned market = 0; market <= ledger.settings.services; market++) {
            guxhamole_reading one = independent_ledger_report(&ledger, region, market);
            guxhamole_reading two = independent_ledger_report(&other, region, market);
            link_hold(one.sum == two.sum && one.counted == two.counted && one.mark == two.mark && one.entries == two.entries,
                      "a report after a restart");
        }
}

/* Begins both ledgers with settings and a link of their own: an opening, or an image of either kind that allows it, with any threshold. */
static void begin(const struct link_code *code)
{
    uint8_t image[BLANK_LINKED];
    int32_t ring[LINK_RING];
    guxhamole_book book;
    link_tally.from = seed;
    guxhamole_settings settings = link_settings();
    if (below(3) != 0) {
        independent_ledger_open(&ledger, &settings);
        independent_ledger_open(&other, &settings);
        return;
    }
    settings.threshold = threshold_beside(settings.threshold);
    size_t length = any_blank(&settings, image);
    link_hold(code->load(image, length, ring, GUXHAMOLE_RING(settings.regions, settings.services, settings.window), &book).number == 0 &&
                  book.from == settings.from && book.to == settings.to, "a blank image");
    independent_ledger_load(&ledger, image);
    independent_ledger_load(&other, image);
    link_hold(ledger.settings.from == settings.from && ledger.settings.to == settings.to, "a ledger's link from an image");
    seen[length == BLANK_IMAGE ? BEGUN_1 : BEGUN_2]++;
}

void link_book_trial(const struct link_code *code)
{
    begin(code);
    struct independent_lengths lent = independent_entry_lengths(&ledger);
    link_hold(code->opening(&ledger.settings, lent.ring) == (ledger.settings.threshold % 10000 != 0 ? 44u : 0u), "an opening");
    link_hold(!code->lengths_bad(&ledger, &lent), "an entry's lengths");
    try_ends(code);
    count_book();
    for (int i = 0; i < ENTRIES && link_tally.failed == 0; i++) {
        enter(code);
        if (below(3) == 0)
            restart(code);
    }
    compare_reports();
}

/* What a load of an image must answer of which only the kind and bytes 148 to 155 were changed, since it was of `kind`. */
static uint32_t expected(const uint8_t *image, size_t length, unsigned kind)
{
    unsigned now = image[4];
    if (now != 1 && now != 2)
        return 25;
    if (now == 1)
        return kind == 1 ? 0 : 27;
    if (length < IMAGE_HEAD)
        return 24;
    static const uint8_t rest[] = {0, 0, 255, 255, 255, 255};
    if (!link_ends_good(image[6], image + 12, independent_ends(image[148], image[149])) || memcmp(image + 150, rest, sizeof rest) != 0)
        return 26;
    return kind == 2 ? 0 : 27;
}

/* Loads an image; it is answered as expected, leaves the ring if refused, and is stored back to its bytes if not. */
static void load(const struct link_code *code, const uint8_t *image, size_t length, uint32_t number, uint64_t place)
{
    static uint8_t back[IMAGE_MOST];
    static int32_t ring[LINK_RING];
    guxhamole_book book;
    size_t places = GUXHAMOLE_RING(image[6], image[7], image[8]), stored = 0;
    int stayed = 1;
    for (size_t i = 0; i < places; i++)
        ring[i] = 7;
    struct independent_refusal refusal = code->load(image, length, ring, places, &book);
    link_hold(refusal.number == number && refusal.place == place, "a load's answer");
    if (refusal.number != 0) {
        for (size_t i = 0; i < places; i++)
            stayed &= ring[i] == 7;
        link_hold(stayed, "a refused load's ring");
        link_hold(is_closed(&book), "a refused load's book");
        return;
    }
    link_hold(!independent_book_bad(&book) && !independent_ring_bad(&book, ring), "a loaded book is one");
    number = code->store(&book, ring, places, image[4], back, length, &stored);
    link_hold(number == 0 && stored == length && memcmp(back, image, length) == 0, "a loaded image is stored back");
    number = code->store(&book, ring, places, 1, back, sizeof back, &stored);
    link_hold(number == (independent_has_link(independent_book_link(&book)) ? 47u : 0u), "47 exactly with the link");
    seen[image[4] == 1 ? LOADED_1 : LOADED_2]++;
    seen[LINKED] += independent_has_link(independent_book_link(&book));
}

/* An image of three prices or more, cut to 148 to 156 bytes that its length field says, and said to be of any kind. */
static void cut_image(const struct link_code *code, const uint8_t *image)
{
    static const uint8_t said[] = {1, 2, 2, 3};
    uint8_t cut[IMAGE_HEAD];
    size_t length = 148 + below(9);
    memcpy(cut, image, sizeof cut);
    put_number(cut, 0, 4, length);
    cut[4] = said[below(sizeof said)];
    uint32_t number = cut[4] == 2 && length == IMAGE_HEAD ? expected(cut, length, 1) : cut[4] == 1 ? 27 : cut[4] == 2 ? 24 : 25;
    load(code, cut, length, number, 0);
    seen[CUT_24 + (int)number - 24]++;
}

/* A random image as it is, with a price out of range, said to be of another kind, and damaged at the link. */
void link_image_trial(const struct link_code *code)
{
    static uint8_t image[IMAGE_MOST], damaged[IMAGE_MOST];
    static const uint32_t numbers[] = {24, 25, 26, 27};
    link_tally.from = seed;
    size_t length = any_image(LINK_WINDOW, image), places = image_places(image, length);
    load(code, image, length, 0, 0);
    if (places > 0) {
        size_t place = below(places);
        memcpy(damaged, image, length);
        put_price(damaged, place, below(2) ? 10000001 : -10000001);
        load(code, damaged, length, 16, place);
        seen[BY_16]++;
    }
    if (places > 2)
        cut_image(code, image);
    for (int i = 0; i < 2; i++) {
        memcpy(damaged, image, length);
        damage_link(damaged, length);
        uint32_t number = expected(damaged, length, image[4]);
        load(code, damaged, length, number, 0);
        seen[RELABELLED] += damaged[4] != image[4] && number != 25;
        for (size_t j = 0; j < 4; j++)
            seen[BY_24 + (int)j] += number == numbers[j];
    }
}

/* Writes an interval in an order other than upward where there is one. */
static size_t write_shuffled(struct independent_shape shape, const struct independent_interval *interval, uint8_t *records)
{
    unsigned order[8] = {0};
    for (unsigned i = 0; i < shape.regions; i++) {
        size_t with = below(i + 1u);
        order[i] = order[with];
        order[with] = i;
    }
    return independent_interval_write(shape, interval, order, records);
}

/* The number that a reader and a rewriter answer; refused, both leave what they would fill. */
static void refuses(const struct link_code *code, struct independent_shape shape, const uint8_t *records, size_t length, uint32_t number,
                    const char *what)
{
    static uint8_t buffer[RECORDS_MOST];
    struct independent_interval interval;
    size_t after;
    int stayed = 1;
    link_hold(code->read(shape, records, length, 0, &interval, &after) == number, what);
    memset(buffer, 77, sizeof buffer);
    link_hold(code->rewrite(shape, records, length, 0, buffer, sizeof buffer, &after) == number, what);
    for (size_t i = 0; i < sizeof buffer; i++)
        stayed &= buffer[i] == 77;
    link_hold(stayed, "a refused rewriting's buffer");
    seen[number == 40 ? BY_40 : BY_41]++;
}

/* Where the link's record is due: nothing, a part of it, another length, other kinds. */
static void damage_record(const struct link_code *code, struct independent_shape shape, uint8_t *records, size_t length)
{
    uint8_t kept[14], *record = records + length - 14;
    memcpy(kept, record, sizeof kept);
    refuses(code, shape, records, length - 14 + below(14), 40, "a link's record cut short");
    put_number(record, 0, 4, below(2) ? below(14) : 15 + below(20));
    refuses(code, shape, records, length + 40, 40, "a link's record of another length");
    memcpy(record, kept, sizeof kept);
    put_number(record, 4, 2, 16 + below(2));
    refuses(code, shape, records, length, 40, "a head or region of the link's length");
    put_number(record, 4, 2, 19 + below(100));
    refuses(code, shape, records, length, 41, "an unknown kind where the link's is due");
    memcpy(record, records, 12);
    refuses(code, shape, records, length, 41, "a head where the link's is due");
    memcpy(record, kept, sizeof kept);
}

/* A record of the link in a region's place, and where a head is due. */
static void misplace_record(const struct link_code *code, struct independent_shape shape, const uint8_t *records, size_t length)
{
    static uint8_t changed[RECORDS_MOST];
    size_t size = 20 + 4 * (size_t)shape.services, at = below(2) ? 0 : 12 + size * below(shape.regions);
    uint64_t extent = below(3) == 0 ? 15 + below(2) : 14;
    memcpy(changed, records, length);
    put_number(changed, at, 4, extent);
    put_number(changed, at + 4, 2, 18);
    refuses(code, shape, changed, length, extent == 14 ? 41 : 40, "a link's record elsewhere");
}

void link_record_trial(const struct link_code *code)
{
    static const unsigned upward[] = {0, 1, 2, 3, 4, 5, 6, 7};
    static uint8_t records[RECORDS_MOST], shuffled[RECORDS_MOST], buffer[RECORDS_MOST];
    struct independent_interval back;
    link_tally.from = seed;
    struct independent_shape shape = {1, 0, 0};
    shape.regions = 1 + (unsigned)below(8);
    shape.services = (unsigned)below(below(2) ? 2 : 11);
    shape.linked = shape.regions > 1 && below(3) != 0;
    struct independent_interval interval = link_numbers(shape);
    size_t length = code->write(shape, &interval, upward, records), after = 0;
    link_hold(length == independent_interval_bytes(shape), "an interval's bytes");
    memset(records + length, 0, sizeof records - length);
    link_hold(code->read(shape, records, length, 0, &back, &after) == 0 && after == length && memcmp(&back, &interval, sizeof back) == 0,
              "what was written reads");
    link_hold(write_shuffled(shape, &interval, shuffled) == length, "an interval's bytes in another order");
    link_hold(code->rewrite(shape, shuffled, length, 0, buffer, length - 1, &after) == 23, "a rewriter's room");
    link_hold(code->rewrite(shape, shuffled, length, 0, buffer, length, &after) == 0 && after == length &&
                  memcmp(buffer, records, length) == 0, "an interval rewritten");
    link_hold(independent_interval_earlier(shape, shuffled, length, 0, &back, &after) == 0 && memcmp(&back, &interval, sizeof back) == 0,
              "an interval of the earlier form");
    seen[READ]++;
    seen[REWRITTEN] += memcmp(shuffled, records, length) != 0;
    if (link_tally.failed > 0)
        return;
    misplace_record(code, shape, records, length);
    if (shape.linked) {
        damage_record(code, shape, records, length);
        shape.linked = 0;
        link_hold(code->read(shape, records, length, 0, &back, &after) == 0 && after == length - 14 &&
                      back.flows[shape.regions] == 0, "a link's record isn't looked at");
        seen[NOT_DUE]++;
    }
}

/* The link's pair is drawn last, from where a load without it ends. */
static void draw(const struct link_code *code)
{
    struct independent_shape shape = {ledger.settings.regions, ledger.settings.services, 0};
    struct independent_interval without, with;
    uint32_t from = (uint32_t)next();
    uint64_t s = code->draw(shape, from, &without);
    if (shape.regions == 1)
        return;
    shape.linked = 1;
    uint32_t last = code->draw(shape, from, &with);
    s = (s * 1664525 + 1013904223) & 0xffffffff;
    without.flows[shape.regions] = (int32_t)((s >> 16) % 2001) - 1000;
    s = (s * 1664525 + 1013904223) & 0xffffffff;
    without.factors[shape.regions] = (uint32_t)(10000 + (s >> 16) % 2000);
    link_hold(last == s && memcmp(&with, &without, sizeof with) == 0, "a test load's last pair");
    seen[DRAWN]++;
}

/* A day's records and lines, each price by permutations. */
struct day {
    uint8_t records[DAY * GUXHAMOLE_INTERVAL(8, 10, 0)];
    size_t length;
    uint32_t numbers[DAY], energy[DAY];
    int32_t prices[DAY];
    int64_t amounts[DAY];
};

static void make_day(struct day *day, uint32_t region)
{
    static const unsigned upward[] = {0, 1, 2, 3, 4, 5, 6, 7};
    struct independent_shape shape = independent_settings_shape(&ledger.settings);
    int32_t table[88];
    day->length = 0;
    for (int i = 0; i < DAY; i++) {
        struct independent_interval interval = link_interval(&other);
        link_permuted(&other, &interval, link_schedule(), table, 10000);
        day->length += independent_interval_write(shape, &interval, upward, day->records + day->length);
        day->numbers[i] = interval.entry;
        day->energy[i] = (uint32_t)below(5000);
        day->prices[i] = table[region * (shape.services + 1)];
        day->amounts[i] = independent_amount(day->energy[i], day->prices[i]);
        independent_ledger_enter(&other, interval.prices, interval.marks);
    }
}

/* What the bill is answered; the second ring is what the accepted intervals make of the book's, or as it was where none is played. */
static guxhamole_billed billed_by(const struct link_code *code, const struct independent_bill *bill, size_t accepted)
{
    static int32_t work[LINK_RING + 1], wanted[LINK_RING + 1];
    for (size_t i = 0; i < LINK_RING + 1; i++)
        work[i] = wanted[i] = 7;
    guxhamole_billed billed = code->bill(bill, work);
    struct independent_billed want = independent_billed_of(bill, NULL, wanted);
    link_hold(want.accepted == accepted, "a bill's accepted intervals");
    link_hold(memcmp(work, wanted, sizeof work) == 0, "a bill's second ring");
    return billed;
}

/* 10, of a book's ends that no opening takes, before 11. */
static void bill_ends(const struct link_code *code, struct independent_bill bill)
{
    struct independent_link link = any_ends(ledger.settings.regions, ledger.settings.parents);
    if (link_ends_good(ledger.settings.regions, ledger.settings.parents, link))
        return;
    bill.book.from = link.from, bill.book.to = link.to;
    bill.work_length++;
    link_hold(billed_by(code, &bill, 0).number == 10, "a bill's ends");
    seen[BILLS_10]++;
}

void link_bill_trial(const struct link_code *code)
{
    static struct day day;
    static int32_t ring[LINK_RING];
    guxhamole_book book;
    begin(code);
    draw(code);
    for (uint64_t entries = below(6); entries > 0; entries--) {
        struct independent_interval interval = link_interval(&ledger);
        independent_ledger_enter(&ledger, interval.prices, interval.marks);
        independent_ledger_enter(&other, interval.prices, interval.marks);
    }
    independent_book_of(&ledger, &book, ring);
    struct independent_lengths lent = independent_entry_lengths(&ledger);
    uint32_t region = (uint32_t)below(ledger.settings.regions), line = (uint32_t)below(DAY);
    make_day(&day, region);
    struct independent_bill bill = {book, ring, lent.ring, lent.ring, day.records, day.length, link_schedule(), lent.schedule,
                                    region, day.numbers, day.energy, day.prices, day.amounts, DAY, DAY, DAY, DAY};
    guxhamole_billed billed = billed_by(code, &bill, DAY);
    link_hold(billed.number == 0 && billed.right == 1, "a right bill");
    day.prices[line]++;
    billed = billed_by(code, &bill, DAY);
    link_hold(billed.number == 0 && billed.right == 0 && billed.line == line, "a bill's wrong line");
    if (bill.book.from != 255) {
        put_number(day.records, day.length / DAY * (line + 1) - 4, 4, 9999);
        billed = billed_by(code, &bill, line);
        link_hold(billed.number == 17 && billed.place == ledger.settings.regions, "a bill's 17 of the link");
        seen[BILLS_17]++;
    }
    bill_ends(code, bill);
    seen[BILLS]++;
}

void link_counts(int part)
{
    for (int kind = 0; kind < KINDS; kind++) {
        printf(", %s: %ld", kinds[kind].name, seen[kind]);
        if (seen[kind] < kinds[kind].least / part) {
            printf("\nlink test: too few of these\n");
            exit(1);
        }
        seen[kind] = 0;
    }
}
