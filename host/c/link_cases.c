/* The worked cases of request 2026-10. The book of most of them has three regions in a chain, A, B and C, a window and a day of one, and
   entered 100,000, 0 and 0, so that A's energy is administered. */
#include "link_cases.h"

#include "independent_synthetic.h"
#include "link_books.h"
#include "test_books.h"

#include <string.h>

enum { ROOM = 400 };

static const int32_t no_schedule[8 * 2 * 6] = {0};
static const unsigned upward[] = {0, 1, 2, 3, 4, 5, 6, 7};
static struct independent_ledger ledger;

static guxhamole_settings chain(void)
{
    guxhamole_settings settings = {3, 0, 1, 1, 0, {255, 0, 1, 255, 255, 255, 255, 255}, 255, 255, 95000, 60000, -60000};
    return settings;
}

static struct independent_interval prices_of(int32_t a, int32_t b, int32_t c)
{
    struct independent_interval interval = {ledger.entries, 0, {a, b, c}, {0}, {0}, {0}};
    return interval;
}

/* The settings' ledger with its first interval entered. A threshold of 95,000 comes from an image; no opening takes it. */
static void begin(guxhamole_settings settings, unsigned from, unsigned to)
{
    link_set(&settings, independent_ends(from, to));
    independent_ledger_open(&ledger, &settings);
    struct independent_interval first = prices_of(100000, 0, 0);
    independent_ledger_enter(&ledger, first.prices, first.marks);
}

static void set_places(struct independent_interval *interval, const int32_t *flows, const uint32_t *factors)
{
    for (int place = 0; place < 4; place++) {
        interval->flows[place] = flows[place];
        interval->factors[place] = factors[place];
    }
}

/* One entry of the begun ledger publishes these. */
static void publishes(const struct link_code *code, const char *what, const struct independent_interval *interval, int32_t a, int32_t b,
                      int32_t c, uint32_t count)
{
    int32_t table[88] = {0}, want[3] = {a, b, c};
    link_hold(code->refusal(&ledger, interval).number == 0, what);
    link_hold(code->publish(&ledger, interval, no_schedule, table) == count, what);
    link_hold(memcmp(table, want, sizeof *want * ledger.settings.regions) == 0, what);
}

/* Cases 1 to 5: rings, two routes, the other way, floors, a link between regions that hang on none. */
static void limits(const struct link_code *code)
{
    static const struct {
        const char *what;
        unsigned from, to;
        int32_t prices[3], flows[4];
        uint32_t factors[4];
        int32_t published[3];
    } cases[] = {
        {"1: power goes round the ring", 0, 2, {100000, 90000, 85000}, {1, 1, 1, 1}, {11000, 11000, 11000, 11000}, {60000, 54545, 49587}},
        {"2: the direct route binds", 2, 0, {100000, 90000, 85000}, {1, 1, 1, 1}, {0, 10100, 10100, 13000}, {60000, 59406, 46154}},
        {"2: the longer route binds", 2, 0, {100000, 90000, 85000}, {1, 1, 1, 1}, {0, 11000, 11000, 10500}, {60000, 54545, 49587}},
        {"3: the link's flow is -1", 2, 0, {100000, 90000, 85000}, {0, 1, 1, -1}, {0, 10100, 10100, 13000}, {60000, 59406, 58818}},
        {"3: the link's flow is 0", 2, 0, {100000, 90000, 85000}, {0, 1, 1, 0}, {0, 10100, 10100, 13000}, {60000, 59406, 58818}},
        {"4: the highest floor binds", 0, 2, {-100000, -90000, -95000}, {0, -1, -1, 1}, {0, 11000, 11000, 10500}, {-60000, -66000, -63000}},
    };
    for (size_t i = 0; i < sizeof cases / sizeof *cases; i++) {
        begin(chain(), cases[i].from, cases[i].to);
        struct independent_interval interval = prices_of(cases[i].prices[0], cases[i].prices[1], cases[i].prices[2]);
        set_places(&interval, cases[i].flows, cases[i].factors);
        publishes(code, cases[i].what, &interval, cases[i].published[0], cases[i].published[1], cases[i].published[2], 3);
    }
    guxhamole_settings two = chain();
    two.regions = 2, two.parents[1] = two.parents[2] = 255;
    begin(two, 1, 0);
    static const int32_t flows[] = {1, -1, 1, 0};
    static const uint32_t factors[] = {3, 4294967295, 11000, 0};
    struct independent_interval interval = prices_of(100000, 90000, 0);
    set_places(&interval, flows, factors);
    publishes(code, "5: a link without a ring", &interval, 60000, 54545, 0, 2);
}

/* What an opening of the settings with these ends answers. */
static uint32_t opens(const struct link_code *code, guxhamole_settings settings, unsigned from, unsigned to, size_t places)
{
    link_set(&settings, independent_ends(from, to));
    return code->opening(&settings, places);
}

/* Case 6, and places 7 and 8 of eight regions. The threshold is one that an opening takes. */
static void ends(const struct link_code *code)
{
    static const uint8_t bad[][2] = {{255, 0}, {0, 255}, {0, 0}, {1, 0}, {0, 1}, {1, 2}, {2, 1}, {3, 0}, {0, 3}, {254, 254}};
    static const uint8_t good[][2] = {{0, 2}, {2, 0}, {255, 255}};
    guxhamole_settings settings = chain();
    settings.threshold = 90000;
    for (size_t i = 0; i < sizeof bad / sizeof *bad; i++)
        link_hold(opens(code, settings, bad[i][0], bad[i][1], 3) == 20, "6: bad ends");
    for (size_t i = 0; i < sizeof good / sizeof *good; i++)
        link_hold(opens(code, settings, good[i][0], good[i][1], 3) == 0, "6: good ends");
    link_hold(opens(code, settings, 3, 0, 4) == 20, "6: 20 before 11");
    link_hold(opens(code, settings, 0, 2, 4) == 11, "6: the ring's length");
    settings.parents[2] = 0;
    link_hold(opens(code, settings, 1, 2, 3) == 0, "6: two that hang on one");
}

static int refused(struct independent_refusal refusal, uint32_t number, uint64_t place)
{
    return refusal.number == number && refusal.place == place;
}

/* Cases 7 and 8. */
static void factors(const struct link_code *code)
{
    static const int32_t flows[] = {0, 1, 1, 0};
    static const uint32_t given[] = {0, 11000, 11000, 9999};
    begin(chain(), 0, 2);
    struct independent_interval interval = prices_of(100000, 90000, 85000);
    struct independent_lengths lent = independent_entry_lengths(&ledger);
    set_places(&interval, flows, given);
    interval.marks[0] = interval.marks[1] = interval.marks[2] = 1;
    link_hold(refused(code->refusal(&ledger, &interval), 17, 3), "7: the link's factor, whatever flow and marks");
    interval.factors[3] = 20001;
    link_hold(refused(code->refusal(&ledger, &interval), 17, 3), "7: the link's factor above its range");
    interval.factors[1] = 9999;
    link_hold(refused(code->refusal(&ledger, &interval), 17, 1), "7: B's factor comes first");
    link_hold(lent.flows == 4 && lent.factors == 4 && lent.marks == 3 && !code->lengths_bad(&ledger, &lent), "7: R + 1 places");
    lent.flows = 3;
    link_hold(code->lengths_bad(&ledger, &lent), "7: R flows");
    lent.flows = 4, lent.factors = 3;
    link_hold(code->lengths_bad(&ledger, &lent), "7: R factors");
    begin(chain(), 255, 255);
    lent.flows = lent.factors = 4;
    link_hold(code->lengths_bad(&ledger, &lent), "7: R + 1 places without the link");
    guxhamole_settings eight = chain();
    eight.regions = 8;
    begin(eight, 7, 3);
    lent = independent_entry_lengths(&ledger);
    struct independent_interval none = prices_of(0, 0, 0);
    none.factors[1] = none.factors[2] = 10000;
    link_hold(lent.flows == 9 && lent.factors == 9 && lent.marks == 8, "8: nine places");
    link_hold(refused(code->refusal(&ledger, &none), 17, 8), "8: 17 at place 8");
}

/* An image, and what a load of it is. */
struct kept {
    uint8_t bytes[ROOM];
    size_t length;
};

static guxhamole_book book;
static int32_t ring[3];

/* Stores the begun ledger's book; `room` bytes are lent. */
static uint32_t stores(const struct link_code *code, unsigned kind, size_t room, struct kept *kept)
{
    independent_book_of(&ledger, &book, ring);
    memset(kept, 77, sizeof *kept);
    return code->store(&book, ring, 3, kind, kept->bytes, room, &kept->length);
}

static uint32_t loads(const struct link_code *code, const struct kept *kept, guxhamole_book *loaded)
{
    int32_t other[3];
    return code->load(kept->bytes, kept->length, other, 3, loaded).number;
}

/* What a load answers to the image with a byte or two changed, or cut. */
static uint32_t loads_with(const struct link_code *code, struct kept kept, size_t at, int first, int second)
{
    guxhamole_book loaded;
    kept.bytes[at] = (uint8_t)first;
    if (second >= 0)
        kept.bytes[at + 1] = (uint8_t)second;
    return loads(code, &kept, &loaded);
}

static uint32_t loads_cut(const struct link_code *code, struct kept kept, size_t length, int kind)
{
    guxhamole_book loaded;
    kept.length = length;
    kept.bytes[0] = (uint8_t)length;
    kept.bytes[4] = (uint8_t)kind;
    return loads(code, &kept, &loaded);
}

/* Cases 9 and 10. */
static void linked_images(const struct link_code *code)
{
    static const uint8_t link_bytes[] = {0, 2, 0, 0, 255, 255, 255, 255};
    guxhamole_book loaded;
    struct kept kept;
    begin(chain(), 0, 2);
    link_hold(stores(code, 1, ROOM, &kept) == 47, "9: kind 1 of a book with the link");
    link_hold(stores(code, 1, 0, &kept) == 47, "9: 47 before 23");
    link_hold(stores(code, 2, 167, &kept) == 23 && kept.bytes[0] == 77, "9: a short buffer");
    link_hold(code->restart(&ledger, 1, 0, 0) == 47 && code->restart(&ledger, 2, 167, 0) == 23, "9: restarts by 47, 23");
    link_hold(code->restart(&ledger, 2, 168, 4) == 11 && code->restart(&ledger, 2, 168, 3) == 0, "9: restarts by 11, and by kind 2");
    link_hold(stores(code, 2, 168, &kept) == 0 && kept.length == 168 && kept.bytes[4] == 2, "9: kind 2 is 168 bytes");
    link_hold(memcmp(kept.bytes + 148, link_bytes, sizeof link_bytes) == 0, "9: bytes 148 to 155");
    if (link_tally.failed > 0)
        return;
    link_hold(loads(code, &kept, &loaded) == 0 && loaded.from == 0 && loaded.to == 2, "9: it loads");
    link_hold(loads_with(code, kept, 148, 1, 0) == 26 && loads_with(code, kept, 148, 255, 2) == 26, "10: bad ends");
    link_hold(loads_with(code, kept, 148, 255, 255) == 0, "10: no link");
    link_hold(loads_with(code, kept, 150, 1, -1) == 26 && loads_with(code, kept, 151, 1, -1) == 26, "10: a zero that isn't");
    for (size_t at = 152; at < 156; at++)
        link_hold(loads_with(code, kept, at, 0, -1) == 26, "10: a 255 that isn't");
    link_hold(loads_cut(code, kept, 150, 2) == 24 && loads_cut(code, kept, 155, 2) == 24, "10: cut, of kind 2");
    link_hold(loads_cut(code, kept, 150, 3) == 25 && loads_cut(code, kept, 168, 0) == 25, "10: another kind");
    link_hold(loads_cut(code, kept, 147, 3) == 24, "10: cut, of another kind");
    link_hold(loads_with(code, kept, 4, 1, -1) == 27, "10: said to be of kind 1");
    link_hold(loads_cut(code, kept, 156, 2) == 27, "10: without its prices");
}

/* 10, of the ends: a book's, and the closed one's. */
static void book_ends(const struct link_code *code)
{
    static const uint8_t bad[][2] = {{1, 0}, {255, 2}, {0, 0}, {3, 1}};
    struct kept kept;
    begin(chain(), 0, 2);
    stores(code, 2, ROOM, &kept);
    for (size_t i = 0; i < sizeof bad / sizeof *bad; i++) {
        book.from = bad[i][0], book.to = bad[i][1];
        link_hold(code->store(&book, ring, 2, 1, kept.bytes, 0, &kept.length) == 10, "10 of the ends");
    }
    book.from = 0, book.to = 2;
    link_hold(code->store(&book, ring, 2, 1, kept.bytes, 0, &kept.length) == 11, "11 before 22 and 47");
    ring[0]++;
    link_hold(code->store(&book, ring, 3, 1, kept.bytes, 0, &kept.length) == 22, "22 before 47");
    memset(&book, 0, sizeof book);
    link_hold(code->store(&book, ring, 3, 2, kept.bytes, ROOM, &kept.length) == 10, "10 of the closed book");
}

/* Cases 11 and 12. */
static void plain_images(const struct link_code *code)
{
    guxhamole_book loaded;
    struct kept one, two, again;
    guxhamole_settings settings = chain();
    begin(settings, 255, 255);
    link_hold(stores(code, 1, 160, &one) == 0 && one.length == 160, "12: kind 1 is 160 bytes");
    link_hold(stores(code, 2, 168, &two) == 0 && two.length == 168, "12: kind 2 is 168 bytes");
    link_hold(code->restart(&ledger, 1, 160, 3) == 0 && code->restart(&ledger, 1, 159, 3) == 23, "12: a restart by kind 1");
    if (link_tally.failed > 0)
        return;
    link_hold(memcmp(one.bytes + 6, two.bytes + 6, 142) == 0 && memcmp(one.bytes + 148, two.bytes + 156, 12) == 0, "12: the same book");
    link_hold(loads_with(code, one, 4, 2, -1) == 26, "11: prices read as ends");
    link_hold(loads(code, &one, &loaded) == 0 && loaded.from == 255 && loaded.to == 255, "12: kind 1 has no link");
    int32_t other[3];
    link_hold(code->load(two.bytes, two.length, other, 3, &book).number == 0 && same_book(&book, &loaded), "12: kind 2 loads to the same");
    memset(&again, 77, sizeof again);
    link_hold(code->store(&book, other, 3, 1, again.bytes, ROOM, &again.length) == 0 && again.length == one.length &&
                  memcmp(again.bytes, one.bytes, one.length) == 0, "12: kind 2, stored back by kind 1");
    independent_ledger_open(&ledger, &settings);
    link_hold(stores(code, 1, 148, &one) == 0 && loads_with(code, one, 4, 2, -1) == 24, "11: of a book without entries");
}

/* The bytes of the link's record, and what is answered where it is missing, cut or of another length, or met elsewhere. */
static void records(const struct link_code *code)
{
    static const uint8_t record[] = {14, 0, 0, 0, 18, 0, 1, 0, 0, 0, 248, 42, 0, 0};
    static const int32_t flows[] = {0, 1, 1, 1};
    static const uint32_t given[] = {0, 11000, 11000, 11000};
    struct independent_shape shape = {3, 0, 1}, without = {3, 0, 0};
    struct independent_interval interval = {0, 0, {100000, 90000, 85000}, {0}, {0}, {0}}, back;
    uint8_t bytes[200] = {0};
    size_t after = 0;
    set_places(&interval, flows, given);
    link_hold(code->write(shape, &interval, upward, bytes) == 86 && memcmp(bytes + 72, record, 14) == 0, "the record of the link");
    link_hold(code->read(shape, bytes, 86, 0, &back, &after) == 0 && after == 86 && memcmp(&back, &interval, sizeof back) == 0, "it reads");
    link_hold(code->read(shape, bytes, 72, 0, &back, &after) == 40 && code->read(shape, bytes, 85, 0, &back, &after) == 40, "cut short");
    link_hold(code->read(without, bytes, 86, 0, &back, &after) == 0 && after == 72 && back.flows[3] == 0, "not looked at");
    link_hold(code->read(without, bytes, 86, 72, &back, &after) == 41, "as a head");
    bytes[72] = 13;
    link_hold(code->read(shape, bytes, 86, 0, &back, &after) == 40, "of another length");
    link_hold(code->read(without, bytes, 86, 72, &back, &after) == 40, "40 before 41");
    memcpy(bytes + 52, record, 14);
    link_hold(code->read(shape, bytes, 86, 0, &back, &after) == 41, "as a region");
    link_hold(code->read(without, bytes, 86, 0, &back, &after) == 41, "as a region, without the link");
    code->write(shape, &interval, upward, bytes);
    memcpy(bytes + 72, bytes, 12);
    link_hold(code->read(shape, bytes, 86, 0, &back, &after) == 41, "a head in its place");
    uint8_t buffer[86];
    code->write(shape, &interval, upward, bytes);
    link_hold(code->rewrite(shape, bytes, 86, 0, buffer, 85, &after) == 23, "a rewriter's room");
    link_hold(code->rewrite(shape, bytes, 86, 0, buffer, 86, &after) == 0 && after == 86 && memcmp(buffer, bytes, 86) == 0, "rewritten");
    link_hold(code->rewrite(shape, bytes, 72, 0, buffer, 86, &after) == 40, "a rewriter's missing link");
}

void link_cases(const struct link_code *code)
{
    link_tally.from = 0;
    limits(code);
    ends(code);
    factors(code);
    linked_images(code);
    book_ends(code);
    plain_images(code);
    records(code);
}
