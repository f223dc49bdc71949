/* Lists of typed calls over random books. Each call is made, and beside it written as a record (docs/RECORDS.md) with the record
   of its answer; at the end guxhamole_replay must write the same answers from the same calls. Openings, settings, entries and restarts
   are held to the independent code as well: it alone knows what a list with an additional link must answer, of which the replay's records
   can tell nothing. */
#include "typed_lists.h"

#include "guarded.h"
#include "guxhamole.h"
#include "independent_entry.h"
#include "make.h"

#include <string.h>

enum { ENTRIES = 150, SPARE = 2, WINDOW = 9, RING_MOST = 88 * WINDOW, BYTES = 1 << 22 };

enum kind { OPENING = 64, ENTRY = 65, THRESHOLD = 66, LIMITS = 67, REPORT = 68, RESTART = 69 };

struct bytes {
    uint8_t bytes[BYTES];
    size_t length;
};

static struct bytes calls, wanted, answers;

/* An entry's slices: how long each must be, and how long it is lent. */
struct lengths {
    size_t prices, regions, links, schedule, ring;
};

struct entry {
    uint32_t number;
    uint8_t day_kind;
    size_t prices_length, marks_length, flows_length, factors_length, schedule_length, table_length, ring_length;
    int32_t *prices, *flows, *schedule, *table;
    uint8_t *marks;
    uint32_t *factors;
};

/* A book under test, and what it is lent. */
struct host {
    guxhamole_settings settings;
    struct lengths right;
    guxhamole_book book;
    int opened;
    int32_t *ring, *other;
    size_t other_length, image_length;
    uint8_t *image;
    struct entry entry;
    struct list_counts *counts;
    int whole; /* no call wrote to what it wasn't lent */
    int ruled; /* openings, settings, entries and restarts were answered as the independent rules say */
    struct independent_ledger ledger;
};

static void put(struct bytes *to, int width, uint64_t number)
{
    put_number(to->bytes, to->length, width, number);
    to->length += (size_t)width;
}

static void put_words(struct bytes *to, const int32_t *words, size_t count)
{
    for (size_t i = 0; i < count; i++)
        put(to, 4, (uint32_t)words[i]);
}

static void put_head(struct bytes *to, size_t length, enum kind kind)
{
    put(to, 4, length);
    put(to, 2, kind);
}

static void put_answer(struct host *host, size_t length, enum kind kind, uint32_t number, uint64_t place)
{
    put_head(&wanted, length, kind);
    put(&wanted, 4, number);
    put(&wanted, 4, place);
    host->counts->calls++;
    host->counts->seen[number & 63]++;
    host->whole &= guarded_whole();
}

static int seldom(unsigned times)
{
    return below(times) == 0;
}

static int64_t any_threshold(void)
{
    int64_t multiple = 10000 * within(1, 40);
    switch (below(8)) {
    case 0: return threshold_out();
    case 1: case 2: return threshold_beside(multiple);
    default: return multiple;
    }
}

static void set_link(guxhamole_settings *settings, struct independent_link link)
{
    settings->from = link.from;
    settings->to = link.to;
}

static guxhamole_settings any_settings(void)
{
    guxhamole_settings settings;
    memset(&settings, 0, sizeof settings);
    settings.regions = (uint8_t)within(1, 8);
    settings.services = (uint8_t)(seldom(4) ? 10 : within(0, 3));
    settings.window = (uint16_t)within(1, WINDOW);
    settings.halves = (uint8_t)within(1, 3);
    settings.first = (uint16_t)within(0, 6 * settings.halves - 1);
    memset(settings.parents, 255, sizeof settings.parents);
    for (int region = 1; region < settings.regions; region++)
        if (!seldom(4))
            settings.parents[region] = (uint8_t)within(0, region - 1);
    set_link(&settings, seldom(2) ? independent_no_link() : any_link(settings.regions, settings.parents));
    settings.threshold = 10000 * within(1, 40);
    settings.cap = 60000;
    settings.floor = -60000;
    return settings;
}

/* In one list of ten a setting is bad, and every call after it is refused by 10. */
static void spoil_settings(guxhamole_settings *settings)
{
    if (settings->from != GUXHAMOLE_NONE && seldom(8))
        set_link(settings, any_ends(settings->regions, settings->parents));
    switch (below(80)) {
    case 0: settings->regions = seldom(2) ? 0 : 9; break;
    case 1: settings->services = 11; break;
    case 2: settings->window = seldom(2) ? 0 : 2017; break;
    case 3: settings->first = (uint16_t)(6 * settings->halves); break;
    case 4: settings->parents[below(8)] = (uint8_t)within(0, 8); break;
    case 5: settings->threshold = threshold_out(); break;
    case 6: settings->threshold = threshold_beside(settings->threshold); break;
    case 7: settings->cap = seldom(2) ? 0 : 10000001; break;
    default: break;
    }
}

static void lend(struct host *host)
{
    struct lengths right = host->right;
    size_t wrong = seldom(10) ? 1 : 0; /* a ring or a buffer too short for a restart */
    struct entry *entry = &host->entry;
    host->ring = (int32_t *)guarded(4 * right.ring);
    host->other_length = right.ring > 0 && seldom(2) ? right.ring - wrong : right.ring;
    host->other = (int32_t *)guarded(4 * right.ring);
    host->image_length = (host->settings.from == GUXHAMOLE_NONE ? 148 : 156) + 4 * right.ring - wrong;
    host->image = (uint8_t *)guarded(host->image_length);
    entry->prices = (int32_t *)guarded_fixed(4 * (right.prices + SPARE));
    entry->flows = (int32_t *)guarded_fixed(4 * (right.links + SPARE));
    entry->schedule = (int32_t *)guarded_fixed(4 * (right.schedule + SPARE));
    entry->marks = (uint8_t *)guarded_fixed(right.regions + SPARE);
    entry->factors = (uint32_t *)guarded_fixed(4 * (right.links + SPARE));
    entry->table = (int32_t *)guarded(4 * (right.prices + SPARE));
}

static void open_book(struct host *host)
{
    guxhamole_settings *settings = &host->settings;
    put_head(&calls, 38, OPENING);
    put(&calls, 1, settings->regions);
    put(&calls, 1, settings->services);
    put(&calls, 2, settings->window);
    put(&calls, 1, settings->halves);
    put(&calls, 1, 0);
    put(&calls, 2, settings->first);
    for (int region = 0; region < 8; region++)
        put(&calls, 1, settings->parents[region]);
    put(&calls, 8, (uint64_t)settings->threshold);
    put(&calls, 4, (uint32_t)settings->cap);
    put(&calls, 4, (uint32_t)settings->floor);
    guxhamole_kept kept = guxhamole_open(*settings, host->ring, host->right.ring);
    host->opened = kept.number == GUXHAMOLE_ACCEPTED;
    host->ruled &= kept.number == independent_opening(settings, host->right.ring);
    if (host->opened)
        independent_ledger_open(&host->ledger, settings);
    host->book = kept.book;
    put_answer(host, 14, OPENING, kept.number, kept.place);
}

static size_t about(size_t length)
{
    return seldom(400) ? (seldom(2) ? length + SPARE : length - 1) : length;
}

static void fill_entry(struct host *host)
{
    struct entry *entry = &host->entry;
    size_t markets = host->settings.services + 1u, regions = host->right.regions;
    entry->number = host->book.entries;
    entry->day_kind = (uint8_t)below(2);
    for (size_t i = 0; i < host->right.prices + SPARE; i++) {
        entry->prices[i] = (int32_t)(i % markets ? within(0, 100000) : within(-90000, 120000));
        entry->table[i] = (int32_t)next();
    }
    for (size_t region = 0; region < regions + SPARE; region++)
        entry->marks[region] = (uint8_t)seldom(6);
    for (size_t place = 0; place < host->right.links + SPARE; place++) {
        entry->flows[place] = (int32_t)within(-1, 1);
        entry->factors[place] = (uint32_t)within(10000, 20000);
    }
    for (size_t i = 0; i < host->right.schedule + SPARE; i++)
        entry->schedule[i] = (int32_t)(seldom(9) ? (int64_t)next() >> 32 : within(-100000, 100000));
    entry->prices_length = about(host->right.prices);
    entry->table_length = about(host->right.prices);
    entry->marks_length = about(regions);
    entry->flows_length = about(host->right.links);
    entry->factors_length = about(host->right.links);
    entry->schedule_length = about(host->right.schedule);
    entry->ring_length = host->right.ring - (host->right.ring > 0 && seldom(400) ? 1 : 0);
}

static void spoil_entry(struct entry *entry, size_t regions, size_t links, size_t prices)
{
    switch (below(40)) {
    case 0: entry->number += (uint32_t)within(1, 3); break;
    case 1: entry->day_kind = (uint8_t)within(2, 255); break;
    case 2: entry->marks[below(regions)] = (uint8_t)within(2, 255); break;
    case 3: entry->prices[below(prices)] = seldom(2) ? 10000001 : -10000001; break;
    case 4: entry->prices[below(prices)] = -1; break;
    case 5: entry->factors[below(links)] = seldom(2) ? 9999 : 20001; break;
    default: break;
    }
}

static void put_entry(const struct entry *entry)
{
    size_t words = entry->prices_length + entry->flows_length + entry->factors_length + entry->schedule_length +
                   entry->table_length;
    put_head(&calls, 40 + entry->marks_length + 4 * words, ENTRY);
    put(&calls, 4, entry->number);
    put(&calls, 1, entry->day_kind);
    put(&calls, 1, 0);
    put(&calls, 4, entry->prices_length);
    put(&calls, 4, entry->marks_length);
    put(&calls, 4, entry->flows_length);
    put(&calls, 4, entry->factors_length);
    put(&calls, 4, entry->schedule_length);
    put(&calls, 4, entry->table_length);
    put(&calls, 4, entry->ring_length);
    put_words(&calls, entry->prices, entry->prices_length);
    for (size_t i = 0; i < entry->marks_length; i++)
        put(&calls, 1, entry->marks[i]);
    put_words(&calls, entry->flows, entry->flows_length);
    for (size_t i = 0; i < entry->factors_length; i++)
        put(&calls, 4, entry->factors[i]);
    put_words(&calls, entry->schedule, entry->schedule_length);
    put_words(&calls, entry->table, entry->table_length);
}

/* What an entry must answer. */
struct wanted {
    struct independent_refusal refusal;
    uint32_t count;
    int32_t table[88];
};

/* The entry as the independent code takes it, its lengths being right. */
static struct independent_interval interval_of(const struct host *host)
{
    const struct entry *entry = &host->entry;
    struct independent_interval interval;
    memset(&interval, 0, sizeof interval);
    interval.entry = entry->number, interval.day_kind = entry->day_kind;
    memcpy(interval.prices, entry->prices, 4 * host->right.prices);
    memcpy(interval.marks, entry->marks, host->right.regions);
    memcpy(interval.flows, entry->flows, 4 * host->right.links);
    memcpy(interval.factors, entry->factors, 4 * host->right.links);
    return interval;
}

/* By the independent ledger, which then has it. */
static struct wanted entry_wanted(struct host *host)
{
    const struct entry *entry = &host->entry;
    struct wanted want = {{10, 0}, 0, {0}};
    struct independent_lengths lent = {entry->ring_length, entry->prices_length, entry->marks_length, entry->flows_length,
                                       entry->factors_length, entry->schedule_length, entry->table_length};
    if (!host->opened)
        return want;
    want.refusal.number = 11;
    if (independent_lengths_bad(&host->ledger, &lent))
        return want;
    struct independent_interval interval = interval_of(host);
    want.refusal = independent_entry_refusal(&host->ledger, &interval);
    if (want.refusal.number != 0)
        return want;
    want.count = independent_entry_publish(&host->ledger, &interval, entry->schedule, want.table);
    independent_ledger_enter(&host->ledger, interval.prices, interval.marks);
    return want;
}

static void enter(struct host *host)
{
    struct entry *entry = &host->entry;
    fill_entry(host);
    spoil_entry(entry, host->right.regions, host->right.links, host->right.prices);
    struct wanted want = entry_wanted(host);
    put_entry(entry);
    guarded_keep();
    static int32_t ring[RING_MOST];
    memcpy(ring, host->ring, 4 * host->right.ring);
    int32_t after = entry->table[entry->table_length]; /* lent or not, it is there: SPARE and the guard */
    guxhamole_entered entered =
        guxhamole_enter(host->book, host->ring, entry->ring_length, entry->number, entry->day_kind, entry->prices,
                        entry->prices_length, entry->marks, entry->marks_length, entry->flows, entry->flows_length, entry->factors,
                        entry->factors_length, entry->schedule, entry->schedule_length, entry->table, entry->table_length);
    host->book = entered.book;
    host->whole &= entry->table[entry->table_length] == after;
    host->ruled &= entered.number == want.refusal.number && entered.place == want.refusal.place && entered.count == want.count;
    if (want.refusal.number == 0)
        host->ruled &= memcmp(want.table, entry->table, 4 * host->right.prices) == 0;
    if (entered.number != GUXHAMOLE_ACCEPTED)
        host->whole &= memcmp(ring, host->ring, 4 * host->right.ring) == 0;
    put_answer(host, 18 + 4 * entry->table_length, ENTRY, entered.number, entered.place);
    put(&wanted, 4, entered.count);
    put_words(&wanted, entry->table, entry->table_length);
    host->counts->entries++;
    host->counts->accepted += entered.number == GUXHAMOLE_ACCEPTED;
    host->counts->changed += entered.count;
    host->counts->linked += entered.number == GUXHAMOLE_ACCEPTED && host->book.from != GUXHAMOLE_NONE;
}

/* A setting is refused by the rule, or by 10 where the opening was refused. */
static void expect(struct host *host, uint32_t number, uint32_t ruled)
{
    host->ruled &= number == (host->opened ? ruled : 10);
}

static void set_threshold(struct host *host)
{
    int64_t threshold = any_threshold();
    put_head(&calls, 14, THRESHOLD);
    put(&calls, 8, (uint64_t)threshold);
    guxhamole_kept kept = guxhamole_set_threshold(host->book, threshold);
    expect(host, kept.number, independent_threshold(threshold));
    if (kept.number == GUXHAMOLE_ACCEPTED)
        host->ledger.settings.threshold = threshold;
    host->book = kept.book;
    put_answer(host, 14, THRESHOLD, kept.number, kept.place);
}

static void set_limits(struct host *host)
{
    int32_t cap = (int32_t)within(0, 60000), floor = -(int32_t)(seldom(5) ? 0 : within(1, 60000));
    put_head(&calls, 14, LIMITS);
    put(&calls, 4, (uint32_t)cap);
    put(&calls, 4, (uint32_t)floor);
    guxhamole_kept kept = guxhamole_set_limits(host->book, cap, floor);
    expect(host, kept.number, independent_limits(cap, floor));
    if (kept.number == GUXHAMOLE_ACCEPTED)
        host->ledger.settings.cap = cap, host->ledger.settings.floor = floor;
    host->book = kept.book;
    put_answer(host, 14, LIMITS, kept.number, kept.place);
}

static void report(struct host *host)
{
    uint32_t region = (uint32_t)below(host->right.regions + 1), market = (uint32_t)below(host->settings.services + 2u);
    put_head(&calls, 14, REPORT);
    put(&calls, 4, region);
    put(&calls, 4, market);
    guxhamole_reading reading = guxhamole_report(host->book, region, market);
    put_answer(host, 34, REPORT, reading.number, 0);
    put(&wanted, 8, (uint64_t)reading.sum);
    put(&wanted, 4, reading.counted);
    put(&wanted, 4, reading.mark);
    put(&wanted, 4, reading.entries);
}

/* A store and a load into the other ring: the book and the ring go on if both are accepted. By kind 1, as a replay does, unless the list
   has a link: there by either. */
static void restart(struct host *host)
{
    unsigned kind = host->settings.from != GUXHAMOLE_NONE && seldom(2) ? 2 : 1;
    put_head(&calls, 6, RESTART);
    guxhamole_stored stored = kind == 1 ? guxhamole_store(host->book, host->ring, host->right.ring, host->image, host->image_length)
                                        : guxhamole_store_kind_2(host->book, host->ring, host->right.ring, host->image, host->image_length);
    uint32_t number = stored.number;
    uint64_t place = 0;
    if (number == GUXHAMOLE_ACCEPTED) {
        guxhamole_kept kept = guxhamole_load(host->image, stored.length, host->other, host->other_length);
        number = kept.number;
        place = kept.place;
        if (number == GUXHAMOLE_ACCEPTED) {
            int32_t *ring = host->ring;
            host->book = kept.book;
            host->ring = host->other;
            host->other = ring;
            host->counts->restarts++;
        }
    }
    expect(host, number, independent_ledger_restart(&host->ledger, kind, host->image_length, host->other_length));
    put_answer(host, 14, RESTART, number, place);
}

static int replayed_alike(const struct host *host)
{
    struct lengths right = host->right;
    size_t numbers = right.prices + right.regions + right.schedule + 3 * SPARE;
    int32_t *ring = (int32_t *)guarded(4 * right.ring), *other = (int32_t *)guarded(4 * right.ring);
    uint8_t *image = (uint8_t *)guarded(host->image_length);
    int32_t *entry = (int32_t *)guarded(4 * numbers), *table = (int32_t *)guarded(4 * (right.prices + SPARE));
    uint32_t *factors = (uint32_t *)guarded(4 * (right.regions + SPARE));
    size_t length = guxhamole_replay(calls.bytes, calls.length, answers.bytes, BYTES, ring, right.ring, other, host->other_length,
                                     image, host->image_length, entry, numbers, factors, right.regions + SPARE, table,
                                     right.prices + SPARE);
    return length == wanted.length && memcmp(answers.bytes, wanted.bytes, length) == 0 && guarded_whole();
}

/* The lengths that the settings ask for; the ring is now and then one short. They are those of good settings, so that a book
   that was refused for a bad one is lent something; but no more ring than a replay lends, which is R x M x W at most. */
static struct lengths lengths_of(guxhamole_settings good, guxhamole_settings told)
{
    struct lengths right;
    size_t most = GUXHAMOLE_RING(told.regions, told.services, told.window);
    right.regions = good.regions;
    right.links = GUXHAMOLE_LINKS(good.regions, good.from);
    right.prices = GUXHAMOLE_PRICES(good.regions, good.services);
    right.schedule = GUXHAMOLE_SCHEDULE(good.regions, good.services, good.halves);
    right.ring = GUXHAMOLE_RING(good.regions, good.services, good.window) - (seldom(50) ? 1 : 0);
    if (right.ring > most)
        right.ring = most;
    return right;
}

int list_alike(struct list_counts *counts)
{
    static struct host host;
    memset(&host, 0, sizeof host);
    guxhamole_settings good = any_settings();
    host.settings = good;
    spoil_settings(&host.settings);
    host.right = lengths_of(good, host.settings);
    host.counts = counts;
    host.whole = host.ruled = 1;
    calls.length = wanted.length = 0;
    lend(&host);
    open_book(&host);
    for (int i = 0; i < ENTRIES; i++) {
        enter(&host);
        if (seldom(9))
            set_threshold(&host);
        if (seldom(9))
            set_limits(&host);
        if (seldom(3))
            report(&host);
        if (seldom(7))
            restart(&host);
    }
    int replayed = good.from == GUXHAMOLE_NONE;
    int alike = host.whole && host.ruled && (!replayed || replayed_alike(&host));
    counts->replayed += replayed;
    guarded_free();
    return alike;
}
