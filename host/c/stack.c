/* Measures the stack that each function takes with the largest book (8 regions of 11 markets, W 2,016, H 48, windows full): each
   is called in a thread whose stack was painted before, and the lowest byte that is no longer paint tells. The caller's own frame,
   with the book that it lends and the answer, is counted in. Entries, and bills of two of them, are measured with links in a chain, in a
   star and in a ring of all eight regions, which the additional link closes, power either way and all round, caps and floors that travel,
   marked and refused; all else with that ring's book. Exit status 1 where one takes more than the header
   says. It is a measurement of these calls, on this machine, and no proof. */
#define _POSIX_C_SOURCE 200809L

#include "guxhamole.h"
#include "make.h"

#include <pthread.h>
#include <stdio.h>
#include <stdlib.h>
#include <string.h>

enum shape { STAR, CHAIN, RING_OF_ALL, SHAPES };

enum {
    REGIONS = 8, LINKS = REGIONS + 1, SERVICES = 10, MARKETS = SERVICES + 1, PRICES = REGIONS * MARKETS, WINDOW = 2016, HALVES = 48,
    RING = PRICES * WINDOW, SCHEDULE = PRICES * 2 * HALVES, STACK = 1 << 20, PAINT = 0xc5,
    ENTRY_RECORD = 40 + 4 * PRICES + REGIONS + 4 * REGIONS + 4 * REGIONS + 4 * SCHEDULE + 4 * PRICES, ENTRY_ANSWER = 18 + 4 * PRICES
};

static int32_t ring[RING], other[RING], prices[PRICES], flows[LINKS], schedule[SCHEDULE], table[PRICES];
static int32_t numbers[PRICES + REGIONS + SCHEDULE], month[168 * HALVES];
static uint32_t factors[LINKS], room[LINKS];
static uint8_t marks[REGIONS], image[LONGEST], calls[38 + ENTRY_RECORD + 14 + 6], answers[14 + ENTRY_ANSWER + 34 + 14];
static size_t image_length, calls_length;
static uint8_t day[2 * GUXHAMOLE_INTERVAL(REGIONS, SERVICES, 0)];
static size_t links, day_length; /* of the book; without the link a day is shorter */
static uint32_t line_numbers[3], line_energy[3];
static int32_t line_prices[3];
static int64_t line_amounts[3];
static uint8_t kinds[28], records[GUXHAMOLE_INTERVAL(REGIONS, SERVICES, 0)], later[sizeof records], read_marks[REGIONS];
static guxhamole_settings settings;
static guxhamole_book book;
static volatile uint64_t told; /* so that no call is left out */

static void use_abi(void) { told = guxhamole_abi(); }
static void use_open(void) { told = guxhamole_open(settings, ring, RING).number; }
static void use_threshold(void) { told = guxhamole_set_threshold(book, 10000).number; }
static void use_limits(void) { told = guxhamole_set_limits(book, 60000, -60000).number; }
static void use_report(void) { told = guxhamole_report(book, 7, 10).number; }
static void use_left(void) { told = guxhamole_intervals_left(book, ring, RING, 7, 10, 0).number; }
static void use_store(void) { told = guxhamole_store(book, ring, RING, image, LONGEST).number; }
static void use_store_kind_2(void) { told = guxhamole_store_kind_2(book, ring, RING, image, LONGEST).number; }
static void use_load(void) { told = guxhamole_load(image, image_length, other, RING).number; }
static void use_check(void) { told = guxhamole_image_check(image, image_length); }
static void use_schedule(void) { told = guxhamole_schedule(HALVES, 60000, -60000, 1, month, 168 * HALVES, kinds, 28).number; }
static void use_index(void) { told = (uint64_t)guxhamole_index(1125000, 1194, 1194, 1194, 1195, 961, 961, 961, 961, 1359100); }

static void use_text(void)
{
    uint8_t text[GUXHAMOLE_TEXT_MAX];
    told = guxhamole_amount_text(INT64_MIN, text, sizeof text);
}

static void use_enter(void)
{
    guxhamole_entered entered = guxhamole_enter(book, ring, RING, book.entries, 0, prices, PRICES, marks, REGIONS, flows, links,
                                                factors, links, schedule, SCHEDULE, table, PRICES);
    book = entered.book;
    told = entered.number;
}

static void use_write(void)
{
    told = guxhamole_interval_write(book, book.entries, 0, prices, PRICES, marks, REGIONS, flows, links, factors, links,
                                    records, sizeof records).number;
}

static void use_read(void)
{
    told = guxhamole_interval_read(book, records, sizeof records, 0, table, PRICES, read_marks, REGIONS, numbers, links, room,
                                   links).number;
}

static void use_rewrite(void) { told = guxhamole_interval_rewrite(book, records, sizeof records, 0, later, sizeof later).number; }

static void use_synthetic(void)
{
    told = guxhamole_synthetic(book, 2026, 0, 0, table, PRICES, read_marks, REGIONS, numbers, links, room, links).number;
}

static void use_bill(void)
{
    told = guxhamole_bill(book, ring, RING, other, RING, day, day_length, schedule, SCHEDULE, 7, line_numbers, 3, line_energy, 3,
                          line_prices, 3, line_amounts, 3).number;
}

static void use_replay(void)
{
    told = guxhamole_replay(calls, calls_length, answers, sizeof answers, other, RING, ring, RING, image, LONGEST, numbers,
                            PRICES + REGIONS + SCHEDULE, room, REGIONS, table, PRICES);
}

/* A function, a call of it, and the most that was measured. */
struct use {
    const char *name;
    void (*call)(void);
    size_t most;
};

static struct use enter = {"enter", use_enter, 0}, load = {"load", use_load, 0}, read_records = {"interval read", use_read, 0};
static struct use rewrite = {"interval rewrite", use_rewrite, 0}, bill = {"bill", use_bill, 0};

struct run {
    void (*call)(void);
    uint8_t *top;
};

static void *in_thread(void *given)
{
    struct run *run = (struct run *)given;
    uint8_t here;
    run->top = &here;
    run->call();
    return NULL;
}

/* The call is made once before, so that the linker's lazy binding of memcpy, if any, is done with. */
static void measure(struct use *use)
{
    static uint8_t *stack;
    if (stack == NULL && posix_memalign((void **)&stack, 4096, STACK) != 0)
        exit(1);
    struct run run = {use->call, NULL};
    pthread_attr_t attributes;
    pthread_t thread;
    use->call();
    memset(stack, PAINT, STACK);
    pthread_attr_init(&attributes);
    if (pthread_attr_setstack(&attributes, stack, STACK) != 0 || pthread_create(&thread, &attributes, in_thread, &run) != 0)
        exit(1);
    pthread_join(thread, NULL);
    pthread_attr_destroy(&attributes);
    const uint8_t *lowest = stack;
    while (*lowest == PAINT)
        lowest++;
    size_t size = (size_t)(run.top - lowest);
    use->most = size > use->most ? size : use->most;
}

/* A call that must be accepted, or refused, lest another one be measured than is meant. */
static void expect(uint64_t number, struct use *use)
{
    measure(use);
    if (told != number) {
        printf("stack: %s answered %llu\n", use->name, (unsigned long long)told);
        exit(1);
    }
}

/* Whether it is within its bound. */
static int print(const struct use *use, size_t bound)
{
    printf("%s %zu, ", use->name, use->most);
    return use->most <= bound;
}

/* The largest book, every market administered, from an image of windows full of one price. */
static void open_book(enum shape shape)
{
    struct plan plan = plain();
    plan.regions = REGIONS, plan.services = SERVICES, plan.window = WINDOW, plan.halves = HALVES, plan.entries = 5000;
    plan.threshold = 10000;
    for (int region = 0; region < REGIONS; region++) {
        plan.counts[region] = WINDOW;
        plan.parents[region] = (uint8_t)(region == 0 ? 255 : shape == STAR ? 0 : region - 1);
        for (int market = 0; market < MARKETS; market++)
            plan.periods[11 * region + market] = 1;
    }
    if (shape == RING_OF_ALL) {
        plan.kind = 2;
        plan.link.from = 0, plan.link.to = REGIONS - 1;
    }
    links = shape == RING_OF_ALL ? LINKS : REGIONS;
    image_length = lay_out(&plan, 9000000, image);
    book = guxhamole_load(image, image_length, ring, RING).book;
}

static void fill_entry(int32_t energy, int32_t flow)
{
    for (int place = 0; place < PRICES; place++)
        prices[place] = place % MARKETS == 0 ? energy : 100000;
    for (int place = 0; place < LINKS; place++) {
        flows[place] = flow;
        factors[place] = 10500;
    }
}

static void measure_entries(enum shape shape)
{
    static const int32_t energies[] = {100000, -100000}, ways[] = {1, -1};
    open_book(shape);
    for (int i = 0; i < 4; i++) {
        fill_entry(energies[i % 2], ways[i / 2]);
        expect(0, &enter);
    }
    marks[2] = 1;
    expect(0, &enter);
    marks[2] = 0;
    prices[PRICES - 1] = -1;
    expect(GUXHAMOLE_PRICE, &enter);
}

/* The entry twice, as records of a day. */
static void fill_day(void)
{
    const size_t size = GUXHAMOLE_INTERVAL(REGIONS, SERVICES, book.from);
    day_length = 2 * size;
    for (uint32_t i = 0; i < 2; i++)
        guxhamole_interval_write(book, book.entries + i, 0, prices, PRICES, marks, REGIONS, flows, links, factors, links,
                                 day + i * size, size);
}

static void expect_bill(uint64_t number)
{
    fill_day();
    expect(number, &bill);
}

static void measure_bills(enum shape shape)
{
    static const int32_t energies[] = {100000, -100000}, ways[] = {1, -1};
    open_book(shape);
    for (int i = 0; i < 4; i++) {
        fill_entry(energies[i % 2], ways[i / 2]);
        expect_bill(0);
    }
    marks[2] = 1;
    expect_bill(0);
    marks[2] = 0;
    line_energy[2] = 1000000001;
    expect_bill(GUXHAMOLE_BILLED_ENERGY);
    line_energy[2] = 0;
    prices[PRICES - 1] = -1;
    expect_bill(GUXHAMOLE_PRICE);
    day[0] = 0;
    expect(GUXHAMOLE_RECORD_BROKEN, &bill);
}

/* What was written is read and rewritten; so is it in downward order, but not read; then the last region is given twice. */
static void measure_reading(void)
{
    const size_t region = 16 + 4 * MARKETS, last = 12 + (REGIONS - 1) * region;
    expect(0, &read_records);
    expect(0, &rewrite);
    for (size_t i = 0; i < REGIONS; i++)
        memcpy(records + 12 + i * region, later + 12 + (REGIONS - 1 - i) * region, region);
    expect(GUXHAMOLE_RECORD_ORDER, &read_records);
    expect(0, &rewrite);
    records[last + 6] = REGIONS - 1;
    expect(GUXHAMOLE_RECORD_REGION, &rewrite);
    memcpy(records, later, sizeof records);
    records[last + 6] = 0;
    expect(GUXHAMOLE_RECORD_ORDER, &read_records);
    expect(GUXHAMOLE_RECORD_REGION, &rewrite);
    memcpy(records, later, sizeof records);
    records[sizeof records - 10] = 17;
    expect(GUXHAMOLE_RECORD_BROKEN, &read_records);
    expect(GUXHAMOLE_RECORD_BROKEN, &rewrite);
}

static void put(int width, uint64_t number)
{
    put_number(calls, calls_length, width, number);
    calls_length += (size_t)width;
}

/* An opening, an entry, a report and a restart as records (docs/RECORDS.md). */
static void fill_calls(void)
{
    static const size_t lengths[] = {PRICES, REGIONS, REGIONS, REGIONS, SCHEDULE, PRICES, RING};
    calls_length = 0;
    put(4, 38), put(2, 64), put(1, REGIONS), put(1, SERVICES), put(2, WINDOW), put(1, HALVES), put(1, 0), put(2, 0);
    for (int region = 0; region < REGIONS; region++)
        put(1, settings.parents[region]);
    put(8, 10000), put(4, 60000), put(4, (uint32_t)-60000);
    put(4, ENTRY_RECORD), put(2, 65), put(4, 0), put(2, 0);
    for (int i = 0; i < 7; i++)
        put(4, lengths[i]);
    calls_length = 38 + 40 + 4 * PRICES + REGIONS + 4 * REGIONS;
    for (int region = 0; region < REGIONS; region++)
        put(4, 10500);
    calls_length = 38 + ENTRY_RECORD;
    put(4, 14), put(2, 68), put(8, 0);
    put(4, 6), put(2, 69);
}

/* Entries and bills of each shape, and stores by kind 1 of books that it tells and doesn't. */
static void measure_shapes(struct use *store)
{
    for (int shape = 0; shape < SHAPES; shape++)
        measure_entries((enum shape)shape);
    open_book(CHAIN);
    expect(0, store);
    for (int shape = 0; shape < SHAPES; shape++)
        measure_bills((enum shape)shape);
    expect(GUXHAMOLE_IMAGE_FIRST, store);
}

int main(void)
{
    static struct use uses[] = {{"threshold", use_threshold, 0}, {"limits", use_limits, 0}, {"report", use_report, 0},
                                {"intervals left", use_left, 0}, {"store by kind 2", use_store_kind_2, 0}, {"image check", use_check, 0},
                                {"schedule", use_schedule, 0}, {"interval write", use_write, 0}, {"synthetic", use_synthetic, 0},
                                {"open", use_open, 0}};
    static struct use others[] = {{"amount text", use_text, 0}, {"index", use_index, 0}, {"abi", use_abi, 0}};
    static struct use replay = {"replay", use_replay, 0}, store = {"store", use_store, 0};
    guxhamole_settings own = {REGIONS, SERVICES, WINDOW, HALVES, 0, {255, 0, 1, 2, 3, 4, 5, 6}, 0, 7, 10000, 60000, -60000};
    int within = 1;
    settings = own;
    for (int day = 0; day < 28; day++)
        kinds[day] = day % 7 > 4;
    measure_shapes(&store);
    within &= print(&store, GUXHAMOLE_STACK);
    expect(0, &load);
    within &= print(&enter, GUXHAMOLE_STACK);
    within &= print(&bill, GUXHAMOLE_STACK_BILL);
    for (size_t i = 0; i < sizeof uses / sizeof *uses; i++) {
        expect(0, &uses[i]);
        within &= print(&uses[i], GUXHAMOLE_STACK);
    }
    for (size_t i = 0; i < sizeof others / sizeof *others; i++) {
        measure(&others[i]);
        within &= print(&others[i], GUXHAMOLE_STACK);
    }
    measure_reading();
    within &= print(&read_records, GUXHAMOLE_STACK);
    within &= print(&rewrite, GUXHAMOLE_STACK);
    put_price(image, RING - 1, -1);
    expect(GUXHAMOLE_PRICE, &load);
    within &= print(&load, GUXHAMOLE_STACK);
    fill_calls();
    expect(sizeof answers, &replay);
    within &= print(&replay, GUXHAMOLE_STACK_REPLAY);
    printf("bytes of stack, held to %d, %d for the bill and %d for the replay\n", GUXHAMOLE_STACK, GUXHAMOLE_STACK_BILL,
           GUXHAMOLE_STACK_REPLAY);
    return !within;
}
