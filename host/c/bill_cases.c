/* The cases worked out for request 2026-09, each with its answer and its second ring, which held 7 at every place before. */
#include "bill_cases.h"

#include "bill_calls.h"

#include <stdio.h>
#include <string.h>

enum { OLD = 7, YES = -1, MOST = 1000000000 };

static struct bill_trial now;
static int cases;

/* Books of so many regions in a chain, without services, with a window and a day of one half-hour. */
static void open_chain(unsigned regions)
{
    guxhamole_settings settings = {(uint8_t)regions, 0, 1, 1, 0, {255, 255, 255, 255, 255, 255, 255, 255}, 255, 255, 90000, 60000, -60000};
    for (unsigned region = 1; region < regions; region++)
        settings.parents[region] = (uint8_t)(region - 1);
    trial_begin(&now, &settings);
}

/* An interval of these prices, with no marks and flows and factors of 1, after those that are there. */
static void add(uint32_t entry, int32_t first, int32_t second, int32_t third)
{
    struct independent_interval interval = {entry, 0, {first, second, third}, {0}, {0}, {10000, 10000, 10000}};
    trial_add(&now, &interval);
}

/* The day d and its right lines; and without the lines. */
static void begin_d_alone(void)
{
    open_chain(1);
    add(0, 100000, 0, 0);
    add(1, 70000, 0, 0);
}

static void begin_d(void)
{
    begin_d_alone();
    trial_line(&now, 0, 3, 100000, 300);
    trial_line(&now, 1, 1, 60000, 60);
}

/* Makes the call: `line` is YES, or the wrong one, where the number is 0. `rings` has the second ring. */
static void expect(const char *what, uint32_t number, uint64_t place, int line, const int32_t *rings)
{
    static int32_t work[TRIAL_RING];
    guxhamole_billed told = bill_alike(what, &now, OLD, work, 0);
    if (told.number != number || told.place != place || told.right != (number == 0 && line == YES))
        bill_differs(what, 0);
    if (told.line != (number == 0 && line != YES ? (uint64_t)line : 0))
        bill_differs(what, 0);
    for (size_t i = 0; i < now.work_length; i++)
        if (work[i] != (rings == NULL ? OLD : rings[i]))
            bill_differs(what, 0);
    cases++;
}

static void answered(const char *what, int line, int32_t ring)
{
    expect(what, 0, 0, line, &ring);
}

static void refused(const char *what, uint32_t number, uint64_t place, int32_t ring)
{
    expect(what, number, place, 0, &ring);
}

/* Before the second ring is touched. */
static void refused_first(const char *what, uint32_t number)
{
    expect(what, number, 0, 0, NULL);
}

static void line_cases(void)
{
    begin_d(), answered("d", YES, 70000);
    begin_d(), now.prices[1] = 70000, now.amounts[1] = 70, answered("the entry price", 1, 70000);
    begin_d(), now.numbers[0] = 1, answered("number 1 for 0", 0, 70000);
    begin_d(), now.amounts[1] = 61, answered("an amount of 61", 1, 70000);
    begin_d(), now.amounts[1] = 59, answered("an amount of 59", 1, 70000);
    begin_d(), now.amounts[0] = 300 + ((int64_t)1 << 32), answered("an amount's upper half", 0, 70000);
    begin_d(), now.prices[0] = 99999, answered("a price of 99,999", 0, 70000);
    begin_d(), now.energy[1] = 2, answered("two kilowatt-hours for one", 1, 70000);
    begin_d(), now.numbers[0] = 9, now.amounts[1] = 61, answered("both lines wrong", 0, 70000);
    begin_d_alone(), trial_line(&now, 0, 3, 100000, 300), answered("the first line only", 1, 70000);
    begin_d_alone(), trial_line(&now, 1, 1, 60000, 60), answered("the second line only", 0, 70000);
    begin_d_alone(), answered("no line", 0, 70000);
    begin_d(), trial_line(&now, 2, 1, 60000, 60), answered("a third line", 2, 70000);
    begin_d(), trial_line(&now, 0, 0, 0, 0), answered("a third line of zeros", 2, 70000);
    begin_d_alone(), trial_line(&now, 1, 1, 60000, 60), trial_line(&now, 0, 3, 100000, 300), answered("exchanged", 0, 70000);
    open_chain(1), answered("no records, no lines", YES, 0);
    open_chain(1), trial_line(&now, 0, 0, 0, 0), answered("no records, one line", 0, 0);
}

static void above_cases(void)
{
    begin_d(), now.numbers[0] = 9, now.energy[1] = MOST + 1, refused("46 at line 1", 46, 1, 70000);
    begin_d(), now.energy[0] = MOST + 1, now.energy[1] = UINT32_MAX, refused("46 at both lines", 46, 0, 70000);
    begin_d(), trial_line(&now, 2, UINT32_MAX, 0, 0), refused("46 at a surplus line", 46, 2, 70000);
    open_chain(1), trial_line(&now, 0, 1, 1, 1), trial_line(&now, 0, UINT32_MAX, 0, 0), refused("46 without records", 46, 1, 0);
    begin_d(), now.energy[1] = MOST, now.amounts[1] = 60000000000, answered("the most of a line", YES, 70000);
    begin_d(), now.energy[1] = MOST, now.amounts[1] = 59999999999, answered("a cent less", 1, 70000);
    begin_d(), now.energy[1] = MOST, now.amounts[1] = -129542144, answered("the most of a line, in 32 bits", 1, 70000);
}

static void record_cases(void)
{
    static const uint8_t strange[] = {6, 0, 0, 0, 99, 0};
    begin_d(), now.numbers[0] = 9, now.energy[1] = MOST + 1, now.records_length += 5, refused("five bytes more", 40, 0, 70000);
    begin_d(), memcpy(now.records + 64, strange, 6), now.records_length += 6, refused("a record of kind 99", 41, 0, 70000);
    begin_d(), add(0, 100000, 0, 0), add(1, 70000, 0, 0), refused("d twice", 13, 0, 70000);
    begin_d(), now.records_length = 63, refused("d, cut", 40, 0, 100000);
    begin_d(), now.records_length = 0, answered("d's lines alone", 0, 0);
    open_chain(1), add(0, 5, 0, 0), add(1, 10000001, 0, 0), refused("5, then 10,000,001", 16, 0, 5);
    open_chain(1), add(0, 5, 0, 0), add(1, 6, 0, 0), now.records[32 + 10] = 2, refused("a day kind of 2", 14, 0, 5);
}

/* Two regions: the place of a refusal is the entry's own. */
static void place_cases(void)
{
    static const int32_t ones[] = {1, 1}, zeros[] = {0, 0}, halves[] = {4, 0};
    struct independent_interval marked = {1, 0, {1, 1}, {0, 2}, {0, 0}, {10000, 10000}};
    open_chain(2), add(0, 1, 1, 0), trial_add(&now, &marked), expect("a mark of 2 after an interval", 15, 1, 0, ones);
    struct independent_interval factored = {0, 0, {1, 1}, {0, 0}, {0, 0}, {10000, 9999}};
    open_chain(2), trial_add(&now, &factored), expect("a factor of 9,999", 17, 1, 0, zeros);
    factored.entry = 1;
    open_chain(2), add(0, 4, 0, 0), trial_add(&now, &factored), expect("a factor of 9,999 after an interval", 17, 1, 0, halves);
    struct independent_interval priced = {1, 0, {1, 10000001}, {0, 0}, {0, 0}, {10000, 10000}};
    open_chain(2), add(0, 1, 1, 0), trial_add(&now, &priced), expect("a price of 10,000,001 after an interval", 16, 1, 0, ones);
    open_chain(2), add(0, 1, 1, 0), now.records[18] = 1, now.records[38] = 0, expect("regions exchanged", 45, 0, 0, zeros);
}

static void rounding_cases(void)
{
    static const struct {
        int32_t price;
        uint32_t energy;
        int64_t amount, other;
    } halves[] = {{-500, 1, -1, 0}, {500, 3, 2, 1}, {500, 1, 1, 0}, {-500, 3, -2, -1}, {2500, 1, 3, 2}, {-2500, 1, -3, -2},
                  {499, 1, 0, 1}, {-499, 1, 0, -1}, {501, 1, 1, 0}, {-501, 1, -1, 0}, {0, MOST, 0, 1}, {10000000, MOST, 10000000000000, 0},
                  {-10000000, MOST, -10000000000000, 0}, {1, 500, 1, 0}, {1, 499, 0, 1}, {-1, 500, -1, 0}, {1, 1500, 2, 1}};
    open_chain(1), add(0, -500, 0, 0), add(1, 500, 0, 0);
    trial_line(&now, 0, 1, -500, -1), trial_line(&now, 1, 3, 500, 2), answered("-500 and 500", YES, 500);
    now.amounts[0] = 0, answered("-500 and 500, 0 for -1", 0, 500);
    for (size_t i = 0; i < sizeof halves / sizeof *halves; i++) {
        open_chain(1), add(0, halves[i].price, 0, 0), trial_line(&now, 0, halves[i].energy, halves[i].price, halves[i].amount);
        answered("an amount rounded half away from zero", YES, halves[i].price);
        now.amounts[0] = halves[i].other, answered("an amount rounded otherwise", 0, halves[i].price);
    }
}

/* Priced by schedule at both kinds of day. */
static void schedule_case(void)
{
    struct independent_interval interval = {0, 0, {0}, {1}, {0}, {0}};
    open_chain(1), trial_add(&now, &interval);
    interval.entry = 1, interval.day_kind = 1;
    trial_add(&now, &interval);
    now.schedule[0] = 70000, now.schedule[1] = -70000;
    trial_line(&now, 0, 1000, 60000, 60000), trial_line(&now, 1, 1000, -60000, -60000), answered("marked twice", YES, 0);
    now.prices[1] = now.prices[0], now.amounts[1] = now.amounts[0], answered("marked twice, the other kind's price", 1, 0);
}

static void first_cases(void)
{
    size_t *lengths[] = {&now.ring_length, &now.work_length, &now.schedule_length, &now.numbers_length, &now.energy_length,
                         &now.prices_length, &now.amounts_length};
    begin_d(), now.region = 1, refused_first("region 1", 21);
    begin_d(), now.region = 256, refused_first("region 256", 21);
    begin_d(), now.region = UINT32_MAX, refused_first("the last region of 32 bits", 21);
    begin_d(), now.region = 1, now.energy_length = 1, refused_first("region 1 and unequal lines", 11);
    begin_d(), now.region = 1, now.records_length = 5, refused_first("region 1 and no record", 21);
    for (size_t i = 0; i < sizeof lengths / sizeof *lengths; i++) {
        begin_d(), ++*lengths[i], refused_first("one place too many", 11);
        begin_d(), --*lengths[i], refused_first("one place too few", 11);
    }
    begin_d(), now.ring_length = now.work_length = 2, refused_first("both rings of two places", 11);
    open_chain(1), now.schedule_length = 1, refused_first("a schedule of 1 and no records", 11);
    begin_d(), memset(&now.book, 0, sizeof now.book), now.ledger = NULL, refused_first("a closed book", 10);
    now.region = 9, now.work_length = 2, refused_first("a closed book, region 9 and a second ring of 2", 10);
}

/* A book that others changed: what an accepted entry makes of its sum is beyond the bound. */
static void forged(void)
{
    open_chain(1);
    now.book.counts[0] = 1, now.book.entries = 1, now.book.position = 1, now.book.sums[0] = 20160000000;
    now.ring[0] = INT32_MIN;
    now.ledger = NULL;
    add(1, 10000000, 0, 0);
}

static void forged_cases(void)
{
    forged(), add(2, 0, 0, 0), refused("forged, and interval 2", 10, 0, 10000000);
    forged(), now.records_length++, refused("forged, and a stray byte", 10, 0, 10000000);
    forged(), trial_line(&now, 1, 0, 10000000, 0), answered("forged, and no more", YES, 10000000);
    open_chain(1), now.book.entries = 10000000, now.book.position = 4, now.ledger = NULL, add(10000000, 0, 0, 0);
    refused("no more entries", 12, 0, 0);
    now.book.entries = 9999999, now.book.position = 3, now.records_length = 0, add(9999999, 8, 0, 0), add(10000000, 9, 0, 0);
    refused("one more entry", 12, 0, 8);
    now.records_length -= 32, trial_line(&now, 9999999, 125, 8, 1), answered("the last entry", YES, 8);
}

/* Document 01's worked case of limits over links, billed for each region; region 0's prices are none of the others'. */
static void link_cases(void)
{
    static const int32_t published[][2] = {{100000, 60000}, {90000, 54545}, {85000, 50505}}, ring[] = {100000, 90000, 85000};
    struct independent_interval linked = {1, 0, {100000, 90000, 85000}, {0}, {0, 1, 1}, {0, 11000, 10800}};
    for (uint32_t region = 0; region < 3; region++) {
        open_chain(3), add(0, 100000, 90000, 85000), trial_add(&now, &linked);
        now.region = region;
        for (uint32_t i = 0; i < 2; i++)
            trial_line(&now, i, 1000, published[region][i], published[region][i]);
        expect("limits over links", 0, 0, YES, ring);
        now.prices[1] = now.prices[0], now.amounts[1] = now.amounts[0];
        expect("limits over links, and the entry price", 0, 0, 1, ring);
    }
}

int bill_cases(void)
{
    line_cases();
    above_cases();
    record_cases();
    place_cases();
    rounding_cases();
    schedule_case();
    first_cases();
    forged_cases();
    link_cases();
    return cases;
}
