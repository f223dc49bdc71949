/* Holds guxhamole_synthetic to an independent draw: the cases worked out for request 2026-07; books of every size, each with the seeds
   from which each of its draws in turn meets the bounds of the rules, found by running the generator backwards, and with every
   wrong length; random seeds, numbers and day kinds on books with a history, damaged books and wrong lengths among them; and days of
   the real market, entered beside the independent ledger. Guards stand round all that is lent. All from a fixed seed. Exit status 1
   with the draw at the first difference, or where a kind came up too seldom. Given a number, it does that part of it alone:
   `synthetic_test 10` a tenth, for slow checkers. */
#include "independent_synthetic.h"
#include "make.h"
#include "synthetic_draws.h"
#include "synthetic_weeks.h"

#include <stdio.h>
#include <stdlib.h>
#include <string.h>

enum { TRIALS = 20000, SLICES = 4 };

static long cases;
static int part = 1;

/* Whether a draw is made: all of them, or that part of them. */
static int in_part(void)
{
    return below((uint64_t)part) == 0;
}

/* A new book of this size, each region linked to the one before, so that an entry looks at every factor but the first; or, of two regions
   or more, with the additional link from the last to the first as well, which of two is the only one. */
static struct draw of_size(unsigned regions, unsigned services, int linked)
{
    static int32_t ring[88];
    struct draw draw;
    guxhamole_settings settings = {(uint8_t)regions, (uint8_t)services, 1, 1, 0, {255, 255, 255, 255, 255, 255, 255, 255}, 255, 255,
                                   10000, 60000, -60000};
    for (unsigned region = 1; region < regions; region++)
        settings.parents[region] = (uint8_t)(region - 1);
    if (linked && regions == 2)
        settings.parents[1] = 255;
    if (linked && regions > 1)
        settings.from = (uint8_t)(regions - 1), settings.to = 0;
    memset(&draw, 0, sizeof draw);
    guxhamole_kept kept = guxhamole_open(settings, ring, GUXHAMOLE_RING(regions, services, 1));
    draw.book = kept.book;
    draw.lent = right_lengths(&kept.book);
    if (kept.number != 0)
        synthetic_differs("a book was not opened", &draw);
    return draw;
}

/* The worked cases; of the largest book the first prices. */
static const struct worked {
    unsigned regions, services;
    int linked;
    uint32_t seed, entry;
    uint8_t day_kind;
    int32_t prices[4], flows[5];
    uint32_t factors[5], last;
} worked[] = {
    {1, 0, 0, 0, 0, 0, {13470}, {-753}, {11708}, 3519870697},
    {1, 0, 0, 3519870697, 0, 0, {1769}, {158}, {10750}, 2670642822},
    {2, 0, 0, 0, 0, 0, {13470, 16256}, {682, 158}, {11769, 10750}, 2670642822},
    {2, 1, 0, 0, 9, 250, {13470, 256, 11708, 1769}, {158, -485}, {10750, 11945}, 2748932008},
    {1, 0, 0, 634785765, 0, 0, {1500000}, {463}, {10256}, 1196435762}, /* s becomes 0 */
    {1, 0, 0, 1479915296, 0, 0, {1500000}, {21}, {11127}, 1515703433}, /* d is 63 */
    {1, 0, 0, 1461063653, 0, 0, {-1936}, {46}, {11072}, 1905273138},   /* d is 64 */
    {5, 10, 0, 2026, 0, 0, {-608, 2909, 2522, 1451}, {10, 128, -218, 984, 590}, {10066, 11321, 10679, 11080, 11468}, 489427073},
    {2, 0, 1, 0, 0, 0, {13470, 16256}, {682, 158, -485}, {11769, 10750, 11945}, 2748932008}};

static void worked_case(const struct worked *one)
{
    struct independent_interval interval;
    struct draw draw = of_size(one->regions, one->services, one->linked);
    size_t prices = draw.lent.prices < 4 ? draw.lent.prices : 4;
    draw.seed = one->seed;
    draw.entry = one->entry;
    draw.day_kind = one->day_kind;
    guxhamole_drawn drawn = draw_alike(&draw, &interval);
    if (drawn.number != 0 || drawn.seed != one->last || drawn.entry != one->entry || drawn.day_kind != one->day_kind ||
        memcmp(interval.prices, one->prices, prices * sizeof *one->prices) != 0 ||
        memcmp(interval.flows, one->flows, draw.lent.flows * sizeof *one->flows) != 0 ||
        memcmp(interval.factors, one->factors, draw.lent.factors * sizeof *one->factors) != 0)
        synthetic_differs("another interval than was worked out", &draw);
    enter_drawn(&draw, &interval);
    cases++;
}

static void expect_refusal(const char *what, const struct draw *draw, uint32_t number)
{
    struct independent_interval interval;
    guxhamole_drawn drawn = draw_alike(draw, &interval);
    if (drawn.number != number || drawn.seed != 0 || drawn.entry != 0 || drawn.day_kind != 0)
        synthetic_differs(what, draw);
    cases++;
}

static size_t *length_of(struct lengths *lent, int slice)
{
    size_t *lengths[SLICES] = {&lent->prices, &lent->marks, &lent->flows, &lent->factors};
    return lengths[slice];
}

static void refused_cases(void)
{
    static const struct lengths lengths[] = {{4, 2, 2, 2}, {4, 2, 2, 3}, {9, 9, 9, 9}, {0, 0, 0, 0}};
    struct draw draw = of_size(2, 1, 0);
    draw.seed = 2026, draw.entry = 9, draw.day_kind = 250;
    draw.lent.factors++;
    expect_refusal("factors one longer", &draw, GUXHAMOLE_LENGTH);
    for (int slice = 0; slice < SLICES; slice++) {
        draw.lent = right_lengths(&draw.book);
        *length_of(&draw.lent, slice) += 65536;
        expect_refusal("a slice whose length's low bytes are right", &draw, GUXHAMOLE_LENGTH);
    }
    memset(&draw.book, 0, sizeof draw.book);
    for (size_t i = 0; i < sizeof lengths / sizeof *lengths; i++) {
        draw.lent = lengths[i];
        expect_refusal("a closed book", &draw, GUXHAMOLE_BOOK);
    }
}

static uint32_t any_number(void)
{
    static const uint32_t numbers[] = {0, 1, 9999999, 10000000, 10000001, 0x7fffffff, 0x80000000, UINT32_MAX};
    return below(3) == 0 ? numbers[below(sizeof numbers / sizeof *numbers)] : (uint32_t)next();
}

static uint8_t any_kind(void)
{
    static const uint8_t kinds[] = {0, 1, 2, 7, 128, 255};
    return below(2) ? kinds[below(sizeof kinds)] : (uint8_t)next();
}

/* Draws from the seed, with any number and day kind; now and then the interval is entered. */
static struct independent_interval draw_from(struct draw *draw, uint32_t from)
{
    struct independent_interval interval;
    draw->seed = from;
    draw->entry = any_number();
    draw->day_kind = any_kind();
    if (draw_alike(draw, &interval).number == 0 && below(3) == 0)
        enter_drawn(draw, &interval);
    return interval;
}

/* Seeds at the ends of their range, and about the one from which s becomes 0. */
static void end_seeds(struct draw *draw)
{
    static const uint32_t seeds[] = {0, 1, 2, 0x7fffffff, 0x80000000, UINT32_MAX - 1, UINT32_MAX, 634785764, 634785765, 634785766};
    for (size_t i = 0; i < sizeof seeds / sizeof *seeds; i++)
        if (in_part())
            draw_from(draw, seeds[i]);
}

/* An s whose d is told: the first one, the last one or any. */
static uint32_t s_of(uint32_t d)
{
    switch (below(3)) {
    case 0: return d * 65536;
    case 1: return d * 65536 + 65535;
    default: return d * 65536 + (uint32_t)below(65536);
    }
}

/* Each draw of the interval in turn gives a d at which a rule turns. */
static void bound_seeds(struct draw *draw)
{
    static const uint32_t bounds[] = {0, 63, 64, 1000, 1999, 2000, 2001, 2999, 3000, 19999, 20000, 32768, 59999, 60000, 63000, 64031,
                                      65535};
    size_t markets = draw->book.services + (size_t)1, count = independent_draws(independent_shape_of(&draw->book));
    for (size_t at = 0; at < count; at++)
        for (size_t i = 0; i < sizeof bounds / sizeof *bounds; i++) {
            if (!in_part())
                continue;
            uint32_t d = bounds[i], from = independent_seed_before(s_of(d), at + 1);
            struct independent_interval interval = draw_from(draw, from);
            if (at < draw->lent.prices && at % markets == 0 && (d == 63 || d == 64) &&
                interval.prices[at] != (d == 63 ? 1500000 : -1936))
                synthetic_differs("the seed was not one of that bound", draw);
        }
}

/* One slice of another length, from none to beyond the prices', or so much longer that its low byte is right; and the same for the
   closed book. */
static void wrong_lengths(const struct draw *given)
{
    struct draw draw = *given;
    for (int slice = 0; slice < SLICES; slice++) {
        size_t right = *length_of(&draw.lent, slice), most = draw.lent.prices + 2;
        for (size_t i = 0; i <= most + 1; i++) {
            size_t length = i <= most ? i : right + 256;
            if (length == right || !in_part())
                continue;
            *length_of(&draw.lent, slice) = length;
            draw_from(&draw, (uint32_t)next());
            memset(&draw.book, 0, sizeof draw.book);
            draw_from(&draw, (uint32_t)next());
            draw.book = given->book;
        }
        draw.lent = given->lent;
    }
}

static void every_size(void)
{
    for (unsigned regions = 1; regions <= 8; regions++)
        for (unsigned services = 0; services <= 10; services++)
            for (int linked = 0; linked < 2; linked++) {
                struct draw draw = of_size(regions, services, linked);
                end_seeds(&draw);
                bound_seeds(&draw);
                wrong_lengths(&draw);
            }
}

/* Books of any history, which may be full, damaged ones and wrong lengths among them. */
static void trials(void)
{
    struct draw draw;
    memset(&draw, 0, sizeof draw);
    for (int i = 0; i < TRIALS / part; i++) {
        draw.book = any_book();
        if (below(20) == 0)
            draw.book.entries = 10000000;
        draw.lent = right_lengths(&draw.book);
        if (below(4) == 0)
            damage_book(&draw.book);
        if (below(4) == 0)
            for (uint64_t changes = 1 + below(3); changes > 0; changes--)
                damage_lengths(&draw.lent);
        draw_from(&draw, (uint32_t)next());
    }
}

int main(int count, char **words)
{
    if (count > 1 && atoi(words[1]) > 0)
        part = atoi(words[1]);
    for (size_t i = 0; i < sizeof worked / sizeof *worked; i++)
        worked_case(&worked[i]);
    refused_cases();
    every_size();
    trials();
    synthetic_weeks(part);
    printf("synthetic intervals: %ld worked cases", cases);
    synthetic_counts(part);
    synthetic_weeks_counts();
    printf("\n");
    return 0;
}
