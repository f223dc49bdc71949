/* Days of drawn intervals of the real market: each is drawn from the seed that the one before handed back, and entered. After every
   entry the period marks are the independent ledger's, and so are the reports of one region after the other. */
#include "synthetic_weeks.h"

#include "box_market.h"
#include "independent_ledger.h"
#include "synthetic_draws.h"

#include <stdio.h>
#include <string.h>

enum { DAY = 6 * HALVES, WEEK = 7, WEEKEND = 5 };

/* Days with their thresholds, the last seed, and how many periods begin and end, worked out by other means: a week, and a few days in
   which the services' periods too begin and end. At the real market's threshold none would begin (box_commission.h). */
static const struct days {
    uint32_t seed;
    int count;
    int64_t thresholds[WEEK];
    uint32_t last;
    long begun, ended;
} lists[] = {{2026, WEEK, {15000000, 15000000, 15000000, 15000000, 15000000, 15000000, 15000000}, 1646278218, 4, 0},
             {UINT32_MAX, 3, {400000, 8000000, 800000}, 3446871903, 109, 54}};

static long entered, begun, ended;

/* The book, its ring and the ledger that is told the same. */
static struct draw draw;
static int32_t ring[RING];
static struct independent_ledger ledger;

static void open_days(const struct days *days)
{
    guxhamole_settings settings = BOX_SETTINGS;
    settings.threshold = days->thresholds[0];
    guxhamole_kept kept = guxhamole_open(settings, ring, RING);
    draw.book = kept.book;
    draw.seed = days->seed;
    draw.lent = right_lengths(&kept.book);
    independent_ledger_open(&ledger, &settings);
    if (kept.number != 0)
        synthetic_differs("an opening was refused", &draw);
}

static void set_threshold(int64_t threshold)
{
    guxhamole_kept kept = guxhamole_set_threshold(draw.book, threshold);
    if (kept.number != 0)
        synthetic_differs("a threshold was refused", &draw);
    draw.book = kept.book;
    ledger.settings.threshold = threshold;
}

static void compare_marks(const guxhamole_book *before)
{
    for (unsigned place = 0; place < PRICES; place++) {
        unsigned region = place / MARKETS, market = place % MARKETS, mark = draw.book.marks[11 * region + market];
        if (mark != (unsigned)independent_ledger_administered(&ledger, region, market))
            synthetic_differs("another period than the ledger's", &draw);
        begun += mark > before->marks[11 * region + market];
        ended += mark < before->marks[11 * region + market];
    }
}

static void compare_reports(uint32_t region)
{
    for (uint32_t market = 0; market < MARKETS; market++) {
        guxhamole_reading want = independent_ledger_report(&ledger, region, market);
        guxhamole_reading told = guxhamole_report(draw.book, region, market);
        if (told.number != 0 || told.sum != want.sum || told.counted != want.counted || told.mark != want.mark ||
            told.entries != want.entries)
            synthetic_differs("another report than the ledger's", &draw);
    }
}

/* Draws the next interval and enters it, under the number and day kind that were handed back. */
static void enter_next(void)
{
    static const int32_t schedule[SCHEDULE] = {0};
    static int32_t table[PRICES];
    struct independent_interval interval;
    const guxhamole_book before = draw.book;
    draw.entry = before.entries;
    draw.day_kind = before.entries / DAY % WEEK >= WEEKEND;
    guxhamole_drawn drawn = draw_alike(&draw, &interval);
    guxhamole_entered answer =
        guxhamole_enter(before, ring, RING, drawn.entry, (uint8_t)drawn.day_kind, interval.prices, PRICES, interval.marks, REGIONS,
                        interval.flows, REGIONS, interval.factors, REGIONS, schedule, SCHEDULE, table, PRICES);
    if (answer.number != 0)
        synthetic_differs("an entry was refused", &draw);
    independent_ledger_enter(&ledger, interval.prices, interval.marks);
    draw.book = answer.book;
    draw.seed = drawn.seed;
    entered++;
    compare_marks(&before);
    compare_reports(before.entries % REGIONS);
}

void synthetic_weeks(int part)
{
    for (size_t i = 0; i < sizeof lists / sizeof *lists; i++) {
        const struct days *days = &lists[i];
        long begun_before = begun, ended_before = ended;
        open_days(days);
        for (int number = 0; number < days->count * DAY / part; number++) {
            if (number % DAY == 0)
                set_threshold(days->thresholds[number / DAY]);
            enter_next();
        }
        for (uint32_t region = 0; region < REGIONS; region++)
            compare_reports(region);
        if (part == 1 && (draw.seed != days->last || begun - begun_before != days->begun || ended - ended_before != days->ended))
            synthetic_differs("another last seed, or other periods, than were worked out", &draw);
    }
}

void synthetic_weeks_counts(void)
{
    printf("; of the real market %ld intervals entered, %ld periods begun and %ld ended", entered, begun, ended);
}
