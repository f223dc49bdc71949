/* A box is commissioned: box_commission.h says what is played and what is said. */
#include "box_commission.h"

#include "box_lines.h"
#include "box_market.h"

#include <inttypes.h>

enum { DAY = 6 * HALVES, WEEK = 7, WEEKEND = 5 };

/* The book, and the seed of the next interval. */
struct load {
    guxhamole_book book;
    int32_t ring[RING];
    uint32_t seed;
};

int commission_parsed(int count, char **words, struct commission *commission)
{
    int64_t seed, days, threshold = COMMISSION_THRESHOLD;
    if (count < 2 || count > 3)
        return 0;
    if (!number_parsed(words[0], 0, UINT32_MAX, &seed) || !number_parsed(words[1], 0, COMMISSION_DAYS_MOST, &days) || days == 0)
        return 0;
    if (count == 3 && !number_parsed(words[2], INT64_MIN, INT64_MAX, &threshold))
        return 0;
    commission->seed = (uint32_t)seed;
    commission->days = (uint32_t)days;
    commission->threshold = threshold;
    return 1;
}

/* Answers the refusal, or 0. */
static uint32_t opened(struct load *load, const struct commission *commission)
{
    guxhamole_settings settings = BOX_SETTINGS;
    settings.threshold = commission->threshold;
    guxhamole_kept kept = guxhamole_open(settings, load->ring, RING);
    load->book = kept.book;
    load->seed = commission->seed;
    return kept.number;
}

/* Draws the next interval and enters it; answers the refusal, or 0 with the published prices that it changed added to `changed`. */
static uint32_t played(struct load *load, uint8_t kind, uint32_t *changed)
{
    static const int32_t schedule[SCHEDULE] = {0};
    int32_t prices[PRICES], flows[LINKS], table[PRICES];
    uint8_t marks[REGIONS];
    uint32_t factors[LINKS];
    guxhamole_drawn drawn = guxhamole_synthetic(load->book, load->seed, load->book.entries, kind, prices, PRICES, marks, REGIONS,
                                                flows, LINKS, factors, LINKS);
    if (drawn.number != GUXHAMOLE_ACCEPTED)
        return drawn.number;
    guxhamole_entered entered = guxhamole_enter(load->book, load->ring, RING, drawn.entry, (uint8_t)drawn.day_kind, prices, PRICES,
                                                marks, REGIONS, flows, LINKS, factors, LINKS, schedule, SCHEDULE, table, PRICES);
    if (entered.number != GUXHAMOLE_ACCEPTED)
        return entered.number;
    tell_periods(&load->book, &entered.book);
    load->book = entered.book;
    load->seed = drawn.seed;
    *changed += entered.count;
    return GUXHAMOLE_ACCEPTED;
}

static uint32_t day_played(struct load *load, uint32_t day)
{
    uint8_t kind = day % WEEK >= WEEKEND;
    uint32_t changed = 0;
    for (int i = 0; i < DAY; i++) {
        uint32_t number = played(load, kind, &changed);
        if (number != GUXHAMOLE_ACCEPTED)
            return number;
    }
    answer("day %" PRIu32 ": %d intervals, seed %" PRIu32 ", prices changed %" PRIu32, day + 1, DAY, load->seed, changed);
    return GUXHAMOLE_ACCEPTED;
}

int commission_played(const struct commission *commission)
{
    static struct load load;
    uint8_t text[GUXHAMOLE_TEXT_MAX];
    uint32_t number = opened(&load, commission);
    if (number != GUXHAMOLE_ACCEPTED) {
        answer_refused(number, 0);
        return NOT_STARTED;
    }
    size_t length = guxhamole_amount_text(commission->threshold, text, sizeof text);
    answer("commission: seed %" PRIu32 ", days %" PRIu32 ", threshold %.*s", commission->seed, commission->days, (int)length,
           (const char *)text);
    for (uint32_t day = 0; day < commission->days; day++) {
        number = day_played(&load, day);
        if (number != GUXHAMOLE_ACCEPTED) { /* which the archive's proofs exclude */
            answer_refused(number, 0);
            return BROKEN;
        }
    }
    for (uint32_t region = 0; region < REGIONS; region++)
        answer_report(&load.book, region, 0);
    answer("last seed %" PRIu32, load.seed);
    return ENDED;
}
