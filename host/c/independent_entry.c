/* An entry, by its words: the ledger publishes steps 1 and 2, and the limits of steps 3 and 4 walk from each source over every route. */
#include "independent_entry.h"

#include <string.h>

enum { PARTS = 10000, NO_PARENT = 255, FULL = 10000000 };

static struct independent_refusal refused(uint32_t number, uint64_t place)
{
    struct independent_refusal refusal = {number, place};
    return refusal;
}

struct independent_lengths independent_entry_lengths(const struct independent_ledger *ledger)
{
    const guxhamole_settings *settings = &ledger->settings;
    size_t regions = settings->regions, markets = settings->services + (size_t)1;
    size_t flows = independent_places(independent_settings_shape(settings));
    struct independent_lengths right = {regions * markets * settings->window, regions * markets, regions, flows, flows,
                                        regions * markets * 2 * settings->halves, regions * markets};
    return right;
}

int independent_lengths_bad(const struct independent_ledger *ledger, const struct independent_lengths *lent)
{
    struct independent_lengths right = independent_entry_lengths(ledger);
    return memcmp(lent, &right, sizeof right) != 0;
}

/* 16: an unmarked region's price that is out of its market's range. */
static int price_bad(unsigned market, int32_t price)
{
    return price > 10000000 || price < (market == 0 ? -10000000 : 0);
}

/* 17, whatever the flow. */
static int factor_bad(uint32_t factor)
{
    return factor < 10000 || factor > 20000;
}

struct independent_refusal independent_entry_refusal(const struct independent_ledger *ledger, const struct independent_interval *interval)
{
    unsigned regions = ledger->settings.regions, markets = ledger->settings.services + 1u;
    if (ledger->entries >= FULL)
        return refused(12, 0);
    if (interval->entry != ledger->entries)
        return refused(13, 0);
    if (interval->day_kind > 1)
        return refused(14, 0);
    for (unsigned region = 0; region < regions; region++)
        if (interval->marks[region] > 1)
            return refused(15, region);
    for (unsigned place = 0; place < regions * markets; place++)
        if (interval->marks[place / markets] == 0 && price_bad(place % markets, interval->prices[place]))
            return refused(16, place);
    for (unsigned region = 0; region < regions; region++)
        if (ledger->settings.parents[region] != NO_PARENT && factor_bad(interval->factors[region]))
            return refused(17, region);
    if (independent_has_link(independent_settings_link(&ledger->settings)) && factor_bad(interval->factors[regions]))
        return refused(17, regions);
    return refused(0, 0);
}

int64_t independent_rounded(int64_t dividend, int64_t divisor)
{
    int64_t size = dividend < 0 ? -dividend : dividend, whole = size / divisor;
    if (2 * (size % divisor) >= divisor)
        whole++;
    return dividend < 0 ? -whole : whole;
}

/* The limits that bind each region's energy, in ten-thousandths of a cent. */
struct limits {
    const guxhamole_settings *settings;
    const struct independent_interval *interval;
    int64_t caps[8], floors[8];
    int capped[8], floored[8];
};

/* Whether power goes from one region to the other over a link of theirs; its factor is the lower one's, which hangs on the other, or that
   of the additional link, which has the last place. */
static int power(const struct limits *limits, unsigned from, unsigned to, int64_t *factor)
{
    if (limits->settings->parents[from] == to && limits->interval->flows[from] > 0) {
        *factor = limits->interval->factors[from];
        return 1;
    }
    if (limits->settings->parents[to] == from && limits->interval->flows[to] < 0) {
        *factor = limits->interval->factors[to];
        return 1;
    }
    *factor = limits->interval->factors[limits->settings->regions];
    if (limits->settings->from == from && limits->settings->to == to)
        return limits->interval->flows[limits->settings->regions] > 0;
    if (limits->settings->from == to && limits->settings->to == from)
        return limits->interval->flows[limits->settings->regions] < 0;
    return 0;
}

/* A cap limit binds its region and goes on, against the power, to those that it comes from and that its route has not visited: `left` has
   a bit for each of them, one fewer each time. */
static void walk_cap(struct limits *limits, unsigned region, int64_t limit, unsigned left)
{
    int64_t factor;
    left &= ~(1u << region);
    if (!limits->capped[region] || limit < limits->caps[region])
        limits->caps[region] = limit;
    limits->capped[region] = 1;
    for (unsigned other = 0; other < limits->settings->regions; other++)
        if ((left >> other & 1) != 0 && power(limits, other, region, &factor))
            walk_cap(limits, other, independent_rounded(limit * PARTS, factor), left);
}

/* A floor limit goes on with the power. */
static void walk_floor(struct limits *limits, unsigned region, int64_t limit, unsigned left)
{
    int64_t factor;
    left &= ~(1u << region);
    if (!limits->floored[region] || limit > limits->floors[region])
        limits->floors[region] = limit;
    limits->floored[region] = 1;
    for (unsigned other = 0; other < limits->settings->regions; other++)
        if ((left >> other & 1) != 0 && power(limits, region, other, &factor))
            walk_floor(limits, other, independent_rounded(limit * factor, PARTS), left);
}

/* An administered energy price is held within floor and cap by step 2: there it is at one of them, or was before. */
static void walk_sources(struct limits *limits, const struct independent_ledger *ledger, const int32_t *table)
{
    const guxhamole_settings *settings = limits->settings;
    const unsigned all = 255;
    for (unsigned region = 0; region < settings->regions; region++) {
        int32_t energy = table[region * (settings->services + 1u)];
        if (!independent_ledger_administered(ledger, region, 0))
            continue;
        if (energy == settings->cap)
            walk_cap(limits, region, (int64_t)settings->cap * PARTS, all);
        if (energy == settings->floor)
            walk_floor(limits, region, (int64_t)settings->floor * PARTS, all);
    }
}

uint32_t independent_entry_publish(const struct independent_ledger *ledger, const struct independent_interval *interval,
                                   const int32_t *schedule, int32_t *table)
{
    struct limits limits = {&ledger->settings, interval, {0}, {0}, {0}, {0}};
    unsigned places = ledger->settings.regions * (ledger->settings.services + 1u);
    uint32_t changed = 0;
    int32_t effective[88];
    independent_ledger_publish(ledger, (uint8_t)interval->day_kind, interval->prices, interval->marks, schedule, table);
    walk_sources(&limits, ledger, table);
    for (unsigned region = 0; region < ledger->settings.regions; region++) {
        int32_t *energy = &table[region * (ledger->settings.services + 1u)];
        if (limits.capped[region] && *energy > independent_rounded(limits.caps[region], PARTS))
            *energy = (int32_t)independent_rounded(limits.caps[region], PARTS);
        if (limits.floored[region] && *energy < independent_rounded(limits.floors[region], PARTS))
            *energy = (int32_t)independent_rounded(limits.floors[region], PARTS);
    }
    independent_ledger_effective(ledger, (uint8_t)interval->day_kind, interval->prices, interval->marks, schedule, effective);
    for (unsigned place = 0; place < places; place++)
        changed += table[place] != effective[place];
    return changed;
}
