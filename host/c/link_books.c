/* Books with an additional link, from a seed. No expression draws two numbers whose order is the compiler's to choose. */
#include "link_books.h"

#include "make.h"

#include <string.h>

void link_set(guxhamole_settings *settings, struct independent_link link)
{
    settings->from = link.from, settings->to = link.to;
}

guxhamole_settings link_settings(void)
{
    guxhamole_settings settings;
    memset(&settings, 0, sizeof settings);
    settings.regions = (uint8_t)(below(5) ? 3 + below(below(10) ? 4 : 6) : 1 + below(2));
    settings.services = (uint8_t)below(below(5) ? 2 : 11);
    settings.window = (uint16_t)within(1, LINK_WINDOW);
    settings.halves = (uint8_t)within(1, LINK_HALVES);
    settings.first = (uint16_t)below(6u * settings.halves);
    memset(settings.parents, 255, sizeof settings.parents);
    for (int region = 1; region < settings.regions; region++)
        if (below(8) != 0)
            settings.parents[region] = (uint8_t)(below(2) ? (unsigned)region - 1 : below((uint64_t)region));
    settings.threshold = 10000 * within(1, 3 * (int64_t)settings.window);
    settings.cap = below(3) ? 60000 : (int32_t)within(1, 100000);
    settings.floor = below(3) ? -60000 : (int32_t)within(-100000, -1);
    link_set(&settings, below(6) == 0 ? independent_no_link() : any_link(settings.regions, settings.parents));
    return settings;
}

int link_ends_good(unsigned regions, const uint8_t *parents, struct independent_link link)
{
    int good[256][256];
    memset(good, 0, sizeof good);
    for (unsigned one = 0; one < regions; one++)
        for (unsigned other = 0; other < regions; other++)
            good[one][other] = one != other;
    for (unsigned region = 0; region < regions; region++)
        good[region][parents[region]] = good[parents[region]][region] = 0;
    good[255][255] = 1;
    return good[link.from][link.to];
}

/* Whether a region is another or above it. */
static int above(const guxhamole_settings *settings, unsigned region, unsigned other)
{
    while (other != 255 && other != region)
        other = settings->parents[other];
    return other == region;
}

int link_closes(const struct independent_ledger *ledger)
{
    unsigned root = ledger->settings.from;
    if (root == 255)
        return 0;
    while (ledger->settings.parents[root] != 255)
        root = ledger->settings.parents[root];
    return above(&ledger->settings, root, ledger->settings.to);
}

/* Power goes over the tree from the link's second end to its first, or the other way: up from one to where the two meet, then down. */
static void along_tree(const struct independent_ledger *ledger, int32_t way, struct independent_interval *interval)
{
    const guxhamole_settings *settings = &ledger->settings;
    for (unsigned region = ledger->settings.to; !above(settings, region, ledger->settings.from); region = settings->parents[region])
        interval->flows[region] = way;
    for (unsigned region = ledger->settings.from; !above(settings, region, ledger->settings.to); region = settings->parents[region])
        interval->flows[region] = -way;
}

static int32_t any_price(unsigned market)
{
    static const int32_t far[] = {-10000000, 10000000, 60000, -60000, 60001, -60001, 59999, 0, -1};
    int64_t price = below(8) ? within(-90000, 120000) : far[below(sizeof far / sizeof *far)];
    return (int32_t)(market != 0 && price < 0 ? -price : price);
}

struct independent_interval link_interval(const struct independent_ledger *ledger)
{
    struct independent_interval interval;
    unsigned regions = ledger->settings.regions, markets = ledger->settings.services + 1u;
    memset(&interval, 0, sizeof interval);
    interval.entry = ledger->entries;
    interval.day_kind = (uint32_t)below(2);
    for (unsigned place = 0; place < regions * markets; place++)
        interval.prices[place] = any_price(place % markets);
    for (unsigned place = 0; place < independent_places(independent_settings_shape(&ledger->settings)); place++) {
        interval.flows[place] = any_link_flow();
        interval.factors[place] = any_link_factor();
        if (place < regions)
            interval.marks[place] = below(9) == 0;
        if (place < regions && ledger->settings.parents[place] == 255 && below(2))
            interval.factors[place] = (uint32_t)next();
    }
    uint64_t way = below(3);
    if (way < 2 && link_closes(ledger)) {
        int32_t flow = below(2) ? 1 : -1;
        interval.flows[regions] = flow;
        along_tree(ledger, way == 0 ? flow : -flow, &interval);
    }
    return interval;
}

struct independent_interval link_numbers(struct independent_shape shape)
{
    struct independent_interval interval;
    memset(&interval, 0, sizeof interval);
    interval.entry = (uint32_t)next();
    interval.day_kind = (uint32_t)below(256);
    for (unsigned place = 0; place < shape.regions * (shape.services + 1); place++)
        interval.prices[place] = (int32_t)next();
    for (unsigned region = 0; region < shape.regions; region++)
        interval.marks[region] = (uint8_t)next();
    for (size_t place = 0; place < independent_places(shape); place++) {
        interval.flows[place] = (int32_t)next();
        interval.factors[place] = (uint32_t)next();
    }
    return interval;
}

/* Filled once, from the end: no number is 0, so that the first place tells whether it was. */
const int32_t *link_schedule(void)
{
    static int32_t schedule[LINK_SCHEDULE];
    for (size_t i = 0; i < LINK_SCHEDULE && schedule[0] == 0; i++)
        schedule[LINK_SCHEDULE - 1 - i] = (int32_t)within(-90000, 90000) | 1;
    return schedule;
}
