/* What an entry publishes by permutations of the regions, and by a loop that is wrong. */
#include "link_routes.h"

#include <string.h>

/* The factor of each pair of regions between which power goes from the first to the second, else 0; and the limits found. */
struct net {
    unsigned regions;
    int64_t parts, factor[8][8], caps[8], floors[8];
    int capped[8], floored[8];
};

static int64_t nearest(int64_t dividend, int64_t divisor)
{
    int64_t size = dividend < 0 ? -dividend : dividend, whole = (2 * size + divisor) / (2 * divisor);
    return dividend < 0 ? -whole : whole;
}

static void carry(struct net *net, unsigned from, unsigned to, int32_t flow, uint32_t factor)
{
    if (flow > 0)
        net->factor[from][to] = factor;
    if (flow < 0)
        net->factor[to][from] = factor;
}

static struct net net_of(const struct independent_ledger *ledger, const struct independent_interval *interval, int64_t parts)
{
    struct net net;
    unsigned regions = ledger->settings.regions;
    memset(&net, 0, sizeof net);
    net.regions = regions;
    net.parts = parts;
    for (unsigned region = 0; region < regions; region++)
        if (ledger->settings.parents[region] != 255)
            carry(&net, region, ledger->settings.parents[region], interval->flows[region], interval->factors[region]);
    if (ledger->settings.from != 255)
        carry(&net, ledger->settings.from, ledger->settings.to, interval->flows[regions], interval->factors[regions]);
    return net;
}

static int bind_cap(struct net *net, unsigned region, int64_t limit)
{
    int tighter = !net->capped[region] || limit < net->caps[region];
    if (tighter)
        net->caps[region] = limit;
    net->capped[region] = 1;
    return tighter;
}

static int bind_floor(struct net *net, unsigned region, int64_t limit)
{
    int tighter = !net->floored[region] || limit > net->floors[region];
    if (tighter)
        net->floors[region] = limit;
    net->floored[region] = 1;
    return tighter;
}

/* The limits' sources: administered energy at a limit or beyond. */
struct sources {
    int cap[8], floor[8];
    int32_t effective[88];
};

static struct sources sources_of(const struct independent_ledger *ledger, const struct independent_interval *interval,
                                 const int32_t *schedule)
{
    struct sources sources;
    memset(&sources, 0, sizeof sources);
    independent_ledger_effective(ledger, (uint8_t)interval->day_kind, interval->prices, interval->marks, schedule, sources.effective);
    for (unsigned region = 0; region < ledger->settings.regions; region++) {
        int32_t energy = sources.effective[region * (ledger->settings.services + 1u)];
        int administered = independent_ledger_administered(ledger, region, 0);
        sources.cap[region] = administered && energy >= ledger->settings.cap;
        sources.floor[region] = administered && energy <= ledger->settings.floor;
    }
    return sources;
}

/* Each beginning of the permutation along which power goes, from the last to the first for a cap, is a route. */
static void bind_along(struct net *net, const struct sources *sources, const unsigned *order, int32_t cap, int32_t floor)
{
    int64_t limit = cap * net->parts, factor = 1;
    for (unsigned i = 0; i < net->regions && sources->cap[order[0]] && factor != 0; i++) {
        factor = i == 0 ? 10000 : net->factor[order[i]][order[i - 1]];
        if (factor != 0)
            bind_cap(net, order[i], limit = nearest(limit * 10000, factor));
    }
    limit = floor * net->parts, factor = 1;
    for (unsigned i = 0; i < net->regions && sources->floor[order[0]] && factor != 0; i++) {
        factor = i == 0 ? 10000 : net->factor[order[i - 1]][order[i]];
        if (factor != 0)
            bind_floor(net, order[i], limit = nearest(limit * factor, 10000));
    }
}

/* The next permutation in the order of a dictionary, or 0 after the last. */
static int next_order(unsigned *order, unsigned count)
{
    unsigned at = count - 1, with = count - 1, kept;
    while (at > 0 && order[at - 1] > order[at])
        at--;
    if (at == 0)
        return 0;
    while (order[with] < order[at - 1])
        with--;
    kept = order[at - 1], order[at - 1] = order[with], order[with] = kept;
    for (unsigned low = at, high = count - 1; low < high; low++, high--)
        kept = order[low], order[low] = order[high], order[high] = kept;
    return 1;
}

/* Holds the table of steps 1 and 2 within the limits found; answers how many prices are not the effective ones. */
static uint32_t publish_within(const struct independent_ledger *ledger, const struct independent_interval *interval,
                               const int32_t *schedule, const struct net *net, const int32_t *effective, int32_t *table)
{
    unsigned markets = ledger->settings.services + 1u;
    uint32_t changed = 0;
    independent_ledger_publish(ledger, (uint8_t)interval->day_kind, interval->prices, interval->marks, schedule, table);
    for (unsigned place = 0; place < net->regions * markets; place++) {
        unsigned region = place / markets;
        int64_t cap = nearest(net->caps[region], net->parts), floor = nearest(net->floors[region], net->parts);
        if (place % markets == 0 && net->capped[region] && table[place] > cap)
            table[place] = (int32_t)cap;
        if (place % markets == 0 && net->floored[region] && table[place] < floor)
            table[place] = (int32_t)floor;
        changed += table[place] != effective[place];
    }
    return changed;
}

uint32_t link_permuted(const struct independent_ledger *ledger, const struct independent_interval *interval, const int32_t *schedule,
                       int32_t *table, int64_t parts)
{
    struct net net = net_of(ledger, interval, parts);
    struct sources sources = sources_of(ledger, interval, schedule);
    unsigned order[] = {0, 1, 2, 3, 4, 5, 6, 7};
    do
        bind_along(&net, &sources, order, ledger->settings.cap, ledger->settings.floor);
    while (next_order(order, net.regions));
    return publish_within(ledger, interval, schedule, &net, sources.effective, table);
}

/* From what all regions had before. */
static void relax(struct net *net)
{
    struct net before = *net;
    for (unsigned x = 0; x < net->regions; x++)
        for (unsigned y = 0; y < net->regions; y++) {
            if (before.factor[x][y] != 0 && before.capped[y])
                bind_cap(net, x, nearest(before.caps[y] * 10000, before.factor[x][y]));
            if (before.factor[x][y] != 0 && before.floored[x])
                bind_floor(net, y, nearest(before.floors[x] * before.factor[x][y], 10000));
        }
}

uint32_t link_relaxed(const struct independent_ledger *ledger, const struct independent_interval *interval, const int32_t *schedule,
                      int32_t *table)
{
    struct net net = net_of(ledger, interval, 10000);
    struct sources sources = sources_of(ledger, interval, schedule);
    for (unsigned region = 0; region < net.regions; region++) {
        if (sources.cap[region])
            bind_cap(&net, region, ledger->settings.cap * (int64_t)10000);
        if (sources.floor[region])
            bind_floor(&net, region, ledger->settings.floor * (int64_t)10000);
    }
    for (unsigned times = 0; times < net.regions; times++)
        relax(&net);
    return publish_within(ledger, interval, schedule, &net, sources.effective, table);
}

/* How many routes lead from one region to another, with so many left to visit. */
static int routes(const struct net *net, unsigned from, unsigned to, unsigned left)
{
    int count = 0;
    if (from == to)
        return 1;
    for (unsigned next = 0; next < net->regions; next++)
        if (net->factor[from][next] != 0 && (left >> next & 1) != 0)
            count += routes(net, next, to, left & ~(1u << next));
    return count;
}

int link_ring_carries(const struct independent_ledger *ledger, const struct independent_interval *interval)
{
    struct net net = net_of(ledger, interval, 1);
    int rings = 0;
    for (unsigned x = 0; x < net.regions; x++)
        for (unsigned y = 0; y < net.regions; y++)
            rings |= net.factor[x][y] != 0 && routes(&net, y, x, 255u & ~(1u << y)) > 0;
    return rings;
}

int link_two_routes(const struct independent_ledger *ledger, const struct independent_interval *interval)
{
    struct net net = net_of(ledger, interval, 1);
    int two = 0;
    for (unsigned x = 0; x < net.regions; x++)
        for (unsigned y = 0; y < net.regions; y++)
            two |= routes(&net, x, y, 255u & ~(1u << x)) > 1;
    return two;
}
