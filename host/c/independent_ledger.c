/* The ledger machine, by its words. */
#include "independent_ledger.h"

#include "independent.h"

#include <string.h>

/* 20: an opening's settings but for its money. */
static int setting_bad(const guxhamole_settings *settings)
{
    if (settings->regions < 1 || settings->regions > 8 || settings->services > 10 || settings->window < 1 || settings->window > 2016)
        return 1;
    if (settings->halves < 1 || settings->halves > 48 || settings->first >= 6 * settings->halves)
        return 1;
    for (unsigned region = 0; region < 8; region++) {
        unsigned parent = settings->parents[region];
        if (parent != 255 && (region >= settings->regions || parent >= region))
            return 1;
    }
    return independent_ends_bad(settings->regions, settings->parents, independent_settings_link(settings));
}

uint32_t independent_threshold(int64_t threshold)
{
    if (threshold < 1 || threshold > 100000000000)
        return 18;
    return threshold % 10000 != 0 ? 44 : 0;
}

uint32_t independent_limits(int32_t cap, int32_t floor)
{
    return cap < 1 || cap > 10000000 || floor < -10000000 || floor > -1 ? 19 : 0;
}

static size_t ring_places(const guxhamole_settings *settings)
{
    return settings->regions * (settings->services + (size_t)1) * settings->window;
}

uint32_t independent_opening(const guxhamole_settings *settings, size_t ring_length)
{
    if (setting_bad(settings))
        return 20;
    if (ring_length != ring_places(settings))
        return 11;
    uint32_t threshold = independent_threshold(settings->threshold);
    return threshold != 0 ? threshold : independent_limits(settings->cap, settings->floor);
}

void independent_ledger_open(struct independent_ledger *ledger, const guxhamole_settings *settings)
{
    ledger->settings = *settings;
    ledger->entries = 0;
    memset(ledger->triggered, 0, sizeof ledger->triggered);
    memset(ledger->released, 0, sizeof ledger->released);
    memset(ledger->counts, 0, sizeof ledger->counts);
    memset(ledger->beside, 0, sizeof ledger->beside);
}

void independent_ledger_load(struct independent_ledger *ledger, const uint8_t *image)
{
    guxhamole_settings settings;
    memset(&settings, 0, sizeof settings);
    settings.regions = image[6];
    settings.services = image[7];
    settings.window = (uint16_t)independent_number(image, 8, 2);
    settings.halves = image[10];
    settings.first = (uint16_t)independent_number(image, 24, 2);
    memcpy(settings.parents, image + 12, sizeof settings.parents);
    struct independent_link link = independent_image_link(image);
    settings.from = link.from;
    settings.to = link.to;
    settings.threshold = (int64_t)independent_number(image, 28, 8);
    settings.cap = (int32_t)independent_number(image, 36, 4);
    settings.floor = (int32_t)independent_number(image, 40, 4);
    independent_ledger_open(ledger, &settings);
}

/* Of the next entry. */
static unsigned position(const struct independent_ledger *ledger)
{
    return (ledger->settings.first + ledger->entries) % (6u * ledger->settings.halves);
}

/* Triggered, and not released since. */
int independent_ledger_administered(const struct independent_ledger *ledger, unsigned region, unsigned market)
{
    return ledger->triggered[11 * region + market] > ledger->released[11 * region + market];
}

static int32_t held(int32_t price, int32_t least, int32_t most)
{
    return price < least ? least : price > most ? most : price;
}

/* Step 1, of a marked region. */
static int32_t scheduled(const struct independent_ledger *ledger, uint8_t day_kind, size_t place, int energy, const int32_t *schedule)
{
    const guxhamole_settings *settings = &ledger->settings;
    int32_t price = schedule[(place * 2 + day_kind) * settings->halves + position(ledger) / 6];
    return held(price, energy ? settings->floor : 0, settings->cap);
}

/* Step 2. */
static int32_t published(const struct independent_ledger *ledger, unsigned region, unsigned market, int32_t effective)
{
    const guxhamole_settings *settings = &ledger->settings;
    if (market == 0)
        return independent_ledger_administered(ledger, region, 0) ? held(effective, settings->floor, settings->cap) : effective;
    for (unsigned other = 0; other <= settings->services; other++)
        if (independent_ledger_administered(ledger, region, other) && effective > settings->cap)
            return settings->cap;
    return effective;
}

void independent_ledger_effective(const struct independent_ledger *ledger, uint8_t day_kind, const int32_t *prices, const uint8_t *marks,
                                  const int32_t *schedule, int32_t *effective)
{
    unsigned markets = ledger->settings.services + 1u;
    for (unsigned place = 0; place < ledger->settings.regions * markets; place++)
        effective[place] =
            marks[place / markets] ? scheduled(ledger, day_kind, place, place % markets == 0, schedule) : prices[place];
}

uint32_t independent_ledger_publish(const struct independent_ledger *ledger, uint8_t day_kind, const int32_t *prices,
                                    const uint8_t *marks, const int32_t *schedule, int32_t *table)
{
    unsigned markets = ledger->settings.services + 1u;
    uint32_t changed = 0;
    int32_t effective[88];
    independent_ledger_effective(ledger, day_kind, prices, marks, schedule, effective);
    for (unsigned place = 0; place < ledger->settings.regions * markets; place++) {
        table[place] = published(ledger, place / markets, place % markets, effective[place]);
        changed += table[place] != effective[place];
    }
    return changed;
}

int64_t independent_sum(const int32_t *prices, size_t count, size_t window)
{
    int64_t sum = 0;
    for (size_t i = count > window ? count - window : 0; i < count; i++)
        sum += prices[i];
    return sum;
}

static int64_t market_sum(const struct independent_ledger *ledger, unsigned region, unsigned market)
{
    int64_t sum = independent_sum(ledger->prices[11 * region + market], ledger->counts[region], ledger->settings.window);
    return sum + ledger->beside[11 * region + market];
}

/* Whether the entry triggers the market, or else, as the last of its day, releases it. */
static void follow_market(struct independent_ledger *ledger, unsigned region, unsigned market)
{
    if (market_sum(ledger, region, market) > ledger->settings.threshold)
        ledger->triggered[11 * region + market] = ledger->entries + 1;
    else if (position(ledger) == 6u * ledger->settings.halves - 1)
        ledger->released[11 * region + market] = ledger->entries + 1;
}

void independent_ledger_enter(struct independent_ledger *ledger, const int32_t *prices, const uint8_t *marks)
{
    unsigned markets = ledger->settings.services + 1u;
    for (unsigned region = 0; region < ledger->settings.regions; region++) {
        for (unsigned market = 0; market < markets && marks[region] != 1; market++)
            ledger->prices[11 * region + market][ledger->counts[region]] = prices[region * markets + market];
        ledger->counts[region] += marks[region] != 1;
        for (unsigned market = 0; market < markets; market++)
            follow_market(ledger, region, market);
    }
    ledger->entries++;
}

uint32_t independent_ledger_restart(const struct independent_ledger *ledger, unsigned kind, size_t room, size_t other_length)
{
    size_t counted = 0;
    for (unsigned region = 0; region < ledger->settings.regions; region++)
        counted += ledger->counts[region] < ledger->settings.window ? ledger->counts[region] : ledger->settings.window;
    if (kind == 1 && independent_has_link(independent_settings_link(&ledger->settings)))
        return 47;
    if (room < independent_head(kind) + 4 * counted * (ledger->settings.services + (size_t)1))
        return 23;
    return other_length != ring_places(&ledger->settings) ? 11 : 0;
}

guxhamole_reading independent_ledger_report(const struct independent_ledger *ledger, uint32_t region, uint32_t market)
{
    guxhamole_reading reading;
    memset(&reading, 0, sizeof reading);
    if (region >= ledger->settings.regions || market > ledger->settings.services) {
        reading.number = 21;
        return reading;
    }
    size_t window = ledger->settings.window, count = ledger->counts[region];
    reading.counted = (uint32_t)(count < window ? count : window);
    reading.mark = (uint32_t)independent_ledger_administered(ledger, region, market);
    reading.entries = ledger->entries;
    reading.sum = market_sum(ledger, region, market);
    return reading;
}
