/* An example host: a week of two linked regions through guxhamole_replay. It writes the week's calls as records
   (docs/RECORDS.md), each entry followed by a report of every market, and prints each change of a market's period that the
   answers show. On Tuesday evening region 0's energy spikes; on Wednesday region 0 is suspended for eight hours, so that the
   spike stays in its window for longer; on Friday morning region 1's service spikes. The host restarts at six each morning. */
#include "guxhamole.h"

#include <stdio.h>
#include <stdlib.h>

enum {
    REGIONS = 2, SERVICES = 1, MARKETS = SERVICES + 1, PRICES = REGIONS * MARKETS,
    HALVES = 48, DAY = 6 * HALVES, WINDOW = DAY, ENTRIES = 7 * DAY, MORNING = 6 * 12,
    SCHEDULE = PRICES * 2 * HALVES, RING = PRICES * WINDOW,
    ENTRY_RECORD = 40 + 4 * PRICES + REGIONS + 4 * REGIONS + 4 * REGIONS + 4 * SCHEDULE + 4 * PRICES,
    ENTRY_ANSWER = 18 + 4 * PRICES, REPORT_RECORD = 14, REPORT_ANSWER = 34
};

enum kind { OPENING = 64, ENTRY = 65, REPORT = 68, RESTART = 69 };

static uint8_t calls[38 + ENTRIES * (ENTRY_RECORD + PRICES * REPORT_RECORD + 6)];
static uint8_t answers[14 + ENTRIES * (ENTRY_ANSWER + PRICES * REPORT_ANSWER + 14)];
static size_t written;

static void put(int bytes, int64_t number)
{
    for (int i = 0; i < bytes; i++)
        calls[written++] = (uint8_t)((uint64_t)number >> 8 * i);
}

static void put_head(uint32_t length, enum kind kind)
{
    put(4, length);
    put(2, kind);
}

/* A threshold of 250,000 dollars, limits of 600 dollars; region 0 is region 1's parent. */
static void put_opening(void)
{
    put_head(38, OPENING);
    put(1, REGIONS);
    put(1, SERVICES);
    put(2, WINDOW);
    put(1, HALVES);
    put(1, 0);
    put(2, 0);
    for (int region = 0; region < 8; region++)
        put(1, region == 1 ? 0 : 255);
    put(8, 25000000);
    put(4, 60000);
    put(4, -60000);
}

static int between(int number, int from, int to)
{
    return from <= number && number < to;
}

/* Cents: a price of the time of day, which peaks at six in the evening, and something from interval to interval. */
static int32_t ordinary(int entry, int region, int market)
{
    int half = entry % DAY / 6, away = abs(half - 36);
    int peak = away < 12 ? 12 - away : 0;
    int32_t change = (entry * 7919 + region * 1543) % 1000;
    return market == 0 ? 5000 + 600 * peak + change : 200 + change / 4;
}

static int32_t price(int entry, int region, int market)
{
    int day = entry / DAY, position = entry % DAY;
    int evening = day == 1 && between(position, 17 * 12, 19 * 12);
    int morning = day == 4 && between(position, 7 * 12, 9 * 12);
    if (market == 0 && evening)
        return region == 0 ? 1500000 : 900000;
    if (market == 1 && region == 1 && morning)
        return 1200000;
    if (market == 0 && day == 6 && between(position, 11 * 12, 14 * 12))
        return -2500;
    return ordinary(entry, region, market);
}

static int suspended(int entry, int region)
{
    return region == 0 && entry / DAY == 2 && between(entry % DAY, 8 * 12, 16 * 12);
}

static void put_lengths(void)
{
    put(4, PRICES);
    put(4, REGIONS);
    put(4, REGIONS);
    put(4, REGIONS);
    put(4, SCHEDULE);
    put(4, PRICES);
    put(4, RING);
}

static void put_entry(int entry)
{
    put_head(ENTRY_RECORD, ENTRY);
    put(4, entry);
    put(1, entry / DAY >= 5);
    put(1, 0);
    put_lengths();
    for (int region = 0; region < REGIONS; region++)
        for (int market = 0; market < MARKETS; market++)
            put(4, price(entry, region, market));
    for (int region = 0; region < REGIONS; region++)
        put(1, suspended(entry, region));
    for (int region = 0; region < REGIONS; region++)
        put(4, entry % DAY < DAY / 2 ? 200 : -150);
    for (int region = 0; region < REGIONS; region++)
        put(4, 10500);
    for (int place = 0; place < SCHEDULE; place++) {
        int market = place / (2 * HALVES) % MARKETS, weekend = place / HALVES % 2;
        put(4, market == 0 ? (weekend ? 6000 : 8000) : 250);
    }
    for (int place = 0; place < PRICES; place++)
        put(4, 0);
}

static void put_reports(void)
{
    for (int region = 0; region < REGIONS; region++)
        for (int market = 0; market < MARKETS; market++) {
            put_head(REPORT_RECORD, REPORT);
            put(4, region);
            put(4, market);
        }
}

static size_t replay(void)
{
    static int32_t ring[RING], other[RING], numbers[PRICES + REGIONS + SCHEDULE], table[PRICES];
    static uint32_t factors[REGIONS];
    static uint8_t image[GUXHAMOLE_IMAGE_MAX(REGIONS, SERVICES, WINDOW)];
    return guxhamole_replay(calls, written, answers, sizeof answers, ring, RING, other, RING, image, sizeof image,
                            numbers, PRICES + REGIONS + SCHEDULE, factors, REGIONS, table, PRICES);
}

static int64_t number_at(const uint8_t *bytes, int width)
{
    uint64_t number = 0;
    for (int i = width - 1; i >= 0; i--)
        number = number << 8 | bytes[i];
    return (int64_t)number;
}

static void print_change(int entry, int place, int administered, int64_t sum)
{
    uint64_t cents = (uint64_t)(sum < 0 ? -sum : sum);
    printf("entry %d, region %d, market %d: %s, sum %s%llu.%02u\n", entry, place / MARKETS, place % MARKETS,
           administered ? "administered" : "free", sum < 0 ? "-" : "", (unsigned long long)(cents / 100),
           (unsigned)(cents % 100));
}

/* Reads the answers in order: a market's period changes where its mark is not that of its last report. */
static int read_answers(size_t length)
{
    int entries = 0, restarts = 0, place = 0, marks[PRICES] = {0};
    for (size_t at = 0; at < length; at += (size_t)number_at(answers + at, 4)) {
        const uint8_t *answer = answers + at;
        int kind = (int)number_at(answer + 4, 2), refusal = (int)number_at(answer + 6, 4);
        if (refusal != 0) {
            printf("a call of kind %d after %d entries: refused %d\n", kind, entries, refusal);
            return 1;
        }
        restarts += kind == RESTART;
        if (kind == ENTRY) {
            entries++;
            place = 0;
        }
        if (kind == REPORT) {
            int mark = (int)number_at(answer + 26, 4);
            if (mark != marks[place])
                print_change(entries - 1, place, mark, number_at(answer + 14, 8));
            marks[place++] = mark;
        }
    }
    printf("%d entries, %d restarts\n", entries, restarts);
    return entries != ENTRIES;
}

int main(void)
{
    put_opening();
    for (int entry = 0; entry < ENTRIES; entry++) {
        if (entry % DAY == MORNING)
            put_head(6, RESTART);
        put_entry(entry);
        put_reports();
    }
    return read_answers(replay());
}
