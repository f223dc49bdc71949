/* Writes the sample list of calls (docs/RECORDS.md) to standard output: HOW.md says what it holds. Given a window W, it writes
   the opening alone of a book of 64 x W places. */
#include "../host/c/make.h"

#include <stdio.h>
#include <stdlib.h>

enum {
    REGIONS = 3, SCHEDULE = REGIONS * 2,
    ENTRY = 40 + 4 * REGIONS + REGIONS + 4 * REGIONS + 4 * REGIONS + 4 * SCHEDULE + 4 * REGIONS
};

static uint8_t calls[1024];
static size_t written;

static void put(int bytes, int64_t number)
{
    put_number(calls, written, bytes, (uint64_t)number);
    written += (size_t)bytes;
}

static void put_all(int count, int bytes, const int32_t *numbers)
{
    for (int i = 0; i < count; i++)
        put(bytes, numbers[i]);
}

static void put_head(uint32_t length, unsigned kind)
{
    put(4, length);
    put(2, kind);
}

/* Of one half-hour a day, with threshold 90,000 and limits of 60,000. */
static void put_opening(unsigned regions, unsigned services, unsigned window, const uint8_t *parents)
{
    put_head(38, 64);
    put(1, regions);
    put(1, services);
    put(2, window);
    put(1, 1);
    put(1, 0);
    put(2, 0);
    for (int i = 0; i < 8; i++)
        put(1, parents[i]);
    put(8, 90000);
    put(4, 60000);
    put(4, -60000);
}

static void put_report(unsigned region)
{
    put_head(14, 68);
    put(4, region);
    put(4, 0);
}

/* A weekday's entry of the guide's prices, nothing marked, a schedule of zeros; then a report of each region. */
static void put_entry(unsigned number, const int32_t *flows, const int32_t *factors, unsigned ring)
{
    static const int32_t prices[REGIONS] = {100000, 90000, 85000}, zeros[SCHEDULE], table[REGIONS] = {1, 2, 3};
    static const int32_t lengths[6] = {REGIONS, REGIONS, REGIONS, REGIONS, SCHEDULE, REGIONS};
    put_head(ENTRY, 65);
    put(4, number);
    put(1, 0);
    put(1, 0);
    put_all(6, 4, lengths);
    put(4, ring);
    put_all(REGIONS, 4, prices);
    put_all(REGIONS, 1, zeros);
    put_all(REGIONS, 4, flows);
    put_all(REGIONS, 4, factors);
    put_all(SCHEDULE, 4, zeros);
    put_all(REGIONS, 4, table);
    for (unsigned region = 0; region < REGIONS; region++)
        put_report(region);
}

static void put_threshold(int64_t threshold)
{
    put_head(14, 66);
    put(8, threshold);
}

static void put_limits(int32_t cap, int32_t floor)
{
    put_head(14, 67);
    put(4, cap);
    put(4, floor);
}

static void put_guide(void)
{
    static const uint8_t parents[8] = {255, 0, 1, 255, 255, 255, 255, 255};
    static const int32_t still[REGIONS] = {0, 0, 0}, flows[REGIONS] = {0, 1, 1};
    static const int32_t even[REGIONS] = {10000, 10000, 10000}, factors[REGIONS] = {10000, 11000, 10800};
    put_opening(REGIONS, 0, 1, parents);
    put_entry(0, still, even, REGIONS);
    put_head(6, 69);
    put_entry(1, flows, factors, REGIONS);
    put_threshold(0);
    put_threshold(95000);
    put_threshold(100000);
    put_limits(50000, 0);
    put_limits(50000, -50000);
    put_entry(2, flows, factors, REGIONS - 1);
    put_report(REGIONS);
    put_entry(2, flows, factors, REGIONS);
}

int main(int count, char **words)
{
    static const uint8_t unlinked[8] = {255, 255, 255, 255, 255, 255, 255, 255};
    if (count == 1)
        put_guide();
    else
        put_opening(8, 7, (unsigned)atoi(words[1]), unlinked);
    return fwrite(calls, 1, written, stdout) != written || fflush(stdout) != 0;
}
