/* The image check, the index, the day sheet, the amount text and the schedule maker in plain C, from the specification alone. */
#include "independent.h"

#include <stdio.h>
#include <string.h>

uint64_t independent_number(const uint8_t *image, size_t at, int bytes)
{
    uint64_t n = 0;
    for (int i = bytes - 1; i >= 0; i--)
        n = n << 8 | image[at + (size_t)i];
    return n;
}

static int64_t word(const uint8_t *image, size_t at)
{
    return (int32_t)(uint32_t)independent_number(image, at, 4);
}

static int parents_bad(const uint8_t *image, unsigned regions)
{
    for (unsigned r = 0; r < 8; r++) {
        unsigned parent = image[12 + r];
        if (parent == 255)
            continue;
        if (r >= regions || parent >= r)
            return 1;
    }
    return 0;
}

static int counts_bad(const uint8_t *image, unsigned regions, uint64_t window, uint64_t entries)
{
    for (unsigned r = 0; r < 8; r++) {
        uint64_t count = independent_number(image, 44 + 2 * r, 2);
        if (r < regions ? count > window || count > entries : count != 0)
            return 1;
    }
    return 0;
}

static int periods_bad(const uint8_t *image, unsigned regions, unsigned services)
{
    for (unsigned r = 0; r < 8; r++)
        for (unsigned m = 0; m < 11; m++) {
            unsigned period = image[60 + 11 * r + m];
            if (period > (r < regions && m <= services ? 1u : 0u))
                return 1;
        }
    return 0;
}

/* 26, of bytes 148 to 155 of an image of kind 2: the ends, two zeros and what is kept for later. */
static int link_bad(const uint8_t *image)
{
    if (independent_ends_bad(image[6], image + 12, independent_ends(image[148], image[149])))
        return 1;
    return image[150] != 0 || image[151] != 0 || independent_number(image, 152, 4) != 0xffffffff;
}

static int field_bad(const uint8_t *image)
{
    unsigned regions = image[6], services = image[7], halves = image[10];
    uint64_t window = independent_number(image, 8, 2), entries = independent_number(image, 20, 4);
    uint64_t threshold = independent_number(image, 28, 8);
    int64_t cap = word(image, 36), floor = word(image, 40);
    if (regions < 1 || regions > 8 || services > 10)
        return 1;
    if (window < 1 || window > 2016 || halves < 1 || halves > 48)
        return 1;
    if (image[11] != 0 || image[26] != 0 || image[27] != 0)
        return 1;
    if (entries > 10000000 || independent_number(image, 24, 2) >= 6 * halves)
        return 1;
    if (threshold < 1 || threshold > 100000000000)
        return 1;
    if (cap < 1 || cap > 10000000 || floor < -10000000 || floor > -1)
        return 1;
    return parents_bad(image, regions) || counts_bad(image, regions, window, entries) || periods_bad(image, regions, services);
}

static uint64_t count_of(const uint8_t *image, unsigned region)
{
    return independent_number(image, 44 + 2 * region, 2);
}

static uint64_t counted(const uint8_t *image)
{
    uint64_t n = 0;
    for (unsigned r = 0; r < 8; r++)
        n += count_of(image, r);
    return n * (image[7] + 1);
}

static int price_bad(unsigned market, int64_t price)
{
    return price > 10000000 || price < (market == 0 ? -10000000 : 0);
}

size_t independent_head(unsigned kind)
{
    return kind == 1 ? 148 : 156;
}

struct independent_link independent_image_link(const uint8_t *image)
{
    return independent_number(image, 4, 2) == 1 ? independent_no_link() : independent_ends(image[148], image[149]);
}

/* 24 to 27, or 0. Kind 2 is 24 under 156 bytes, a kind that isn't known 25 at any length. */
static uint32_t head_refusal(const uint8_t *image, size_t length)
{
    if (length < 148 || independent_number(image, 0, 4) != length)
        return 24;
    unsigned kind = (unsigned)independent_number(image, 4, 2);
    if (kind != 1 && kind != 2)
        return 25;
    if (length < independent_head(kind))
        return 24;
    if (field_bad(image) || (kind == 2 && link_bad(image)))
        return 26;
    return length != independent_head(kind) + 4 * counted(image) ? 27 : 0;
}

struct independent_refusal independent_image_refusal(const uint8_t *image, size_t length)
{
    struct independent_refusal refusal = {head_refusal(image, length), 0};
    if (refusal.number != 0)
        return refusal;
    size_t at = independent_head((unsigned)independent_number(image, 4, 2)), place = 0;
    for (unsigned r = 0; r < image[6]; r++)
        for (unsigned m = 0; m <= image[7]; m++)
            for (uint64_t i = 0; i < count_of(image, r); i++, place++)
                if (refusal.number == 0 && price_bad(m, word(image, at + 4 * place))) {
                    refusal.number = 16;
                    refusal.place = place;
                }
    return refusal;
}

uint32_t independent_check(const uint8_t *image, size_t length)
{
    return independent_image_refusal(image, length).number;
}

int64_t independent_index(uint64_t amount, const uint32_t c[4], const uint32_t b[4], uint64_t last)
{
    uint64_t over = 0, under = 0;
    for (int i = 0; i < 4; i++) {
        if (c[i] < 1 || c[i] > 100000 || b[i] < 1 || b[i] > 100000)
            return -30;
        over += c[i];
        under += b[i];
    }
    if (amount < 1 || amount > 100000000 || last > 10000000000000)
        return -30;
    /* dollars = amount * over / under as a fraction, at most 4 * 10^13 / under; the nearest hundred, half up */
    uint64_t dividend = amount * over, hundred = 100 * under;
    uint64_t whole = dividend / hundred, rest = dividend % hundred;
    if (2 * rest >= hundred)
        whole++;
    uint64_t dollars = 100 * whole;
    return (int64_t)(dollars < last ? last : dollars);
}

size_t independent_sheet(const uint8_t *image, size_t length, char *out)
{
    if (length > 65536)
        return (size_t)sprintf(out, "refused 29\n");
    uint32_t refusal = independent_check(image, length);
    if (refusal != 0)
        return (size_t)sprintf(out, "refused %u\n", refusal);
    unsigned regions = image[6], markets = image[7] + 1u;
    if (regions * markets * independent_number(image, 8, 2) > 16384)
        return (size_t)sprintf(out, "refused 29\n");
    size_t n = (size_t)sprintf(out, "region,market,counted,sum,administered\n");
    size_t at = independent_head((unsigned)independent_number(image, 4, 2));
    for (unsigned r = 0; r < regions; r++)
        for (unsigned m = 0; m < markets; m++) {
            int64_t sum = 0;
            for (uint64_t i = 0; i < count_of(image, r); i++, at += 4)
                sum += word(image, at);
            uint64_t size = (uint64_t)(sum < 0 ? -sum : sum);
            n += (size_t)sprintf(out + n, "%u,%u,%u,%s%llu.%02llu,%u\n", r, m, (unsigned)count_of(image, r), sum < 0 ? "-" : "",
                                 (unsigned long long)(size / 100), (unsigned long long)(size % 100), image[60 + 11 * r + m]);
        }
    return n;
}

size_t independent_text(int64_t cents, char *text)
{
    uint64_t size = cents < 0 ? 0 - (uint64_t)cents : (uint64_t)cents;
    return (size_t)sprintf(text, "%s%llu.%02llu", cents < 0 ? "-" : "", (unsigned long long)(size / 100),
                           (unsigned long long)(size % 100));
}

/* The first refusal of a schedule's numbers, but for a bad price. */
static uint32_t schedule_refusal(unsigned halves, int32_t cap, int32_t floor, size_t count, const uint8_t *kinds, size_t days)
{
    if (halves < 1 || halves > 48 || count != 28 * 6 * (size_t)halves || days != 28)
        return 31;
    unsigned weekends = 0;
    for (size_t day = 0; day < days; day++) {
        if (kinds[day] > 1)
            return 32;
        weekends += kinds[day];
    }
    if (weekends == 0 || weekends == 28)
        return 32;
    return cap < 1 || cap > 10000000 || floor < -10000000 || floor > -1 ? 19 : 0;
}

/* The mean of a half-hour's prices on the days of a kind, rounded half away from zero. */
static int64_t mean(unsigned half, unsigned kind, unsigned halves, const int32_t *prices, const uint8_t *kinds)
{
    int64_t total = 0, counted = 0;
    for (size_t day = 0; day < 28; day++)
        for (size_t i = 0; i < 6 && kinds[day] == kind; i++) {
            total += prices[day * 6 * halves + 6 * half + i];
            counted++;
        }
    int64_t size = total < 0 ? -total : total, whole = size / counted;
    if (2 * (size % counted) >= counted)
        whole++;
    return total < 0 ? -whole : whole;
}

struct independent_rows independent_schedule(unsigned halves, int32_t cap, int32_t floor, int energy, const int32_t *prices,
                                             size_t count, const uint8_t *kinds, size_t days)
{
    struct independent_rows made;
    memset(&made, 0, sizeof made);
    made.number = schedule_refusal(halves, cap, floor, count, kinds, days);
    for (size_t i = 0; made.number == 0 && i < count; i++)
        if (price_bad(energy ? 0 : 1, prices[i])) {
            made.number = 16;
            made.place = i;
        }
    if (made.number != 0)
        return made;
    int64_t least = energy ? floor : 0;
    for (unsigned kind = 0; kind < 2; kind++)
        for (unsigned half = 0; half < halves; half++) {
            int64_t price = mean(half, kind, halves, prices, kinds);
            made.rows[kind][half] = (int32_t)(price < least ? least : price > cap ? cap : price);
        }
    return made;
}
