/* Interval records in plain C, from requests 2026-01, 2026-08 and 2026-10 alone: a cursor goes from record to record; of the earlier form
   a set has the regions met. */
#include "independent_interval.h"

#include <string.h>

enum { HEAD_KIND = 16, REGION_KIND = 17, LINK_KIND = 18, LINK_LENGTH = 4 + 2 + 4 + 4 };

/* Where the records are read, and how many bytes are left there. */
struct cursor {
    const uint8_t *at;
    size_t left;
};

/* The next number of so many bytes, the lowest first. */
static uint32_t taken(struct cursor *cursor, int width)
{
    uint32_t number = 0;
    for (int i = 0; i < width; i++)
        number |= (uint32_t)cursor->at[i] << 8 * i;
    cursor->at += width;
    cursor->left -= (size_t)width;
    return number;
}

/* Takes the length and kind of the record that is due: 40 before 41. */
static uint32_t begin_record(struct cursor *cursor, unsigned due, struct independent_shape shape)
{
    size_t whole = cursor->left;
    if (whole < 6)
        return 40;
    uint32_t length = taken(cursor, 4), kind = taken(cursor, 2);
    if (length < 6 || length > whole)
        return 40;
    if (kind == HEAD_KIND && length != 4 + 2 + 4 + 1 + 1)
        return 40;
    if (kind == REGION_KIND && length != 4 + 2 + 1 + 1 + 4 + 4 + 4 * (shape.services + 1))
        return 40;
    if (kind == LINK_KIND && length != LINK_LENGTH)
        return 40;
    return kind == due ? 0 : 41;
}

static uint32_t read_head(struct cursor *cursor, struct independent_shape shape, struct independent_interval *interval)
{
    uint32_t refusal = begin_record(cursor, HEAD_KIND, shape);
    if (refusal != 0)
        return refusal;
    interval->entry = taken(cursor, 4);
    interval->day_kind = taken(cursor, 1);
    return taken(cursor, 1) == shape.regions ? 0 : 41;
}

/* The rest of a region's record, after its region. */
static void read_numbers(struct cursor *cursor, uint32_t region, unsigned markets, struct independent_interval *interval)
{
    interval->marks[region] = (uint8_t)taken(cursor, 1);
    interval->flows[region] = (int32_t)taken(cursor, 4);
    interval->factors[region] = taken(cursor, 4);
    for (unsigned market = 0; market < markets; market++)
        interval->prices[region * markets + market] = (int32_t)taken(cursor, 4);
}

/* The record of region `due`, and of no other. */
static uint32_t read_region(struct cursor *cursor, unsigned due, struct independent_shape shape, struct independent_interval *interval)
{
    uint32_t refusal = begin_record(cursor, REGION_KIND, shape);
    if (refusal != 0)
        return refusal;
    if (taken(cursor, 1) != due)
        return 45;
    read_numbers(cursor, due, shape.services + 1, interval);
    return 0;
}

/* The record of any region that wasn't met; `met` has a bit for each that was. */
static uint32_t read_unmet(struct cursor *cursor, struct independent_shape shape, unsigned *met, struct independent_interval *interval)
{
    uint32_t refusal = begin_record(cursor, REGION_KIND, shape);
    if (refusal != 0)
        return refusal;
    uint32_t region = taken(cursor, 1);
    if (region >= shape.regions || (*met >> region & 1) != 0)
        return 42;
    *met |= 1u << region;
    read_numbers(cursor, region, shape.services + 1, interval);
    return 0;
}

/* The record of the additional link, where the book has one: the last place is its own. */
static uint32_t read_link(struct cursor *cursor, struct independent_shape shape, struct independent_interval *interval)
{
    if (!shape.linked)
        return 0;
    uint32_t refusal = begin_record(cursor, LINK_KIND, shape);
    if (refusal != 0)
        return refusal;
    interval->flows[shape.regions] = (int32_t)taken(cursor, 4);
    interval->factors[shape.regions] = taken(cursor, 4);
    return 0;
}

uint32_t independent_interval_read(struct independent_shape shape, const uint8_t *records, size_t length, size_t at,
                                   struct independent_interval *interval, size_t *after)
{
    memset(interval, 0, sizeof *interval);
    if (at > length)
        return 40;
    struct cursor cursor = {records + at, length - at};
    uint32_t refusal = read_head(&cursor, shape, interval);
    for (unsigned region = 0; region < shape.regions && refusal == 0; region++)
        refusal = read_region(&cursor, region, shape, interval);
    if (refusal == 0)
        refusal = read_link(&cursor, shape, interval);
    *after = length - cursor.left;
    return refusal;
}

uint32_t independent_interval_earlier(struct independent_shape shape, const uint8_t *records, size_t length, size_t at,
                                      struct independent_interval *interval, size_t *after)
{
    unsigned met = 0;
    memset(interval, 0, sizeof *interval);
    if (at > length)
        return 40;
    struct cursor cursor = {records + at, length - at};
    uint32_t refusal = read_head(&cursor, shape, interval);
    for (unsigned i = 0; i < shape.regions && refusal == 0; i++)
        refusal = read_unmet(&cursor, shape, &met, interval);
    if (refusal == 0)
        refusal = read_link(&cursor, shape, interval);
    *after = length - cursor.left;
    return refusal;
}

static size_t put(uint8_t *records, size_t at, int width, uint32_t number)
{
    for (int i = 0; i < width; i++)
        records[at++] = (uint8_t)(number >> 8 * i);
    return at;
}

static size_t put_region(const struct independent_interval *interval, unsigned region, unsigned markets, uint8_t *records, size_t at)
{
    at = put(records, at, 4, 16 + 4 * markets);
    at = put(records, at, 2, REGION_KIND);
    at = put(records, at, 1, region);
    at = put(records, at, 1, interval->marks[region]);
    at = put(records, at, 4, (uint32_t)interval->flows[region]);
    at = put(records, at, 4, interval->factors[region]);
    for (unsigned market = 0; market < markets; market++)
        at = put(records, at, 4, (uint32_t)interval->prices[region * markets + market]);
    return at;
}

size_t independent_interval_write(struct independent_shape shape, const struct independent_interval *interval, const unsigned *order,
                                  uint8_t *records)
{
    size_t at = put(records, 0, 4, 12);
    at = put(records, at, 2, HEAD_KIND);
    at = put(records, at, 4, interval->entry);
    at = put(records, at, 1, interval->day_kind);
    at = put(records, at, 1, shape.regions);
    for (unsigned i = 0; i < shape.regions; i++)
        at = put_region(interval, order[i], shape.services + 1, records, at);
    if (!shape.linked)
        return at;
    at = put(records, at, 4, LINK_LENGTH);
    at = put(records, at, 2, LINK_KIND);
    at = put(records, at, 4, (uint32_t)interval->flows[shape.regions]);
    return put(records, at, 4, interval->factors[shape.regions]);
}

/* Where each region's record begins; of a region not met so far it is null. */
static uint32_t note_records(struct cursor *cursor, struct independent_shape shape, size_t size, const uint8_t **begins)
{
    for (unsigned i = 0; i < shape.regions; i++) {
        const uint8_t *begin = cursor->at;
        size_t left = cursor->left;
        uint32_t refusal = begin_record(cursor, REGION_KIND, shape);
        if (refusal != 0)
            return refusal;
        uint32_t region = taken(cursor, 1);
        if (region >= shape.regions || begins[region] != NULL)
            return 42;
        begins[region] = begin;
        cursor->at = begin + size;
        cursor->left = left - size;
    }
    return 0;
}

/* The records' bytes are moved: none is made anew from its numbers. The link's record is the last in either form. */
uint32_t independent_interval_rewrite(struct independent_shape shape, const uint8_t *records, size_t length, size_t at,
                                      uint8_t *buffer, size_t room, size_t *after)
{
    const uint8_t *begins[8] = {NULL};
    size_t size = 16 + 4 * ((size_t)shape.services + 1), whole = independent_interval_bytes(shape);
    struct independent_interval numbers;
    if (room < whole)
        return 23;
    if (at > length)
        return 40;
    struct cursor cursor = {records + at, length - at};
    uint32_t refusal = read_head(&cursor, shape, &numbers);
    if (refusal == 0)
        refusal = note_records(&cursor, shape, size, begins);
    if (refusal == 0)
        refusal = read_link(&cursor, shape, &numbers);
    if (refusal != 0)
        return refusal;
    memcpy(buffer, records + at, whole);
    for (unsigned region = 0; region < shape.regions; region++)
        memcpy(buffer + 12 + region * size, begins[region], size);
    *after = length - cursor.left;
    return 0;
}
