/* Images stored and loaded, by the words of document 01 and of request 2026-10. */
#include "independent_image.h"

#include "independent_book.h"

#include <string.h>

static size_t ring_places(unsigned regions, unsigned services, unsigned window)
{
    return regions * (services + (size_t)1) * window;
}

size_t independent_image_length(const guxhamole_book *book, unsigned kind)
{
    size_t counted = 0;
    for (unsigned region = 0; region < book->regions; region++)
        counted += book->counts[region];
    return independent_head(kind) + 4 * counted * (book->services + (size_t)1);
}

/* Bytes that are put one after the other. */
struct writer {
    uint8_t *at;
};

static void put(struct writer *writer, int width, uint64_t number)
{
    for (int i = 0; i < width; i++)
        *writer->at++ = (uint8_t)(number >> 8 * i);
}

/* Bytes 0 to 147. */
static void put_head(struct writer *writer, const guxhamole_book *book, unsigned kind)
{
    put(writer, 4, independent_image_length(book, kind));
    put(writer, 2, kind);
    put(writer, 1, book->regions);
    put(writer, 1, book->services);
    put(writer, 2, book->window);
    put(writer, 2, book->halves);
    for (int region = 0; region < 8; region++)
        put(writer, 1, book->parents[region]);
    put(writer, 4, book->entries);
    put(writer, 4, book->position);
    put(writer, 8, (uint64_t)book->threshold);
    put(writer, 4, (uint32_t)book->cap);
    put(writer, 4, (uint32_t)book->floor);
    for (int region = 0; region < 8; region++)
        put(writer, 2, book->counts[region]);
    for (int market = 0; market < 88; market++)
        put(writer, 1, book->marks[market]);
}

static void put_prices(struct writer *writer, const guxhamole_book *book, const int32_t *ring)
{
    static int32_t prices[2016];
    for (unsigned region = 0; region < book->regions; region++)
        for (unsigned market = 0; market <= book->services; market++) {
            size_t count = independent_counted(book, ring, region, market, prices);
            for (size_t i = 0; i < count; i++)
                put(writer, 4, (uint32_t)prices[i]);
        }
}

uint32_t independent_store(const guxhamole_book *book, const int32_t *ring, size_t ring_length, unsigned kind, uint8_t *buffer,
                           size_t room, size_t *length)
{
    struct writer writer = {buffer};
    struct independent_link link = independent_book_link(book);
    *length = 0;
    if (independent_book_bad(book))
        return 10;
    if (ring_length != ring_places(book->regions, book->services, book->window))
        return 11;
    if (independent_ring_bad(book, ring))
        return 22;
    if (kind == 1 && independent_has_link(link))
        return 47;
    if (room < independent_image_length(book, kind))
        return 23;
    put_head(&writer, book, kind);
    if (kind == 2) {
        put(&writer, 1, link.from);
        put(&writer, 1, link.to);
        put(&writer, 2, 0);
        put(&writer, 4, UINT32_MAX);
    }
    put_prices(&writer, book, ring);
    *length = (size_t)(writer.at - buffer);
    return 0;
}

/* The book but for what its windows make of it. */
static void take_head(const uint8_t *image, guxhamole_book *book)
{
    book->regions = image[6], book->services = image[7];
    book->window = (uint16_t)independent_number(image, 8, 2), book->halves = image[10];
    memcpy(book->parents, image + 12, sizeof book->parents);
    struct independent_link link = independent_image_link(image);
    book->from = link.from, book->to = link.to;
    book->entries = (uint32_t)independent_number(image, 20, 4);
    book->position = (uint16_t)independent_number(image, 24, 2);
    book->threshold = (int64_t)independent_number(image, 28, 8);
    book->cap = (int32_t)independent_number(image, 36, 4);
    book->floor = (int32_t)independent_number(image, 40, 4);
    for (size_t region = 0; region < 8; region++) {
        book->counts[region] = (uint16_t)independent_number(image, 44 + 2 * region, 2);
        book->nexts[region] = (uint16_t)(book->counts[region] == book->window ? 0 : book->counts[region]);
    }
    memcpy(book->marks, image + 60, sizeof book->marks);
}

/* The oldest price comes to its window's first place, and the sums are added up. */
static void take_prices(const uint8_t *prices, guxhamole_book *book, int32_t *ring)
{
    memset(ring, 0, sizeof *ring * ring_places(book->regions, book->services, book->window));
    for (unsigned region = 0; region < book->regions; region++)
        for (unsigned market = 0; market <= book->services; market++, ring += book->window)
            for (unsigned i = 0; i < book->counts[region]; i++, prices += 4) {
                ring[i] = (int32_t)independent_number(prices, 0, 4);
                book->sums[11 * region + market] += ring[i];
            }
}

struct independent_refusal independent_load(const uint8_t *image, size_t length, int32_t *ring, size_t ring_length, guxhamole_book *book)
{
    struct independent_refusal refusal = independent_image_refusal(image, length);
    memset(book, 0, sizeof *book);
    if ((refusal.number == 0 || refusal.number == 16) &&
        ring_length != ring_places(image[6], image[7], (unsigned)independent_number(image, 8, 2))) {
        refusal.number = 11;
        refusal.place = 0;
    }
    if (refusal.number != 0)
        return refusal;
    take_head(image, book);
    take_prices(image + independent_head((unsigned)independent_number(image, 4, 2)), book, ring);
    return refusal;
}

/* A market's last prices, each at the place that its turn has in the ring. */
static void keep_window(const struct independent_ledger *ledger, unsigned region, unsigned market, guxhamole_book *book, int32_t *ring)
{
    size_t window = ledger->settings.window, total = ledger->counts[region], first = total > window ? total - window : 0;
    int32_t *places = ring + (region * (ledger->settings.services + (size_t)1) + market) * window;
    for (size_t i = first; i < total; i++)
        places[i % window] = ledger->prices[11 * region + market][i];
    book->sums[11 * region + market] = independent_ledger_report(ledger, region, market).sum;
    book->marks[11 * region + market] = (uint8_t)independent_ledger_administered(ledger, region, market);
    book->counts[region] = (uint16_t)(total - first);
    book->nexts[region] = (uint16_t)(total % window);
}

void independent_book_of(const struct independent_ledger *ledger, guxhamole_book *book, int32_t *ring)
{
    const guxhamole_settings *settings = &ledger->settings;
    memset(book, 0, sizeof *book);
    memset(ring, 0, sizeof *ring * ring_places(settings->regions, settings->services, settings->window));
    book->regions = settings->regions, book->services = settings->services;
    book->window = settings->window, book->halves = settings->halves;
    memcpy(book->parents, settings->parents, sizeof book->parents);
    book->from = settings->from, book->to = settings->to;
    book->threshold = settings->threshold, book->cap = settings->cap, book->floor = settings->floor;
    book->entries = ledger->entries;
    book->position = (uint16_t)((settings->first + ledger->entries) % (6u * settings->halves));
    for (unsigned region = 0; region < settings->regions; region++)
        for (unsigned market = 0; market <= settings->services; market++)
            keep_window(ledger, region, market, book, ring);
}
