/* The archive as a table of functions of books with an additional link: each call is made on the book that keeps what the ledger does, or
   on a new one of the shape, and of slices of exactly the lengths. */
#include "link_code.h"

#include "link_books.h"

#include <stdio.h>
#include <stdlib.h>
#include <string.h>

enum { IMAGE_MOST = GUXHAMOLE_IMAGE_MAX(8, 10, LINK_WINDOW), SPARE = 4 };

static uint32_t opening(const guxhamole_settings *settings, size_t ring_length)
{
    static int32_t ring[LINK_RING + SPARE];
    return guxhamole_open(*settings, ring, ring_length).number;
}

/* An entry of the ledger's book, of slices of these lengths. */
static guxhamole_entered entered(const struct independent_ledger *ledger, const struct independent_interval *interval,
                                 const int32_t *schedule, const struct independent_lengths *lent, int32_t *table)
{
    static int32_t ring[LINK_RING + SPARE];
    guxhamole_book book;
    independent_book_of(ledger, &book, ring);
    return guxhamole_enter(book, ring, lent->ring, interval->entry, (uint8_t)interval->day_kind, interval->prices, lent->prices,
                           interval->marks, lent->marks, interval->flows, lent->flows, interval->factors, lent->factors, schedule,
                           lent->schedule, table, lent->table);
}

static int lengths_bad(const struct independent_ledger *ledger, const struct independent_lengths *lent)
{
    int32_t table[88 + SPARE];
    struct independent_interval interval = link_interval(ledger);
    return entered(ledger, &interval, link_schedule(), lent, table).number == GUXHAMOLE_LENGTH;
}

static struct independent_refusal refusal(const struct independent_ledger *ledger, const struct independent_interval *interval)
{
    int32_t table[88];
    struct independent_lengths lent = independent_entry_lengths(ledger);
    guxhamole_entered answer = entered(ledger, interval, link_schedule(), &lent, table);
    struct independent_refusal refused = {answer.number, answer.place};
    return refused;
}

static uint32_t publish(const struct independent_ledger *ledger, const struct independent_interval *interval, const int32_t *schedule,
                        int32_t *table)
{
    struct independent_lengths lent = independent_entry_lengths(ledger);
    return entered(ledger, interval, schedule, &lent, table).count;
}

static uint32_t store(const guxhamole_book *book, const int32_t *ring, size_t ring_length, unsigned kind, uint8_t *buffer, size_t room,
                      size_t *length)
{
    guxhamole_stored stored = kind == 1 ? guxhamole_store(*book, ring, ring_length, buffer, room)
                                        : guxhamole_store_kind_2(*book, ring, ring_length, buffer, room);
    *length = (size_t)stored.length;
    return stored.number;
}

static struct independent_refusal load(const uint8_t *image, size_t length, int32_t *ring, size_t ring_length, guxhamole_book *book)
{
    guxhamole_kept kept = guxhamole_load(image, length, ring, ring_length);
    struct independent_refusal refused = {kept.number, kept.place};
    *book = kept.book;
    return refused;
}

static uint32_t restart(const struct independent_ledger *ledger, unsigned kind, size_t room, size_t other_length)
{
    static uint8_t image[IMAGE_MOST];
    static int32_t ring[LINK_RING], other[LINK_RING + SPARE];
    guxhamole_book book;
    size_t length;
    independent_book_of(ledger, &book, ring);
    uint32_t number = store(&book, ring, independent_entry_lengths(ledger).ring, kind, image, room, &length);
    return number != 0 ? number : load(image, length, other, other_length, &book).number;
}

/* A new book of the shape: no region hangs on another, so that the first two may have the link. */
static guxhamole_book book_of(struct independent_shape shape)
{
    int32_t ring[88];
    guxhamole_settings settings = {(uint8_t)shape.regions, (uint8_t)shape.services, 1, 1, 0, {255, 255, 255, 255, 255, 255, 255, 255},
                                   255, 255, 90000, 60000, -60000};
    if (shape.linked)
        settings.from = 1, settings.to = 0;
    guxhamole_kept kept = guxhamole_open(settings, ring, GUXHAMOLE_RING(shape.regions, shape.services, 1));
    if (kept.number != 0) {
        printf("link test: a book of its shape was refused by %u\n", kept.number);
        exit(1);
    }
    return kept.book;
}

static uint32_t read_records(struct independent_shape shape, const uint8_t *records, size_t length, size_t at,
                             struct independent_interval *interval, size_t *after)
{
    size_t places = independent_places(shape);
    memset(interval, 0, sizeof *interval);
    guxhamole_found found = guxhamole_interval_read(book_of(shape), records, length, at, interval->prices,
                                                    GUXHAMOLE_PRICES(shape.regions, shape.services), interval->marks, shape.regions,
                                                    interval->flows, places, interval->factors, places);
    interval->entry = found.entry, interval->day_kind = found.day_kind;
    *after = (size_t)found.next;
    return found.number;
}

/* It writes in one order alone. */
static size_t write_records(struct independent_shape shape, const struct independent_interval *interval, const unsigned *order,
                            uint8_t *records)
{
    size_t places = independent_places(shape);
    (void)order;
    return (size_t)guxhamole_interval_write(book_of(shape), interval->entry, (uint8_t)interval->day_kind, interval->prices,
                                            GUXHAMOLE_PRICES(shape.regions, shape.services), interval->marks, shape.regions,
                                            interval->flows, places, interval->factors, places, records,
                                            independent_interval_bytes(shape)).length;
}

static uint32_t rewrite_records(struct independent_shape shape, const uint8_t *records, size_t length, size_t at, uint8_t *buffer,
                                size_t room, size_t *after)
{
    guxhamole_rewritten rewritten = guxhamole_interval_rewrite(book_of(shape), records, length, at, buffer, room);
    *after = (size_t)rewritten.next;
    return rewritten.number;
}

static uint32_t draw(struct independent_shape shape, uint32_t seed, struct independent_interval *interval)
{
    size_t places = independent_places(shape);
    memset(interval, 0, sizeof *interval);
    return guxhamole_synthetic(book_of(shape), seed, 0, 0, interval->prices, GUXHAMOLE_PRICES(shape.regions, shape.services),
                               interval->marks, shape.regions, interval->flows, places, interval->factors, places).seed;
}

static guxhamole_billed bill_of(const struct independent_bill *bill, int32_t *work)
{
    return guxhamole_bill(bill->book, bill->ring, bill->ring_length, work, bill->work_length, bill->records, bill->records_length,
                          bill->schedule, bill->schedule_length, bill->region, bill->numbers, bill->numbers_length, bill->energy,
                          bill->energy_length, bill->prices, bill->prices_length, bill->amounts, bill->amounts_length);
}

struct link_code link_archive(void)
{
    struct link_code code = {opening, lengths_bad, refusal, publish, restart, store, load, read_records, write_records, rewrite_records,
                             draw, bill_of};
    return code;
}
