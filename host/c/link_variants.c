/* The independent code as a table, and wrong variants of it: slips that are easily made of request 2026-10. Each is the right function with
   something exchanged before or after it. */
#include "link_code.h"
#include "link_routes.h"
#include "independent_synthetic.h"

#include <string.h>

static guxhamole_billed billed_of(const struct independent_bill *bill, int32_t *work)
{
    struct independent_billed billed = independent_billed_of(bill, NULL, work);
    guxhamole_billed told = {billed.number, billed.place, billed.right, billed.line};
    return told;
}

struct link_code link_right(void)
{
    struct link_code code = {independent_opening, independent_lengths_bad, independent_entry_refusal, independent_entry_publish,
                             independent_ledger_restart, independent_store, independent_load, independent_interval_read,
                             independent_interval_write, independent_interval_rewrite, independent_synthetic, billed_of};
    return code;
}

/* The entry's limits. */

static uint32_t cents_per_link(const struct independent_ledger *ledger, const struct independent_interval *interval,
                               const int32_t *schedule, int32_t *table)
{
    return link_permuted(ledger, interval, schedule, table, 1);
}

static uint32_t sign_exchanged(const struct independent_ledger *ledger, const struct independent_interval *interval,
                               const int32_t *schedule, int32_t *table)
{
    struct independent_interval other = *interval;
    other.flows[ledger->settings.regions] = -interval->flows[ledger->settings.regions];
    return independent_entry_publish(ledger, &other, schedule, table);
}

static uint32_t flow_before(const struct independent_ledger *ledger, const struct independent_interval *interval,
                            const int32_t *schedule, int32_t *table)
{
    struct independent_interval other = *interval;
    other.flows[ledger->settings.regions] = interval->flows[ledger->settings.regions - 1];
    return independent_entry_publish(ledger, &other, schedule, table);
}

static uint32_t factor_before(const struct independent_ledger *ledger, const struct independent_interval *interval,
                              const int32_t *schedule, int32_t *table)
{
    struct independent_interval other = *interval;
    uint32_t before = interval->factors[ledger->settings.regions - 1];
    other.factors[ledger->settings.regions] = before == 0 ? 10000 : before;
    return independent_entry_publish(ledger, &other, schedule, table);
}

static uint32_t link_left_out(const struct independent_ledger *ledger, const struct independent_interval *interval,
                              const int32_t *schedule, int32_t *table)
{
    struct independent_interval other = *interval;
    other.flows[ledger->settings.regions] = 0;
    return independent_entry_publish(ledger, &other, schedule, table);
}

static int link_factor_bad(const struct independent_ledger *ledger, const struct independent_interval *interval)
{
    uint32_t factor = interval->factors[ledger->settings.regions];
    return independent_has_link(independent_settings_link(&ledger->settings)) && (factor < 10000 || factor > 20000);
}

/* 17 of the link before 17 of a region. */
static struct independent_refusal link_first(const struct independent_ledger *ledger, const struct independent_interval *interval)
{
    struct independent_refusal refusal = independent_entry_refusal(ledger, interval);
    if (refusal.number == 17 && link_factor_bad(ledger, interval))
        refusal.place = ledger->settings.regions;
    return refusal;
}

/* 17 of the link only where power flows. */
static struct independent_refusal still_link(const struct independent_ledger *ledger, const struct independent_interval *interval)
{
    struct independent_interval other = *interval;
    if (interval->flows[ledger->settings.regions] == 0)
        other.factors[ledger->settings.regions] = 10000;
    return independent_entry_refusal(ledger, &other);
}

/* Lengths as they were. */
static int lengths_as_before(const struct independent_ledger *ledger, const struct independent_lengths *lent)
{
    struct independent_lengths other = *lent;
    if (independent_has_link(independent_settings_link(&ledger->settings)))
        other.flows++, other.factors++;
    return independent_lengths_bad(ledger, &other);
}

/* The first end's parent alone is looked at. */
static uint32_t one_parent(const guxhamole_settings *settings, size_t ring_length)
{
    guxhamole_settings other = *settings;
    if (other.to < 8 && other.from < other.regions && other.parents[other.to] == other.from)
        other.from = other.to = 255;
    return independent_opening(&other, ring_length);
}

static uint32_t upward_ends(const guxhamole_settings *settings, size_t ring_length)
{
    return settings->from != 255 && settings->from > settings->to ? 20 : independent_opening(settings, ring_length);
}

static const char *wrong_entry(size_t i, struct link_code *code)
{
    switch (i) {
    case 0: code->publish = link_relaxed; return "a loop that relaxes limits";
    case 1: code->publish = cents_per_link; return "a limit rounded to the cent at each link";
    case 2: code->publish = sign_exchanged; return "the flow's sign exchanged";
    case 3: code->publish = flow_before; return "the link's flow read at R - 1";
    case 4: code->publish = factor_before; return "the link's factor read at R - 1";
    case 5: code->publish = link_left_out; return "the link carries nothing";
    case 6: code->refusal = link_first; return "17 of the link first";
    case 7: code->refusal = still_link; return "17 of the link only where power flows";
    case 8: code->lengths_bad = lengths_as_before; return "R flows and factors";
    case 9: code->opening = one_parent; return "one end's parent looked at";
    case 10: code->opening = upward_ends; return "the ends in one order alone";
    default: return NULL;
    }
}

/* Images. */

static uint32_t from_148(const guxhamole_book *book, const int32_t *ring, size_t ring_length, unsigned kind,
                         uint8_t *buffer, size_t room, size_t *length)
{
    uint32_t number = independent_store(book, ring, ring_length, kind, buffer, room, length);
    if (number == 0 && kind == 2) {
        *length -= 8;
        memmove(buffer + 148, buffer + 156, *length - 148);
        buffer[0] = (uint8_t)*length, buffer[1] = (uint8_t)(*length >> 8);
    }
    return number;
}

static uint32_t buffer_first(const guxhamole_book *book, const int32_t *ring, size_t ring_length,
                             unsigned kind, uint8_t *buffer, size_t room, size_t *length)
{
    uint32_t number = independent_store(book, ring, ring_length, kind, buffer, room, length);
    return number == 47 && room < independent_image_length(book, 1) ? 23 : number;
}

static uint32_t link_before_sums(const guxhamole_book *book, const int32_t *ring, size_t ring_length,
                                 unsigned kind, uint8_t *buffer, size_t room, size_t *length)
{
    uint32_t number = independent_store(book, ring, ring_length, kind, buffer, room, length);
    return number == 22 && kind == 1 && book->from != 255 ? 47 : number;
}

static uint32_t ends_stored(const guxhamole_book *book, const int32_t *ring, size_t ring_length,
                            unsigned kind, uint8_t *buffer, size_t room, size_t *length)
{
    guxhamole_book other = *book;
    other.from = book->to, other.to = book->from;
    return independent_store(&other, ring, ring_length, kind, buffer, room, length);
}

static struct independent_refusal ends_loaded(const uint8_t *image, size_t length, int32_t *ring, size_t ring_length,
                                              guxhamole_book *book)
{
    struct independent_refusal refusal = independent_load(image, length, ring, ring_length, book);
    uint8_t from = book->from;
    book->from = book->to, book->to = from;
    return refusal;
}

static uint32_t zeros_kept(const guxhamole_book *book, const int32_t *ring, size_t ring_length,
                           unsigned kind, uint8_t *buffer, size_t room, size_t *length)
{
    uint32_t number = independent_store(book, ring, ring_length, kind, buffer, room, length);
    if (number == 0 && kind == 2)
        memset(buffer + 152, 0, 4);
    return number;
}

/* 24 for every image under 156 bytes that isn't of kind 1. */
static struct independent_refusal short_kind(const uint8_t *image, size_t length, int32_t *ring, size_t ring_length,
                                              guxhamole_book *book)
{
    struct independent_refusal refusal = independent_load(image, length, ring, ring_length, book);
    if (refusal.number == 25 && length < 156)
        refusal.number = 24;
    return refusal;
}

/* Loads as if some of bytes 150 to 155 were what they must be. */
static struct independent_refusal load_mended(const uint8_t *image, size_t length, int32_t *ring, size_t ring_length,
                                              guxhamole_book *book, size_t from, size_t to, int right)
{
    static uint8_t mended[200000];
    if (length < 156 || length > sizeof mended || image[4] != 2)
        return independent_load(image, length, ring, ring_length, book);
    memcpy(mended, image, length);
    memset(mended + from, right, to - from);
    return independent_load(mended, length, ring, ring_length, book);
}

static struct independent_refusal any_zeros(const uint8_t *image, size_t length, int32_t *ring, size_t ring_length,
                                              guxhamole_book *book)
{
    return load_mended(image, length, ring, ring_length, book, 150, 152, 0);
}

static struct independent_refusal any_later(const uint8_t *image, size_t length, int32_t *ring, size_t ring_length,
                                              guxhamole_book *book)
{
    return load_mended(image, length, ring, ring_length, book, 152, 156, 255);
}

static uint32_t restart_by_any(const struct independent_ledger *ledger, unsigned kind, size_t room, size_t other_length)
{
    (void)kind;
    return independent_ledger_restart(ledger, 2, room, other_length);
}

static const char *wrong_image(size_t i, struct link_code *code)
{
    switch (i) {
    case 0: code->store = from_148; return "prices of kind 2 from 148";
    case 1: code->store = buffer_first; return "47 after 23";
    case 2: code->store = link_before_sums; return "47 before 22";
    case 3: code->store = ends_stored; return "the ends exchanged in a store";
    case 4: code->load = ends_loaded; return "the ends exchanged in a load";
    case 5: code->store = ends_stored, code->load = ends_loaded; return "the ends exchanged in both";
    case 6: code->store = zeros_kept; return "zeros at 152";
    case 7: code->load = short_kind; return "24 before 25";
    case 8: code->load = any_zeros; return "150 and 151 not looked at";
    case 9: code->load = any_later; return "152 to 155 not looked at";
    case 10: code->restart = restart_by_any; return "a restart by kind 1 with the link";
    default: return NULL;
    }
}

/* Records, the test load and the bill. */

static size_t factor_first(struct independent_shape shape, const struct independent_interval *interval, const unsigned *order,
                           uint8_t *records)
{
    struct independent_interval other = *interval;
    other.flows[shape.regions] = (int32_t)interval->factors[shape.regions];
    other.factors[shape.regions] = (uint32_t)interval->flows[shape.regions];
    return independent_interval_write(shape, &other, order, records);
}

static size_t no_record(struct independent_shape shape, const struct independent_interval *interval, const unsigned *order,
                        uint8_t *records)
{
    shape.linked = 0;
    return independent_interval_write(shape, interval, order, records);
}

static uint32_t kind_unknown(struct independent_shape shape, const uint8_t *records, size_t length, size_t at,
                             struct independent_interval *interval, size_t *after)
{
    static uint8_t relabelled[2 * GUXHAMOLE_INTERVAL(8, 10, 0)];
    if (length > sizeof relabelled)
        return independent_interval_read(shape, records, length, at, interval, after);
    memcpy(relabelled, records, length);
    for (size_t place = at; place + 6 <= length; place += place == at ? 12 : 20 + 4 * (size_t)shape.services)
        if (relabelled[place + 4] == 18 && relabelled[place] != 14)
            relabelled[place + 4] = 19;
    return independent_interval_read(shape, relabelled, length, at, interval, after);
}

static uint32_t always_read(struct independent_shape shape, const uint8_t *records, size_t length, size_t at,
                            struct independent_interval *interval, size_t *after)
{
    struct independent_shape linked = shape;
    linked.linked = 1;
    uint32_t number = independent_interval_read(linked, records, length, at, interval, after);
    return number == 0 ? 0 : independent_interval_read(shape, records, length, at, interval, after);
}

static uint32_t link_not_moved(struct independent_shape shape, const uint8_t *records, size_t length, size_t at, uint8_t *buffer,
                               size_t room, size_t *after)
{
    shape.linked = 0;
    return independent_interval_rewrite(shape, records, length, at, buffer, room, after);
}

static uint32_t no_pair(struct independent_shape shape, uint32_t seed, struct independent_interval *interval)
{
    shape.linked = 0;
    return independent_synthetic(shape, seed, interval);
}

/* The link's pair before the regions'. */
static uint32_t pair_first(struct independent_shape shape, uint32_t seed, struct independent_interval *interval)
{
    uint32_t last = independent_synthetic(shape, seed, interval);
    int32_t flow = interval->flows[0];
    uint32_t factor = interval->factors[0];
    for (unsigned place = 0; shape.linked && place < shape.regions; place++) {
        interval->flows[place] = interval->flows[place + 1];
        interval->factors[place] = interval->factors[place + 1];
    }
    if (shape.linked) {
        interval->flows[shape.regions] = flow;
        interval->factors[shape.regions] = factor;
    }
    return last;
}

static guxhamole_billed bill_without(const struct independent_bill *bill, int32_t *work)
{
    struct independent_bill other = *bill;
    other.book.from = other.book.to = 255;
    return billed_of(&other, work);
}

static const char *wrong_records(size_t i, struct link_code *code)
{
    switch (i) {
    case 0: code->write = factor_first; return "a record's factor before its flow";
    case 1: code->write = no_record; return "no record of the link written";
    case 2: code->read = kind_unknown; return "kind 18 of another length by 41";
    case 3: code->read = always_read; return "a record of the link read in any book";
    case 4: code->rewrite = link_not_moved; return "the link's record not rewritten";
    case 5: code->draw = no_pair; return "no pair drawn for the link";
    case 6: code->draw = pair_first; return "the link's pair drawn first";
    case 7: code->bill = bill_without; return "a bill without the link";
    default: return NULL;
    }
}

enum { ENTRIES = 11, IMAGES = 11, RECORDS = 8 };

size_t link_wrongs(void)
{
    return ENTRIES + IMAGES + RECORDS;
}

struct link_code link_wrong(size_t i, const char **name)
{
    struct link_code code = link_right();
    if (i < ENTRIES)
        *name = wrong_entry(i, &code);
    else if (i < ENTRIES + IMAGES)
        *name = wrong_image(i - ENTRIES, &code);
    else
        *name = wrong_records(i - ENTRIES - IMAGES, &code);
    return code;
}
