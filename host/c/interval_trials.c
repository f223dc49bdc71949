/* Intervals to try the calls of interval records with, from a seed. No expression draws two numbers whose order is the compiler's to
   choose: a seed makes the same trial in every build. */
#include "interval_trials.h"

#include "make.h"

#include <stdio.h>
#include <stdlib.h>
#include <string.h>

size_t interval_length(const guxhamole_book *book)
{
    return GUXHAMOLE_INTERVAL(book->regions, book->services, book->from);
}

size_t record_place(const struct trial *trial, size_t record)
{
    return record == 0 ? trial->at : trial->at + 12 + (record - 1) * (16 + 4 * (trial->book.services + (size_t)1));
}

guxhamole_book book_of(unsigned regions, unsigned services, int linked)
{
    static int32_t ring[88];
    guxhamole_settings settings = {(uint8_t)regions, (uint8_t)services, 1, 1, 0, {255, 255, 255, 255, 255, 255, 255, 255}, 255, 255,
                                   90000, 60000, -60000};
    for (unsigned region = 1; region < regions; region++)
        settings.parents[region] = (uint8_t)(region - 1);
    if (regions == 2 && linked != 0)
        settings.parents[1] = 255;
    if (regions > 1 && linked != 0) {
        settings.from = (uint8_t)(linked > 0 ? 0 : regions - 1);
        settings.to = (uint8_t)(linked > 0 ? regions - 1 : 0);
    }
    guxhamole_kept kept = guxhamole_open(settings, ring, GUXHAMOLE_RING(regions, services, 1));
    if (kept.number != 0) {
        printf("a book was refused by %u\n", kept.number);
        exit(1);
    }
    return kept.book;
}

/* A number of any length in bits. */
static uint32_t any_word(void)
{
    uint32_t word = (uint32_t)next();
    return word >> below(32);
}

static int32_t any_signed(void)
{
    int32_t size = (int32_t)(any_word() >> 1);
    return below(2) ? size : -size - 1;
}

struct independent_interval any_interval(const guxhamole_book *book)
{
    struct independent_interval interval;
    memset(&interval, 0, sizeof interval);
    interval.entry = any_word();
    interval.day_kind = (uint32_t)below(below(2) ? 3 : 256);
    for (size_t i = 0; i < GUXHAMOLE_PRICES(book->regions, book->services); i++)
        interval.prices[i] = any_signed();
    for (size_t region = 0; region < book->regions; region++) {
        interval.marks[region] = (uint8_t)(below(2) ? below(2) : next());
        interval.flows[region] = any_signed();
        interval.factors[region] = any_word();
    }
    if (independent_has_link(independent_book_link(book))) {
        interval.flows[book->regions] = any_signed();
        interval.factors[book->regions] = any_word();
    }
    return interval;
}

void put_interval(struct trial *trial, const unsigned *order)
{
    independent_interval_write(independent_shape_of(&trial->book), &trial->interval, order, trial->records + trial->at);
}

void any_order(unsigned regions, enum form form, unsigned *order)
{
    int upward;
    do {
        upward = 1;
        for (unsigned i = 0; i < regions; i++) {
            size_t other = form == UPWARD ? i : below(i + 1);
            order[i] = i;
            order[i] = order[other];
            order[other] = i;
            upward &= other == i;
        }
    } while (upward && form != UPWARD && regions > 1);
}

void any_trial(struct trial *trial)
{
    unsigned order[8];
    memset(trial, 0, sizeof *trial);
    trial->book = any_book();
    trial->form = below(3) != 0 || trial->book.regions == 1 ? UPWARD : SHUFFLED;
    trial->interval = any_interval(&trial->book);
    trial->lent = right_lengths(&trial->book);
    trial->at = below(2) ? 0 : below(50);
    for (size_t i = 0; i < TRIAL_BYTES; i++)
        trial->records[i] = (uint8_t)next();
    any_order(trial->book.regions, trial->form, order);
    put_interval(trial, order);
    size_t length = interval_length(&trial->book);
    trial->length = trial->at + length + (below(2) ? 0 : below(50));
    trial->room = below(3) == 0 ? below(length + 1) : below(2) ? length : length + below(20);
}

/* The number of one of the interval's records, the link's twice as often as another. */
static size_t any_record(const struct trial *trial)
{
    size_t records = 1 + independent_places(independent_shape_of(&trial->book)), record = below(records + 1);
    return record < records ? record : records - 1;
}

/* One field of one record becomes another number, of those that are almost right, or any. */
static void damage_field(struct trial *trial)
{
    static const uint32_t numbers[] = {0, 1, 5, 6, 7, 8, 11, 12, 13, 15, 16, 17, 18, 19, 20, 24, 60, 61, 255, 256, 272, 273,
                                       0x7fffffff, 0x80000000, 0xffffffff};
    static const struct {
        size_t at;
        int width;
    } fields[] = {{0, 4}, {0, 1}, {4, 2}, {4, 1}, {6, 1}};
    size_t field = below(sizeof fields / sizeof *fields), record = any_record(trial);
    size_t place = record_place(trial, record) + fields[field].at;
    uint64_t old = trial->records[place];
    uint64_t number = below(2) ? numbers[below(sizeof numbers / sizeof *numbers)] : below(2) ? old + 1 : old - 1;
    put_number(trial->records, place, fields[field].width, number);
}

/* A region's record is replaced by another's, or by the head. */
static void repeat_record(struct trial *trial)
{
    size_t to = record_place(trial, 1 + below(trial->book.regions)), from = record_place(trial, below(trial->book.regions + 1u));
    memmove(trial->records + to, trial->records + from, record_place(trial, 2) - record_place(trial, 1));
}

/* A short record where another is due; the bytes end about where it does. */
static void end_early(struct trial *trial)
{
    size_t place = record_place(trial, any_record(trial)), length = 5 + below(below(2) ? 5 : 12);
    put_number(trial->records, place, 4, length);
    put_number(trial->records, place + 4, 2, below(2) ? 16 + below(3) : next());
    trial->length = place + length + below(3) - 1;
}

static void move_place(struct trial *trial)
{
    switch (below(4)) {
    case 0:
        trial->at = SIZE_MAX - below(2 * INTERVAL_MOST);
        break;
    case 1:
        trial->at = trial->length + below(3);
        break;
    case 2:
        trial->at += 1 + below(20);
        break;
    default:
        trial->at = record_place(trial, 1 + below(trial->book.regions));
    }
}

void damage_records(struct trial *trial)
{
    size_t end = trial->at + interval_length(&trial->book), any = trial->at + below(interval_length(&trial->book));
    trial->form = DAMAGED;
    switch (below(9)) {
    case 0:
        trial->length = any;
        break;
    case 1:
        trial->records[any] = (uint8_t)(trial->records[any] ^ 1u << below(8));
        break;
    case 2:
        trial->records[trial->at + 11] = (uint8_t)(below(2) ? below(10) : next());
        break;
    case 3:
        repeat_record(trial);
        break;
    case 4:
        move_place(trial);
        break;
    case 5: /* a byte is lost: what follows stands one place too early */
        memmove(trial->records + any, trial->records + any + 1, end - any - 1);
        break;
    case 6:
        end_early(trial);
        break;
    default:
        damage_field(trial);
    }
}
