/* Interval records that are gone through in turn. */
#include "interval_rewrites.h"

#include "interval_calls.h"
#include "make.h"

#include <stdio.h>
#include <stdlib.h>
#include <string.h>

enum { MANY = 1000, LISTS = 300, LIST_MOST = 20, ENTRIES = 20000, FORMS = 1024, SMALL = GUXHAMOLE_INTERVAL(2, 0, GUXHAMOLE_NONE) };

static long orders, listed, met_again;
static uint64_t one_in = 1;

static int in_part(void)
{
    return below(one_in) == 0;
}

/* A new trial of this size: an interval at place 0, in number order, with nothing behind it; with the link or not (interval_trials.h). */
static void trial_of(struct trial *trial, unsigned regions, unsigned services, int linked)
{
    unsigned order[8];
    memset(trial, 0, sizeof *trial);
    trial->book = book_of(regions, services, linked);
    trial->interval = any_interval(&trial->book);
    trial->lent = right_lengths(&trial->book);
    trial->length = trial->room = interval_length(&trial->book);
    any_order(regions, UPWARD, order);
    put_interval(trial, order);
}

/* The same with the regions in another order, if there is one. */
static void shuffle(struct trial *trial)
{
    unsigned order[8];
    any_order(trial->book.regions, SHUFFLED, order);
    put_interval(trial, order);
}

/* The order that a number names, of as many as there are: each region is taken from those left. 0 is upward. */
static void order_of(unsigned regions, uint64_t number, unsigned *order)
{
    unsigned left[] = {0, 1, 2, 3, 4, 5, 6, 7};
    for (unsigned i = 0; i < regions; i++) {
        unsigned count = regions - i, taken = (unsigned)(number % count);
        number /= count;
        order[i] = left[taken];
        memmove(left + taken, left + taken + 1, (count - taken - 1) * sizeof *left);
    }
}

/* In whatever order, it is rewritten to the same bytes; in number order alone it reads. */
static void one_order(struct trial *trial, uint64_t number, const uint8_t *upward)
{
    static uint8_t told[TRIAL_BYTES];
    struct independent_interval interval;
    unsigned order[8];
    uint64_t from = seed;
    order_of(trial->book.regions, number, order);
    put_interval(trial, order);
    if (rewrite_alike(trial, told, from).next != trial->length || memcmp(told, upward, trial->length) != 0)
        interval_differs("an order that is rewritten to other bytes", from);
    if (read_alike(trial, &interval, from).number != (number == 0 ? GUXHAMOLE_ACCEPTED : GUXHAMOLE_RECORD_ORDER))
        interval_differs("an order that reads, or number order that doesn't", from);
    orders++;
}

/* All orders of up to six regions, and many of seven and eight. */
static void every_order(void)
{
    static struct trial trial;
    uint8_t upward[INTERVAL_MOST];
    for (unsigned services = 0; services <= 10; services++)
        for (unsigned regions = 1, all = 1; regions <= 8; regions++, all *= regions) {
            trial_of(&trial, regions, services, (int)services % 3 - 1);
            memcpy(upward, trial.records, trial.length);
            unsigned tried = regions <= 6 ? all : (unsigned)MANY;
            for (unsigned i = 0; i < tried; i++)
                if (in_part())
                    one_order(&trial, tried == all ? i : below(all), upward);
        }
}

/* Each byte becomes each other one. */
static void every_byte(struct trial *trial)
{
    for (size_t at = 0; at < interval_length(&trial->book); at++) {
        uint8_t old = trial->records[at];
        for (unsigned byte = 0; byte < 256; byte++)
            if (in_part()) {
                trial->records[at] = (uint8_t)byte;
                both_alike(trial, seed);
            }
        trial->records[at] = old;
    }
}

/* The records end anywhere, the place is anywhere, and the room too short or not. */
static void every_cut(struct trial *trial)
{
    const size_t small = interval_length(&trial->book), rooms[] = {small, small + 8, small - 1, 0};
    for (trial->length = 0; trial->length <= small + 8; trial->length++)
        for (trial->at = 0; trial->at <= small + 10; trial->at++)
            if (in_part()) {
                trial->room = rooms[below(4)];
                both_alike(trial, seed);
            }
}

static void small_intervals(void)
{
    static struct trial trial;
    for (int form = 0; form < 4; form++) {
        trial_of(&trial, 2, 0, form / 2);
        if (form % 2)
            shuffle(&trial);
        every_byte(&trial);
        memcpy(trial.records + trial.length, trial.records, trial.length);
        every_cut(&trial);
    }
}

/* A field of the records becomes a number, and is then put back. */
static void with_field(struct trial *trial, size_t place, int width, uint64_t number)
{
    uint8_t kept[4];
    if (!in_part())
        return;
    memcpy(kept, trial->records + place, sizeof kept);
    put_number(trial->records, place, width, number);
    both_alike(trial, seed);
    memcpy(trial->records + place, kept, sizeof kept);
}

static void odd_fields(struct trial *trial)
{
    static const uint32_t lengths[] = {0, 5, 6, 7, 11, 12, 13, 14, 15, 255, 256, 268, 65548, 0x7fffffff, 0x80000000, 0xffffffff};
    static const uint32_t odd_kinds[] = {0, 1, 15, 16, 17, 18, 64, 65, 272, 273, 4112, 4113, 65535};
    size_t size = record_place(trial, 2) - record_place(trial, 1), most = trial->book.regions;
    for (size_t record = 0; record <= trial->lent.flows; record++) {
        size_t place = record_place(trial, record);
        for (size_t i = 0; i < sizeof lengths / sizeof *lengths; i++)
            with_field(trial, place, 4, lengths[i]);
        for (size_t length = size - 4; length <= size + 4; length++)
            with_field(trial, place, 4, length);
        with_field(trial, place, 4, size + 65536);
        for (size_t i = 0; i < sizeof odd_kinds / sizeof *odd_kinds; i++)
            with_field(trial, place + 4, 2, odd_kinds[i]);
        for (size_t region = 0; record > 0 && record <= most && region <= most + 1; region++)
            with_field(trial, place + 6, 1, region);
        for (size_t i = 0; record > 0 && record <= most && i < 8; i++)
            with_field(trial, place + 6, 1, (size_t)1 << i | (record - 1));
        with_field(trial, place + 6, 1, 255);
    }
    for (size_t total = 0; total <= most + 2; total++)
        with_field(trial, 11, 1, total);
    with_field(trial, 11, 1, most + 16), with_field(trial, 11, 1, most + 128), with_field(trial, 11, 1, 255);
}

/* The records as they are, and bytes that are none, in every room: 10 comes before 23, and 23 before the records are looked at. */
static void every_room(const struct trial *given)
{
    static struct trial trial;
    static uint8_t told[TRIAL_BYTES];
    size_t length = given->length;
    const size_t rooms[] = {0, 1, 11, 12, length - 1, length, length + 1, length + 9, 65536, 65536 + length - 1};
    for (size_t i = 0; i < sizeof rooms / sizeof *rooms; i++)
        for (int bytes = 0; bytes < 3; bytes++)
            for (int book = 0; book < 3; book++) {
                if (!in_part())
                    continue;
                trial = *given;
                trial.room = rooms[i];
                if (bytes == 1)
                    memset(trial.records, (int)below(256), length);
                if (bytes == 2)
                    trial.length = 0;
                if (book == 1)
                    memset(&trial.book, 0, sizeof trial.book);
                if (book == 2)
                    trial.book.regions = (uint8_t)(9 + below(247));
                rewrite_alike(&trial, told, seed);
            }
}

/* Places from the end of the records on, and up to the last one there is; and those whose low bits alone are a good place. */
static void far_places(struct trial *trial)
{
    for (size_t i = 0; i <= trial->length + 2; i++)
        if (in_part()) {
            trial->at = i % 8 == 0 ? trial->length + i / 8 : SIZE_MAX - i;
            both_alike(trial, seed);
        }
    for (int bit = 9; bit < 64; bit++)
        if (in_part()) {
            trial->at = (size_t)1 << bit;
            both_alike(trial, seed);
        }
    trial->at = 0;
}

static void every_size(void)
{
    static struct trial trial;
    for (unsigned regions = 1; regions <= 8; regions++)
        for (unsigned services = 0; services <= 10; services++)
            for (int form = 0; form < 4; form++) {
                trial_of(&trial, regions, services, form < 2 ? 0 : services % 2 ? 1 : -1);
                if (form % 2)
                    shuffle(&trial);
                odd_fields(&trial);
                every_room(&trial);
                if (services % 5 == 0)
                    far_places(&trial);
            }
}

/* Intervals end to end, each in an order of its own: rewritten one after the other, where the one before ended, into what is left of
   a buffer that just holds them, they are the upward ones; which are read to the end, and rewritten to themselves. */
static void one_list(void)
{
    static const unsigned upward[] = {0, 1, 2, 3, 4, 5, 6, 7};
    static uint8_t bytes[3][LIST_MOST * INTERVAL_MOST];
    guxhamole_book book = any_book();
    size_t size = interval_length(&book), length = size * (1 + below(LIST_MOST)), at;
    uint64_t from = seed;
    for (at = 0; at < length; at += size) {
        unsigned order[8];
        struct independent_interval interval = any_interval(&book);
        any_order(book.regions, SHUFFLED, order);
        independent_interval_write(independent_shape_of(&book), &interval, order, bytes[0] + at);
        independent_interval_write(independent_shape_of(&book), &interval, upward, bytes[1] + at);
        listed++;
    }
    for (int which = 0; which < 2; which++) {
        size_t to = 0;
        for (at = 0; at != length; to += size) {
            guxhamole_rewritten rewritten = guxhamole_interval_rewrite(book, bytes[which], length, at, bytes[2] + to, length - to);
            if (rewritten.number != 0)
                interval_differs("an interval of a list that isn't rewritten", from);
            at = rewritten.next;
        }
        if (to != length || memcmp(bytes[2], bytes[1], length) != 0)
            interval_differs("a list that is rewritten to other bytes", from);
    }
}

/* Of an interval of two regions and no service whose numbers are all 0 or 1 a number that tells it from the others, or FORMS. */
static unsigned entry_name(const struct independent_interval *interval)
{
    uint32_t numbers[] = {interval->entry, interval->day_kind, interval->marks[0], interval->marks[1], (uint32_t)interval->flows[0],
                          (uint32_t)interval->flows[1], interval->factors[0], interval->factors[1], (uint32_t)interval->prices[0],
                          (uint32_t)interval->prices[1]};
    unsigned name = 0;
    for (size_t i = 0; i < sizeof numbers / sizeof *numbers; i++) {
        if (numbers[i] > 1)
            return FORMS;
        name = 2 * name + numbers[i];
    }
    return name;
}

/* What reads to an entry that another place read to holds the same bytes as that. */
static void note_form(const struct trial *trial, uint64_t from)
{
    static uint8_t forms[FORMS][SMALL], known[FORMS];
    struct independent_interval interval;
    if (read_alike(trial, &interval, from).number != 0 || entry_name(&interval) == FORMS)
        return;
    unsigned name = entry_name(&interval);
    if (!known[name])
        memcpy(forms[name], trial->records + trial->at, SMALL);
    else if (memcmp(forms[name], trial->records + trial->at, SMALL) != 0)
        interval_differs("an entry in two forms", from);
    met_again += known[name];
    known[name] = 1;
}

/* Entries of few numbers, in number order and in the other, damaged or not, before and after they are rewritten. */
static void one_entry(void)
{
    static struct trial trial;
    static uint8_t told[TRIAL_BYTES];
    uint64_t from = seed;
    trial_of(&trial, 2, 0, 0);
    memset(&trial.interval, 0, sizeof trial.interval);
    trial.interval.entry = (uint32_t)below(2);
    trial.interval.day_kind = (uint32_t)below(2);
    for (int region = 0; region < 2; region++) {
        trial.interval.marks[region] = (uint8_t)below(2);
        trial.interval.flows[region] = (int32_t)below(2);
        trial.interval.factors[region] = (uint32_t)below(2);
        trial.interval.prices[region] = (int32_t)below(2);
    }
    unsigned order[8];
    any_order(2, below(2) ? UPWARD : SHUFFLED, order);
    trial.at = below(40);
    trial.length = trial.at + SMALL;
    put_interval(&trial, order);
    for (uint64_t changes = below(3); changes > 0; changes--)
        trial.records[trial.at + below(SMALL)] = (uint8_t)below(3);
    note_form(&trial, from);
    if (rewrite_alike(&trial, told, from).number == 0) {
        memcpy(trial.records + trial.at, told, SMALL);
        note_form(&trial, from);
    }
}

void interval_rewrites(int part)
{
    one_in = (uint64_t)part;
    every_order();
    small_intervals();
    every_size();
    for (int i = 0; i < LISTS / part; i++)
        one_list();
    for (int i = 0; i < ENTRIES / part; i++)
        one_entry();
}

void interval_rewrites_counts(void)
{
    printf("; %ld orders, %ld intervals in lists, %ld times an entry met before", orders, listed, met_again);
    if (orders < 25000 / (long)one_in || listed < 2000 / (long)one_in || met_again < (long)(10000 / one_in) - FORMS) {
        printf("\nintervals test: fewer than are wanted\n");
        exit(1);
    }
}
