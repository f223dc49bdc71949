/* A retailer's bill held against the rules, by the request's words. */
#include "independent_bill.h"

#include "independent_book.h"
#include "independent_entry.h"

#include <string.h>

int64_t independent_amount(uint32_t energy, int32_t price)
{
    return independent_rounded((int64_t)energy * price, 1000);
}

/* What the book says of itself, as if by an opening so many entries ago. */
static void open_as(struct independent_ledger *ledger, const guxhamole_book *book)
{
    guxhamole_settings settings;
    unsigned day = 6u * book->halves;
    memset(&settings, 0, sizeof settings);
    settings.regions = book->regions, settings.services = book->services;
    settings.window = book->window, settings.halves = book->halves;
    settings.first = (uint16_t)((book->position + day - book->entries % day) % day);
    memcpy(settings.parents, book->parents, sizeof settings.parents);
    settings.from = book->from, settings.to = book->to;
    settings.threshold = book->threshold, settings.cap = book->cap, settings.floor = book->floor;
    independent_ledger_open(ledger, &settings);
    ledger->entries = book->entries;
}

void independent_ledger_of(struct independent_ledger *ledger, const guxhamole_book *book, const int32_t *ring)
{
    open_as(ledger, book);
    for (unsigned region = 0; region < book->regions; region++)
        for (unsigned market = 0; market <= book->services; market++) {
            unsigned place = 11 * region + market;
            size_t count = independent_counted(book, ring, region, market, ledger->prices[place]);
            ledger->counts[region] = count;
            ledger->beside[place] = book->sums[place] - independent_sum(ledger->prices[place], count, count);
            ledger->triggered[place] = book->marks[place];
        }
}

/* 10 in mid-way: of what an accepted entry makes of a book, sums alone can be beyond their bounds. */
static int sums_bad(const struct independent_ledger *ledger)
{
    int bad = 0;
    for (unsigned region = 0; region < ledger->settings.regions; region++)
        for (unsigned market = 0; market <= ledger->settings.services; market++)
            bad |= independent_sum_bad(independent_ledger_report(ledger, region, market).sum);
    return bad;
}

/* Step 5 in the ring: an unmarked region's prices take its next place, whatever was there. */
static void put_prices(const guxhamole_book *book, const struct independent_interval *interval, size_t *nexts, int32_t *work)
{
    size_t markets = book->services + (size_t)1;
    for (size_t region = 0; region < book->regions; region++) {
        if (interval->marks[region] == 1)
            continue;
        for (size_t market = 0; market < markets; market++)
            work[(region * markets + market) * book->window + nexts[region]] = interval->prices[region * markets + market];
        nexts[region] = (nexts[region] + 1) % book->window;
    }
}

/* Plays the interval at a place; answers its refusal, or 0 with the place after it. */
static struct independent_refusal play_one(const struct independent_bill *bill, struct independent_ledger *ledger, size_t *at,
                                           struct independent_interval *interval)
{
    struct independent_shape shape = independent_shape_of(&bill->book);
    struct independent_refusal refusal = {0, 0};
    size_t after = 0;
    if (sums_bad(ledger))
        refusal.number = 10;
    else
        refusal.number = independent_interval_read(shape, bill->records, bill->records_length, *at, interval, &after);
    if (refusal.number == 0)
        refusal = independent_entry_refusal(ledger, interval);
    if (refusal.number == 0)
        *at = after;
    return refusal;
}

static void play_all(const struct independent_bill *bill, struct independent_ledger *ledger, int32_t *work, struct independent_day *day)
{
    struct independent_interval interval;
    size_t nexts[8], at = 0;
    int32_t table[88];
    for (int region = 0; region < 8; region++)
        nexts[region] = bill->book.nexts[region];
    day->number = 0, day->place = 0, day->count = 0;
    while (at < bill->records_length) {
        struct independent_refusal refusal = play_one(bill, ledger, &at, &interval);
        if (refusal.number != 0) {
            day->number = refusal.number;
            day->place = refusal.place;
            return;
        }
        independent_entry_publish(ledger, &interval, bill->schedule, table);
        day->numbers[day->count] = interval.entry;
        day->prices[day->count] = table[bill->region * (bill->book.services + 1u)];
        day->count++;
        put_prices(&bill->book, &interval, nexts, work);
        independent_ledger_enter(ledger, interval.prices, interval.marks);
    }
}

/* What was played is taken back: prices beyond the counts are not kept. */
void independent_play(const struct independent_bill *bill, struct independent_ledger *ledger, int32_t *work, struct independent_day *day)
{
    uint32_t entries = ledger->entries, triggered[88], released[88];
    size_t counts[8];
    memcpy(triggered, ledger->triggered, sizeof triggered);
    memcpy(released, ledger->released, sizeof released);
    memcpy(counts, ledger->counts, sizeof counts);
    play_all(bill, ledger, work, day);
    ledger->entries = entries;
    memcpy(ledger->triggered, triggered, sizeof triggered);
    memcpy(ledger->released, released, sizeof released);
    memcpy(ledger->counts, counts, sizeof counts);
}

/* 10, 11 and 21, before the first interval. */
static uint32_t first_refusal(const struct independent_bill *bill)
{
    const guxhamole_book *book = &bill->book;
    size_t places = book->regions * (book->services + (size_t)1), lines = bill->numbers_length;
    if (independent_book_bad(book))
        return 10;
    if (bill->ring_length != places * book->window || bill->work_length != bill->ring_length)
        return 11;
    if (bill->schedule_length != places * 2 * book->halves)
        return 11;
    if (bill->energy_length != lines || bill->prices_length != lines || bill->amounts_length != lines)
        return 11;
    return bill->region >= book->regions ? 21 : 0;
}

/* What is wrong with a line first, or 3. */
static int wrong_field(const struct independent_bill *bill, const struct independent_day *day, size_t line)
{
    if (bill->numbers[line] != day->numbers[line])
        return 0;
    if (bill->prices[line] != day->prices[line])
        return 1;
    return bill->amounts[line] != independent_amount(bill->energy[line], day->prices[line]) ? 2 : 3;
}

static int both_there(const struct independent_bill *bill, const struct independent_day *day, size_t line)
{
    return line < day->count && line < bill->numbers_length;
}

/* The first line above 1,000,000,000 kilowatt-hours, or their number. */
static size_t first_above(const struct independent_bill *bill)
{
    size_t line = 0;
    while (line < bill->energy_length && bill->energy[line] <= 1000000000)
        line++;
    return line;
}

/* The first wrong line, or, where none is, the number of lines. */
static size_t first_wrong(const struct independent_bill *bill, const struct independent_day *day)
{
    size_t line = 0, most = day->count > bill->numbers_length ? day->count : bill->numbers_length;
    while (line < most && both_there(bill, day, line) && wrong_field(bill, day, line) == 3)
        line++;
    return line;
}

/* From the day and the lines. */
static void judge(struct independent_billed *billed, const struct independent_bill *bill, const struct independent_day *day)
{
    size_t above = first_above(bill), wrong = first_wrong(bill, day);
    billed->accepted = day->count;
    billed->above = above < bill->energy_length;
    billed->wrong = wrong < day->count || wrong < bill->numbers_length;
    if (both_there(bill, day, wrong))
        billed->field = wrong_field(bill, day, wrong);
    if (day->number != 0) {
        billed->number = day->number;
        billed->place = day->place;
    } else if (billed->above) {
        billed->number = 46;
        billed->place = above;
    } else if (billed->wrong) {
        billed->line = wrong;
    } else {
        billed->right = 1;
    }
}

struct independent_billed independent_billed_of(const struct independent_bill *bill, struct independent_ledger *ledger, int32_t *work)
{
    static struct independent_ledger made;
    static struct independent_day day;
    struct independent_billed billed;
    memset(&billed, 0, sizeof billed);
    billed.number = first_refusal(bill);
    if (billed.number != 0)
        return billed;
    if (ledger == NULL) {
        independent_ledger_of(&made, &bill->book, bill->ring);
        ledger = &made;
    }
    if (bill->ring_length > 0)
        memcpy(work, bill->ring, sizeof *work * bill->ring_length);
    billed.played = 1;
    independent_play(bill, ledger, work, &day);
    judge(&billed, bill, &day);
    return billed;
}
