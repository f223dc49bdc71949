/* Bills to hold against the rules. No expression draws two numbers whose order is the compiler's to choose: a seed makes the same bill
   in every build. */
#include "bill_trials.h"

#include "make.h"
#include "test_books.h"

#include <stdio.h>
#include <stdlib.h>
#include <string.h>

enum { HISTORY = 20, WIDEST = 12 };

static void copy(void *to, const void *from, size_t size, size_t count)
{
    memcpy(to, from, size * count);
}

void trial_copy(struct bill_trial *to, const struct bill_trial *from)
{
    to->book = from->book, to->region = from->region, to->intervals = from->intervals, to->ledger = from->ledger;
    to->ring_length = from->ring_length, to->work_length = from->work_length;
    to->schedule_length = from->schedule_length, to->records_length = from->records_length;
    to->numbers_length = from->numbers_length, to->energy_length = from->energy_length;
    to->prices_length = from->prices_length, to->amounts_length = from->amounts_length;
    copy(to->ring, from->ring, sizeof *to->ring, from->ring_length);
    copy(to->schedule, from->schedule, sizeof *to->schedule, from->schedule_length);
    copy(to->records, from->records, 1, from->records_length);
    copy(to->numbers, from->numbers, sizeof *to->numbers, from->numbers_length);
    copy(to->energy, from->energy, sizeof *to->energy, from->energy_length);
    copy(to->prices, from->prices, sizeof *to->prices, from->prices_length);
    copy(to->amounts, from->amounts, sizeof *to->amounts, from->amounts_length);
}

struct independent_bill bill_of(const struct bill_trial *trial)
{
    struct independent_bill bill = {trial->book, trial->ring, trial->ring_length, trial->work_length, trial->records,
                                    trial->records_length, trial->schedule, trial->schedule_length, trial->region, trial->numbers,
                                    trial->energy, trial->prices, trial->amounts, trial->numbers_length, trial->energy_length,
                                    trial->prices_length, trial->amounts_length};
    return bill;
}

void bill_differs(const char *what, uint64_t from)
{
    printf("bill test: %s, from seed %llu\n", what, (unsigned long long)from);
    exit(1);
}

/* Lengths that are right for the book, and no records and lines. */
static void begin_lengths(struct bill_trial *trial)
{
    static struct independent_interval intervals[BILL_INTERVALS];
    const guxhamole_book *book = &trial->book;
    trial->ring_length = trial->work_length = GUXHAMOLE_RING(book->regions, book->services, book->window);
    trial->schedule_length = GUXHAMOLE_SCHEDULE(book->regions, book->services, book->halves);
    trial->records_length = trial->numbers_length = trial->energy_length = trial->prices_length = trial->amounts_length = 0;
    trial->intervals = intervals;
    trial->region = 0;
}

void trial_begin(struct bill_trial *trial, const guxhamole_settings *settings)
{
    static struct independent_ledger ledger;
    uint8_t image[BLANK_LINKED];
    size_t places = GUXHAMOLE_RING(settings->regions, settings->services, settings->window);
    size_t length = any_blank(settings, image);
    guxhamole_kept kept = settings->threshold % 10000 != 0 ? guxhamole_load(image, length, trial->ring, places)
                                                           : guxhamole_open(*settings, trial->ring, places);
    if (kept.number != 0)
        bill_differs("an opening or a blank image was refused", seed);
    trial->book = kept.book;
    trial->ledger = &ledger;
    independent_ledger_open(&ledger, settings);
    begin_lengths(trial);
    memset(trial->schedule, 0, sizeof *trial->schedule * trial->schedule_length);
}

void trial_add(struct bill_trial *trial, const struct independent_interval *interval)
{
    static const unsigned upward[] = {0, 1, 2, 3, 4, 5, 6, 7};
    trial->records_length += independent_interval_write(independent_shape_of(&trial->book), interval, upward,
                                                        trial->records + trial->records_length);
}

void trial_line(struct bill_trial *trial, uint32_t number, uint32_t energy, int32_t price, int64_t amount)
{
    trial->numbers[trial->numbers_length++] = number;
    trial->energy[trial->energy_length++] = energy;
    trial->prices[trial->prices_length++] = price;
    trial->amounts[trial->amounts_length++] = amount;
}

/* Two in three are such that the amount comes to half a cent, if one of the next twenty does. */
static uint32_t any_energy(int32_t price)
{
    uint32_t energy = (uint32_t)below(below(8) ? 5000 : 1000000001);
    if (below(50) == 0)
        return 1000000000;
    if (below(3) == 0 || energy > 1000000)
        return energy;
    for (uint32_t more = 0; more < 20; more++)
        if ((int64_t)(energy + more) * price % 1000 == (price < 0 ? -500 : 500))
            return energy + more;
    return energy;
}

void trial_bill(struct bill_trial *trial)
{
    static int32_t work[TRIAL_RING];
    static struct independent_ledger made;
    static struct independent_day day;
    struct independent_bill bill = bill_of(trial);
    struct independent_ledger *ledger = trial->ledger;
    if (ledger == NULL) {
        independent_ledger_of(&made, &trial->book, trial->ring);
        ledger = &made;
    }
    memcpy(work, trial->ring, sizeof *work * trial->ring_length);
    independent_play(&bill, ledger, work, &day);
    for (size_t i = 0; i < day.count; i++) {
        uint32_t energy = any_energy(day.prices[i]);
        trial_line(trial, day.numbers[i], energy, day.prices[i], independent_amount(energy, day.prices[i]));
    }
}

/* About the limits, which are 60,000 in most books; services from 0 up. */
static int32_t any_price(unsigned market)
{
    static const int32_t far[] = {-10000000, 10000000, 9999999, -9999999, 60000, -60000, 60001, 59999, 0, -1};
    int64_t price = below(8) ? within(-90000, 120000) : far[below(sizeof far / sizeof *far)];
    if (below(3) == 0)
        price = price / 500 * 500;
    return (int32_t)(market != 0 && price < 0 ? -price : price);
}

/* One that the book takes next; what isn't looked at may be anything. */
static struct independent_interval any_interval_of(const guxhamole_book *book, uint32_t entry)
{
    struct independent_interval interval;
    unsigned markets = book->services + 1u;
    memset(&interval, 0, sizeof interval);
    interval.entry = entry;
    interval.day_kind = (uint32_t)below(2);
    for (unsigned place = 0; place < book->regions * markets; place++)
        interval.prices[place] = any_price(place % markets);
    for (unsigned region = 0; region < book->regions; region++) {
        int64_t flow = within(-1, 1);
        interval.marks[region] = below(7) == 0;
        interval.flows[region] = (int32_t)(flow * (below(3) ? 1 : 2147483647));
        interval.factors[region] = (uint32_t)(below(4) ? within(10000, 20000) : below(2) ? 10000 : 20000);
        if (book->parents[region] == 255 && below(2))
            interval.factors[region] = (uint32_t)next();
        if (interval.marks[region] && below(2))
            interval.prices[region * markets] = (int32_t)next();
    }
    if (independent_has_link(independent_book_link(book))) {
        interval.flows[book->regions] = any_link_flow();
        interval.factors[book->regions] = any_link_factor();
    }
    return interval;
}

static guxhamole_settings any_settings(void)
{
    guxhamole_settings settings;
    memset(&settings, 0, sizeof settings);
    settings.regions = (uint8_t)within(1, below(4) ? 4 : 8);
    settings.services = (uint8_t)(below(5) ? below(3) : 10);
    settings.window = (uint16_t)within(1, below(3) ? 4 : WIDEST);
    settings.halves = (uint8_t)within(1, below(5) ? 2 : 48);
    settings.first = (uint16_t)below(6u * settings.halves);
    memset(settings.parents, 255, sizeof settings.parents);
    for (int region = 1; region < settings.regions; region++)
        if (below(5) != 0)
            settings.parents[region] = (uint8_t)below((uint64_t)region);
    struct independent_link link = below(3) == 0 ? independent_no_link() : any_link(settings.regions, settings.parents);
    settings.from = link.from, settings.to = link.to;
    settings.threshold = 10000 * within(1, 6 * (int64_t)settings.window);
    if (below(5) == 0)
        settings.threshold = threshold_beside(settings.threshold);
    settings.cap = below(3) ? 60000 : (int32_t)within(1, 100000);
    settings.floor = below(3) ? -60000 : (int32_t)within(-100000, -1);
    return settings;
}

/* Enters an interval into the trial's book and ring, and its ledger. */
static void enter(struct bill_trial *trial, const struct independent_interval *interval)
{
    int32_t table[88];
    size_t regions = trial->book.regions, count = GUXHAMOLE_PRICES(trial->book.regions, trial->book.services);
    size_t links = GUXHAMOLE_LINKS(regions, trial->book.from);
    guxhamole_entered entered = guxhamole_enter(trial->book, trial->ring, trial->ring_length, interval->entry,
                                                (uint8_t)interval->day_kind, interval->prices, count, interval->marks, regions,
                                                interval->flows, links, interval->factors, links, trial->schedule,
                                                trial->schedule_length, table, count);
    if (entered.number != 0)
        bill_differs("an entry of the book's history was refused", seed);
    trial->book = entered.book;
    independent_ledger_enter(trial->ledger, interval->prices, interval->marks);
}

static void open_with_history(struct bill_trial *trial)
{
    guxhamole_settings settings = any_settings();
    trial_begin(trial, &settings);
    for (uint64_t entries = below(HISTORY + 1); entries > 0; entries--) {
        struct independent_interval interval = any_interval_of(&trial->book, trial->book.entries);
        enter(trial, &interval);
    }
}

/* A book from an image, now and then about to take its last entry. */
static void load_image(struct bill_trial *trial)
{
    static uint8_t image[IMAGE_HEAD + 4 * 88 * WIDEST];
    size_t length = any_image(WIDEST, image);
    if (below(4) == 0)
        put_number(image, 20, 4, 10000000 - below(4));
    guxhamole_kept kept = guxhamole_load(image, length, trial->ring, GUXHAMOLE_RING(image[6], image[7], image[8]));
    if (kept.number != 0)
        bill_differs("a random image was refused", seed);
    trial->book = kept.book;
    trial->ledger = NULL;
    begin_lengths(trial);
}

/* Others change a sum, so that an entry may bring it beyond its bound, or a counted price, a mark, or the place of the oldest. */
static void forge(struct bill_trial *trial)
{
    guxhamole_book *book = &trial->book;
    unsigned region = (unsigned)below(book->regions), market = (unsigned)below(book->services + 1u);
    unsigned place = 11 * region + market;
    int64_t sum = 20160000000 - (int64_t)below(below(2) ? 30000000 : 100000);
    int32_t *window = trial->ring + (region * (book->services + 1u) + market) * book->window;
    trial->ledger = NULL;
    switch (below(6)) {
    case 0:
        book->marks[place] ^= 1;
        break;
    case 1:
        if (book->counts[region] == book->window)
            book->nexts[region] = (uint16_t)below(book->window);
        break;
    case 2:
        window[below(book->window)] = (int32_t)next();
        break;
    default:
        book->sums[place] = market == 0 && below(3) == 0 ? -sum : sum;
        window[book->nexts[region]] = below(2) ? INT32_MIN : INT32_MAX;
    }
}

static void any_schedule(struct bill_trial *trial)
{
    static const int32_t far[] = {INT32_MIN, INT32_MAX, 60000, -60000, 60001, -60001, 0, -1};
    for (size_t i = 0; i < trial->schedule_length; i++)
        trial->schedule[i] = below(4) ? (int32_t)within(-90000, 90000) : far[below(sizeof far / sizeof *far)];
}

static void any_day(struct bill_trial *trial, size_t count)
{
    for (size_t i = 0; i < count; i++) {
        trial->intervals[i] = any_interval_of(&trial->book, trial->book.entries + (uint32_t)i);
        trial_add(trial, &trial->intervals[i]);
    }
    trial->region = (uint32_t)below(trial->book.regions);
    trial_bill(trial);
}

void any_bill(struct bill_trial *trial)
{
    if (below(6) == 0)
        load_image(trial);
    else
        open_with_history(trial);
    any_schedule(trial);
    if (below(12) == 0)
        forge(trial);
    any_day(trial, below(30) ? below(9) : 9 + below(30));
}

/* Windows that are full, from an image, with a day and an hour to come; sums are about the threshold. */
void real_bill(struct bill_trial *trial)
{
    static uint8_t image[LONGEST];
    struct plan plan = plain();
    static const uint8_t parents[] = {255, 0, 0, 2, 2, 255, 255, 255};
    plan.regions = 5, plan.services = 10, plan.window = 2016, plan.halves = 48, plan.entries = 5000, plan.position = 100;
    plan.threshold = 40000000;
    plan.kind = 2, plan.link = any_link(5, parents);
    memcpy(plan.parents, parents, sizeof parents);
    for (int region = 0; region < 5; region++)
        plan.counts[region] = 2016;
    size_t length = lay_out(&plan, 19900, image);
    trial->book = guxhamole_load(image, length, trial->ring, GUXHAMOLE_RING(5, 10, 2016)).book;
    trial->ledger = NULL;
    begin_lengths(trial);
    any_schedule(trial);
    any_day(trial, 300);
}
