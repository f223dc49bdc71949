/* Changes of a right bill. No expression draws two numbers whose order is the compiler's to choose. */
#include "bill_changes.h"

#include "interval_slices.h"
#include "make.h"

#include <string.h>

static size_t interval_bytes(const struct bill_trial *trial)
{
    return independent_interval_bytes(independent_shape_of(&trial->book));
}

/* A field of a line is one off; of the kilowatt-hours the amount is that of before, which may be right. */
static void nudge_field(struct bill_trial *trial, size_t line)
{
    int up = below(2) != 0;
    switch (below(4)) {
    case 0:
        trial->numbers[line] += up ? 1u : UINT32_MAX;
        break;
    case 1:
        trial->energy[line] += up ? 1u : UINT32_MAX;
        break;
    case 2:
        trial->prices[line] += up ? 1 : -1;
        break;
    default:
        trial->amounts[line] += up ? 1 : -1;
    }
}

/* A field is another number far away; the lowest bits may be right. */
static void replace_field(struct bill_trial *trial, size_t line)
{
    switch (below(3)) {
    case 0:
        trial->numbers[line] += below(2) ? 65536 : (uint32_t)next();
        break;
    case 1:
        trial->prices[line] = (int32_t)next();
        break;
    default:
        trial->amounts[line] = (int64_t)((uint64_t)trial->amounts[line] + (below(2) ? (uint64_t)1 << 32 : next()));
    }
}

/* What the feed brought is billed, where another price was published; the amount follows it. */
static void bill_entry_price(struct bill_trial *trial, size_t line)
{
    size_t markets = trial->book.services + (size_t)1;
    if (line >= BILL_INTERVALS)
        return;
    trial->prices[line] = trial->intervals[line].prices[trial->region % 8 * markets];
    trial->amounts[line] = independent_amount(trial->energy[line], trial->prices[line]);
}

/* Down, up, towards zero, half to even, half up, or not by 1,000. */
static void round_otherwise(struct bill_trial *trial, size_t line)
{
    int64_t product = (int64_t)trial->energy[line] * trial->prices[line], low = product / 1000 - (product % 1000 < 0);
    int64_t rest = product - 1000 * low, *amount = &trial->amounts[line];
    switch (below(6)) {
    case 0:
        *amount = low;
        break;
    case 1:
        *amount = low + (rest > 0);
        break;
    case 2:
        *amount = product / 1000;
        break;
    case 3:
        *amount = low + (rest > 500 || (rest == 500 && low % 2 != 0));
        break;
    case 4:
        *amount = low + (rest >= 500);
        break;
    default:
        *amount = product / 100;
    }
}

/* Kilowatt-hours about the most that a line may have; the amount follows them, or not. */
static void bill_most(struct bill_trial *trial, size_t line)
{
    static const uint32_t most[] = {1000000000, 1000000000, 1000000001, 1000000001, 4294967295u, 2147483648u};
    trial->energy[line] = most[below(sizeof most / sizeof *most)];
    if (below(4) != 0)
        trial->amounts[line] = independent_amount(trial->energy[line], trial->prices[line]);
}

static void exchange_lines(struct bill_trial *trial, size_t one, size_t other)
{
    struct bill_trial *t = trial;
    uint32_t number = t->numbers[one], energy = t->energy[one];
    int32_t price = t->prices[one];
    int64_t amount = t->amounts[one];
    t->numbers[one] = t->numbers[other], t->energy[one] = t->energy[other];
    t->prices[one] = t->prices[other], t->amounts[one] = t->amounts[other];
    t->numbers[other] = number, t->energy[other] = energy, t->prices[other] = price, t->amounts[other] = amount;
}

static void drop_line(struct bill_trial *trial, size_t line)
{
    for (; line + 1 < trial->numbers_length; line++)
        exchange_lines(trial, line, line + 1);
    trial->numbers_length--, trial->energy_length--, trial->prices_length--, trial->amounts_length--;
}

/* One more at the end, or within; as the last one is, with the next number, or any. */
static void add_line(struct bill_trial *trial)
{
    size_t last = trial->numbers_length;
    uint32_t number = trial->book.entries + (uint32_t)last, energy = (uint32_t)below(1000);
    if (last + 1 >= TRIAL_LINES)
        return;
    int32_t price = last == 0 || below(2) ? (int32_t)within(-1000, 1000) : trial->prices[last - 1];
    trial_line(trial, number, energy, price, independent_amount(energy, price));
    if (below(3) == 0)
        for (size_t to = below(last + 1); last > to; last--)
            exchange_lines(trial, last, last - 1);
}

static void change_lines(struct bill_trial *trial)
{
    size_t count = trial->numbers_length;
    if (count == 0 || below(8) == 0) {
        add_line(trial);
        return;
    }
    size_t line = below(count), other = below(count);
    switch (below(8)) {
    case 0:
        nudge_field(trial, line);
        break;
    case 1:
        nudge_field(trial, line);
        break;
    case 2:
        replace_field(trial, line);
        break;
    case 3:
        bill_entry_price(trial, line);
        break;
    case 4:
        round_otherwise(trial, line);
        break;
    case 5:
        bill_most(trial, line);
        break;
    case 6:
        exchange_lines(trial, line, other);
        break;
    default:
        drop_line(trial, below(2) ? line : count - 1);
    }
}

/* The place of a record of interval `i`: 0 is the head. */
static uint8_t *record(struct bill_trial *trial, size_t i, size_t number)
{
    size_t within_interval = number == 0 ? 0 : 12 + (number - 1) * (16 + 4 * (trial->book.services + (size_t)1));
    return trial->records + i * interval_bytes(trial) + within_interval;
}

/* A whole record with which the reader is content, and not the entry: 13 to 17. */
static void change_entry(struct bill_trial *trial, size_t i)
{
    static const uint32_t out[] = {10000001, (uint32_t)-10000001, 0x80000000, 0x7fffffff, (uint32_t)-1};
    static const uint32_t factors[] = {9999, 20001, 0, UINT32_MAX};
    uint8_t *head = record(trial, i, 0), *region = record(trial, i, 1 + below(trial->book.regions));
    uint32_t factor = factors[below(sizeof factors / sizeof *factors)];
    switch (below(7)) {
    case 0:
        put_number(head, 6, 4, below(2) ? trial->book.entries : next());
        break;
    case 1:
        head[10] = (uint8_t)(2 + below(254));
        break;
    case 2:
        region[7] = (uint8_t)(below(2) ? 2 : below(256));
        break;
    case 3:
    case 4:
        if (trial->book.from != GUXHAMOLE_NONE && below(3) == 0)
            put_number(record(trial, i, trial->book.regions + 1u), 10, 4, factor);
        else
            put_number(region, 12, 4, factor);
        break;
    default:
        put_number(region, 16 + 4 * below(trial->book.services + 1u), 4, out[below(sizeof out / sizeof *out)]);
    }
}

/* A record that is none, of another kind, or of another region: 40, 41, 45. */
static void change_record(struct bill_trial *trial, size_t i)
{
    static const uint8_t numbers[] = {0, 1, 5, 6, 7, 11, 12, 13, 14, 15, 16, 17, 18, 20, 255};
    size_t last = GUXHAMOLE_LINKS(trial->book.regions, trial->book.from);
    uint8_t *any = record(trial, i, below(2) ? last : below(1 + last)), *region = record(trial, i, 1 + below(trial->book.regions));
    uint8_t number = numbers[below(sizeof numbers)];
    switch (below(5)) {
    case 0:
        any[0] = number;
        break;
    case 1:
        any[4] = number;
        break;
    case 2:
        record(trial, i, 0)[11] = number;
        break;
    default:
        region[6] = number;
    }
}

/* An interval stands twice, or not at all. */
static void repeat_interval(struct bill_trial *trial, size_t i)
{
    size_t size = interval_bytes(trial), from = i * size, rest = trial->records_length - from;
    if (below(2) && trial->records_length + size <= TRIAL_RECORDS) {
        memmove(trial->records + from + size, trial->records + from, rest);
        trial->records_length += size;
    } else {
        memmove(trial->records + from, trial->records + from + size, rest - size);
        trial->records_length -= size;
    }
}

/* Bytes behind the last interval. */
static void add_bytes(struct bill_trial *trial)
{
    for (uint64_t more = 1 + below(40); more > 0 && trial->records_length < TRIAL_RECORDS; more--)
        trial->records[trial->records_length++] = (uint8_t)(below(3) ? below(20) : next());
}

static void change_records(struct bill_trial *trial)
{
    size_t size = interval_bytes(trial), count = trial->records_length / size;
    if (trial->records_length != count * size || count == 0 || below(8) == 0) { /* changed before, or empty */
        add_bytes(trial);
        return;
    }
    size_t i = below(count);
    switch (below(8)) {
    case 0:
        trial->records_length -= 1 + below(size);
        break;
    case 1:
        repeat_interval(trial, i);
        break;
    case 2:
    case 3:
        change_record(trial, i);
        break;
    default:
        change_entry(trial, i);
    }
}

static void change_length(struct bill_trial *trial)
{
    size_t *lengths[] = {&trial->ring_length, &trial->work_length, &trial->schedule_length, &trial->numbers_length,
                         &trial->energy_length, &trial->prices_length, &trial->amounts_length};
    size_t *length = lengths[below(7)];
    *length = below(2) || *length == 0 ? *length + 1 : below(2) ? *length - 1 : below(*length);
}

/* One past, far past, or right but for a bit above the eighth or the sixteenth. */
static void change_region(struct bill_trial *trial)
{
    static const uint32_t more[] = {256, 65536, 0x80000000};
    if (below(3))
        trial->region = trial->book.regions + (uint32_t)below(below(2) ? 1 : 20);
    else
        trial->region += more[below(sizeof more / sizeof *more)];
}

static void change_book(struct bill_trial *trial)
{
    trial->ledger = NULL;
    if (below(4) == 0)
        memset(&trial->book, 0, sizeof trial->book);
    else
        damage_book(&trial->book);
}

/* Lines are changed while their lengths are equal, and records while the book has their size. */
void change_bill(struct bill_trial *trial)
{
    for (uint64_t changes = below(8) ? 1 + below(3) : 0; changes > 0; changes--)
        if (below(10) < 3)
            change_records(trial);
        else
            change_lines(trial);
    if (below(9) == 0)
        change_length(trial);
    if (below(20) == 0)
        change_region(trial);
    if (below(20) == 0)
        change_book(trial);
}
