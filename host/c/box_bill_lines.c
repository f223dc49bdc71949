/* A retailer's bill as text, tested to the last byte: what is not exactly a line of box_bill_lines.h is bad. */
#include "box_bill_lines.h"

#include "guxhamole.h"

#include <inttypes.h>
#include <stdio.h>
#include <stdlib.h>
#include <string.h>

enum { FIELDS = 4 };

static const char head[] = "number,kilowatt-hours,price,amount";

/* Bytes of the bill, from one place up to another. */
struct part {
    const uint8_t *at, *end;
};

static size_t size(struct part part)
{
    return (size_t)(part.end - part.at);
}

/* Takes the part up to a byte, which is passed over, or all that is left where there is no such byte; answers whether there is. */
static int up_to(struct part *left, uint8_t byte, struct part *part)
{
    const uint8_t *found = size(*left) == 0 ? NULL : (const uint8_t *)memchr(left->at, byte, size(*left));
    part->at = left->at;
    part->end = found == NULL ? left->end : found;
    left->at = found == NULL ? left->end : found + 1;
    return found != NULL;
}

/* The next line without its end. */
static struct part next_line(struct part *left)
{
    struct part line;
    if (up_to(left, '\n', &line) && size(line) > 0 && line.end[-1] == '\r')
        line.end--;
    return line;
}

static int all_digits(struct part part)
{
    int digits = size(part) > 0;
    for (; part.at != part.end; part.at++)
        digits &= *part.at >= '0' && *part.at <= '9';
    return digits;
}

/* The number of these digits; answers 0 where it is above `most`. */
static int number_of(struct part part, uint64_t most, uint64_t *number)
{
    for (*number = 0; part.at != part.end; part.at++) {
        uint64_t digit = (uint64_t)(*part.at - '0');
        if (digit > most || *number > (most - digit) / 10)
            return 0;
        *number = 10 * *number + digit;
    }
    return 1;
}

static const char out_of_range[] = "is out of its range";

/* A whole number of 32 bits; answers what is wrong with it, or null. */
static const char *whole(struct part part, uint32_t *number)
{
    uint64_t found;
    if (!all_digits(part))
        return "is no whole number";
    if (!number_of(part, UINT32_MAX, &found))
        return out_of_range;
    *number = (uint32_t)found;
    return NULL;
}

/* Dollars with two decimals as cents, between `least`, which is below 0, and `most`; answers what is wrong with them, or null. */
static const char *dollars(struct part part, int64_t least, int64_t most, int64_t *cents)
{
    struct part before;
    uint64_t full, rest, bound = (uint64_t)most;
    int minus = size(part) > 0 && *part.at == '-';
    if (minus) {
        part.at++;
        bound = 0 - (uint64_t)least;
    }
    if (!up_to(&part, '.', &before) || !all_digits(before) || !all_digits(part) || size(part) != 2)
        return "is no number of dollars with two decimals";
    if (!number_of(part, 99, &rest) || !number_of(before, bound / 100, &full) || 100 * full + rest > bound)
        return out_of_range;
    *cents = (int64_t)(minus ? 0 - (100 * full + rest) : 100 * full + rest);
    return NULL;
}

/* A field of the next line to be kept; answers what is wrong with it, or null. */
static const char *field(struct bill_lines *lines, int number, struct part part)
{
    int64_t cents = 0;
    const char *wrong;
    switch (number) {
    case 0:
        return whole(part, &lines->numbers[lines->count]);
    case 1:
        return whole(part, &lines->energy[lines->count]);
    case 2:
        wrong = dollars(part, INT32_MIN, INT32_MAX, &cents);
        lines->prices[lines->count] = (int32_t)cents;
        return wrong;
    default:
        return dollars(part, INT64_MIN, INT64_MAX, &lines->amounts[lines->count]);
    }
}

/* Takes a line; answers 0 where it is bad, with the reason. */
static int take_line(struct bill_lines *lines, struct part line, char *why)
{
    static const char *const names[FIELDS] = {"number", "kilowatt-hours", "price", "amount"};
    int commas = 0;
    for (const uint8_t *at = line.at; at != line.end; at++)
        commas += *at == ',' && commas < FIELDS;
    if (commas != FIELDS - 1) {
        snprintf(why, BILL_TEXT, "it has too %s fields", commas < FIELDS - 1 ? "few" : "many");
        return 0;
    }
    for (int i = 0; i < FIELDS; i++) {
        struct part part;
        up_to(&line, ',', &part);
        const char *wrong = field(lines, i, part);
        if (wrong != NULL) {
            snprintf(why, BILL_TEXT, "its %s field %s", names[i], wrong);
            return 0;
        }
    }
    lines->count++;
    return 1;
}

/* Room for a line each byte 10, and for one more. No part of it is null, also where there is no line. */
static int make_room(struct bill_lines *lines, struct part text)
{
    size_t room = 1;
    for (; text.at != text.end; text.at++)
        room += *text.at == '\n';
    memset(lines, 0, sizeof *lines);
    lines->numbers = (uint32_t *)calloc(room, sizeof *lines->numbers);
    lines->energy = (uint32_t *)calloc(room, sizeof *lines->energy);
    lines->prices = (int32_t *)calloc(room, sizeof *lines->prices);
    lines->amounts = (int64_t *)calloc(room, sizeof *lines->amounts);
    return lines->numbers != NULL && lines->energy != NULL && lines->prices != NULL && lines->amounts != NULL;
}

int bill_parsed(const uint8_t *text, size_t length, struct bill_lines *lines, size_t *bad, char *why)
{
    struct part left = {text, text + length};
    *bad = 0;
    if (!make_room(lines, left)) {
        bill_free(lines);
        snprintf(why, BILL_TEXT, "there is no memory for its lines");
        return 0;
    }
    while (left.at != left.end) {
        struct part line = next_line(&left);
        ++*bad;
        if (*bad == 1 && size(line) == sizeof head - 1 && memcmp(line.at, head, size(line)) == 0) {
            lines->headed = 1;
        } else if (!take_line(lines, line, why)) {
            bill_free(lines);
            return 0;
        }
    }
    return 1;
}

void bill_free(struct bill_lines *lines)
{
    free(lines->numbers);
    free(lines->energy);
    free(lines->prices);
    free(lines->amounts);
    memset(lines, 0, sizeof *lines);
}

size_t bill_file_line(const struct bill_lines *lines, size_t line)
{
    return line + 1 + (size_t)lines->headed;
}

/* Kept as millions of dollars, and cents below that: neither leaves 64 bits in any number of lines that memory holds. */
void bill_total(const int64_t *amounts, size_t count, char *text)
{
    static const int64_t million = 100000000, most = INT64_MAX / 100000000;
    int64_t millions = 0, cents = 0;
    uint8_t amount[GUXHAMOLE_TEXT_MAX];
    for (size_t i = 0; i < count; i++) {
        cents += amounts[i] % million;
        millions += amounts[i] / million + cents / million;
        cents %= million;
    }
    if (millions > -most && millions < most) {
        int length = (int)guxhamole_amount_text(millions * million + cents, amount, sizeof amount);
        snprintf(text, BILL_TEXT, "%.*s", length, (const char *)amount);
        return;
    }
    if (millions > 0 && cents < 0) /* both parts of one sign */
        millions--, cents += million;
    if (millions < 0 && cents > 0)
        millions++, cents -= million;
    cents = cents < 0 ? -cents : cents;
    snprintf(text, BILL_TEXT, "%" PRId64 "%06" PRId64 ".%02" PRId64, millions, cents / 100, cents % 100);
}
