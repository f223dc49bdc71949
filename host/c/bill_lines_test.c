/* Holds the box's reading of a bill's text (box_bill_lines.h) to a regular expression and the C library's numbers: random bills in every
   form, and with a byte changed, left out or put in; and totals of amounts worked out by hand, also beyond 64 bits. All from a fixed seed.
   Exit status 1 with the text at the first difference. */
#define _POSIX_C_SOURCE 200809L

#include "box_bill_lines.h"
#include "independent.h"
#include "make.h"

#include <errno.h>
#include <regex.h>
#include <stdio.h>
#include <stdlib.h>
#include <string.h>

enum { BILLS = 8000, LINES = 4, ROOM = 1000 };

static char text[ROOM];
static size_t length;
static long good, bad;
static regex_t form, names;

static void differs(const char *what)
{
    printf("bill lines test: %s:\n%.*s\n", what, (int)length, text);
    exit(1);
}

/* A number of at most so many bits. No expression draws two numbers whose order is the compiler's to choose. */
static uint64_t any_bits(uint64_t most)
{
    uint64_t bits = 1 + below(most);
    return next() >> (64 - bits);
}

static int64_t any_cents(uint64_t most_bits)
{
    int64_t cents = (int64_t)any_bits(most_bits);
    return below(2) ? cents : -cents;
}

/* Bytes after those that are there. */
static void add(const char *more)
{
    length += (size_t)snprintf(text + length, ROOM - length, "%s", more);
}

static void any_text(void)
{
    static const char *const ends[] = {"\n", "\r\n"};
    char price[30], amount[30], line[100];
    length = 0;
    if (below(2))
        add("number,kilowatt-hours,price,amount"), add(ends[below(2)]);
    for (uint64_t lines = below(LINES); lines > 0; lines--) {
        unsigned number = (unsigned)any_bits(32), energy = (unsigned)any_bits(32);
        independent_text(any_cents(below(8) ? 31 : 33), price);
        independent_text(any_cents(63), amount);
        snprintf(line, sizeof line, "%u,%u,%s,%s%s", number, energy, price, amount, lines == 1 && below(3) == 0 ? "" : ends[below(2)]);
        add(line);
    }
}

static void damage_text(void)
{
    static const char bytes[] = "0123456789,.-+\r\n \"e\0n9";
    size_t at = below(length + 1);
    char byte = bytes[below(sizeof bytes - 1)];
    if (below(3) != 0 && at < length) {
        text[at] = byte;
    } else if (below(2)) {
        memmove(text + at + 1, text + at, length - at);
        text[at] = byte;
        length++;
    } else if (at < length) {
        memmove(text + at, text + at + 1, length - at - 1);
        length--;
    }
}

/* A number of cents with a point two digits before its end; 0 where it is beyond its type. */
static int cents_of(const char *from, size_t size, int64_t least, int64_t most, int64_t *cents)
{
    char digits[ROOM];
    snprintf(digits, sizeof digits, "%.*s%.2s", (int)size - 3, from, from + size - 2);
    errno = 0;
    long long number = strtoll(digits, NULL, 10);
    *cents = number;
    return errno == 0 && number >= least && number <= most;
}

static int natural_of(const char *from, uint32_t *natural)
{
    errno = 0;
    unsigned long long number = strtoull(from, NULL, 10);
    *natural = (uint32_t)number;
    return errno == 0 && number <= UINT32_MAX;
}

/* Whether the text of a line is one, and what it says. */
static int line_of(const char *line, uint32_t *number, uint32_t *energy, int64_t *price, int64_t *amount)
{
    regmatch_t fields[5];
    if (regexec(&form, line, 5, fields, 0) != 0)
        return 0;
    return natural_of(line + fields[1].rm_so, number) && natural_of(line + fields[2].rm_so, energy) &&
           cents_of(line + fields[3].rm_so, (size_t)(fields[3].rm_eo - fields[3].rm_so), INT32_MIN, INT32_MAX, price) &&
           cents_of(line + fields[4].rm_so, (size_t)(fields[4].rm_eo - fields[4].rm_so), INT64_MIN, INT64_MAX, amount);
}

/* The line at a place, without its end, into `line`; answers the place after it. */
static size_t line_at(size_t at, char *line, size_t *size)
{
    const char *end = (const char *)memchr(text + at, '\n', length - at);
    size_t after = end == NULL ? length : (size_t)(end - text);
    *size = after - at;
    if (end != NULL && *size > 0 && text[after - 1] == '\r')
        --*size;
    memcpy(line, text + at, *size);
    line[*size] = 0;
    return after + 1;
}

/* Compares the lines one after the other; answers the number of the bad one, or 0. A zero byte is in no line. */
static size_t compare(const struct bill_lines *lines, int parsed)
{
    char line[ROOM];
    size_t number = 0, kept = 0, size;
    for (size_t at = 0; at < length; number++) {
        uint32_t natural, energy;
        int64_t price, amount;
        at = line_at(at, line, &size);
        if (number == 0 && strlen(line) == size && regexec(&names, line, 0, NULL, 0) == 0)
            continue;
        if (strlen(line) != size || !line_of(line, &natural, &energy, &price, &amount))
            return number + 1;
        if (parsed && (lines->numbers[kept] != natural || lines->energy[kept] != energy || lines->prices[kept] != price ||
                       lines->amounts[kept] != amount || bill_file_line(lines, kept) != number + 1))
            differs("a line's numbers");
        kept++;
    }
    if (parsed && kept != lines->count)
        differs("the number of lines");
    return 0;
}

static void text_alike(void)
{
    struct bill_lines lines;
    char why[BILL_TEXT] = "";
    size_t line, want;
    uint8_t *lent = (uint8_t *)malloc(length + 1);
    memcpy(lent, text, length);
    int parsed = bill_parsed(lent, length, &lines, &line, why);
    want = compare(&lines, parsed);
    if (parsed != (want == 0) || (!parsed && (line != want || why[0] == 0)))
        differs("another line is bad");
    if (parsed)
        bill_free(&lines);
    free(lent);
    good += parsed;
    bad += !parsed;
}

static void totals(void)
{
    static const struct {
        size_t count;
        int64_t amounts[4];
        const char *text;
    } cases[] = {{0, {0}, "0.00"}, {1, {-5}, "-0.05"}, {2, {-5, 5}, "0.00"}, {2, {99999999, 1}, "1000000.00"},
                 {2, {-99999999, -1}, "-1000000.00"}, {2, {100000000, -1}, "999999.99"}, {2, {-100000000, 1}, "-999999.99"},
                 {1, {INT64_MAX}, "92233720368547758.07"}, {1, {INT64_MIN}, "-92233720368547758.08"},
                 {2, {INT64_MAX, 1}, "92233720368547758.08"}, {2, {INT64_MIN, -1}, "-92233720368547758.09"},
                 {2, {INT64_MAX, INT64_MAX}, "184467440737095516.14"}, {2, {INT64_MIN, INT64_MIN}, "-184467440737095516.16"},
                 {4, {INT64_MAX, INT64_MAX, INT64_MIN, INT64_MIN}, "-0.02"}, {3, {INT64_MAX, INT64_MAX, -7}, "184467440737095516.07"},
                 {3, {INT64_MIN, INT64_MIN, 8}, "-184467440737095516.08"}, {3, {INT64_MAX, -100000000, 1}, "92233720367547758.08"},
                 {3, {INT64_MAX, 145224194, -1}, "92233720370000000.00"}, {2, {INT64_MAX, 145224193}, "92233720370000000.00"}};
    char told[BILL_TEXT];
    for (size_t i = 0; i < sizeof cases / sizeof *cases; i++) {
        bill_total(cases[i].amounts, cases[i].count, told);
        if (strcmp(told, cases[i].text) != 0) {
            printf("bill lines test: a total of %s is told as %s\n", cases[i].text, told);
            exit(1);
        }
    }
}

int main(void)
{
    if (regcomp(&form, "^([0-9]+),([0-9]+),(-?[0-9]+[.][0-9][0-9]),(-?[0-9]+[.][0-9][0-9])$", REG_EXTENDED) != 0 ||
        regcomp(&names, "^number,kilowatt-hours,price,amount$", REG_EXTENDED | REG_NOSUB) != 0)
        return 1;
    for (int i = 0; i < BILLS; i++) {
        any_text();
        text_alike();
        for (uint64_t damages = 1 + below(2); damages > 0; damages--)
            damage_text();
        text_alike();
    }
    totals();
    regfree(&form);
    regfree(&names);
    printf("bills read %ld, with a bad line %ld\n", good, bad);
    return good < BILLS || bad < BILLS / 2;
}
