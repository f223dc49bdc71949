/* The lines that a box reads, tested to the last character: what is not exactly a line of box_lines.h is bad. */
#include "box_lines.h"

#include <string.h>

int line_read(FILE *input, char *text, const char **wrong)
{
    size_t length = 0;
    int zero = 0, byte = getc(input);
    if (byte == EOF)
        return 0;
    for (; byte != EOF && byte != '\n'; byte = getc(input)) {
        zero |= byte == 0;
        if (length < LINE_MOST)
            text[length] = (char)byte;
        length++;
    }
    text[length <= LINE_MOST ? length : 0] = 0;
    *wrong = NULL;
    if (byte == EOF)
        *wrong = "it has no end, and may be cut short";
    else if (length > LINE_MOST)
        *wrong = "it is too long";
    else if (zero)
        *wrong = "it has a zero byte";
    return 1;
}

/* Where a line is read, and the first thing that is wrong with it, or null. */
struct cursor {
    const char *at, *wrong;
};

static void skip_blanks(struct cursor *cursor)
{
    while (*cursor->at == ' ')
        cursor->at++;
}

/* Digits up to the next blank or the end, of at most `most`. */
static uint64_t digits(struct cursor *cursor, uint64_t most)
{
    uint64_t size = 0;
    const char *from = cursor->at;
    for (; *cursor->at >= '0' && *cursor->at <= '9'; cursor->at++) {
        uint64_t digit = (uint64_t)(*cursor->at - '0');
        if (digit > most || size > (most - digit) / 10) {
            cursor->wrong = "a number is out of its range";
            return 0;
        }
        size = 10 * size + digit;
    }
    if (cursor->at == from || (*cursor->at != ' ' && *cursor->at != 0))
        cursor->wrong = "a number has something else in it";
    return size;
}

/* The number that begins here, between `least`, which is not above 0, and `most`. */
static int64_t number_here(struct cursor *cursor, int64_t least, int64_t most)
{
    if (*cursor->at != '-')
        return (int64_t)digits(cursor, (uint64_t)most);
    cursor->at++;
    return (int64_t)(0 - digits(cursor, 0 - (uint64_t)least));
}

int number_parsed(const char *text, int64_t least, int64_t most, int64_t *number)
{
    struct cursor cursor = {text, NULL};
    *number = number_here(&cursor, least, most);
    return cursor.wrong == NULL && *cursor.at == 0;
}

/* The next number of a line. */
static int64_t number(struct cursor *cursor, int64_t least, int64_t most)
{
    if (cursor->wrong != NULL)
        return 0;
    skip_blanks(cursor);
    if (*cursor->at == 0) {
        cursor->wrong = "it has too few numbers";
        return 0;
    }
    return number_here(cursor, least, most);
}

static uint8_t small(struct cursor *cursor)
{
    return (uint8_t)number(cursor, 0, UINT8_MAX);
}

static uint32_t natural(struct cursor *cursor)
{
    return (uint32_t)number(cursor, 0, UINT32_MAX);
}

static int32_t cents(struct cursor *cursor)
{
    return (int32_t)number(cursor, INT32_MIN, INT32_MAX);
}

static void all_cents(struct cursor *cursor, int32_t *numbers, int count)
{
    for (int i = 0; i < count; i++)
        numbers[i] = cents(cursor);
}

static void interval(struct cursor *cursor, struct line *line)
{
    line->number = natural(cursor);
    line->kind = small(cursor);
    all_cents(cursor, line->prices, PRICES);
    for (int region = 0; region < REGIONS; region++)
        line->marks[region] = small(cursor);
    all_cents(cursor, line->flows, LINKS);
    for (int place = 0; place < LINKS; place++)
        line->factors[place] = natural(cursor);
}

static void records(struct cursor *cursor, struct line *line)
{
    line->place = (size_t)number(cursor, 0, INT64_MAX);
    skip_blanks(cursor);
    line->path = cursor->at;
    if (cursor->wrong == NULL && *cursor->at == 0)
        cursor->wrong = "it names no file";
    cursor->at += strlen(cursor->at);
}

static void schedule(struct cursor *cursor, struct line *line)
{
    line->region = natural(cursor);
    line->market = natural(cursor);
    line->kind = small(cursor);
    all_cents(cursor, line->row, HALVES);
    if (cursor->wrong == NULL && (line->region >= REGIONS || line->market >= MARKETS || line->kind >= KINDS))
        cursor->wrong = "there is no such row";
}

static void numbers(struct cursor *cursor, struct line *line)
{
    switch (line->word) {
    case LINE_INTERVAL:
        interval(cursor, line);
        break;
    case LINE_RECORDS:
        records(cursor, line);
        break;
    case LINE_SCHEDULE:
        schedule(cursor, line);
        break;
    case LINE_REPORT:
        line->region = natural(cursor);
        line->market = natural(cursor);
        break;
    case LINE_LEFT:
        line->region = natural(cursor);
        line->market = natural(cursor);
        line->price = cents(cursor);
        break;
    case LINE_THRESHOLD:
        line->threshold = number(cursor, INT64_MIN, INT64_MAX);
        break;
    case LINE_LIMITS:
        line->cap = cents(cursor);
        line->floor = cents(cursor);
        break;
    case LINE_SAVE:
        break;
    }
}

const char *line_parsed(const char *text, struct line *line)
{
    static const struct {
        const char *name;
        enum line_word word;
    } words[] = {{"interval", LINE_INTERVAL}, {"records", LINE_RECORDS}, {"schedule", LINE_SCHEDULE}, {"report", LINE_REPORT},
                 {"left", LINE_LEFT}, {"threshold", LINE_THRESHOLD}, {"limits", LINE_LIMITS}, {"save", LINE_SAVE}};
    size_t length = strcspn(text, " ");
    struct cursor cursor = {text + length, "its word is unknown"};
    for (size_t i = 0; i < sizeof words / sizeof *words; i++)
        if (strlen(words[i].name) == length && memcmp(words[i].name, text, length) == 0) {
            line->word = words[i].word;
            cursor.wrong = NULL;
        }
    if (cursor.wrong == NULL)
        numbers(&cursor, line);
    if (cursor.wrong == NULL) {
        skip_blanks(&cursor);
        if (*cursor.at != 0)
            cursor.wrong = "it has too many numbers";
    }
    return cursor.wrong;
}
