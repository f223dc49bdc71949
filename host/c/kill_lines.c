/* The lines that the kill test feeds a box. Prices, thresholds and limits lie so that periods begin and end within the short window
   and day of the test's box. */
#include "kill_lines.h"

#include "feed.h"
#include "make.h"

#include <stdlib.h>
#include <string.h>

enum { SUSPENDED = 3 };

static int32_t cents_within(int32_t least, int32_t most)
{
    return (int32_t)within(least, most);
}

static struct line plain_line(enum line_word word)
{
    struct line line;
    memset(&line, 0, sizeof line);
    line.word = word;
    return line;
}

static void put_schedule(FILE *out)
{
    struct line line = plain_line(LINE_SCHEDULE);
    line.region = SUSPENDED;
    for (line.market = 0; line.market < MARKETS; line.market++)
        for (int kind = 0; kind < KINDS; kind++) {
            line.kind = (uint8_t)kind;
            for (int half = 0; half < HALVES; half++)
                line.row[half] = cents_within(-90000, 90000);
            feed_line(out, &line);
        }
}

static int32_t any_price(int market)
{
    if (market != 0)
        return below(10) == 0 ? cents_within(0, 90000) : cents_within(0, 2000);
    if (below(5) == 0)
        return cents_within(200000, 500000);
    return below(6) == 0 ? cents_within(-80000, 0) : cents_within(3000, 15000);
}

static struct line any_interval(uint32_t number)
{
    struct line line = plain_line(LINE_INTERVAL);
    line.number = number;
    line.kind = (uint8_t)below(KINDS);
    for (int place = 0; place < PRICES; place++)
        line.prices[place] = any_price(place % MARKETS);
    line.marks[SUSPENDED] = below(5) == 0;
    for (int place = 0; place < LINKS; place++) {
        line.flows[place] = (int32_t)within(-1, 1);
        line.factors[place] = (uint32_t)within(10000, 11000);
    }
    return line;
}

/* An interval that is refused by 13 to 17, or lacks a schedule; the number is the next one's. */
static struct line refused_interval(uint32_t number)
{
    struct line line = any_interval(number);
    switch (below(6)) {
    case 0:
        line.number += (uint32_t)within(1, 3);
        break;
    case 1:
        line.kind = 2;
        break;
    case 2:
        line.marks[below(REGIONS)] = 7;
        break;
    case 3:
        line.prices[below(SUSPENDED * MARKETS)] = 10000001;
        break;
    case 4:
        line.factors[1 + below(LINKS - 1)] = 9999;
        break;
    default:
        line.marks[0] = 1;
    }
    return line;
}

/* A file of records as it is to be, and in the earlier form. */
struct both {
    FILE *upward, *earlier;
};

static FILE *opened(const char *folder, int number, const char *name)
{
    char path[1000];
    snprintf(path, sizeof path, "%s/%d.%s", folder, number, name);
    FILE *file = fopen(path, "wb");
    if (file == NULL)
        exit(1);
    return file;
}

/* The interval in number order, and in any other. */
static void put_both(const struct both *files, const struct line *line)
{
    int order[REGIONS], upward;
    do {
        upward = 1;
        feed_order((uint32_t)below(1000), order);
        for (int region = 0; region < REGIONS; region++)
            upward &= order[region] == region;
    } while (upward);
    feed_records(files->upward, line, NULL);
    feed_records(files->earlier, line, order);
}

/* What stands in a file behind its good intervals: nothing, an interval that is refused, or one that is cut short. */
static void end_records(const struct both *files, int which, uint32_t number)
{
    struct line line = refused_interval(number);
    switch (which % 3) {
    case 0:
        break;
    case 1:
        put_both(files, &line);
        break;
    default:
        fwrite("\x0c\0\0\0\x10", 1, 5, files->upward);
        fwrite("\x0c\0\0\0\x10", 1, 5, files->earlier);
    }
}

static int files_put;

/* A file of up to four intervals; answers how many. */
static uint32_t put_file(FILE *out, uint32_t number, uint32_t most, const char *folder)
{
    struct both files = {opened(folder, files_put, "upward"), opened(folder, files_put, "earlier")};
    uint32_t count = (uint32_t)within(2, 4);
    count = count < most ? count : most;
    for (uint32_t i = 0; i < count; i++) {
        struct line line = any_interval(number + i);
        put_both(&files, &line);
        feed_line(out, &line);
    }
    end_records(&files, files_put, number + count);
    if (fclose(files.upward) != 0 || fclose(files.earlier) != 0)
        exit(1);
    fprintf(out, "records %u %s/%d.records\n", (unsigned)count * INTERVAL, folder, files_put++);
    return count;
}

static void put_bad(FILE *out)
{
    static const char *const bad[] = {
        "", " save", "save now", "Save", "threshold", "threshold 12x", "threshold 9223372036854775808", "threshold --1",
        "threshold 1e6", "threshold 0x10", "limits 60000", "limits 60000 -2147483649", "limits 60000 -60000 0", "report 0",
        "report -1 0", "report 4294967296 0", "left 0 0", "left 0 0 2147483648", "interval 0 0 1 2 3", "interval",
        "schedule 5 0 0", "schedule 3 0 2", "records", "records 0", "records 0x0 file", "records 0 /no/such/file"};
    fprintf(out, "%s\n", bad[below(sizeof bad / sizeof *bad)]);
    if (below(4) == 0)
        fprintf(out, "report %*d\n", LINE_MOST, 0);
}

static void put_settings(FILE *out)
{
    struct line line = plain_line(LINE_THRESHOLD);
    line.threshold = 10000 * within(10, 100);
    if (below(3) == 0) /* refused by 44: the box must come back with the threshold that it had */
        line.threshold = threshold_beside(line.threshold);
    if (below(4) == 0)
        feed_line(out, &line);
    line.word = LINE_LIMITS;
    line.cap = cents_within(30000, 60000);
    line.floor = -cents_within(30000, 60000);
    if (below(5) == 0)
        feed_line(out, &line);
}

/* A question whose answer hangs on which price is the oldest: a box that was started again has its windows at other places of the
   ring than the one that was killed, and must answer the same. */
static void put_left(FILE *out)
{
    struct line line = plain_line(LINE_LEFT);
    line.region = (uint32_t)within(0, REGIONS);
    line.price = below(8) == 0 ? 10000001 : cents_within(-20000, 60000);
    feed_line(out, &line);
}

static void put_others(FILE *out, uint32_t number)
{
    struct line line = plain_line(LINE_REPORT);
    line.region = (uint32_t)within(0, REGIONS);
    line.market = (uint32_t)within(0, MARKETS);
    if (below(3) == 0)
        feed_line(out, &line);
    if (below(3) == 0)
        put_left(out);
    struct line refused = refused_interval(number);
    if (below(4) == 0)
        feed_line(out, &refused);
    if (below(5) == 0)
        put_bad(out);
    line.word = LINE_SAVE;
    if (below(10) == 0)
        feed_line(out, &line);
}

int kill_lines(FILE *out, int intervals, const char *folder)
{
    uint32_t count = (uint32_t)intervals, number = 0;
    put_schedule(out);
    while (number < count) {
        put_settings(out);
        put_others(out, number);
        struct line line = any_interval(number++);
        feed_line(out, &line);
        if (number % 2 == 0 && number < count)
            number += put_file(out, number, count - number, folder);
    }
    return files_put;
}
