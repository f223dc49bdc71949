/* Feeds a box: prints the lines of a day and an hour of the real market. Region 3's schedule is given first. At eight in the
   morning region 3 is suspended for ten minutes; from five in the afternoon the energy of regions 0 and 1 spikes for an hour, and
   region 1's first service for half an hour; the periods end with the day. `box_feed records FOLDER` prints the same day with its
   intervals in files of records, which it writes to FOLDER, each interval's regions in number order; `box_feed shuffled FOLDER` the
   same in the earlier form, in every order, for `box rewrite`. `box_feed short` prints host/c/box.lines, a sample with every kind of
   line, and `box_feed sample` the bytes of its file of records, host/c/box.records, `box_feed earlier` those of host/c/box.earlier,
   the same intervals in the earlier form. `box_feed image` prints an image of the market with nothing entered and a threshold of 95,000
   cents, which no box can be set, of kind 1, as an earlier box saved it; `box_feed image_2` the same of kind 2, with the market's
   additional link, if any. */
#include "feed.h"
#include "test_books.h"

#include <stdlib.h>
#include <string.h>

enum { DAY = 6 * HALVES, HOUR = 12, SUSPENDED = 3, PATH_MOST = 1000 };

/* Where the intervals of a day go: to lines, or to the folder's files. */
static const char *folder;
static int shuffled;
static FILE *file; /* the one that is being written, or null */
static char path[PATH_MOST];

static void put_schedule(void)
{
    struct line line;
    memset(&line, 0, sizeof line);
    line.word = LINE_SCHEDULE;
    line.region = SUSPENDED;
    for (line.market = 0; line.market < MARKETS; line.market++)
        for (int kind = 0; kind < KINDS; kind++) {
            line.kind = (uint8_t)kind;
            for (int half = 0; half < HALVES; half++)
                line.row[half] = line.market == 0 ? 8000 - 2000 * kind + 10 * half : 250;
            feed_line(stdout, &line);
        }
}

static void put_threshold(int64_t cents)
{
    struct line line;
    memset(&line, 0, sizeof line);
    line.word = LINE_THRESHOLD;
    line.threshold = cents;
    feed_line(stdout, &line);
}

static void put_reports(void)
{
    struct line line;
    memset(&line, 0, sizeof line);
    line.word = LINE_REPORT;
    for (line.region = 0; line.region < REGIONS; line.region++)
        for (line.market = 0; line.market < 2; line.market++)
            feed_line(stdout, &line);
}

static void put_interval(const struct line *line)
{
    int order[REGIONS];
    if (folder == NULL) {
        feed_line(stdout, line);
        return;
    }
    if (file == NULL) {
        snprintf(path, sizeof path, "%s/%u.records", folder, (unsigned)line->number);
        file = fopen(path, "wb");
    }
    if (file == NULL)
        exit(1);
    feed_order(line->number, order);
    feed_records(file, line, shuffled ? order : NULL);
}

/* Before a line of another word, the intervals so far are brought by one. */
static void end_file(void)
{
    if (file == NULL)
        return;
    if (fclose(file) != 0)
        exit(1);
    printf("records 0 %s\n", path);
    file = NULL;
}

static int between(int number, int from, int to)
{
    return from <= number && number < to;
}

static struct line interval(int number)
{
    struct line line = feed_interval();
    int position = number % DAY;
    line.number = (uint32_t)number;
    line.marks[SUSPENDED] = (uint8_t)between(position, 8 * HOUR, 8 * HOUR + 2);
    if (between(position, 17 * HOUR, 18 * HOUR)) {
        line.prices[0] = 2030000;
        line.prices[MARKETS] = 1950000;
    }
    if (between(position, 17 * HOUR, 17 * HOUR + 6))
        line.prices[MARKETS + 1] = 1500000;
    return line;
}

/* The threshold is lowered, so that a spike passes it, and raised before the day ends, so that the periods end. */
static void put_day(void)
{
    put_schedule();
    for (int number = 0; number < DAY + HOUR; number++) {
        if (number == 12 * HOUR || number == 23 * HOUR) {
            end_file();
            put_threshold(number == 12 * HOUR ? 8000000 : 50000000);
        }
        struct line line = interval(number);
        put_interval(&line);
    }
    end_file();
    put_reports();
}

/* The sample's file: two intervals that follow those of its lines, and one whose day kind is bad; in the earlier form the second's
   regions are in another order. */
static void put_sample(int earlier)
{
    int order[REGIONS];
    for (int number = 7; number < 10; number++) {
        struct line line = interval(17 * HOUR + number);
        line.number = (uint32_t)number;
        line.kind = number == 9 ? 7 : 0;
        feed_order((uint32_t)number, order);
        feed_records(stdout, &line, earlier && number == 8 ? order : NULL);
    }
}

/* The file of the earlier form is taken up to its second interval, and the rewritten one from there up to its bad interval; not from
   its second one again, from within an interval or from beyond its end; and its end is reached with nothing taken. */
static void put_records(void)
{
    static const int places[] = {INTERVAL, INTERVAL, 2 * INTERVAL + 1, 2 * INTERVAL + 12, 3 * INTERVAL, 3 * INTERVAL + 1};
    puts("records 0 host/c/box.earlier");
    for (size_t i = 0; i < sizeof places / sizeof *places; i++)
        printf("records %d host/c/box.records\n", places[i]);
    puts("records 0 host/c/no.records\nrecords 0 host/c\nrecords 0\nrecords -1 host/c/box.records");
}

static void put_left(uint32_t region, uint32_t market, int32_t price)
{
    struct line line;
    memset(&line, 0, sizeof line);
    line.word = LINE_LEFT;
    line.region = region;
    line.market = market;
    line.price = price;
    feed_line(stdout, &line);
}

/* Questions that are answered with a number, with none, and refused by 43, by 21 before it, or as no line. */
static void put_questions(void)
{
    put_left(2, 0, 1000000);
    put_left(2, 0, 100);
    put_left(2, 0, -100);
    put_left(1, 1, 0);
    put_left(2, 0, 10000001);
    put_left(2, 1, -1);
    put_left(5, 0, 10000001);
    put_left(0, 11, 100);
    puts("left 2 0\nleft 2 0 3000000000\nleft 2 0 100 1");
}

static void put_bad_lines(void)
{
    struct line line = feed_interval();
    line.number = 3; /* taken already */
    feed_line(stdout, &line);
    line.number = 6;
    line.prices[13] = -1;
    feed_line(stdout, &line);
    line.marks[1] = 1; /* no schedule was given for region 1 */
    feed_line(stdout, &line);
    puts("threshold 10000 cents\nthreshold 0\nthreshold 95000\nlimits 60000\nlimits 3000000000 -1\nlimits 30000 1\nreport 5 0\nsell 3\n");
}

static void put_short(void)
{
    put_threshold(8000000);
    put_schedule();
    for (int number = 0; number < 6; number++) {
        struct line line = interval(17 * HOUR + number);
        line.number = (uint32_t)number;
        feed_line(stdout, &line);
        if (number == 0) /* the period begins after as many more intervals as are answered */
            put_left(0, 0, line.prices[0]);
    }
    put_bad_lines();
    puts("limits 30000 -30000");
    struct line line = interval(8 * HOUR);
    line.number = 6;
    line.prices[0] = 2030000;
    feed_line(stdout, &line);
    put_records();
    puts("save");
    put_reports();
    put_questions();
}

static void put_image(int second)
{
    uint8_t image[BLANK_LINKED];
    guxhamole_settings settings = BOX_SETTINGS;
    settings.threshold = 95000;
    if (second)
        blank_linked(&settings, image);
    else
        blank_image(&settings, image);
    fwrite(image, 1, second ? (size_t)BLANK_LINKED : (size_t)BLANK_IMAGE, stdout);
}

int main(int count, char **words)
{
    const char *what = count > 1 ? words[1] : "";
    if (count > 2) {
        folder = words[2];
        shuffled = strcmp(what, "shuffled") == 0;
    }
    if (strcmp(what, "short") == 0)
        put_short();
    else if (strcmp(what, "sample") == 0)
        put_sample(0);
    else if (strcmp(what, "earlier") == 0)
        put_sample(1);
    else if (strcmp(what, "image") == 0)
        put_image(0);
    else if (strcmp(what, "image_2") == 0)
        put_image(1);
    else
        put_day();
    return 0;
}
