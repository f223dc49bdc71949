/* Feeds a box files of records that are damaged, and then mended: `box_damage FOLDER` writes the files to FOLDER, prints the lines
   that bring them to a box with a new book, and writes what it must answer to FOLDER/expected. Each damaged file has three
   intervals, the second of which is cut short or has one byte changed: the box takes the first, says the refusal and the place of
   the second, and goes on from there with the mended file. What `box rewrite` must say of the damaged file N.damaged is in N.said. */
#include "box_refusals.h"
#include "feed.h"

#include <inttypes.h>
#include <stdlib.h>
#include <string.h>

enum {
    HEAD = 12, REGION = 16 + 4 * MARKETS, LAST = HEAD + (REGIONS - 1) * REGION, LINK = LAST + REGION,
    CUT = -1, LACKS = 0, BYTES = 3 * INTERVAL
};

/* The byte at `at` of the interval becomes `byte`, or the file ends there; and how the interval is then refused. */
struct damage {
    int at, byte;
    uint32_t number;
    uint64_t place;
};

static const struct damage damages[] = {
    /* the head: its length, kind and region total */
    {1, CUT, 40, 0}, {5, CUT, 40, 0}, {6, CUT, 40, 0}, {HEAD - 1, CUT, 40, 0}, {HEAD, CUT, 40, 0},
    {0, 0, 40, 0}, {0, 5, 40, 0}, {0, 6, 40, 0}, {0, 13, 40, 0}, {1, 1, 40, 0}, {3, 255, 40, 0},
    {4, 17, 40, 0}, {4, 18, 40, 0}, {4, 19, 41, 0}, {4, 0, 41, 0}, {5, 1, 41, 0},
    {11, 0, 41, 0}, {11, REGIONS - 1, 41, 0}, {11, REGIONS + 1, 41, 0}, {11, 255, 41, 0},
    /* the first region, and the last */
    {HEAD + 5, CUT, 40, 0}, {HEAD + 6, CUT, 40, 0}, {HEAD + REGION - 1, CUT, 40, 0}, {HEAD + REGION, CUT, 40, 0},
    {HEAD, 5, 40, 0}, {HEAD, REGION + 1, 40, 0}, {HEAD + 4, 16, 40, 0}, {HEAD + 4, 99, 41, 0}, {HEAD + 5, 17, 41, 0},
    {HEAD + 6, 1, 45, 0}, {HEAD + 6, REGIONS, 45, 0}, {HEAD + 6, 255, 45, 0},
    {LAST, REGION - 1, 40, 0}, {LAST + 4, 18, 40, 0}, {LAST + 4, 19, 41, 0}, {LAST + 6, 0, 45, 0}, {LAST + 6, REGIONS, 45, 0},
    {INTERVAL - 1, CUT, 40, 0},
    /* whole records that the entry refuses: the number, the day kind, marks, a price, a service's, a factor */
    {6, 255, 13, 0}, {10, 2, 14, 0}, {HEAD + 7, 2, 15, 0}, {LAST + 7, 1, LACKS, 0}, {HEAD + 2 * REGION + 19, 127, 16, 2 * MARKETS},
    {HEAD + REGION + 23, 128, 16, MARKETS + 1}, {HEAD + REGION + 14, 1, 17, 1},
    /* the additional link's record, where the market has it; and a factor that the entry refuses */
    {LINK, CUT, 40, 0}, {LINK + 13, CUT, 40, 0}, {LINK, 13, 40, 0}, {LINK, 15, 40, 0}, {LINK + 4, 16, 40, 0}, {LINK + 4, 17, 40, 0},
    {LINK + 4, 19, 41, 0}, {LINK + 5, 1, 41, 0}, {LINK + 12, 1, 17, REGIONS}};

static const char *folder;
static FILE *expected;

static FILE *opened(const char *name, int number)
{
    char path[1000];
    snprintf(path, sizeof path, "%s/%d.%s", folder, number, name);
    FILE *file = fopen(path, "w+b");
    if (file == NULL)
        exit(1);
    return file;
}

static void written(FILE *file)
{
    if (fclose(file) != 0)
        exit(1);
}

/* The three intervals' bytes. */
static void fill(int number, uint8_t *bytes)
{
    FILE *file = opened("mended", number);
    for (int i = 0; i < 3; i++) {
        struct line line = feed_interval();
        line.number = (uint32_t)(3 * number + i);
        feed_records(file, &line, NULL);
    }
    rewind(file);
    if (fread(bytes, 1, BYTES, file) != BYTES)
        exit(1);
    written(file);
}

static void put_damaged(int number, const struct damage *damage)
{
    uint8_t bytes[BYTES];
    fill(number, bytes);
    size_t at = (size_t)(INTERVAL + damage->at), length = damage->byte == CUT ? at : (size_t)BYTES;
    if (damage->byte != CUT)
        bytes[at] = (uint8_t)damage->byte;
    FILE *file = opened("damaged", number);
    fwrite(bytes, 1, length, file);
    written(file);
    printf("records 0 %s/%d.damaged\nrecords %d %s/%d.mended\n", folder, number, INTERVAL, folder, number);
}

static void expect(int number, const struct damage *damage)
{
    static const char lacks[] = "bad line: a marked region's schedule was not given";
    char why[REFUSAL_TEXT];
    refusal_text(damage->number, damage->place, why);
    fprintf(expected, "accepted interval %d, prices changed: 0\n", 3 * number);
    fprintf(expected, "%s in records at place %d\n", damage->number == LACKS ? lacks : why, INTERVAL);
    for (int i = 1; i < 3; i++)
        fprintf(expected, "accepted interval %d, prices changed: 0\n", 3 * number + i);
    fprintf(expected, "taken records to place %d\n", BYTES);
}

/* A changed byte gives no other order of the regions: what is refused by 45 is rewritten no more, and refused by 42. What the entry
   refuses is rewritten, to itself. */
static void expect_rewriting(int number, const struct damage *damage)
{
    char why[REFUSAL_TEXT];
    FILE *said = opened("said", number);
    uint32_t earlier = damage->number == GUXHAMOLE_RECORD_ORDER ? (uint32_t)GUXHAMOLE_RECORD_REGION : damage->number;
    refusal_text(earlier, 0, why);
    if (earlier < GUXHAMOLE_RECORD_BROKEN)
        fprintf(said, "rewritten 3 intervals, %d bytes\n", BYTES);
    else
        fprintf(said, "%s in records at place %d\n", why, INTERVAL);
    written(said);
}

/* Files of zeros: of the longest that a box takes its end may be asked for, of one byte more nothing. */
static void put_long(void)
{
    char why[REFUSAL_TEXT];
    for (int longer = 0; longer < 2; longer++) {
        FILE *file = opened("zeros", longer);
        for (int i = 0; i < RECORDS_MOST + longer; i++)
            putc(0, file);
        written(file);
    }
    printf("records 0 %s/0.zeros\nrecords %d %s/0.zeros\n", folder, RECORDS_MOST, folder);
    printf("records %d %s/1.zeros\n", RECORDS_MOST, folder);
    refusal_text(GUXHAMOLE_RECORD_BROKEN, 0, why);
    fprintf(expected, "%s in records at place 0\ntaken records to place %d\n", why, RECORDS_MOST);
    fprintf(expected, "bad line: its file is longer than %d bytes\n", RECORDS_MOST);
}

int main(int count, char **words)
{
    char path[1000];
    if (count != 2) {
        fprintf(stderr, "usage: box_damage FOLDER\n");
        return 1;
    }
    folder = words[1];
    snprintf(path, sizeof path, "%s/expected", folder);
    expected = fopen(path, "w");
    if (expected == NULL)
        return 1;
    fprintf(expected, "started on a new book\n");
    for (size_t i = 0; i < sizeof damages / sizeof *damages && damages[i].at < INTERVAL; i++) {
        put_damaged((int)i, &damages[i]);
        expect((int)i, &damages[i]);
        expect_rewriting((int)i, &damages[i]);
    }
    put_long();
    written(expected);
    return 0;
}
