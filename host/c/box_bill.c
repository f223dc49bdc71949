/* A retailer's bill is held against the rules: box_bill.h says how, and what is said. guxhamole_bill alone says whether it is right. Why a
   line is wrong, and which interval was refused, is found by playing the records again. */
#include "box_bill.h"

#include "box_bill_lines.h"
#include "box_book.h"
#include "box_files.h"
#include "box_refusals.h"

#include <errno.h>
#include <inttypes.h>
#include <stdio.h>
#include <stdlib.h>
#include <string.h>

struct check {
    guxhamole_book book;
    int32_t ring[RING], work[RING];
    uint8_t image[IMAGE_MAX + 1]; /* one byte more, so that a longer file is seen to be longer */
    struct box_schedule schedule;
    uint8_t *records;
    size_t records_length;
    uint32_t region;
    struct bill_lines lines;
};

/* The records, played again. */
struct replay {
    guxhamole_book book;
    size_t at, count;    /* the place that was reached, and the intervals before it */
    int lacks;           /* the interval there is marked, and rows of the schedule were not given */
    uint32_t number;     /* or refused, by which */
    uint64_t place;
    uint32_t due_number; /* of the interval that was asked for: its number, and the region's published price */
    int32_t due_price;
};

int bill_words_parsed(int count, char **words, struct bill_words *bill)
{
    int64_t region;
    if (count < 4 || count > 5 || !number_parsed(words[3], 0, UINT32_MAX, &region))
        return 0;
    bill->image = words[0];
    bill->records = words[1];
    bill->bill = words[2];
    bill->region = (uint32_t)region;
    bill->schedule = count == 5 ? words[4] : NULL;
    return 1;
}

static int image_loaded(struct check *check, const char *path)
{
    char why[REFUSAL_TEXT];
    long length = file_read(path, check->image, sizeof check->image);
    if (length < 0) {
        answer("not checked: IMAGE cannot be read: %s", strerror(errno));
        return 0;
    }
    guxhamole_kept kept = guxhamole_load(check->image, (size_t)length, check->ring, RING);
    if (kept.number != GUXHAMOLE_ACCEPTED) {
        refusal_text(kept.number, kept.place, why);
        answer("not checked: IMAGE: %s", why);
        return 0;
    }
    if (!same_market(&kept.book)) {
        answer("not checked: IMAGE: another market's book");
        return 0;
    }
    check->book = kept.book;
    return 1;
}

static int lines_read(struct check *check, const char *path)
{
    char why[BILL_TEXT];
    size_t length, bad;
    uint8_t *text = file_whole(path, &length);
    if (text == NULL) {
        answer("not checked: BILL cannot be read: %s", strerror(errno));
        return 0;
    }
    int parsed = bill_parsed(text, length, &check->lines, &bad, why);
    free(text);
    if (!parsed && bad == 0)
        answer("not checked: BILL: %s", why);
    else if (!parsed)
        answer("not checked: line %zu of BILL: %s", bad, why);
    return parsed;
}

/* Why a line of the schedule's file is bad, or null and its row is taken. */
static const char *row_wrong(struct check *check, const char *text)
{
    struct line line;
    const char *wrong = line_parsed(text, &line);
    if (wrong != NULL)
        return wrong;
    if (line.word != LINE_SCHEDULE)
        return "it is no row of a schedule";
    schedule_take(&check->schedule, &line);
    return NULL;
}

static int rows_taken(struct check *check, FILE *file)
{
    char text[LINE_MOST + 1];
    const char *wrong;
    for (size_t number = 1; line_read(file, text, &wrong); number++) {
        if (wrong == NULL)
            wrong = row_wrong(check, text);
        if (wrong != NULL && !ferror(file)) {
            answer("not checked: line %zu of SCHEDULE: %s", number, wrong);
            return 0;
        }
    }
    if (ferror(file))
        answer("not checked: SCHEDULE cannot be read: %s", strerror(errno));
    return !ferror(file);
}

static int schedule_read(struct check *check, const char *path)
{
    if (path == NULL)
        return 1;
    FILE *file = fopen(path, "rb");
    if (file == NULL) {
        answer("not checked: SCHEDULE cannot be read: %s", strerror(errno));
        return 0;
    }
    int taken = rows_taken(check, file);
    fclose(file);
    return taken;
}

/* Plays the interval at the place that was reached, and goes on to the next one; answers 0 where it cannot be. The table is what it
   publishes. */
static int play_one(struct check *check, struct replay *replay, int32_t *table, uint32_t *entry)
{
    int32_t prices[PRICES], flows[LINKS];
    uint8_t marks[REGIONS];
    uint32_t factors[LINKS];
    guxhamole_found found = guxhamole_interval_read(replay->book, check->records, check->records_length, replay->at, prices, PRICES,
                                                    marks, REGIONS, flows, LINKS, factors, LINKS);
    replay->number = found.number;
    if (found.number != GUXHAMOLE_ACCEPTED)
        return 0;
    replay->lacks = schedule_lacks(&check->schedule, marks);
    if (replay->lacks)
        return 0;
    guxhamole_entered entered = guxhamole_enter(replay->book, check->work, RING, found.entry, (uint8_t)found.day_kind, prices, PRICES,
                                                marks, REGIONS, flows, LINKS, factors, LINKS, check->schedule.prices, SCHEDULE,
                                                table, PRICES);
    replay->number = entered.number;
    replay->place = entered.place;
    if (entered.number != GUXHAMOLE_ACCEPTED)
        return 0;
    replay->book = entered.book;
    replay->at = (size_t)found.next;
    *entry = found.entry;
    return 1;
}

/* Plays the records to their end or up to an interval that cannot be taken; notes what is due of interval `asked`, if there is one. */
static void play_again(struct check *check, uint64_t asked, struct replay *replay)
{
    int32_t table[PRICES] = {0};
    uint32_t entry = 0;
    memset(replay, 0, sizeof *replay);
    replay->book = check->book;
    memcpy(check->work, check->ring, sizeof check->work);
    while (replay->at != check->records_length && play_one(check, replay, table, &entry)) {
        if (replay->count == asked) {
            replay->due_number = entry;
            replay->due_price = table[check->region * MARKETS];
        }
        replay->count++;
    }
}

/* Cents as text, a zero byte after it; `text` has BILL_TEXT bytes. */
static const char *amount(int64_t cents, char *text)
{
    bill_total(&cents, 1, text);
    return text;
}

/* Half away from zero; neither 46 nor a published price lets it leave 64 bits. */
static int64_t due_amount(uint32_t energy, int32_t price)
{
    int64_t product = (int64_t)energy * price;
    return (product + (product < 0 ? -500 : 500)) / 1000;
}

/* Says why the line is wrong, of which there is an interval; answers 0 where it isn't. */
static int told_field(const struct bill_lines *lines, size_t line, const struct replay *replay)
{
    char billed[BILL_TEXT], due[BILL_TEXT];
    size_t place = bill_file_line(lines, line);
    int64_t right = due_amount(lines->energy[line], replay->due_price);
    if (lines->numbers[line] != replay->due_number)
        answer("wrong line %zu (line %zu of the file): number %" PRIu32 " where interval %" PRIu32 " is due", line, place,
               lines->numbers[line], replay->due_number);
    else if (lines->prices[line] != replay->due_price)
        answer("wrong line %zu (line %zu of the file): price %s where %s was published", line, place,
               amount(lines->prices[line], billed), amount(replay->due_price, due));
    else if (lines->amounts[line] != right)
        answer("wrong line %zu (line %zu of the file): amount %s where %s is due", line, place, amount(lines->amounts[line], billed),
               amount(right, due));
    else
        return 0;
    return 1;
}

/* The call and the records played again don't agree, which the archive's proofs exclude. */
static int answer_otherwise(void)
{
    answer("not checked: another answer than that of the records played again");
    return BROKEN;
}

static int answer_wrong(const struct check *check, size_t line, const struct replay *replay)
{
    const struct bill_lines *lines = &check->lines;
    int there = line < replay->count, billed = line < lines->count;
    if (there && !billed)
        answer("wrong line %zu (at the file's end): missing, interval %" PRIu32 " has none", line, replay->due_number);
    else if (billed && !there)
        answer("wrong line %zu (line %zu of the file): surplus, the records have no further interval", line, bill_file_line(lines, line));
    else if (!there || !told_field(lines, line, replay))
        return answer_otherwise();
    return WRONG_BILL;
}

static int answer_right(const struct bill_lines *lines)
{
    char total[BILL_TEXT];
    bill_total(lines->amounts, lines->count, total);
    answer("right: %zu lines, %s dollars", lines->count, total);
    return ENDED;
}

/* A refusal that no interval has: by 10, 11, 21 or 46. */
static int answer_refusal(const struct bill_lines *lines, const guxhamole_billed *billed)
{
    char why[REFUSAL_TEXT];
    refusal_text(billed->number, billed->place, why);
    if (billed->number == GUXHAMOLE_BILLED_ENERGY)
        answer("%s (line %zu of the file)", why, bill_file_line(lines, (size_t)billed->place));
    else
        answer("%s", why);
    return NOT_STARTED;
}

/* The interval at the place that was reached is refused, or its region lacks rows. */
static int answer_interval(const guxhamole_billed *billed, const struct replay *replay)
{
    char why[REFUSAL_TEXT];
    if (replay->lacks) {
        answer("not checked: a marked region's schedule was not given in records at place %zu", replay->at);
        return NOT_STARTED;
    }
    if (replay->number != billed->number || replay->place != billed->place)
        return answer_otherwise();
    refusal_text(billed->number, billed->place, why);
    answer("%s in records at place %zu", why, replay->at);
    return NOT_STARTED;
}

static int answer_bill(struct check *check)
{
    const struct bill_lines *lines = &check->lines;
    struct replay replay;
    guxhamole_billed billed = guxhamole_bill(check->book, check->ring, RING, check->work, RING, check->records, check->records_length,
                                             check->schedule.prices, SCHEDULE, check->region, lines->numbers, lines->count,
                                             lines->energy, lines->count, lines->prices, lines->count, lines->amounts, lines->count);
    if (billed.number == GUXHAMOLE_BOOK || billed.number == GUXHAMOLE_LENGTH || billed.number == GUXHAMOLE_MARKET)
        return answer_refusal(lines, &billed);
    play_again(check, billed.line, &replay);
    if (replay.lacks || replay.number != GUXHAMOLE_ACCEPTED)
        return answer_interval(&billed, &replay);
    if (billed.number != GUXHAMOLE_ACCEPTED)
        return answer_refusal(lines, &billed);
    return billed.right ? answer_right(lines) : answer_wrong(check, (size_t)billed.line, &replay);
}

int bill_checked(const struct bill_words *words)
{
    static struct check check;
    int ending = NOT_STARTED;
    if (!image_loaded(&check, words->image))
        return NOT_STARTED;
    check.region = words->region;
    check.records = file_whole(words->records, &check.records_length);
    if (check.records == NULL) {
        answer("not checked: RECORDS cannot be read: %s", strerror(errno));
        return NOT_STARTED;
    }
    if (lines_read(&check, words->bill)) {
        if (schedule_read(&check, words->schedule))
            ending = answer_bill(&check);
        bill_free(&check.lines);
    }
    free(check.records);
    return ending;
}
