/* The foundry's box, an example to copy: `box IMAGE` keeps one book of the real market, reads lines (box_lines.h) from standard
   input and answers them on standard output. The command that builds it is in host/c/README.md. `box commission ..` plays a test
   load on a book in memory instead (box_commission.h), `box rewrite EARLIER LATER` puts the regions of a file of records in number
   order (box_rewrite.h), and `box bill IMAGE RECORDS BILL REGION [SCHEDULE]` says whether a retailer's bill is what the records and the
   book's rules make it, or which line is the first wrong one, and why (box_bill.h); an image of that name would have to be given as
   ./commission, ./rewrite or ./bill.

   Each line is answered by one line that begins at its first column, details indented above it:
     accepted ..                    an interval, threshold or limits; the book with it is saved (box_files.h), safe from a crash
     given, saved, region ..        a schedule's row; a save; a report, or the intervals left before a period
     refused N (meaning) [at P]     by the book, which is as it was; docs/REFUSALS.md
     bad line: why                  it is no line of box_lines.h, its file of records cannot be read or is longer than a day's, or
                                    a row of the schedule is lacking; nothing was entered
   A file of records is answered interval by interval, as if each stood in a line of its own, and then by
     taken records to place P       to its end, which is P
   or, where an interval is refused or lacks a row of the schedule, by that answer with ` in records at place P` after it, P being
   the place at which the interval begins: those before it are accepted and saved, and neither it nor those after it are taken.
   The details of an interval are each change of a period, and each price that publication changed: entry price -> published
   price; of a marked region, which is priced by schedule, every published price. They come before the save, so that a box that
   is killed has told them of every interval that it saved; they hold with the `accepted`, or with the next start's `entries taken`.

   At its start the box loads IMAGE, or IMAGE.old where IMAGE is missing or refused, or opens a new book where neither is there;
   where neither loads it doesn't start. What comes back: the entries taken, the position in the day, threshold and limits, the
   windows' prices and sums, and the periods; a threshold too that no setting takes, being no whole hundreds of dollars, which then
   stays until the next one is set. What doesn't and must be given again: the schedule's rows. An image has no checksum: a price
   that was changed to another one in range loads. An image must be of the box's own market (box_market.h), its additional link
   included. A box saves images of kind 2; one of kind 1, which an earlier box saved and which has no link, loads as well, and the next save
   makes it kind 2.

   Nothing is deduplicated. A feeder that doesn't know whether its last interval was saved sends it again: refused by 13, it was. A
   box that started on IMAGE.old may be one save behind: its feeder goes on from the `entries taken` that the start says, and sets
   threshold and limits again. A feeder of a file of records goes on after a crash by the same number and the place: an interval has
   INTERVAL bytes (box_market.h), so the next one stands at PLACE + INTERVAL x (entries taken - number of the interval at PLACE).
   A file that was refused at place P is mended and sent again from there; one of the earlier form, refused by 45, is mended by
   `box rewrite`. */
#include "box_answers.h"
#include "box_bill.h"
#include "box_book.h"
#include "box_commission.h"
#include "box_files.h"
#include "box_lines.h"
#include "box_market.h"
#include "box_refusals.h"
#include "box_rewrite.h"
#include "box_step.h"

#include <errno.h>
#include <inttypes.h>
#include <stdio.h>
#include <stdlib.h>
#include <string.h>

struct box {
    guxhamole_book book;
    int32_t ring[RING];
    struct box_schedule schedule;
    uint8_t image[IMAGE_MAX + 1];  /* one byte more, so that a longer file is seen to be longer */
    uint8_t records[RECORDS_MOST + 1];
    struct box_files files;
};

/* Saves the book, by kind 2, which tells every book. A box whose book and file would part company ends, and the next start goes on from
   the file. */
static void save(struct box *box)
{
    guxhamole_stored stored = guxhamole_store_kind_2(box->book, box->ring, RING, box->image, IMAGE_MAX);
    if (stored.number != GUXHAMOLE_ACCEPTED) {
        answer_refused(stored.number, 0);
        exit(BROKEN);
    }
    if (!files_save(&box->files, box->image, stored.length)) {
        answer("not saved: %s", strerror(errno));
        exit(BROKEN);
    }
}

static void tell_prices(const struct line *line, const int32_t *table)
{
    for (int place = 0; place < PRICES; place++) {
        int region = place / MARKETS, market = place % MARKETS;
        if (line->marks[region])
            printf("  region %d market %d: by schedule -> %" PRId32 "\n", region, market, table[place]);
        else if (table[place] != line->prices[place])
            printf("  region %d market %d: %" PRId32 " -> %" PRId32 "\n", region, market, line->prices[place], table[place]);
    }
}

/* Enters one interval, tells of it, saves and says `accepted`. Where that cannot be, answers 0, with the reason in `why` of
   REFUSAL_TEXT bytes, and has said nothing. */
static int take_interval(struct box *box, const struct line *line, char *why)
{
    int32_t table[PRICES] = {0};
    if (schedule_lacks(&box->schedule, line->marks)) {
        snprintf(why, REFUSAL_TEXT, "bad line: a marked region's schedule was not given");
        return 0;
    }
    guxhamole_entered entered = guxhamole_enter(box->book, box->ring, RING, line->number, line->kind, line->prices, PRICES,
                                                line->marks, REGIONS, line->flows, LINKS, line->factors, LINKS,
                                                box->schedule.prices, SCHEDULE, table, PRICES);
    if (entered.number != GUXHAMOLE_ACCEPTED) {
        refusal_text(entered.number, entered.place, why);
        return 0;
    }
    tell_periods(&box->book, &entered.book);
    tell_prices(line, table);
    flush();
    box->book = entered.book;
    save(box);
    answer("accepted interval %" PRIu32 ", prices changed: %" PRIu32, line->number, entered.count);
    return 1;
}

/* Takes the interval at a place of the file, as if a line brought it. Answers the place after it, or 0 with the reason in `why`. */
static size_t take_record(struct box *box, size_t length, size_t at, char *why)
{
    struct line line;
    guxhamole_found found = guxhamole_interval_read(box->book, box->records, length, at, line.prices, PRICES, line.marks, REGIONS,
                                                    line.flows, LINKS, line.factors, LINKS);
    if (found.number != GUXHAMOLE_ACCEPTED) {
        refusal_text(found.number, 0, why);
        return 0;
    }
    line.word = LINE_INTERVAL;
    line.number = found.entry;
    line.kind = (uint8_t)found.day_kind;
    return take_interval(box, &line, why) ? (size_t)found.next : 0;
}

static void take_records(struct box *box, const struct line *line)
{
    char why[REFUSAL_TEXT];
    long length = file_read(line->path, box->records, sizeof box->records);
    if (length < 0) {
        answer("bad line: its file cannot be read: %s", strerror(errno));
        return;
    }
    if (length > RECORDS_MOST) {
        answer("bad line: its file is longer than %d bytes", RECORDS_MOST);
        return;
    }
    size_t at = line->place;
    while (at != (size_t)length) {
        size_t next = take_record(box, (size_t)length, at, why);
        if (next == 0) {
            answer("%s in records at place %zu", why, at);
            return;
        }
        at = next;
    }
    answer("taken records to place %zu", at);
}

static void take_row(struct box *box, const struct line *line)
{
    schedule_take(&box->schedule, line);
    answer("given schedule %" PRIu32 " %" PRIu32 " %d", line->region, line->market, line->kind);
}

static void set(struct box *box, guxhamole_kept kept, const char *what)
{
    box->book = kept.book;
    if (kept.number != GUXHAMOLE_ACCEPTED) {
        answer_refused(kept.number, kept.place);
        return;
    }
    save(box);
    answer("accepted %s", what);
}

/* A question: nothing is entered, and nothing saved. Where no number of intervals does it, the line has 0 in the number's place. */
static void intervals_left(const struct box *box, const struct line *line)
{
    guxhamole_left left = guxhamole_intervals_left(box->book, box->ring, RING, line->region, line->market, line->price);
    if (left.number != GUXHAMOLE_ACCEPTED) {
        answer_refused(left.number, 0);
        return;
    }
    uint8_t price[GUXHAMOLE_TEXT_MAX], threshold[GUXHAMOLE_TEXT_MAX];
    int price_length = (int)guxhamole_amount_text(line->price, price, sizeof price);
    int threshold_length = (int)guxhamole_amount_text(box->book.threshold, threshold, sizeof threshold);
    char when[60] = "after which the sum is";
    if (left.intervals == 0)
        snprintf(when, sizeof when, "after none of the next %d is the sum", WINDOW);
    answer("region %" PRIu32 " market %" PRIu32 ": intervals left at %.*s: %" PRIu32 ", %s above %.*s", line->region, line->market,
           price_length, (const char *)price, left.intervals, when, threshold_length, (const char *)threshold);
}

static void take(struct box *box, const struct line *line)
{
    char why[REFUSAL_TEXT];
    switch (line->word) {
    case LINE_INTERVAL:
        if (!take_interval(box, line, why))
            answer("%s", why);
        break;
    case LINE_RECORDS:
        take_records(box, line);
        break;
    case LINE_SCHEDULE:
        take_row(box, line);
        break;
    case LINE_REPORT:
        answer_report(&box->book, line->region, line->market);
        break;
    case LINE_LEFT:
        intervals_left(box, line);
        break;
    case LINE_THRESHOLD:
        set(box, guxhamole_set_threshold(box->book, line->threshold), "threshold");
        break;
    case LINE_LIMITS:
        set(box, guxhamole_set_limits(box->book, line->cap, line->floor), "limits");
        break;
    case LINE_SAVE:
        save(box);
        answer("saved");
        break;
    }
}

static int run(struct box *box)
{
    char text[LINE_MOST + 1];
    const char *wrong;
    while (line_read(stdin, text, &wrong)) {
        struct line line;
        box_step("line read");
        if (wrong == NULL)
            wrong = line_parsed(text, &line);
        if (wrong != NULL)
            answer("bad line: %s", wrong);
        else
            take(box, &line);
    }
    return ferror(stdin) ? BROKEN : ENDED;
}

enum loading { LOADED, MISSING, UNUSABLE };

static enum loading load(struct box *box, const char *path, const char *name)
{
    long length = file_read(path, box->image, sizeof box->image);
    if (length == -1)
        return MISSING;
    if (length < 0) {
        answer("%s: cannot be read: %s", name, strerror(errno));
        return UNUSABLE;
    }
    guxhamole_kept kept = guxhamole_load(box->image, (size_t)length, box->ring, RING);
    if (kept.number != GUXHAMOLE_ACCEPTED) {
        printf("%s: ", name);
        answer_refused(kept.number, kept.place);
        return UNUSABLE;
    }
    if (!same_market(&kept.book)) {
        answer("%s: another market's book", name);
        return UNUSABLE;
    }
    box->book = kept.book;
    answer("started on %s: %" PRIu32 " entries taken", name, kept.book.entries);
    return LOADED;
}

static int open_new(struct box *box)
{
    guxhamole_settings settings = BOX_SETTINGS;
    guxhamole_kept kept = guxhamole_open(settings, box->ring, RING);
    if (kept.number != GUXHAMOLE_ACCEPTED) {
        answer_refused(kept.number, kept.place);
        return 0;
    }
    box->book = kept.book;
    answer("started on a new book");
    return 1;
}

static int start(struct box *box, const char *image)
{
    if (!files_named(&box->files, image)) {
        answer("not started: a file name that is too long");
        return 0;
    }
    enum loading now = load(box, box->files.image, "IMAGE");
    box->files.image_loads = now == LOADED;
    if (now == LOADED)
        return 1;
    enum loading before = load(box, box->files.old_image, "IMAGE.old");
    if (before == LOADED)
        return 1;
    if (now == MISSING && before == MISSING)
        return open_new(box);
    answer("not started: no image loads");
    return 0;
}

/* What a box is asked for by its words. */
enum asked { ASKED_NOTHING, ASKED_LINES, ASKED_COMMISSION, ASKED_REWRITE, ASKED_BILL };

static enum asked asked_for(int count, char **words, struct commission *commission, struct bill_words *bill)
{
    const char *word = count > 1 ? words[1] : "";
    if (strcmp(word, "commission") == 0)
        return commission_parsed(count - 2, words + 2, commission) ? ASKED_COMMISSION : ASKED_NOTHING;
    if (strcmp(word, "bill") == 0)
        return bill_words_parsed(count - 2, words + 2, bill) ? ASKED_BILL : ASKED_NOTHING;
    if (strcmp(word, "rewrite") == 0)
        return count == 4 ? ASKED_REWRITE : ASKED_NOTHING;
    return count == 2 ? ASKED_LINES : ASKED_NOTHING;
}

int main(int count, char **words)
{
    static struct box box;
    struct commission commission;
    struct bill_words bill;
    enum asked asked = asked_for(count, words, &commission, &bill);
    if (asked == ASKED_NOTHING) {
        fprintf(stderr, "usage: box IMAGE < lines, box commission SEED DAYS [THRESHOLD], box rewrite EARLIER LATER or "
                        "box bill IMAGE RECORDS BILL REGION [SCHEDULE]\n");
        return NOT_STARTED;
    }
    if (guxhamole_abi() != GUXHAMOLE_ABI) {
        answer("not started: another archive than the header's");
        return NOT_STARTED;
    }
    switch (asked) {
    case ASKED_COMMISSION:
        return commission_played(&commission);
    case ASKED_REWRITE:
        return records_rewritten(words[2], words[3]);
    case ASKED_BILL:
        return bill_checked(&bill);
    default:
        return start(&box, words[1]) ? run(&box) : NOT_STARTED;
    }
}
