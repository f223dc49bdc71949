/* The calls of interval records, each made beside the independent code. */
#include "interval_calls.h"

#include "guarded.h"
#include "independent_book.h"
#include "make.h"

#include <stdio.h>
#include <stdlib.h>
#include <string.h>

/* What is counted, and how often it must come up in a whole run. */
enum kind {
    READ, READ_LINK, READ_10, ENDS_10, READ_11, READ_40, READ_41, LINK_40, LINK_41, TURN_45, GIVEN_45, UNKNOWN_45,
    WRITTEN, WRITTEN_10, WRITTEN_11, WRITTEN_23,
    SORTED, SAME, REWRITTEN_10, SHORT_10, REWRITTEN_23, BAD_23, REWRITTEN_40, REWRITTEN_41, REWRITTEN_LINK_40,
    REWRITTEN_LINK_41, GIVEN_42, UNKNOWN_42,
    ROUND, KINDS
};

static const struct {
    const char *name;
    long least;
} kinds[KINDS] = {
    {"intervals read", 60000}, {"with a link", 30000}, {"refused by 10", 1500}, {"by 10 of the ends alone", 400}, {"by 11", 1500},
    {"by 40", 40000}, {"by 41", 12000}, {"by 40 at the link's record", 2200}, {"by 41", 900},
    {"by 45 out of turn", 50000}, {"by 45 given before", 1000}, {"by 45 unknown", 4000},
    {"written", 40000}, {"refused by 10", 1500}, {"by 11", 1500}, {"by 23", 7000},
    {"rewritten to another order", 40000}, {"to the same bytes", 50000}, {"refused by 10", 8000}, {"by 10 before 23", 2000},
    {"by 23", 12000}, {"by 23 before 40 to 42", 7000}, {"by 40", 45000}, {"by 41", 15000}, {"by 40 at the link's record", 3000},
    {"by 41", 1500}, {"by 42 given before", 4000},
    {"by 42 unknown", 5000},
    {"round trips", 28000}};

static long seen[KINDS];

void interval_differs(const char *what, uint64_t from)
{
    printf("intervals test: %s, from seed %llu\n", what, (unsigned long long)from);
    exit(1);
}

/* What a buffer holds at a place before a call. */
static uint8_t old_byte(size_t place)
{
    return (uint8_t)(77 ^ place);
}

static uint8_t *old_buffer(size_t room)
{
    uint8_t *buffer = (uint8_t *)guarded(room);
    for (size_t i = 0; i < room; i++)
        buffer[i] = old_byte(i);
    return buffer;
}

/* The region of record `i`, of an interval whose records are whole up to it. */
static unsigned region_at(const struct trial *trial, unsigned i)
{
    return trial->records[trial->at + 12 + i * (20 + 4 * (size_t)trial->book.services) + 6];
}

/* Of a refusal by 45, or of the earlier form's 42, what its region is. */
enum fault { OUT_OF_TURN, GIVEN_BEFORE, UNKNOWN };

static enum fault fault_of(const struct trial *trial, int earlier)
{
    unsigned met = 0, region = 0;
    for (unsigned i = 0; i < trial->book.regions; i++) {
        region = region_at(trial, i);
        if (region >= trial->book.regions || (met >> region & 1) != 0 || (!earlier && region != i))
            break;
        met |= 1u << region;
    }
    return region >= trial->book.regions ? UNKNOWN : (met >> region & 1) != 0 ? GIVEN_BEFORE : OUT_OF_TURN;
}

/* Whether what is refused is the link's record: without it the interval is one. */
static int of_link(const struct trial *trial, uint32_t number, int earlier)
{
    struct independent_shape shape = independent_shape_of(&trial->book);
    struct independent_interval interval;
    size_t after;
    int linked = shape.linked;
    shape.linked = 0;
    if (!linked || (number != GUXHAMOLE_RECORD_BROKEN && number != GUXHAMOLE_RECORD_KIND))
        return 0;
    return (earlier ? independent_interval_earlier(shape, trial->records, trial->length, trial->at, &interval, &after)
                    : independent_interval_read(shape, trial->records, trial->length, trial->at, &interval, &after)) == 0;
}

static void count_reading(const struct trial *trial, uint32_t number)
{
    int link = of_link(trial, number, 0);
    seen[ENDS_10] += number == GUXHAMOLE_BOOK && independent_only_ends_bad(&trial->book);
    seen[READ_LINK] += number == 0 && trial->book.from != GUXHAMOLE_NONE;
    seen[LINK_40] += link && number == GUXHAMOLE_RECORD_BROKEN;
    seen[LINK_41] += link && number == GUXHAMOLE_RECORD_KIND;
    switch (number) {
    case 0: seen[READ]++; break;
    case GUXHAMOLE_BOOK: seen[READ_10]++; break;
    case GUXHAMOLE_LENGTH: seen[READ_11]++; break;
    case GUXHAMOLE_RECORD_BROKEN: seen[READ_40]++; break;
    case GUXHAMOLE_RECORD_KIND: seen[READ_41]++; break;
    default: seen[TURN_45 + (int)fault_of(trial, 0)]++;
    }
}

static void count_rewriting(const struct trial *trial, uint32_t number, int same)
{
    struct independent_interval interval;
    size_t after;
    int link = of_link(trial, number, 1);
    seen[REWRITTEN_LINK_40] += link && number == GUXHAMOLE_RECORD_BROKEN;
    seen[REWRITTEN_LINK_41] += link && number == GUXHAMOLE_RECORD_KIND;
    switch (number) {
    case 0: seen[same ? SAME : SORTED]++; break;
    case GUXHAMOLE_BOOK:
        seen[REWRITTEN_10]++;
        seen[SHORT_10] += trial->room < 12;
        break;
    case GUXHAMOLE_BUFFER:
        seen[REWRITTEN_23]++;
        seen[BAD_23] += independent_interval_earlier(independent_shape_of(&trial->book), trial->records, trial->length, trial->at,
                                                     &interval, &after) != 0;
        break;
    case GUXHAMOLE_RECORD_BROKEN: seen[REWRITTEN_40]++; break;
    case GUXHAMOLE_RECORD_KIND: seen[REWRITTEN_41]++; break;
    default: seen[fault_of(trial, 1) == GIVEN_BEFORE ? GIVEN_42 : UNKNOWN_42]++;
    }
}

guxhamole_found read_alike(const struct trial *trial, struct independent_interval *interval, uint64_t from)
{
    uint8_t *records = (uint8_t *)guarded_fixed(trial->length);
    struct slices slices = slices_to_fill(trial->lent);
    size_t next_place = 0;
    memcpy(records, trial->records, trial->length);
    guarded_keep();
    uint32_t want = lent_refusal(&trial->book, trial->lent);
    if (want == 0)
        want = independent_interval_read(independent_shape_of(&trial->book), records, trial->length, trial->at, interval, &next_place);
    guxhamole_found found = guxhamole_interval_read(trial->book, records, trial->length, trial->at, slices.prices,
                                                    trial->lent.prices, slices.marks, trial->lent.marks, slices.flows,
                                                    trial->lent.flows, slices.factors, trial->lent.factors);
    if (found.number != want)
        interval_differs("a reading's number", from);
    if (want == 0 ? found.next != next_place || found.entry != interval->entry || found.day_kind != interval->day_kind
                  : found.next != 0 || found.entry != 0 || found.day_kind != 0)
        interval_differs("a reading's values", from);
    if (!slices_hold(&slices, trial->lent, want == 0 ? interval : NULL) || !guarded_whole())
        interval_differs("a reading's slices, or a guard", from);
    guarded_free();
    count_reading(trial, want);
    return found;
}

/* Ends where a buffer isn't what it must be, or a guard fell; else tells its first bytes. */
static void compare_buffers(const char *what, const uint8_t *buffer, const uint8_t *want, size_t room, uint8_t *told, uint64_t from)
{
    if (memcmp(buffer, want, room) != 0 || !guarded_whole())
        interval_differs(what, from);
    memcpy(told, buffer, room < TRIAL_BYTES ? room : (size_t)TRIAL_BYTES);
    guarded_free();
}

guxhamole_stored write_alike(const struct trial *trial, uint8_t *told, uint64_t from)
{
    static const unsigned upward[] = {0, 1, 2, 3, 4, 5, 6, 7};
    const struct independent_interval *interval = &trial->interval;
    uint8_t *buffer = old_buffer(trial->room), *records = old_buffer(trial->room);
    struct slices slices = slices_to_read(trial->lent, interval);
    guarded_keep();
    uint32_t want = lent_refusal(&trial->book, trial->lent);
    size_t length = want == 0 ? interval_length(&trial->book) : 0;
    if (want == 0 && trial->room < length)
        want = GUXHAMOLE_BUFFER;
    if (want == 0 && independent_interval_write(independent_shape_of(&trial->book), interval, upward, records) != length)
        interval_differs("the header's length of an interval", from);
    guxhamole_stored stored = guxhamole_interval_write(trial->book, interval->entry, (uint8_t)interval->day_kind, slices.prices,
                                                       trial->lent.prices, slices.marks, trial->lent.marks, slices.flows,
                                                       trial->lent.flows, slices.factors, trial->lent.factors, buffer,
                                                       trial->room);
    if (stored.number != want || stored.length != (want == 0 ? length : 0))
        interval_differs("a writing's answer", from);
    compare_buffers("a writing's bytes, or a guard", buffer, records, trial->room, told, from);
    seen[want == 0 ? WRITTEN : want == GUXHAMOLE_BOOK ? WRITTEN_10 : want == GUXHAMOLE_LENGTH ? WRITTEN_11 : WRITTEN_23]++;
    return stored;
}

guxhamole_rewritten rewrite_alike(const struct trial *trial, uint8_t *told, uint64_t from)
{
    uint8_t *records = (uint8_t *)guarded_fixed(trial->length);
    uint8_t *buffer = old_buffer(trial->room), *wanted = old_buffer(trial->room);
    size_t after = 0;
    memcpy(records, trial->records, trial->length);
    guarded_keep();
    uint32_t want = lent_refusal(&trial->book, right_lengths(&trial->book));
    if (want == 0)
        want = independent_interval_rewrite(independent_shape_of(&trial->book), records, trial->length, trial->at, wanted, trial->room,
                                            &after);
    guxhamole_rewritten rewritten = guxhamole_interval_rewrite(trial->book, records, trial->length, trial->at, buffer, trial->room);
    if (rewritten.number != want)
        interval_differs("a rewriting's number", from);
    if (rewritten.next != (want == 0 ? after : 0))
        interval_differs("a rewriting's place", from);
    int same = want == 0 && memcmp(wanted, records + trial->at, after - trial->at) == 0;
    compare_buffers("a rewriting's bytes, or a guard", buffer, wanted, trial->room, told, from);
    count_rewriting(trial, want, same);
    return rewritten;
}

/* Of what was rewritten: it reads to the entry of the earlier form, is written to the same bytes and rewritten to itself. */
static void rewritten_reads(const struct trial *given, const uint8_t *told, size_t next_place, uint64_t from)
{
    static struct trial trial;
    static uint8_t again[TRIAL_BYTES];
    struct independent_interval back;
    size_t length = interval_length(&given->book), after;
    trial = *given;
    uint32_t earlier = independent_interval_earlier(independent_shape_of(&trial.book), trial.records, trial.length, trial.at,
                                                    &trial.interval, &after);
    if (earlier != 0 || after != next_place || after != given->at + length)
        interval_differs("an interval that is rewritten and not of the earlier form", from);
    memcpy(trial.records, told, length);
    trial.at = 0;
    trial.length = trial.room = length;
    trial.lent = right_lengths(&trial.book);
    guxhamole_found found = read_alike(&trial, &back, from);
    if (found.number != 0 || found.next != length || memcmp(&back, &trial.interval, sizeof back) != 0)
        interval_differs("an interval that is rewritten and reads to another entry, or doesn't", from);
    if (rewrite_alike(&trial, again, from).next != length || memcmp(again, told, length) != 0)
        interval_differs("an interval that is rewritten twice to other bytes", from);
    if (write_alike(&trial, again, from).length != length || memcmp(again, told, length) != 0)
        interval_differs("an interval that is rewritten and written to other bytes", from);
    seen[ROUND]++;
}

/* What a reading's number says of the rewriting's, and the reverse, where neither lengths nor room are at fault. */
static int agree(uint32_t read, uint32_t rewritten)
{
    if (read == GUXHAMOLE_RECORD_ORDER)
        return rewritten == 0 || (rewritten >= GUXHAMOLE_RECORD_BROKEN && rewritten <= GUXHAMOLE_RECORD_REGION);
    return read == rewritten && read != GUXHAMOLE_RECORD_REGION;
}

uint32_t both_alike(const struct trial *given, uint64_t from)
{
    static struct trial trial;
    static uint8_t told[TRIAL_BYTES];
    struct independent_interval interval;
    trial = *given;
    guxhamole_found found = read_alike(&trial, &interval, from);
    guxhamole_rewritten rewritten = rewrite_alike(&trial, told, from);
    if (rewritten.number == GUXHAMOLE_BUFFER) {
        trial.room = INTERVAL_MOST + below(20);
        rewritten = rewrite_alike(&trial, told, from);
    }
    if (found.number != GUXHAMOLE_LENGTH && !agree(found.number, rewritten.number))
        interval_differs("a reading and a rewriting that don't agree", from);
    if (found.number == 0 && (rewritten.next != found.next || memcmp(told, trial.records + trial.at, found.next - trial.at) != 0))
        interval_differs("an interval that reads and is rewritten to other bytes", from);
    if (rewritten.number == 0)
        rewritten_reads(&trial, told, rewritten.next, from);
    return found.number;
}

void interval_counts(int part)
{
    for (int kind = 0; kind < KINDS; kind++) {
        printf("%s%s %ld", kind == 0 ? "" : kind == WRITTEN || kind == SORTED || kind == ROUND ? "; " : ", ", kinds[kind].name, seen[kind]);
        if (seen[kind] < kinds[kind].least / part || seen[kind] == 0) {
            printf("\nintervals test: fewer than are wanted\n");
            exit(1);
        }
    }
}
