/* The functions that a host in C11 or C++17 calls: a book of administered prices that the host keeps in its own memory, and
   beside it the intervals left before a period, the records of intervals, the check of a retailer's bill, synthetic intervals for
   tests, the image check, the schedule maker, the index, the amount text and the replay of lists of calls. Link with libcapi.a, which
   `tools/build` writes to target/staticlib, for x86-64 Linux alone. docs/REFUSALS.md has every number that they answer: its
   meaning, its place and what a host should do. host/c/box.c is a host to copy.

   Proved of every function, for all arguments: it reads and writes only what it is lent, allocates nothing, keeps no pointer
   and no state of its own, ends, and its whole outcome (the answer, the book that it hands back and the contents of every
   slice that it is lent) is that of the rule's definition. A refused call writes nothing, hands the book back as it was and
   answers zeros beside number and place. One exception: guxhamole_bill works in a second ring, lent as `work`, which it may have
   written when it refuses; its comment says what `work` then holds, and that no other lent memory changes.

   Proved over sequences of calls: for every start and every list of calls after it the answers are exactly those of the ledger
   machine, which keeps the whole history and no sum: acceptance, or refusal with its place; an entry's count and published
   table; a report's four numbers. A start is an opening, or the load of an image of a book without entries and with no period
   marked, whoever made it; its settings then stand for the opening's, and its position for the first one. For that to hold of a
   host, it
   - begins with an accepted guxhamole_open, or with an accepted guxhamole_load of such an image;
   - hands each call the book that the call before handed back, accepted or refused; guxhamole_report, both stores,
     guxhamole_intervals_left, the three calls of interval records, guxhamole_bill and guxhamole_synthetic hand none back and change
     none, so that the next call gets the same book again;
   - lends the ring that the opening or load was lent, at its full length, and lets these calls alone write to it and to the
     book (both may be copied and moved between calls: what they hold counts, not where they stand);
   - restarts by a guxhamole_store_kind_2 or a guxhamole_store into a long enough buffer and a guxhamole_load, from exactly the
     `length` bytes that were stored, into another ring of the right length, and goes on with the book and the ring of that load, in
     the same process or in a later one. The ledger machine doesn't see a restart: nothing is lost, and no answer is another for it.
     An older image takes the history back to where it was stored; of one with entries or periods that others made or changed this
     says nothing.
   Over such a sequence 10 and 22 never occur: either one says that the book or the ring was changed by others.

   What no proof speaks of and the host must see to: a slice is a pointer and its length in elements, aligned for its type. No
   pointer may be null (where a length is 0 it may be any other). No two slices of a call may overlap where one of them is
   written. Nothing that is lent may be written to by others during the call.

   Threads and signal handlers: the functions are reentrant, since they have no state. Any number of books may be in use at
   once; one book and its ring belong to one thread at a time.

   Stack: measured, not proved. With the largest book a call took at most 8 KB, the bill 11 KB and the replay 14 KB, the caller's frame
   with the lent book and the answer counted in; host/c/stack.c measures it, and the gate holds it to the three bounds GUXHAMOLE_STACK. */
#ifndef GUXHAMOLE_H
#define GUXHAMOLE_H

#include <stddef.h>
#include <stdint.h>

#ifdef __cplusplus
extern "C" {
#endif

/* A new number wherever a struct or a prototype changes. A host compares it with what the archive answers, once, at its start:
   where they differ, header and archive don't belong together. */
#define GUXHAMOLE_ABI 2
uint32_t guxhamole_abi(void);

/* Bytes of stack that hold any call but the bill and the replay, the bill, and the replay. */
#define GUXHAMOLE_STACK 12288
#define GUXHAMOLE_STACK_BILL 16384
#define GUXHAMOLE_STACK_REPLAY 20480

/* Stands for no region: as a region's parent, and as both ends of the additional link of a book that has none. */
#define GUXHAMOLE_NONE 255

/* Lengths in elements, with R regions, S services (so S + 1 markets a region), a window of W prices, H half-hours a day and `from`
   as the book or its settings have it. */
#define GUXHAMOLE_PRICES(R, S) ((size_t)(R) * ((size_t)(S) + 1))                /* an entry's prices, and its table */
#define GUXHAMOLE_RING(R, S, W) (GUXHAMOLE_PRICES(R, S) * (size_t)(W))          /* exactly */
#define GUXHAMOLE_SCHEDULE(R, S, H) (GUXHAMOLE_PRICES(R, S) * 2 * (size_t)(H))  /* an entry's schedule */
#define GUXHAMOLE_LINKS(R, from) ((size_t)(R) + ((from) != GUXHAMOLE_NONE))     /* an entry's flows, and its factors */
#define GUXHAMOLE_IMAGE_MAX(R, S, W) (156 + 4 * GUXHAMOLE_RING(R, S, W))        /* bytes that hold every image of the book */
#define GUXHAMOLE_INTERVAL(R, S, from) \
    (12 + (size_t)(R) * (20 + 4 * (size_t)(S)) + ((from) != GUXHAMOLE_NONE ? 14 : 0)) /* bytes of an interval's records, exactly */
#define GUXHAMOLE_MAKER_PRICES(H) ((size_t)(H) * 168)                           /* 28 days of 6 x H prices */
#define GUXHAMOLE_MAKER_DAYS 28
#define GUXHAMOLE_TEXT_MAX 21                                                   /* bytes that hold every amount's text */

/* An answer's `number`: 0, or the first refusal of the call's list. `place` is 0 unless it is named here. */
enum guxhamole_refusal {
    GUXHAMOLE_ACCEPTED = 0,
    GUXHAMOLE_BOOK = 10,          /* the book is closed, or a field of it is outside its limits */
    GUXHAMOLE_LENGTH = 11,        /* a lent slice has another length than it must have */
    GUXHAMOLE_FULL = 12,          /* 10,000,000 entries were taken */
    GUXHAMOLE_NUMBER = 13,        /* the entry's number is not the next, which is the number of entries taken */
    GUXHAMOLE_DAY_KIND = 14,      /* the day kind is neither 0 nor 1 */
    GUXHAMOLE_MARK = 15,          /* a mark is neither 0 nor 1; place: its region */
    GUXHAMOLE_PRICE = 16,         /* a price is out of its market's range; place: in the lent prices, or among the image's */
    GUXHAMOLE_FACTOR = 17,        /* the factor of a region that has a parent, or of the additional link, is outside
                                     10,000..20,000; place: its region, or R */
    GUXHAMOLE_THRESHOLD = 18,     /* the threshold is outside 1..100,000,000,000 */
    GUXHAMOLE_LIMITS = 19,        /* the cap is outside 1..10,000,000 or the floor outside -10,000,000..-1 */
    GUXHAMOLE_SETTING = 20,       /* another setting of an opening is outside its limits, the ends of the link among them */
    GUXHAMOLE_MARKET = 21,        /* the region or market that is asked for is not one of the book's */
    GUXHAMOLE_SUMS = 22,          /* a counted price of the ring is out of range, or a sum is not the total of its prices */
    GUXHAMOLE_BUFFER = 23,        /* the buffer is shorter than the image, or than the interval's records */
    GUXHAMOLE_IMAGE_LENGTH = 24,  /* fewer than 148 bytes, of kind 2 fewer than 156, or the length field is not the lent length */
    GUXHAMOLE_IMAGE_KIND = 25,    /* the image's kind is neither 1 nor 2 */
    GUXHAMOLE_IMAGE_FIELD = 26,   /* a field of bytes 6 to 147, of kind 2 to 155, is outside its limits or not as unused ones are */
    GUXHAMOLE_IMAGE_TOTAL = 27,   /* the image's length is not 148 (kind 2: 156) + 4 x markets x (sum of counts) */
    GUXHAMOLE_INDEX = 30,         /* a number of the index is outside its limits; answered as -30 */
    GUXHAMOLE_MAKER_LENGTH = 31,  /* half-hours outside 1..48, or not 28 days of prices and kinds */
    GUXHAMOLE_MAKER_KIND = 32,    /* a day kind is neither 0 nor 1, or one of the two is missing */
    GUXHAMOLE_TEXT = 33,          /* the buffer is too short for the text; shown by a length of 0 alone */
    GUXHAMOLE_RECORD_BROKEN = 40, /* a record is missing or cut short, or its length is below 6 or not its known kind's */
    GUXHAMOLE_RECORD_KIND = 41,   /* a record's kind, or the head's region total, doesn't belong there */
    GUXHAMOLE_RECORD_REGION = 42, /* a record's region is none of the book's, or was given before; the rewriter's alone */
    GUXHAMOLE_PLANNED_PRICE = 43, /* the price of further intervals is outside its market's range of entry prices */
    GUXHAMOLE_HUNDREDS = 44,      /* the threshold is within its range, but no multiple of 10,000: no whole hundreds of dollars */
    GUXHAMOLE_RECORD_ORDER = 45,  /* a region's record isn't the next region's */
    GUXHAMOLE_BILLED_ENERGY = 46, /* a line's kilowatt-hours are above 1,000,000,000; its place is the line */
    GUXHAMOLE_IMAGE_FIRST = 47    /* a book with the additional link cannot be stored by kind 1 */
};

/* What a book is opened with; money in cents. */
typedef struct guxhamole_settings {
    uint8_t regions;    /* R, 1..8 */
    uint8_t services;   /* S, 0..10: market 0 of a region is energy, markets 1 to S are services */
    uint16_t window;    /* W, 1..2,016 */
    uint8_t halves;     /* H, half-hours a day, 1..48; a day has 6 x H intervals */
    uint16_t first;     /* the first entry's position in its day, 0..6 x H - 1 */
    uint8_t parents[8]; /* a lower region that is linked to this one, or 255 for none; 255 at 0 and from R up */
    uint8_t from, to;   /* the ends of the additional link: two regions that are not linked already; 255 and 255 for none */
    int64_t threshold;  /* a multiple of 10,000 in 1..100,000,000,000 */
    int32_t cap;        /* 1..10,000,000 */
    int32_t floor;      /* -10,000,000..-1 */
} guxhamole_settings;

/* The book: plain data, to be kept and copied. Any bytes are a book (damaged ones are refused by 10); the closed one is all
   zero. The fields may be read, and are changed through the calls alone. It has padding: compare two field by field. */
typedef struct guxhamole_book {
    uint8_t regions, services;
    uint16_t window;
    uint8_t halves, parents[8], from, to;
    int64_t threshold;  /* a multiple of 10,000, but that of a loaded image, any in the range, until the next setting */
    int32_t cap, floor;
    uint32_t entries;   /* taken; the next entry's number */
    uint16_t position;  /* the next entry's, in its day */
    uint16_t counts[8]; /* prices counted, a region each */
    uint16_t nexts[8];  /* the next place in its windows, a region each */
    int64_t sums[88];   /* at 11 x region + market */
    uint8_t marks[88];  /* likewise: 1 where the market is administered at the next entry, else 0 */
} guxhamole_book;

/* The answers. All but number and place are zeros when refused; the book is then the lent one, or closed where none was lent. */
typedef struct guxhamole_kept {
    guxhamole_book book;
    uint32_t number;
    uint64_t place;
} guxhamole_kept;

typedef struct guxhamole_entered {
    guxhamole_book book;
    uint32_t number;
    uint64_t place;
    uint32_t count; /* of published prices that differ from the effective ones */
} guxhamole_entered;

typedef struct guxhamole_reading {
    uint32_t number;
    uint32_t counted; /* prices in the market's window */
    uint32_t mark;    /* 1 where it is administered at the next entry, else 0 */
    uint32_t entries; /* taken by the book */
    int64_t sum;      /* of the window, in cents */
} guxhamole_reading;

typedef struct guxhamole_left {
    uint32_t number;
    uint32_t intervals; /* 1..W; 0 where none of them does, and beside a refusal */
} guxhamole_left;

typedef struct guxhamole_stored {
    uint32_t number;
    uint64_t length; /* of the image, or of the interval's records, in bytes */
} guxhamole_stored;

typedef struct guxhamole_found {
    uint32_t number;
    uint64_t next;     /* the place after the interval */
    uint32_t entry;    /* the interval's number */
    uint32_t day_kind; /* 0..255: as the record has it */
} guxhamole_found;

typedef struct guxhamole_rewritten {
    uint32_t number;
    uint64_t next; /* the place after the interval that was taken, in the records that it was taken from */
} guxhamole_rewritten;

typedef struct guxhamole_billed {
    uint32_t number; /* 0, or the refusal */
    uint64_t place;  /* with 15, 16, 17 and 46 */
    uint32_t right;  /* 1: yes */
    uint64_t line;   /* with number 0 and right 0: the first wrong line, counted from 0 */
} guxhamole_billed;

typedef struct guxhamole_drawn {
    uint32_t number;
    uint32_t seed;     /* the last s: what the next interval is drawn from */
    uint32_t entry;    /* the interval's number, as it was given */
    uint32_t day_kind; /* 0..255: likewise */
} guxhamole_drawn;

typedef struct guxhamole_rows {
    uint32_t number;
    uint64_t place;
    int32_t weekday[48], weekend[48]; /* places from H up are zero */
} guxhamole_rows;

/* Opens a book and zeroes its ring of GUXHAMOLE_RING(R, S, W) places.
   Refusals: 20, 11, 18, 44, 19. Refused: the closed book, and the ring as it was. */
guxhamole_kept guxhamole_open(guxhamole_settings settings, int32_t *ring, size_t ring_length);

/* Sets the threshold, a multiple of 10,000, or cap and floor, in cents, from the next entry on. An image keeps them.
   Refusals: 10, 18, 44; of the limits 10, 19. Refused: the book as it was, with the threshold that it has, a multiple or not. */
guxhamole_kept guxhamole_set_threshold(guxhamole_book book, int64_t threshold);
guxhamole_kept guxhamole_set_limits(guxhamole_book book, int32_t cap, int32_t floor);

/* A market's sum, prices counted and period mark, and the entries taken. Refusals: 10, 21. */
guxhamole_reading guxhamole_report(guxhamole_book book, uint32_t region, uint32_t market);

/* Takes one interval and publishes its prices. With M = S + 1 markets a region, the lengths are exact:
     ring      the book's
     number    the entries taken so far; one that was taken already is refused by 13 and so counts once
     day_kind  0 weekday, 1 weekend or holiday
     prices    R x M in cents, at region x M + market: energy -10,000,000..10,000,000, services 0..10,000,000; those of a marked
               region are not looked at
     marks     R: 1 where the region is priced by schedule, else 0
     flows     R: above 0 from the region to its parent, below 0 from the parent, 0 none; not looked at without a parent. Where the
               book has the additional link R + 1, the last that link's: above 0 from `from` to `to`, below 0 from `to` to `from`
     factors   as many: the loss factor of the link to the parent, in ten-thousandths, 10,000..20,000; not looked at without a
               parent. The last of R + 1 is the additional link's, and is always looked at
     schedule  R x M x 2 x H in cents, at ((region x M + market) x 2 + kind) x H + half-hour; it is lent at every entry, and
               nothing of it is kept
     table     R x M, where the published prices are written, at region x M + market
   Refusals: 10, 11, 12, 13, 14, 15, 16, 17; place of 15 to 17: the first bad one in the lent slice. Refused: the book, the ring
   and the table as they were. */
guxhamole_entered guxhamole_enter(guxhamole_book book,
                                  int32_t *ring, size_t ring_length,
                                  uint32_t number, uint8_t day_kind,
                                  const int32_t *prices, size_t prices_length,
                                  const uint8_t *marks, size_t marks_length,
                                  const int32_t *flows, size_t flows_length,
                                  const uint32_t *factors, size_t factors_length,
                                  const int32_t *schedule, size_t schedule_length,
                                  int32_t *table, size_t table_length);

/* How many intervals are left before a period: the least number n, 1 to W, of further unmarked intervals, each of which brings the
   market's window this price, after which the market's sum would exceed the present threshold. Old prices leave as they would,
   the oldest first and only once W are counted. `intervals` is 0 exactly if the sum exceeds it after none of 1 to W, whatever it
   is now. Sums may rise and fall with n, and the least n is meant. To reach the threshold is not to exceed it.
     ring            the book's, which is only read; places that hold no counted price are not looked at
     region, market  whose window it is
     price           in cents, as an entry takes it: energy -10,000,000..10,000,000, a service 0..10,000,000
   Period marks, the position and the entries taken are not looked at: an administered market is answered alike, and a book that
   has taken 10,000,000 entries too.
   Refusals: 10, 11, 21, 22, 43, each without a place; 22 is the store's, over every market of the book. Refused: intervals is 0.
   It is no call of the list of which the ledger machine is told: it takes nothing, and book and ring stay as they were. */
guxhamole_left guxhamole_intervals_left(guxhamole_book book, const int32_t *ring, size_t ring_length,
                                        uint32_t region, uint32_t market, int32_t price);

/* An interval as records, for loggers that hand intervals on: numbers are little-endian, signed ones in two's complement, and
   with M = S + 1 markets a region the records are
     head    length 12 (4 bytes), kind 16 (2), the entry's number (4), its day kind (1), R (1)
     region  length 16 + 4 x M (4 bytes), kind 17 (2), the region (1), its mark (1), flow (4), factor (4) and M prices (4 each)
     link    length 14 (4 bytes), kind 18 (2), flow (4), factor (4): exactly where the book has the additional link
   one head, after it regions 0, 1 and so on to R - 1, and behind them the link, GUXHAMOLE_INTERVAL(R, S, from) bytes in all. Intervals
   stand end to end. In the earlier form the regions follow in any order, each once: guxhamole_interval_rewrite takes it, and nothing
   else does.

   guxhamole_interval_read reads the interval at place `at` of the records into the slices that an entry takes, and answers the
   place after it; what stands there is not looked at. Any `at` may be asked for, and one at the end of the records or beyond is
   40. No range is tested: whatever the fields hold is handed on, for the entry to refuse.
     book                    whose R and S it has; which entry is its next doesn't matter
     prices                  R x M, at region x M + market
     marks                   R
     flows, factors          GUXHAMOLE_LINKS(R, from) each
   Refusals: 10, 11, of the head 40, 41, then region after region 40, 41, 45, then of the link 40, 41. Refused: the four slices as
   they were, and zeros.
   45 is any other region than the next: one out of its turn, one given before, one from R up. Where the records are of the earlier
   form, rewrite them. The four slices must overlap neither the records nor one another.

   guxhamole_interval_write writes an interval's records as the first bytes of the buffer, and answers their length; the bytes after
   them stay. The slices are an entry's, as above; no range is tested.
   Refusals: 10, 11, 23. Refused: the buffer as it was. The buffer must overlap none of the slices.

   guxhamole_interval_rewrite takes the interval at place `at` of the records, its regions in any order, and writes it as the first
   bytes of the buffer: the head as it stands, then region 0's record, region 1's and so on and the link's, each byte for byte as it
   stands. The bytes after them stay. It answers the place after the interval that it took, at + GUXHAMOLE_INTERVAL(R, S, from). Any
   `at` may be asked for, and no range is tested. An interval that guxhamole_interval_read takes is written as it is, so that a file
   may be rewritten that has both forms, or again.
   Refusals: 10, 23, of the head 40, 41, then record after record 40, 41, 42, then of the link 40, 41. 23 is told from the book and
   buffer_length alone. Refused: the buffer as it was, and next is 0. The buffer must not overlap the records.

   Proved: what was written reads back as the same number, day kind and slices, and what reads is written to the same bytes, so that
   an entry has one form: two places that read to the same one hold the same bytes. What was rewritten reads to the entry that it was
   in its earlier order, and what reads already is rewritten to itself. */
guxhamole_found guxhamole_interval_read(guxhamole_book book,
                                        const uint8_t *records, size_t records_length, size_t at,
                                        int32_t *prices, size_t prices_length,
                                        uint8_t *marks, size_t marks_length,
                                        int32_t *flows, size_t flows_length,
                                        uint32_t *factors, size_t factors_length);
guxhamole_stored guxhamole_interval_write(guxhamole_book book, uint32_t entry, uint8_t day_kind,
                                          const int32_t *prices, size_t prices_length,
                                          const uint8_t *marks, size_t marks_length,
                                          const int32_t *flows, size_t flows_length,
                                          const uint32_t *factors, size_t factors_length,
                                          uint8_t *buffer, size_t buffer_length);
guxhamole_rewritten guxhamole_interval_rewrite(guxhamole_book book, const uint8_t *records, size_t records_length, size_t at,
                                               uint8_t *buffer, size_t buffer_length);

/* Holds a retailer's bill against the rules: whether it has one line an interval of the records, in their order, and each line the
   interval's number, the region's published energy price, and as its amount kilowatt-hours x price / 1,000, rounded half away from
   zero. The intervals are read and entered one after the other, as by guxhamole_interval_read and guxhamole_enter, on a copy of the
   book and its ring. With n intervals and m lines, the bill is right if n is m and every line is; else the first wrong line is
   answered, counted from 0: the least i at which interval i and line i are not both there and equal, which is m where a line is missing
   and n where one is surplus. No interval and no line: right. Every interval is played, also after a wrong line.
     book                       as it was before the first interval; it is not handed back, and goes on as it was
     ring                       the book's, which is only read
     work                       a second ring of the same length, whatever it holds; another than the first
     records                    the intervals, end to end from the first byte to the last; any number of them, of a day or not
     schedule                   R x M x 2 x H in cents, as an entry's: one for all the intervals
     region                     whose energy price was billed
     numbers, energy, prices,   the lines: m each. Interval number, kilowatt-hours, published price in cents a megawatt-hour, amount in
     amounts                    cents
   Refusals: 10, 11 (ring, work, schedule, and lines of unequal lengths), 21; then interval after interval 10, 40, 41, 45 as the reader
   has them and 12, 13, 14, 15, 16, 17 as the entry; then 46, the first line above 1,000,000,000 kilowatt-hours, surplus ones too.
   Place of 15 to 17: as the entry's, within its own interval, and not told is which one it is; of 46: the line. An interval's 10
   occurs only over a ring that others changed. Refused: right and line are 0.
   By the first 10, by 11 and by 21 `work` stays as it was. In every other case, refused or not, it is then the book's ring with what the
   entries accepted till then made of it: all of them, or those before the interval that was refused. Nothing else is written.
   `work` must overlap none of the other slices. These may overlap one another.
   It is no call of the list of which the ledger machine is told: it takes nothing, and book and ring stay as they were. */
guxhamole_billed guxhamole_bill(guxhamole_book book, const int32_t *ring, size_t ring_length,
                                int32_t *work, size_t work_length,
                                const uint8_t *records, size_t records_length,
                                const int32_t *schedule, size_t schedule_length, uint32_t region,
                                const uint32_t *numbers, size_t numbers_length,
                                const uint32_t *energy, size_t energy_length,
                                const int32_t *prices, size_t prices_length,
                                const int64_t *amounts, size_t amounts_length);

/* Draws a synthetic interval, a test load that anyone can remake from its seed, into the slices that an entry takes. Each draw
   replaces s, at first the seed, by (s x 1,664,525 + 1,013,904,223) mod 2^32, and gives d = s div 65,536. The R x M prices are
   drawn in their order, then flow and factor of region 0, flow and factor of region 1 and so on, whether a region has a parent or
   not, and last those of the additional link, where the book has it: R x M + 2 x GUXHAMOLE_LINKS(R, from) draws. The last s is
   handed back, as the seed of the next interval.
     energy    1,500,000 if d < 64, else d mod 20,000 - 2,000
     service   d mod 3,000
     flow      d mod 2,001 - 1,000
     factor    10,000 + d mod 2,000
     mark      0, for which nothing is drawn
   What is lent and given:
     book                    whose R and S it has; which entry is its next doesn't matter
     seed                    any, 0 too
     entry, day_kind         not tested: handed back as they are given, for the entry to refuse
     prices                  R x M, at region x M + market
     marks                   R
     flows, factors          GUXHAMOLE_LINKS(R, from) each
   Refusals: 10, 11. Refused: the four slices as they were, and zeros. The four slices must not overlap one another.
   Proved: whatever the seed and the size, an entry refuses nothing of it by 15, 16 or 17.
   It is no call of the list of which the ledger machine is told: it takes nothing, and the book stays as it was. */
guxhamole_drawn guxhamole_synthetic(guxhamole_book book, uint32_t seed, uint32_t entry, uint8_t day_kind,
                                    int32_t *prices, size_t prices_length,
                                    uint8_t *marks, size_t marks_length,
                                    int32_t *flows, size_t flows_length,
                                    uint32_t *factors, size_t factors_length);

/* Writes the book's image as the first bytes of the buffer, and answers its length; the bytes after it stay. There are two kinds.
   Kind 2 tells every book: guxhamole_store_kind_2. Kind 1, eight bytes shorter, is the earlier one, for those who read no other:
   guxhamole_store. It cannot tell the additional link, and refuses a book that has one by 47. A book that was loaded from an image of
   kind 1 has no such link, and is stored by kind 1 to the very bytes of that image.
   Refusals: 10, 11, 22, 47 (kind 1 alone), 23. Refused: the buffer as it was. GUXHAMOLE_IMAGE_MAX(R, S, W) bytes always suffice. */
guxhamole_stored guxhamole_store_kind_2(guxhamole_book book, const int32_t *ring, size_t ring_length,
                                        uint8_t *image, size_t image_length);
guxhamole_stored guxhamole_store(guxhamole_book book, const int32_t *ring, size_t ring_length,
                                 uint8_t *image, size_t image_length);

/* The book of an image of either kind, lent exactly its bytes, into a ring of the image's R x M x W places. Its threshold may be any in
   1..100,000,000,000 and stays until the next setting: an image is never refused by 44.
   Refusals: 24, 25, 26, 27, 11, 16; place of 16: from 0 among the image's prices. Refused: the closed book, and the ring as it
   was. No image is refused by another rule than its bytes and the ring's length: that it is the host's own market is for the
   host to see to (regions, services, window, halves, parents and the link's ends of the book). */
guxhamole_kept guxhamole_load(const uint8_t *image, size_t length, int32_t *ring, size_t ring_length);

/* Whether a book can be loaded from an image, given a ring of the right length.
   Answers 0, or the load's number with 11 left out: 24, 25, 26, 27, 16. */
uint32_t guxhamole_image_check(const uint8_t *image, size_t length);

/* Makes one market's rows of a suspension schedule, a row a kind: of each half-hour the mean of its prices on the days of that
   kind, rounded half away from zero, then held within floor and cap (energy) or 0 and cap (a service).
     halves     H, 1..48
     energy     0: a service; anything else: energy
     prices     28 x 6 x H in cents, day by day
     day_kinds  28: 0 weekday, 1 weekend or holiday; both must be there
   Refusals: 31, 32, 19 (the floor of a service too), 16; place of 16: in the lent prices. A row has 48 places: an entry's
   schedule takes the first H of them. */
guxhamole_rows guxhamole_schedule(uint8_t halves, int32_t cap, int32_t floor, uint8_t energy,
                                  const int32_t *prices, size_t prices_length,
                                  const uint8_t *day_kinds, size_t day_kinds_length);

/* An amount of dollars indexed by the four quarters of year c over the four of year b (quarters in tenths), to the nearest
   100 dollars, half up, and never below last year's amount.
   Answers the dollars (0 or more), or -30 where a quarter is outside 1..100,000, the amount outside 1..100,000,000 or last
   year's above 10,000,000,000,000. */
int64_t guxhamole_index(uint64_t amount,
                        uint32_t c1, uint32_t c2, uint32_t c3, uint32_t c4,
                        uint32_t b1, uint32_t b2, uint32_t b3, uint32_t b4,
                        uint64_t last);

/* An amount of cents as text: minus if below 0, dollars, point, two digits; no zero byte after it. Answers the bytes written, the
   first of the buffer; the rest stays. 0: no room (33), and the buffer as it was. */
size_t guxhamole_amount_text(int64_t cents, uint8_t *buffer, size_t buffer_length);

/* Plays a list of calls over a book, from its opening on, and writes their answers; docs/RECORDS.md has the bytes of both. It
   is for tests and for whole histories: a running host keeps a book instead. Its openings have no additional link, and its restarts
   go by kind 1. With M = S + 1 markets a region:
     calls    the records, end to end, the opening first; not written to
     answers  where the answers are written: 14 bytes a call, for an entry 18 and four a place of its table, for a report 34
     ring     the book's prices: R x M x W places; the opening zeroes them, whatever they held
     other    the ring that a restart loads into, R x M x W places; the two then change places. 0 without restarts
     image    where a restart stores the book: 148 + 4 x R x M x W bytes suffice. 0 without restarts
     numbers  room for an entry's prices, flows and schedule together: R x M + R + R x M x 2 x H places
     factors  room for an entry's factors: R places
     table    room for an entry's table: R x M places
   With 8 regions of 11 markets, W 2,016 and H 48, the most that a book has, these are 177,408 places a ring, 709,780 bytes of
   image, 8,544 numbers, 8 factors and a table of 88. More does no harm.
   A refused call is answered with its number and place and changes nothing, and the replay goes on; a refused opening leaves a
   closed book, which refuses every call by 10. The replay ends after the last record, or before the first one that is not whole
   and well formed, whose contents don't fit the room lent for them, or whose answer doesn't fit.
   Answers how many bytes of answers it wrote, never more than answers_length; the bytes after them stay. Fewer answers than
   calls say that it ended early.
   What it leaves in ring, other, image, numbers, factors and table needs no keeping. */
size_t guxhamole_replay(const uint8_t *calls, size_t calls_length,
                        uint8_t *answers, size_t answers_length,
                        int32_t *ring, size_t ring_length,
                        int32_t *other, size_t other_length,
                        uint8_t *image, size_t image_length,
                        int32_t *numbers, size_t numbers_length,
                        uint32_t *factors, size_t factors_length,
                        int32_t *table, size_t table_length);

#ifdef __cplusplus
}
#define GUXHAMOLE_ASSERT(what) static_assert(what, #what)
#else
#define GUXHAMOLE_ASSERT(what) _Static_assert(what, #what)
#endif

/* The layouts that the archive was built with. */
#define GUXHAMOLE_SIZE(type, size) GUXHAMOLE_ASSERT(sizeof(guxhamole_##type) == (size))
#define GUXHAMOLE_AT(type, field, place) GUXHAMOLE_ASSERT(offsetof(guxhamole_##type, field) == (place))
GUXHAMOLE_SIZE(settings, 40);
GUXHAMOLE_AT(settings, regions, 0);
GUXHAMOLE_AT(settings, services, 1);
GUXHAMOLE_AT(settings, window, 2);
GUXHAMOLE_AT(settings, halves, 4);
GUXHAMOLE_AT(settings, first, 6);
GUXHAMOLE_AT(settings, parents, 8);
GUXHAMOLE_AT(settings, from, 16);
GUXHAMOLE_AT(settings, to, 17);
GUXHAMOLE_AT(settings, threshold, 24);
GUXHAMOLE_AT(settings, cap, 32);
GUXHAMOLE_AT(settings, floor, 36);
GUXHAMOLE_SIZE(book, 864);
GUXHAMOLE_AT(book, regions, 0);
GUXHAMOLE_AT(book, services, 1);
GUXHAMOLE_AT(book, window, 2);
GUXHAMOLE_AT(book, halves, 4);
GUXHAMOLE_AT(book, parents, 5);
GUXHAMOLE_AT(book, from, 13);
GUXHAMOLE_AT(book, to, 14);
GUXHAMOLE_AT(book, threshold, 16);
GUXHAMOLE_AT(book, cap, 24);
GUXHAMOLE_AT(book, floor, 28);
GUXHAMOLE_AT(book, entries, 32);
GUXHAMOLE_AT(book, position, 36);
GUXHAMOLE_AT(book, counts, 38);
GUXHAMOLE_AT(book, nexts, 54);
GUXHAMOLE_AT(book, sums, 72);
GUXHAMOLE_AT(book, marks, 776);
GUXHAMOLE_SIZE(kept, 880);
GUXHAMOLE_AT(kept, book, 0);
GUXHAMOLE_AT(kept, number, 864);
GUXHAMOLE_AT(kept, place, 872);
GUXHAMOLE_SIZE(entered, 888);
GUXHAMOLE_AT(entered, book, 0);
GUXHAMOLE_AT(entered, number, 864);
GUXHAMOLE_AT(entered, place, 872);
GUXHAMOLE_AT(entered, count, 880);
GUXHAMOLE_SIZE(reading, 24);
GUXHAMOLE_AT(reading, number, 0);
GUXHAMOLE_AT(reading, counted, 4);
GUXHAMOLE_AT(reading, mark, 8);
GUXHAMOLE_AT(reading, entries, 12);
GUXHAMOLE_AT(reading, sum, 16);
GUXHAMOLE_SIZE(left, 8);
GUXHAMOLE_AT(left, number, 0);
GUXHAMOLE_AT(left, intervals, 4);
GUXHAMOLE_SIZE(stored, 16);
GUXHAMOLE_AT(stored, number, 0);
GUXHAMOLE_AT(stored, length, 8);
GUXHAMOLE_SIZE(found, 24);
GUXHAMOLE_AT(found, number, 0);
GUXHAMOLE_AT(found, next, 8);
GUXHAMOLE_AT(found, entry, 16);
GUXHAMOLE_AT(found, day_kind, 20);
GUXHAMOLE_SIZE(rewritten, 16);
GUXHAMOLE_AT(rewritten, number, 0);
GUXHAMOLE_AT(rewritten, next, 8);
GUXHAMOLE_SIZE(billed, 32);
GUXHAMOLE_AT(billed, number, 0);
GUXHAMOLE_AT(billed, place, 8);
GUXHAMOLE_AT(billed, right, 16);
GUXHAMOLE_AT(billed, line, 24);
GUXHAMOLE_SIZE(drawn, 16);
GUXHAMOLE_AT(drawn, number, 0);
GUXHAMOLE_AT(drawn, seed, 4);
GUXHAMOLE_AT(drawn, entry, 8);
GUXHAMOLE_AT(drawn, day_kind, 12);
GUXHAMOLE_SIZE(rows, 400);
GUXHAMOLE_AT(rows, number, 0);
GUXHAMOLE_AT(rows, place, 8);
GUXHAMOLE_AT(rows, weekday, 16);
GUXHAMOLE_AT(rows, weekend, 208);
#undef GUXHAMOLE_SIZE
#undef GUXHAMOLE_AT
#undef GUXHAMOLE_ASSERT

#endif
