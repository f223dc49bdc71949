/* What a box says: box.c and box_commission.h have the lines. */
#include "box_answers.h"

#include "box_market.h"
#include "box_refusals.h"
#include "box_step.h"

#include <inttypes.h>
#include <stdarg.h>
#include <stdio.h>
#include <stdlib.h>

void flush(void)
{
    if (fflush(stdout) != 0)
        exit(BROKEN);
}

void answer(const char *format, ...)
{
    va_list values;
    va_start(values, format);
    box_step("before answer");
    vprintf(format, values);
    putchar('\n');
    flush();
    box_step("after answer");
    va_end(values);
}

void answer_refused(uint32_t number, uint64_t place)
{
    char text[REFUSAL_TEXT];
    refusal_text(number, place, text);
    answer("%s", text);
}

void answer_report(const guxhamole_book *book, uint32_t region, uint32_t market)
{
    guxhamole_reading reading = guxhamole_report(*book, region, market);
    if (reading.number != GUXHAMOLE_ACCEPTED) {
        answer_refused(reading.number, 0);
        return;
    }
    uint8_t text[GUXHAMOLE_TEXT_MAX];
    size_t length = guxhamole_amount_text(reading.sum, text, sizeof text);
    answer("region %" PRIu32 " market %" PRIu32 ": %s, sum %.*s of %" PRIu32 " prices, %" PRIu32 " entries taken", region, market,
           reading.mark ? "administered" : "free", (int)length, (const char *)text, reading.counted, reading.entries);
}

void tell_periods(const guxhamole_book *before, const guxhamole_book *after)
{
    for (int region = 0; region < REGIONS; region++)
        for (int market = 0; market < MARKETS; market++) {
            int place = 11 * region + market;
            if (after->marks[place] != before->marks[place])
                printf("  region %d market %d: %s from interval %" PRIu32 " on\n", region, market,
                       after->marks[place] ? "administered" : "free", after->entries);
        }
}
