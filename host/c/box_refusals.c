/* A refusal as the box says it; docs/REFUSALS.md says more of each. */
#include "box_refusals.h"

#include "guxhamole.h"

#include <inttypes.h>
#include <stdio.h>

static const char *meaning(uint32_t number)
{
    switch (number) {
    case GUXHAMOLE_BOOK: return "the book is closed or damaged";
    case GUXHAMOLE_LENGTH: return "a slice's length";
    case GUXHAMOLE_FULL: return "10,000,000 entries taken";
    case GUXHAMOLE_NUMBER: return "not the next entry's number";
    case GUXHAMOLE_DAY_KIND: return "a day kind that is neither 0 nor 1";
    case GUXHAMOLE_MARK: return "a mark that is neither 0 nor 1";
    case GUXHAMOLE_PRICE: return "a price out of its market's range";
    case GUXHAMOLE_FACTOR: return "a region's or the additional link's factor out of range";
    case GUXHAMOLE_THRESHOLD: return "a threshold out of range";
    case GUXHAMOLE_LIMITS: return "a cap or floor out of range";
    case GUXHAMOLE_SETTING: return "a setting out of range, or bad ends of the additional link";
    case GUXHAMOLE_MARKET: return "no such region or market";
    case GUXHAMOLE_SUMS: return "a sum that is not its prices' total";
    case GUXHAMOLE_BUFFER: return "a buffer shorter than the image";
    case GUXHAMOLE_IMAGE_LENGTH: return "an image cut short, or none";
    case GUXHAMOLE_IMAGE_KIND: return "an image of a kind that is neither 1 nor 2";
    case GUXHAMOLE_IMAGE_FIELD: return "an image with a field out of range, or with bad ends of the additional link";
    case GUXHAMOLE_IMAGE_TOTAL: return "an image of another length than its counts say";
    case GUXHAMOLE_RECORD_BROKEN: return "a record missing, cut short or of another length than its kind";
    case GUXHAMOLE_RECORD_KIND: return "a record's kind or region total that doesn't belong there";
    case GUXHAMOLE_RECORD_REGION: return "a record of an unknown region, or of one given before";
    case GUXHAMOLE_PLANNED_PRICE: return "a price outside its market's entry range";
    case GUXHAMOLE_HUNDREDS: return "a threshold that is no multiple of 10,000 cents";
    case GUXHAMOLE_RECORD_ORDER: return "a record that isn't the next region's; for a file of the earlier form: box rewrite EARLIER LATER";
    case GUXHAMOLE_BILLED_ENERGY: return "a line's kilowatt-hours above 1,000,000,000";
    case GUXHAMOLE_IMAGE_FIRST: return "a book with the additional link, which no image of kind 1 tells";
    default: return "unknown";
    }
}

void refusal_text(uint32_t number, uint64_t place, char *text)
{
    int placed = number == GUXHAMOLE_MARK || number == GUXHAMOLE_PRICE || number == GUXHAMOLE_FACTOR || number == GUXHAMOLE_BILLED_ENERGY;
    int length = snprintf(text, REFUSAL_TEXT, "refused %" PRIu32 " (%s)", number, meaning(number));
    if (placed && length > 0 && length < REFUSAL_TEXT)
        snprintf(text + length, (size_t)(REFUSAL_TEXT - length), " at %" PRIu64, place);
}
