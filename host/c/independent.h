/* The image check, the index, the day sheet, the amount text and the schedule maker in plain C, written from the specification
   alone and sharing nothing with the proved code: the tests compare the two. */
#ifndef INDEPENDENT_H
#define INDEPENDENT_H

#include "independent_link.h"

/* An image's number of so many bytes at a place. */
uint64_t independent_number(const uint8_t *image, size_t at, int bytes);

/* A refusal's number, or 0; and its place. */
struct independent_refusal {
    uint32_t number;
    uint64_t place;
};

/* The check of an image of either kind: 24 to 27, and 16 with its place; and the number alone. */
struct independent_refusal independent_image_refusal(const uint8_t *image, size_t length);
uint32_t independent_check(const uint8_t *image, size_t length);

/* Where the prices begin in an image of this kind. */
size_t independent_head(unsigned kind);

/* The additional link that an image, one that passes the check, says: none where it is of kind 1. */
struct independent_link independent_image_link(const uint8_t *image);

int64_t independent_index(uint64_t amount, const uint32_t c[4], const uint32_t b[4], uint64_t last);

/* The day sheet of an image as text in `out`, of at least 8,192 bytes; answers the text's length. */
size_t independent_sheet(const uint8_t *image, size_t length, char *out);

/* The amount's text, in `text` of at least 22 bytes, a zero byte after it; answers its length. */
size_t independent_text(int64_t cents, char *text);

/* One market's rows, which are zeros when refused; answers the refusal's number, or 0, and its place. */
struct independent_rows {
    uint32_t number;
    uint64_t place;
    int32_t rows[2][48];
};

struct independent_rows independent_schedule(unsigned halves, int32_t cap, int32_t floor, int energy, const int32_t *prices,
                                             size_t count, const uint8_t *kinds, size_t days);

#endif
