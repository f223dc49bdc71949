/* Interval records in plain C, written from requests 2026-01, 2026-08 and 2026-10 alone and sharing nothing with the proved code: the
   tests compare the two. A valid book's shape is told; the book itself and the lengths of slices are for the tests to judge. */
#ifndef INDEPENDENT_INTERVAL_H
#define INDEPENDENT_INTERVAL_H

#include "independent_link.h"

/* An entry, its schedule aside; places from R and from R x M up are zero, but for the additional link's flow and factor at R. */
struct independent_interval {
    uint32_t entry, day_kind;
    int32_t prices[88];
    uint8_t marks[8];
    int32_t flows[9];
    uint32_t factors[9];
};

/* Reads the interval at a place, its regions as 0, 1 and so on. Answers the refusal's number, or 0 with the place after it. */
uint32_t independent_interval_read(struct independent_shape shape, const uint8_t *records, size_t length, size_t at,
                                   struct independent_interval *interval, size_t *after);

/* The same of the earlier form, request 2026-01's: each region once, in any order. */
uint32_t independent_interval_earlier(struct independent_shape shape, const uint8_t *records, size_t length, size_t at,
                                      struct independent_interval *interval, size_t *after);

/* Writes an interval's records, its regions in the order given, into room enough; answers their length. */
size_t independent_interval_write(struct independent_shape shape, const struct independent_interval *interval, const unsigned *order,
                                  uint8_t *records);

/* Rewrites the interval of the earlier form at a place into a buffer, upward. Answers the refusal's number, and leaves the buffer
   as it was, or 0 with the place after the interval. */
uint32_t independent_interval_rewrite(struct independent_shape shape, const uint8_t *records, size_t length, size_t at,
                                      uint8_t *buffer, size_t room, size_t *after);

#endif
