/* Images stored and loaded in plain C, written from documents 01 and 02 alone and sharing nothing with the proved code: a lent book and
   ring to an image of either kind, and either kind to a book and ring; and the book that a ledger of all entries is. The tests compare. */
#ifndef INDEPENDENT_IMAGE_H
#define INDEPENDENT_IMAGE_H

#include "independent.h"
#include "independent_ledger.h"

/* How many bytes a book's image of this kind has. */
size_t independent_image_length(const guxhamole_book *book, unsigned kind);

/* Stores a book and its ring by kind 1 or 2. Answers 10, 11, 22, 47 or 23, and leaves the buffer, or 0 with the image's length. */
uint32_t independent_store(const guxhamole_book *book, const int32_t *ring, size_t ring_length, unsigned kind, uint8_t *buffer,
                           size_t room, size_t *length);

/* Loads an image of either kind. Answers 24 to 27, 11 or 16 with its place, and leaves the ring, with the closed book; or 0. */
struct independent_refusal independent_load(const uint8_t *image, size_t length, int32_t *ring, size_t ring_length, guxhamole_book *book);

/* The book that keeps what a ledger does, in a ring of its length. */
void independent_book_of(const struct independent_ledger *ledger, guxhamole_book *book, int32_t *ring);

#endif
