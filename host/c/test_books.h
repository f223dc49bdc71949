/* What the tests of books share: the image with which a list may begin in an opening's place, and whether two books are the same. */
#ifndef TEST_BOOKS_H
#define TEST_BOOKS_H

#include "independent_link.h"

enum { BLANK_IMAGE = 148, BLANK_LINKED = 156 };

/* The image of the settings' book with no entries, so with nothing counted, and no period, of kind 1, which cannot tell its link. The
   threshold may be any. */
void blank_image(const guxhamole_settings *settings, uint8_t *image);

/* The same of kind 2, with the additional link or none. */
void blank_linked(const guxhamole_settings *settings, uint8_t *image);

/* The one or the other, as make.h's seed has it, into room for the longer one: kind 1 only where there is no link. Answers its length. */
size_t any_blank(const guxhamole_settings *settings, uint8_t *image);

int same_book(const guxhamole_book *one, const guxhamole_book *other);
int is_closed(const guxhamole_book *book);

#endif
