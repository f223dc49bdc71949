/* Memory to lend, with guard bytes before and after it. */
#include "guarded.h"

#include <stdio.h>
#include <stdlib.h>
#include <string.h>

enum { GUARD = 64, PIECES = 40 };

struct piece {
    unsigned char *bytes, *noted; /* noted: null unless fixed */
    size_t size;
};

static struct piece pieces[PIECES];
static int count;

static unsigned char guard_byte(size_t place)
{
    return (unsigned char)(0xa5 ^ place);
}

void *guarded(size_t size)
{
    unsigned char *bytes = (unsigned char *)malloc(size + 2 * GUARD);
    if (bytes == NULL || count == PIECES) {
        printf("no room for %zu bytes\n", size);
        exit(1);
    }
    struct piece *piece = &pieces[count];
    piece->bytes = bytes;
    piece->noted = NULL;
    piece->size = size;
    memset(piece->bytes + GUARD, 0, size);
    for (size_t i = 0; i < GUARD; i++)
        piece->bytes[i] = piece->bytes[GUARD + size + i] = guard_byte(i);
    count++;
    return piece->bytes + GUARD;
}

void *guarded_fixed(size_t size)
{
    void *lent = guarded(size);
    pieces[count - 1].noted = (unsigned char *)calloc(size + 1, 1);
    return lent;
}

void guarded_keep(void)
{
    for (int i = 0; i < count; i++)
        if (pieces[i].noted != NULL)
            memcpy(pieces[i].noted, pieces[i].bytes + GUARD, pieces[i].size);
}

int guarded_whole(void)
{
    for (int i = 0; i < count; i++) {
        const struct piece *piece = &pieces[i];
        for (size_t j = 0; j < GUARD; j++)
            if (piece->bytes[j] != guard_byte(j) || piece->bytes[GUARD + piece->size + j] != guard_byte(j))
                return 0;
        if (piece->noted != NULL && memcmp(piece->noted, piece->bytes + GUARD, piece->size) != 0)
            return 0;
    }
    return 1;
}

void guarded_free(void)
{
    while (count > 0) {
        count--;
        free(pieces[count].bytes);
        free(pieces[count].noted);
    }
}
