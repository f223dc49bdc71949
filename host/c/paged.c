/* Memory to lend for reading alone, between forbidden pages. */
#define _DEFAULT_SOURCE

#include "paged.h"

#include <stdint.h>
#include <stdio.h>
#include <stdlib.h>
#include <string.h>
#include <sys/mman.h>
#include <unistd.h>

struct room {
    uint8_t *begin; /* after the forbidden page, with another one behind it */
    size_t size;
    int turn;
};

static struct room rooms[PAGED_ROOMS];

static void no_pages(void)
{
    printf("no pages to lend\n");
    exit(1);
}

/* Whole pages for so many bytes, and one more on each side. */
static void make_room(struct room *room, size_t size)
{
    size_t page = (size_t)sysconf(_SC_PAGESIZE);
    if (room->begin != NULL)
        munmap(room->begin - page, room->size + 2 * page);
    room->size = (size / page + 1) * page;
    void *pages = mmap(NULL, room->size + 2 * page, PROT_NONE, MAP_PRIVATE | MAP_ANONYMOUS, -1, 0);
    if (pages == MAP_FAILED)
        no_pages();
    room->begin = (uint8_t *)pages + page;
}

const void *paged_copy(int room_number, const void *bytes, size_t size)
{
    struct room *room = &rooms[room_number];
    if (room->begin == NULL || size > room->size)
        make_room(room, size);
    room->turn = !room->turn;
    uint8_t *lent = room->turn ? room->begin : room->begin + room->size - size;
    if (mprotect(room->begin, room->size, PROT_READ | PROT_WRITE) != 0)
        no_pages();
    memcpy(lent, bytes, size);
    if (mprotect(room->begin, room->size, PROT_READ) != 0)
        no_pages();
    return lent;
}
