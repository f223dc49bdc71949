/* Files of records of the earlier form are rewritten: box_rewrite.h says how, and what is said. */
#include "box_rewrite.h"

#include "box_files.h"
#include "box_market.h"
#include "box_refusals.h"

#include <errno.h>
#include <stdlib.h>
#include <string.h>

/* Each interval is rewritten where it stands, by a buffer: the lengths are the same. Answers the refusal, or 0, and the place that was
   reached. */
static uint32_t rewrite_all(const guxhamole_book *book, uint8_t *records, size_t length, size_t *at)
{
    uint8_t interval[INTERVAL];
    for (*at = 0; *at != length;) {
        guxhamole_rewritten rewritten = guxhamole_interval_rewrite(*book, records, length, *at, interval, INTERVAL);
        if (rewritten.number != GUXHAMOLE_ACCEPTED)
            return rewritten.number;
        memcpy(records + *at, interval, INTERVAL);
        *at = (size_t)rewritten.next;
    }
    return GUXHAMOLE_ACCEPTED;
}

/* Saves what was rewritten; where that fails, nothing is left of it. */
static int save(struct box_files *files, const uint8_t *records, size_t length)
{
    if (!files_save(files, records, length)) {
        int why = errno;
        files_clear(files);
        answer("not saved: %s", strerror(why));
        return BROKEN;
    }
    answer("rewritten %zu intervals, %zu bytes", length / INTERVAL, length);
    return ENDED;
}

static int rewrite_file(struct box_files *files, uint8_t *records, size_t length)
{
    static int32_t ring[RING];
    char why[REFUSAL_TEXT];
    size_t at = 0;
    guxhamole_settings settings = BOX_SETTINGS;
    guxhamole_kept kept = guxhamole_open(settings, ring, RING);
    if (kept.number != GUXHAMOLE_ACCEPTED) {
        answer_refused(kept.number, kept.place);
        return NOT_STARTED;
    }
    uint32_t number = rewrite_all(&kept.book, records, length, &at);
    if (number != GUXHAMOLE_ACCEPTED) {
        refusal_text(number, 0, why);
        answer("%s in records at place %zu", why, at);
        return NOT_STARTED;
    }
    return save(files, records, length);
}

int records_rewritten(const char *earlier, const char *later)
{
    static struct box_files files;
    size_t length;
    if (!files_named(&files, later)) {
        answer("not rewritten: a file name that is empty or too long");
        return NOT_STARTED;
    }
    if (same_file(earlier, files.new_image)) { /* a box that is killed in mid-save would leave no records at all */
        answer("not rewritten: %s would be written over", earlier);
        return NOT_STARTED;
    }
    uint8_t *records = file_whole(earlier, &length);
    if (records == NULL) {
        answer("not rewritten: its file cannot be read: %s", strerror(errno));
        return NOT_STARTED;
    }
    int ending = rewrite_file(&files, records, length);
    free(records);
    return ending;
}
