/* The kill test's files of records, refused in the earlier form and rewritten, killed or not. */
#define _POSIX_C_SOURCE 200809L

#include "kill_rewrites.h"

#include "box_refusals.h"
#include "kill_world.h"

#include <stdio.h>
#include <string.h>
#include <sys/wait.h>
#include <unistd.h>

enum { PATH_MOST = 1000, NAME_MOST = PATH_MOST + 8 };

static int rewritten_files, cut_files, kills, still_old;

/* What the box must have said, and the status that it must have ended with. */
static void expect(const struct outcome *out, const char *text, int status)
{
    if (!WIFEXITED(out->status) || WEXITSTATUS(out->status) != status)
        fail("a file of the earlier form: it ended otherwise");
    if (strcmp(out->text.bytes, text) != 0)
        fail("a file of the earlier form: another answer");
}

static void expect_file(const char *path, const struct image *want)
{
    struct image image;
    if (!image_read(path, &image) || !image_same(&image, want))
        fail("a file of the earlier form: it has other bytes");
}

static void expect_none(const char *path, const char *ending)
{
    char name[NAME_MOST];
    snprintf(name, sizeof name, "%s%s", path, ending);
    if (access(name, F_OK) == 0)
        fail("a file of the earlier form: a file stands that shouldn't");
}

/* Fed to a box in the earlier form, it is refused at its first interval, and nothing is saved. */
static void refuse(const char *earlier)
{
    static struct text input, want;
    char why[REFUSAL_TEXT];
    input.length = want.length = 0;
    text_add(&input, "records 0 %s\n", earlier);
    refusal_text(GUXHAMOLE_RECORD_ORDER, 0, why);
    text_add(&want, "started on a new book\n%s in records at place 0\n", why);
    no_files();
    expect(run_box(world.image, input.bytes, 0, 0), want.bytes, 0);
    expect_none(world.image, "");
}

static void rewrite(const char *earlier, const char *later, const struct image *want)
{
    static struct text text;
    text.length = 0;
    text_add(&text, "rewritten %zu intervals, %zu bytes\n", want->length / INTERVAL, want->length);
    expect(run_rewrite(earlier, later, 0, 0), text.bytes, 0);
    expect_file(later, want);
    expect_none(later, ".new");
    expect_none(later, ".old");
}

/* Rewrites EARLIER to LATER, which holds `old` or isn't there where that is null, killed at each step in turn. */
static void kill_each(const char *earlier, const char *later, const struct image *form, const struct image *old,
                      const struct image *want)
{
    struct image image;
    int killed = 1;
    for (long at = 1; killed; at++) {
        unlink(later);
        if (old != NULL)
            image_write(later, old);
        image_write(earlier, form);
        step = at;
        const struct outcome *out = run_rewrite(earlier, later, at, 0);
        killed = was_killed(out);
        int there = image_read(later, &image), is_new = there && image_same(&image, want);
        if (!is_new && (there != (old != NULL) || (there && !image_same(&image, old))))
            fail("a rewriting that was killed left another file");
        if (!is_new && (!killed || out->text.length != 0))
            fail("a rewriting that was said was not done");
        if (strcmp(earlier, later) != 0)
            expect_file(earlier, form);
        kills += killed;
        still_old += killed && !is_new;
        rewrite(earlier, later, want);
    }
    step = 0;
}

/* The last file is still there, and none beside it. */
static void full_disk(const char *earlier, const char *later, const struct image *form)
{
    struct image image;
    image_write(earlier, form);
    int there = image_read(later, &image);
    const struct outcome *out = run_rewrite(earlier, later, 0, INTERVAL + 1);
    if (strncmp(out->text.bytes, "not saved: ", 11) != 0 || !WIFEXITED(out->status) || WEXITSTATUS(out->status) != 2)
        fail("a full disk of a rewriting");
    if (there)
        expect_file(later, &image);
    else
        expect_none(later, "");
    expect_file(earlier, form);
    expect_none(later, ".new");
}

/* A file that ends in a cut interval is refused at that, and all stays as it was; without it it can be rewritten. */
static void refuse_cut(const char *earlier, const char *later, struct image *form, size_t whole)
{
    static struct text want;
    char why[REFUSAL_TEXT];
    want.length = 0;
    refusal_text(GUXHAMOLE_RECORD_BROKEN, 0, why);
    text_add(&want, "%s in records at place %zu\n", why, whole);
    expect(run_rewrite(earlier, later, 0, 0), want.bytes, 1);
    expect_none(later, "");
    expect(run_rewrite(earlier, earlier, 0, 0), want.bytes, 1);
    expect_file(earlier, form);
    expect_none(earlier, ".new");
    form->length = whole;
    image_write(earlier, form);
    cut_files++;
}

static void one_file(const char *folder, int number)
{
    char earlier[PATH_MOST], upward[PATH_MOST], later[PATH_MOST];
    struct image form, want;
    snprintf(earlier, sizeof earlier, "%s/%d.earlier", folder, number);
    snprintf(upward, sizeof upward, "%s/%d.upward", folder, number);
    snprintf(later, sizeof later, "%s/%d.records", folder, number);
    if (!image_read(earlier, &form) || !image_read(upward, &want) || form.length != want.length || image_same(&form, &want))
        fail("no file of the earlier form");
    size_t length = want.length, whole = length - length % INTERVAL;
    unlink(later);
    refuse(earlier);
    if (whole != length)
        refuse_cut(earlier, later, &form, whole);
    want.length = whole;
    full_disk(earlier, later, &form);
    kill_each(earlier, later, &form, NULL, &want);
    kill_each(earlier, later, &form, &form, &want);
    full_disk(earlier, later, &form);
    kill_each(earlier, earlier, &form, &form, &want);
    full_disk(earlier, earlier, &form);
    expect_file(later, &want);
    want.length = length; /* what was cut short comes again */
    image_write(later, &want);
    rewritten_files++;
}

void kill_rewrites(const char *folder)
{
    for (int number = 0; number < world.files; number++)
        one_file(folder, number);
    if (rewritten_files < 6 || cut_files < 2 || kills == still_old || still_old == 0)
        fail("too few files of the earlier form");
}

void kill_rewrites_counts(void)
{
    printf("%d files of the earlier form rewritten (%d ended in a cut interval), killed at %d moments, at %d of them before the new file "
           "stood; ", rewritten_files, cut_files, kills, still_old);
}
