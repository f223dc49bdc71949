/* Kills a box at seeded moments and starts it on damaged files: `kill_test BOX FOLDER [SEED [MOMENT]]`, with BOX built for it
   (host/c/run) and FOLDER an empty one.

   First the files of records of kill_lines.h, which come in the earlier form, are rewritten by the box, killed at every step of it
   (kill_rewrites.h). The box plays the lines unkilled, and every beginning of them: what it answers to each line, and the image and
   all reports after it; and the same once more with some of the intervals in the rewritten files, which is how the others are fed.
   Then, moment by moment:
   - killed: the box is ended by SIGKILL at one of its steps, started again on what the files hold (in every fourth moment as an earlier
     box would have left it, in files of kind 1, where the market has no additional link), in every third moment ended once more, and
     started again. What it said up to its end is a beginning of what the unkilled box says; it comes back with the
     image and the reports of the lines that it had answered, or of one line more, and its answers from there on and its last
     image are the unkilled box's. An interval that was saved unsaid is sent again, in a line, and refused by 13; in a file of
     records the feeder goes on from the next one.
   - damaged: IMAGE is cut, flipped or removed, now and then IMAGE.old too. The box says of each the refusal that the image check
     and the independent one have for its bytes, and starts on the first that loads, or not at all.
   Last the disk is full, and the folder is missing. All from one seed; a failure prints the seed and the moment, which repeat it
   alone. */
#define _POSIX_C_SOURCE 200809L

#include "box_refusals.h"
#include "independent.h"
#include "kill_rewrites.h"
#include "kill_world.h"
#include "make.h"

#include <signal.h>
#include <stdio.h>
#include <stdlib.h>
#include <string.h>
#include <sys/wait.h>
#include <unistd.h>

enum { KILLED = 200, DAMAGED = 100 };

#define FIRST_SEED 20261116u

enum file_state { FILE_LOADS, FILE_MISSING, FILE_UNUSABLE };

/* The bytes of details that a box told of each line without answering it, in this moment. */
static size_t details_told[LINES_MOST + 1];

static int kills, firsts, saved_unsaid, in_files, refusals, foreign, fallen_back, not_started, started;

static uint32_t number_at(const uint8_t *bytes, int width)
{
    uint32_t number = 0;
    for (int i = width - 1; i >= 0; i--)
        number = number << 8 | bytes[i];
    return number;
}

/* The refusal's place: of the image's prices the first that is out of its market's range, region by region, market by market. */
static uint64_t bad_place(const struct image *image)
{
    uint64_t place = 0;
    for (int region = 0; region < REGIONS; region++)
        for (int market = 0; market < MARKETS; market++)
            for (uint32_t i = number_at(image->bytes + 44 + 2 * region, 2); i > 0; i--, place++) {
                int32_t price = (int32_t)number_at(image->bytes + image_head(image->bytes) + 4 * place, 4);
                if (price > 10000000 || price < (market == 0 ? -10000000 : 0))
                    return place;
            }
    return 0;
}

static int same_market(const uint8_t *bytes)
{
    guxhamole_settings own = BOX_SETTINGS;
    return bytes[6] == own.regions && bytes[7] == own.services && number_at(bytes + 8, 2) == own.window &&
           bytes[10] == own.halves && memcmp(bytes + 12, own.parents, sizeof own.parents) == 0 &&
           independent_image_link(bytes).from == own.from && independent_image_link(bytes).to == own.to;
}

/* The image of the same book by kind 1, as an earlier box saved it; of a book with a link there is none. And by kind 2 again. */
static void make_first(struct image *image)
{
    if (image->length < IMAGE_HEAD || image->bytes[4] != 2 || BOX_FROM != GUXHAMOLE_NONE)
        return;
    image->length -= IMAGE_HEAD - 148;
    memmove(image->bytes + 148, image->bytes + IMAGE_HEAD, image->length - 148);
    put_number(image->bytes, 0, 4, image->length);
    image->bytes[4] = 1;
}

static void make_second(struct image *image)
{
    static const uint8_t none[] = {255, 255, 0, 0, 255, 255, 255, 255};
    if (image->length < 148 || image->bytes[4] != 1)
        return;
    memmove(image->bytes + IMAGE_HEAD, image->bytes + 148, image->length - 148);
    memcpy(image->bytes + 148, none, sizeof none);
    image->length += IMAGE_HEAD - 148;
    put_number(image->bytes, 0, 4, image->length);
    image->bytes[4] = 2;
}

/* Of two images, whether they are the same book's, of whatever kinds. */
static int same_saved(struct image one, const struct image *other)
{
    make_second(&one);
    return image_same(&one, other);
}

/* What a load of the image into the box's ring is refused by, or 0; 11 stands before 16. */
static uint32_t load_refusal(const struct image *image)
{
    const uint8_t *bytes = image->bytes;
    uint32_t number = guxhamole_image_check(bytes, image->length);
    if (number != independent_check(bytes, image->length))
        fail("the two image checks differ");
    if (number == 0 || number == GUXHAMOLE_PRICE)
        if (bytes[6] * (bytes[7] + 1u) * number_at(bytes + 8, 2) != RING)
            return GUXHAMOLE_LENGTH;
    return number;
}

/* What a box must say of a file. */
static enum file_state say_file(struct text *text, const char *name, const char *path, struct image *image)
{
    if (!image_read(path, image))
        return FILE_MISSING;
    uint32_t number = load_refusal(image);
    if (number != 0) {
        char refusal[REFUSAL_TEXT];
        refusal_text(number, number == GUXHAMOLE_PRICE ? bad_place(image) : 0, refusal);
        text_add(text, "%s: %s\n", name, refusal);
        return FILE_UNUSABLE;
    }
    if (!same_market(image->bytes)) {
        text_add(text, "%s: another market's book\n", name);
        return FILE_UNUSABLE;
    }
    text_add(text, "started on %s: %u entries taken\n", name, number_at(image->bytes + 20, 4));
    return FILE_LOADS;
}

/* What a box must say at its start, of the files as they are; and the image that it starts on, of length 0 for a new book.
   Answers whether it starts. */
static int say_start(struct text *text, struct image *image)
{
    text->length = 0;
    enum file_state now = say_file(text, "IMAGE", world.image, image);
    if (now == FILE_LOADS)
        return 1;
    enum file_state before = say_file(text, "IMAGE.old", world.old_image, image);
    if (before == FILE_LOADS)
        return 1;
    image->length = 0;
    int fresh = now == FILE_MISSING && before == FILE_MISSING;
    text_add(text, "%s\n", fresh ? "started on a new book" : "not started: no image loads");
    return fresh;
}

/* The bytes of a text after its last answer. */
static size_t details_after(const struct text *text)
{
    size_t details = 0;
    for (const char *at = text->bytes; *at != 0; at = strchr(at, '\n') + 1)
        details = *at == ' ' ? details + (size_t)(strchr(at, '\n') - at) + 1 : 0;
    return details;
}

static size_t details_of(const char *answer)
{
    const char *at = answer;
    while (*at == ' ')
        at = strchr(at, '\n') + 1;
    return (size_t)(at - answer);
}

/* How many lines the files are ahead of the `done` that were answered: 0 or 1. Of a line that was saved unsaid the details were
   told. */
static int ahead(const struct image *image, int done)
{
    if (same_saved(*image, &world.images[done]))
        return 0;
    if (done == world.count || !same_saved(*image, &world.images[done + 1]))
        fail("it came back with another book than the last saved one");
    if (details_told[done] != details_of(world.answers[done]))
        fail("a saved interval's details were not told");
    saved_unsaid++;
    return 1;
}

/* The input of a box that is started after `done` lines, and what it must say before the next one: the schedule is given again. */
static void begin_again(struct text *input, struct text *want, int done, int state)
{
    input->length = 0;
    for (int i = 0; i < done; i++)
        if (strncmp(world.lines[i], "schedule", 8) == 0) {
            text_add(input, "%s", world.lines[i]);
            text_add(want, "%s", world.answers[i]);
        }
    text_add(input, "%s", world.questions);
    text_add(want, "%s", world.reports[state]);
}

/* Runs a box on what the files hold, fed the lines from `done` on; killed at its step `kill_at`, or not if 0. Unless it is the
   `first` box, it is asked for every report before. Answers how many lines were then answered. */
static int play(int done, int first, long kill_at)
{
    static struct text input, want;
    struct image image;
    if (!say_start(&want, &image))
        fail("no image loads");
    int more = ahead(&image, done), from = more && world.paths[done] != NULL ? done + 1 : done;
    input.length = 0;
    if (!first)
        begin_again(&input, &want, done, done + more);
    int told = text_answers(&want);
    add_lines(&input, from);
    for (int i = from; i < world.count; i++) {
        int again = i == done && more && strncmp(world.lines[i], "interval", 8) == 0;
        text_add(&want, "%s", again ? "refused 13 (not the next entry's number)\n" : world.answers[i]);
    }
    step = kill_at;
    const struct outcome *out = run_box(world.image, input.bytes, kill_at, 0);
    if (out->text.length > want.length || memcmp(out->text.bytes, want.bytes, out->text.length) != 0)
        fail("another answer than the unkilled box's");
    int killed = kill_at != 0 && was_killed(out);
    kills += killed;
    if (!killed && (out->status != 0 || out->text.length != want.length))
        fail("it ended early");
    int answered = text_answers(&out->text) - told;
    done = from + (answered > 0 ? answered : 0);
    in_files += killed && done < world.count && world.paths[done] != NULL;
    size_t details = details_after(&out->text);
    if (details > details_told[done])
        details_told[done] = details;
    return done;
}

/* Plays the lines from `done` on to their end. IMAGE.old is then the unkilled box's too, or the last image itself, where a line was
   saved unsaid, sent again and saved again. */
static void play_out(int done)
{
    struct image image;
    const struct image *last = &world.images[world.count];
    if (play(done, 0, 0) != world.count)
        fail("not every line was answered");
    if (!image_read(world.image, &image) || !same_saved(image, last))
        fail("its last image is not the unkilled box's");
    if (!image_read(world.old_image, &image) || (!same_saved(image, last) && !same_saved(image, &world.last_old)))
        fail("its last image but one is not the unkilled box's");
}

/* What stands on the disk becomes what an earlier box would have left there: files of kind 1. */
static void to_first(void)
{
    const char *const paths[] = {world.image, world.old_image};
    struct image image;
    for (int i = 0; i < 2; i++)
        if (image_read(paths[i], &image)) {
            make_first(&image);
            image_write(paths[i], &image);
            firsts += image.length >= 148 && image.bytes[4] == 1;
        }
}

/* The moments divide the steps among them, and each takes one of its share. */
static void kill_once(int number)
{
    long from = (long)number * world.step_count / KILLED, to = (number + 1L) * world.step_count / KILLED;
    long at = from + (long)below((uint64_t)(to - from));
    no_files();
    int done = play(0, 1, 1 + at);
    world.steps[at].killed = 1;
    if (number % 4 == 1)
        to_first();
    if (number % 3 == 0)
        done = play(done, 0, 1 + (long)below((uint64_t)world.step_count));
    play_out(done);
}

static void damage(struct image *image)
{
    if (below(3) == 0)
        make_first(image);
    size_t length = image->length, head = image_head(image->bytes), at = below(2) ? below(head) : below(length);
    switch (below(7)) {
    case 0:
        image->length = below(length);
        break;
    case 1:
        image->length = below(4) ? head + 4 * below((length - head) / 4) : below(2) ? 148 + below(9) : 0;
        put_number(image->bytes, 0, 4, image->length);
        break;
    case 2:
        image->bytes[at] = (uint8_t)next();
        break;
    case 3:
        put_number(image->bytes, 8, 2, 1 + below(2 * WINDOW));
        break;
    case 4:
        damage_link(image->bytes, length);
        break;
    case 5:
        image->bytes[13 + below(REGIONS - 1)] = below(2) ? 255 : 0;
        break;
    default:
        image->bytes[at] = (uint8_t)(image->bytes[at] ^ 1u << below(8));
    }
}

/* The reports that a box must give of an image that loads, from the independent day sheet. */
static void say_sheet(struct text *want, const struct image *image)
{
    static char sheet[8192];
    unsigned region, market, counted, mark;
    char sum[30];
    sheet[independent_sheet(image->bytes, image->length, sheet)] = 0;
    for (const char *at = strchr(sheet, '\n'); at != NULL && at[1] != 0; at = strchr(at + 1, '\n')) {
        if (sscanf(at, "\n%u,%u,%u,%29[^,],%u", &region, &market, &counted, sum, &mark) != 5)
            fail("a day sheet");
        text_add(want, "region %u market %u: %s, sum %s of %u prices, %u entries taken\n", region, market,
                 mark ? "administered" : "free", sum, counted, number_at(image->bytes + 20, 4));
    }
}

static int times(const char *text, const char *part)
{
    int count = 0;
    for (const char *at = strstr(text, part); at != NULL; at = strstr(at + 1, part))
        count++;
    return count;
}

/* A box on the files as they are, asked for every report and no more; and the image that it started on. */
static int ask(struct image *image)
{
    static struct text want;
    int starts = say_start(&want, image);
    if (starts)
        say_sheet(&want, image);
    const struct outcome *out = run_box(world.image, world.questions, 0, 0);
    if (!WIFEXITED(out->status) || WEXITSTATUS(out->status) != (starts ? 0 : 1))
        fail("it started, or didn't, against the image check");
    if (strcmp(out->text.bytes, want.bytes) != 0)
        fail("another answer than the image check's or the day sheet's");
    refusals += times(want.bytes, ": refused ");
    foreign += times(want.bytes, "another market");
    started += starts;
    not_started += !starts;
    return starts;
}

static void damage_once(void)
{
    int last = world.count - 1;
    while (image_same(&world.images[last], &world.images[world.count]))
        last--;
    struct image image = world.images[world.count], old = world.images[last];
    no_files();
    damage(&image);
    if (below(3) == 0)
        damage(&old);
    image_write(world.old_image, &old);
    if (below(10) != 0)
        image_write(world.image, &image);
    if (!ask(&image) || !same_saved(image, &world.images[last]))
        return;
    /* It fell back to IMAGE.old: it goes on from there, killed or not, and never loses the one good file. */
    fallen_back++;
    play_out(play(last, 0, 1 + (long)below((uint64_t)world.step_count / 2)));
}

/* A save that fails is never acknowledged: the disk is full, or the folder is missing. The box ends, and the next goes on. */
static void fail_saves(const char *folder)
{
    static struct text input, missing;
    no_files();
    input.length = 0;
    add_lines(&input, 0);
    const struct outcome *out = run_box(world.image, input.bytes, 0, 1500);
    if (strstr(out->text.bytes, "not saved: ") == NULL || !WIFEXITED(out->status) || WEXITSTATUS(out->status) != 2)
        fail("a full disk");
    play_out(text_answers(&out->text) - 2); /* without the start and the end */
    text_add(&missing, "%s/missing/image", folder);
    out = run_box(missing.bytes, input.bytes, 0, 0);
    if (strstr(out->text.bytes, "not saved: ") == NULL || strstr(out->text.bytes, "accepted") != NULL)
        fail("a missing folder");
}

static void try_moment(int number)
{
    moment = number;
    memset(details_told, 0, sizeof details_told);
    seed = first_seed + 1000003u * (uint64_t)(number + 1);
    if (number < KILLED)
        kill_once(number);
    else
        damage_once();
}

/* Every kind of step was a moment's. */
static void check_steps(void)
{
    for (int i = 0; i < world.step_count; i++) {
        int killed = 0;
        for (int j = 0; j < world.step_count; j++)
            killed |= world.steps[j].killed && strcmp(world.steps[i].name, world.steps[j].name) == 0;
        if (!killed)
            fail(world.steps[i].name);
    }
}

int main(int count, char **words)
{
    if (count < 3) {
        fprintf(stderr, "usage: kill_test BOX FOLDER [SEED [MOMENT]]\n");
        return 1;
    }
    seed = first_seed = count > 3 ? strtoull(words[3], NULL, 10) : FIRST_SEED;
    learn(words[1], words[2]);
    if (count > 4) {
        try_moment(atoi(words[4]));
        return 0;
    }
    for (int number = 0; number < KILLED + DAMAGED; number++)
        try_moment(number);
    moment = -1;
    fail_saves(words[2]);
    check_steps();
    no_files();
    kill_rewrites_counts();
    if (BOX_FROM == GUXHAMOLE_NONE && firsts < 60)
        fail("too few files of kind 1");
    printf("%s link: %d lines of %d steps, %d files of kind 1 left by an earlier box, %d kills (%d in a file of records), after %d of them "
           "a line more was saved than answered; %d damaged "
           "pairs of files: %d refusals, %d books of another market, %d starts (%d on IMAGE.old), %d times none\n",
           BOX_FROM == GUXHAMOLE_NONE ? "without a" : "with a", world.count, world.step_count, firsts, kills, in_files,
           saved_unsaid, DAMAGED, refusals, foreign, started, fallen_back, not_started);
    return 0;
}
