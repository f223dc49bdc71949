/* The kill test's lines, files and runs of a box. */
#define _POSIX_C_SOURCE 200809L

#include "kill_world.h"

#include "kill_lines.h"
#include "kill_rewrites.h"

#include <errno.h>
#include <fcntl.h>
#include <signal.h>
#include <stdarg.h>
#include <stdio.h>
#include <stdlib.h>
#include <string.h>
#include <sys/resource.h>
#include <sys/wait.h>
#include <unistd.h>

enum { INTERVALS = 34, QUESTIONS = PRICES };

struct world world;
uint64_t first_seed;
int moment = -1;
long step;

void fail(const char *why)
{
    printf("kill test, seed %llu, moment %d, step %ld: %s\n", (unsigned long long)first_seed, moment, step, why);
    exit(1);
}

void text_add(struct text *text, const char *format, ...)
{
    va_list values;
    va_start(values, format);
    int length = vsnprintf(text->bytes + text->length, TEXT_MOST - text->length, format, values);
    va_end(values);
    if (length < 0 || (size_t)length >= TEXT_MOST - text->length)
        fail("a text is too long");
    text->length += (size_t)length;
}

int text_answers(const struct text *text)
{
    int answers = 0;
    for (size_t at = 0; at < text->length; at++)
        answers += text->bytes[at] != ' ' && (at == 0 || text->bytes[at - 1] == '\n');
    return answers;
}

int image_read(const char *path, struct image *image)
{
    FILE *file = fopen(path, "rb");
    image->length = 0;
    if (file == NULL)
        return 0;
    image->length = fread(image->bytes, 1, sizeof image->bytes, file);
    fclose(file);
    return 1;
}

static void write_file(const char *path, const void *bytes, size_t length)
{
    FILE *file = fopen(path, "wb");
    if (file == NULL || fwrite(bytes, 1, length, file) != length || fclose(file) != 0)
        fail("a file cannot be written");
}

void image_write(const char *path, const struct image *image)
{
    write_file(path, image->bytes, image->length);
}

int image_same(const struct image *one, const struct image *other)
{
    return one->length == other->length && memcmp(one->bytes, other->bytes, one->length) == 0;
}

void no_files(void)
{
    unlink(world.image);
    unlink(world.old_image);
    unlink(world.new_image);
}

/* The words may be fewer: the first null ends them. */
static void be_box(const char *const *words, int output, long kill_at, size_t most)
{
    char number[30];
    int input = open(world.input, O_RDONLY);
    snprintf(number, sizeof number, "%ld", kill_at);
    setenv("BOX_KILL_AT", number, 1);
    if (most != 0) {
        struct rlimit limit = {most, most};
        signal(SIGXFSZ, SIG_IGN);
        setrlimit(RLIMIT_FSIZE, &limit);
    }
    if (input >= 0 && dup2(input, 0) == 0 && dup2(output, 1) == 1)
        execl(world.box, world.box, words[0], words[1], words[2], (char *)NULL);
    _exit(127);
}

static const struct outcome *run_words(const char *const *words, const char *input, long kill_at, size_t most)
{
    static struct outcome out;
    int ends[2];
    write_file(world.input, input, strlen(input));
    if (pipe(ends) != 0)
        fail("no pipe");
    pid_t child = fork();
    if (child == 0) {
        close(ends[0]);
        be_box(words, ends[1], kill_at, most);
    }
    close(ends[1]);
    out.text.length = 0;
    ssize_t count;
    do {
        count = read(ends[0], out.text.bytes + out.text.length, TEXT_MOST - 1 - out.text.length);
        if (count > 0)
            out.text.length += (size_t)count;
    } while (count > 0 || (count < 0 && errno == EINTR));
    out.text.bytes[out.text.length] = 0;
    close(ends[0]);
    if (child < 0 || waitpid(child, &out.status, 0) != child)
        fail("the box was not run");
    return &out;
}

const struct outcome *run_box(const char *image, const char *input, long kill_at, size_t most)
{
    const char *words[] = {image, NULL, NULL};
    return run_words(words, input, kill_at, most);
}

const struct outcome *run_rewrite(const char *earlier, const char *later, long kill_at, size_t most)
{
    const char *words[] = {"rewrite", earlier, later};
    return run_words(words, "", kill_at, most);
}

int was_killed(const struct outcome *out)
{
    return WIFSIGNALED(out->status) && WTERMSIG(out->status) == SIGKILL;
}

static const char *after_line(const char *at)
{
    const char *end = strchr(at, '\n');
    if (end == NULL)
        fail("the unkilled box said too little");
    return end + 1;
}

static char *first_line(const char *from)
{
    return strndup(from, (size_t)(after_line(from) - from));
}

/* With the details above it. */
static char *first_answer(const char *from)
{
    const char *at = from;
    while (*at == ' ')
        at = after_line(at);
    return strndup(from, (size_t)(after_line(at) - from));
}

/* The lines before a `records` line, and it, stand for what is in its file up to its place and from there on. */
static void note_file(int last)
{
    int place = 0, path = 0;
    if (sscanf(world.lines[last], "records %d %n", &place, &path) != 1 || place == 0)
        return;
    for (int i = last; place >= 0; i--, place -= INTERVAL) {
        world.paths[i] = world.lines[last] + path;
        world.places[i] = place;
    }
}

void add_lines(struct text *input, int from)
{
    for (int i = from; i < world.count; i++)
        if (world.paths[i] == NULL)
            text_add(input, "%s", world.lines[i]);
        else if (i == from || world.places[i] == 0)
            text_add(input, "records %d %s", world.places[i], world.paths[i]);
}

static void make_lines(const char *folder)
{
    char *text = NULL;
    size_t length = 0;
    FILE *out = open_memstream(&text, &length);
    if (out == NULL)
        fail("no memory");
    world.files = kill_lines(out, INTERVALS, folder);
    fclose(out);
    for (const char *at = text; *at != 0 && world.count < LINES_MOST; at += strlen(world.lines[world.count++]))
        world.lines[world.count] = first_line(at);
    free(text);
    for (int i = 0; i < world.count; i++)
        note_file(i);
}

static void make_questions(void)
{
    static struct text text;
    for (int place = 0; place < PRICES; place++)
        text_add(&text, "report %d %d\n", place / MARKETS, place % MARKETS);
    world.questions = text.bytes;
}

/* Plays the first `count` lines on no files, and asks for every report. */
static const struct outcome *play_beginning(int count)
{
    static struct text input;
    input.length = 0;
    for (int i = 0; i < count; i++)
        text_add(&input, "%s", world.lines[i]);
    text_add(&input, "%s", world.questions);
    no_files();
    const struct outcome *out = run_box(world.image, input.bytes, 0, 0);
    if (out->status != 0 || text_answers(&out->text) != 1 + count + QUESTIONS)
        fail("the unkilled box ended early");
    return out;
}

/* Fed its files of records, the box answers and saves the same. The steps are those of this run. */
static void learn_files(void)
{
    static struct text input, want;
    struct image image;
    no_files();
    add_lines(&input, 0);
    text_add(&want, "started on a new book\n");
    for (int i = 0; i < world.count; i++)
        text_add(&want, "%s", world.answers[i]);
    setenv("BOX_MOMENTS", world.step_file, 1);
    const struct outcome *out = run_box(world.image, input.bytes, 0, 0);
    unsetenv("BOX_MOMENTS");
    if (out->status != 0 || strcmp(out->text.bytes, want.bytes) != 0)
        fail("the unkilled box answers lines and records in two ways");
    if (!image_read(world.image, &image) || !image_same(&image, &world.images[world.count]))
        fail("the unkilled box saves lines and records in two ways");
}

static void learn_steps(void)
{
    char name[100];
    FILE *file = fopen(world.step_file, "r");
    while (file != NULL && world.step_count < STEPS_MOST && fgets(name, sizeof name, file) != NULL) {
        name[strcspn(name, "\n")] = 0;
        world.steps[world.step_count++].name = strdup(name);
    }
    if (file == NULL || fclose(file) != 0)
        fail("the box told no steps");
}

/* What the box says to the first `count` lines, all but the last of which are known; and what it then has. */
static void learn_beginning(int count)
{
    const char *at = play_beginning(count)->text.bytes + strlen("started on a new book\n");
    for (int i = 0; i < count; i++) {
        if (i == count - 1)
            world.answers[i] = first_answer(at);
        else if (strncmp(at, world.answers[i], strlen(world.answers[i])) != 0)
            fail("the unkilled box answers the same lines in two ways");
        at += strlen(world.answers[i]);
    }
    world.reports[count] = strdup(at);
    image_read(world.image, &world.images[count]);
}

void learn(const char *box, const char *folder)
{
    world.box = box;
    snprintf(world.image, sizeof world.image, "%s/image", folder);
    snprintf(world.old_image, sizeof world.old_image, "%s/image.old", folder);
    snprintf(world.new_image, sizeof world.new_image, "%s/image.new", folder);
    snprintf(world.input, sizeof world.input, "%s/lines", folder);
    snprintf(world.step_file, sizeof world.step_file, "%s/steps", folder);
    make_lines(folder);
    kill_rewrites(folder);
    make_questions();
    for (int count = 0; count <= world.count; count++)
        learn_beginning(count);
    image_read(world.old_image, &world.last_old);
    learn_files();
    learn_steps();
}
