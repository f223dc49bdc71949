/* What the kill test knows and does: the lines, what an unkilled box answers and saves, the box's files, and runs of a box. */
#ifndef KILL_WORLD_H
#define KILL_WORLD_H

#include "box_market.h"

#include <stddef.h>
#include <stdint.h>

enum { LINES_MOST = 400, TEXT_MOST = 1 << 19, STEPS_MOST = 4000 };

struct text {
    char bytes[TEXT_MOST]; /* with a zero byte at `length` */
    size_t length;
};

/* A file's bytes, of length 0 where there is none; a longer file than any image is read to one byte more. The files of records are
   shorter. */
struct image {
    uint8_t bytes[IMAGE_MAX + 1];
    size_t length;
};

struct outcome {
    struct text text; /* what the box said */
    int status;       /* as waitpid has it */
};

/* A moment of an unkilled run. */
struct step {
    char *name;
    int killed; /* a moment of the test was here */
};

struct world {
    const char *box;
    char image[1000], old_image[1000], new_image[1000], input[1000], step_file[1000];
    int count;                           /* of lines */
    char *lines[LINES_MOST];             /* each with its end */
    const char *paths[LINES_MOST];       /* the file of records that brings it as well, with the line's end, or null */
    int places[LINES_MOST];              /* its place there */
    char *answers[LINES_MOST];           /* an unkilled box's to each line, details and all */
    struct image images[LINES_MOST + 1]; /* IMAGE after so many lines */
    struct image last_old;               /* IMAGE.old after all lines */
    char *reports[LINES_MOST + 1];       /* of every market, after so many lines */
    char *questions;                     /* the lines that ask for them */
    int files;                           /* of records */
    int step_count;
    struct step steps[STEPS_MOST];
};

extern struct world world;

/* What is under test, for a failure to be repeated: the moment, or -1, and the last step at which a box was killed, or 0. */
extern uint64_t first_seed;
extern int moment;
extern long step;

/* Prints what went wrong, with these, and ends. */
void fail(const char *why);

#if defined __GNUC__
__attribute__((format(printf, 2, 3)))
#endif
void text_add(struct text *text, const char *format, ...);

/* How many lines of a text are answers, which begin at their first column. */
int text_answers(const struct text *text);

/* Reads a file; answers 0 where there is none. */
int image_read(const char *path, struct image *image);
void image_write(const char *path, const struct image *image);
int image_same(const struct image *one, const struct image *other);

/* Removes the box's files. */
void no_files(void);

/* Runs the box on the image at `image`, fed `input`; killed at its step `kill_at`, or not if 0; its files have at most `most`
   bytes, or any number if 0. */
const struct outcome *run_box(const char *image, const char *input, long kill_at, size_t most);

/* Runs `box rewrite EARLIER LATER`, likewise. */
const struct outcome *run_rewrite(const char *earlier, const char *later, long kill_at, size_t most);

/* Whether it was ended by SIGKILL. */
int was_killed(const struct outcome *out);

/* The lines from `from` on as a box is fed them: those of a file of records by one line. */
void add_lines(struct text *input, int from);

/* Makes the lines, and learns what an unkilled box does with them, each by itself and those of a file by one. */
void learn(const char *box, const char *folder);

#endif
