/* Plays inputs into the program daysheet and holds what it writes to an independent reader: every refusal, the bounds of the
   input's length, of the ring and of the threshold, and random images. Takes the program's path. Exit status 1 with the case at
   the first difference. */
#include "../c/independent.h"
#include "../c/make.h"

#include <stdio.h>
#include <stdlib.h>
#include <string.h>
#include <sys/wait.h>
#include <unistd.h>

static const char *program;
static uint8_t image[LONGEST + 16];
static unsigned long runs;

static void fail(const char *what, size_t length, const char *why)
{
    printf("daysheet: %s, %zu bytes: %s\n", what, length, why);
    exit(1);
}

/* What the program writes when `length` bytes are its standard input; at most `room` of it. */
static size_t run(const char *what, size_t length, char *told, size_t room)
{
    FILE *input = tmpfile();
    int ends[2];
    if (input == NULL || fwrite(image, 1, length, input) != length || fflush(input) != 0 || pipe(ends) != 0)
        fail(what, length, "cannot prepare the input");
    lseek(fileno(input), 0, SEEK_SET);
    pid_t child = fork();
    if (child == 0) {
        dup2(fileno(input), 0);
        dup2(ends[1], 1);
        close(ends[0]);
        execl(program, program, (char *)NULL);
        _exit(127);
    }
    close(ends[1]);
    size_t n = 0;
    for (ssize_t got; n < room && (got = read(ends[0], told + n, room - n)) > 0;)
        n += (size_t)got;
    close(ends[0]);
    fclose(input);
    int status = 0;
    if (child < 0 || waitpid(child, &status, 0) != child || !WIFEXITED(status) || WEXITSTATUS(status) != 0)
        fail(what, length, "the program did not end well");
    return n;
}

/* `expected`, where it is not NULL, is what document 01 says of the case, beside what the independent reader says. */
static void play(const char *what, size_t length, const char *expected)
{
    static char told[8192], want[8192];
    size_t n = run(what, length, told, sizeof told), m = independent_sheet(image, length, want);
    runs++;
    if (n == m && memcmp(told, want, n) == 0 && (expected == NULL || (strlen(expected) == n && memcmp(told, expected, n) == 0)))
        return;
    printf("wrote:\n%.*sexpected:\n%.*s", (int)n, told, (int)m, want);
    fail(what, length, "another text");
}

/* 01's own sheet. */
static void worked(void)
{
    struct plan p = plain();
    p.services = 1, p.window = 3, p.entries = 2, p.position = 2, p.counts[0] = 2, p.periods[0] = 1;
    size_t length = lay_out(&p, 0, image);
    put_price(image, 0, 100000);
    put_price(image, 1, -5000);
    put_price(image, 2, 250);
    play("the worked sheet", length, "region,market,counted,sum,administered\n0,0,2,950.00,1\n0,1,2,2.50,0\n");
}

static void refusals(void)
{
    struct plan p = plain();
    size_t length = lay_out(&p, 0, image);
    play("no input", 0, "refused 24\n");
    play("147 bytes", 147, "refused 24\n");
    play("a byte too many", length + 1, "refused 24\n");
    image[4] = 2;
    play("a head of kind 1 that says kind 2", length, "refused 24\n");
    image[4] = 3;
    play("kind 3", length, "refused 25\n");
    image[4] = 1, image[6] = 0;
    play("no region", length, "refused 26\n");
    image[6] = 1, image[44] = 1, image[20] = 1;
    play("a count without its price", length, "refused 27\n");
    p.entries = 1, p.counts[0] = 1;
    length = lay_out(&p, 10000001, image);
    play("a price above its range", length, "refused 16\n");
    p.services = 1;
    length = lay_out(&p, -1, image);
    play("a service below 0", length, "refused 16\n");
    length = lay_out(&p, 0, image);
    put_price(image, 0, -1);
    play("energy below 0", length, NULL);
}

/* Kind 2, of which a sheet is made as well: three regions in a chain whose last is linked to its first; and damaged. */
static void kind_2(void)
{
    struct plan p = plain();
    p.regions = 3, p.entries = 1, p.kind = 2, p.parents[1] = 0, p.parents[2] = 1, p.link = independent_ends(2, 0);
    p.counts[0] = p.counts[1] = p.counts[2] = 1, p.periods[0] = 1;
    size_t length = lay_out(&p, 700, image);
    play("a ring", length, "region,market,counted,sum,administered\n0,0,1,7.00,1\n1,0,1,7.00,0\n2,0,1,7.00,0\n");
    image[149] = 1;
    play("linked already", length, "refused 26\n");
    image[148] = image[149] = 255;
    play("no link", length, "region,market,counted,sum,administered\n0,0,1,7.00,1\n1,0,1,7.00,0\n2,0,1,7.00,0\n");
    image[152] = 0;
    play("a changeover", length, "refused 26\n");
    p.kind = 1;
    length = lay_out(&p, 700, image);
    image[4] = 2;
    play("kind 1 that says kind 2", length, "refused 26\n");
}

/* The longest inputs: 65,536 bytes are looked at, 65,537 are not. */
static void longest(void)
{
    struct plan p = plain();
    p.regions = 8, p.window = 2016, p.entries = 10000000;
    for (unsigned r = 0; r < 8; r++)
        p.counts[r] = 2016;
    size_t length = lay_out(&p, 10000000, image);
    play("8 regions of 2,016", length, NULL);
    p.services = 2, p.window = 682;
    for (unsigned r = 0; r < 8; r++)
        p.counts[r] = r < 7 ? 682 : 675;
    length = lay_out(&p, 1, image);
    play(length == 65536 ? "a sheet from 65,536 bytes" : "not 65,536 bytes", length, length == 65536 ? NULL : "");
    p.services = 3, p.window = 512;
    for (unsigned r = 0; r < 8; r++)
        p.counts[r] = r < 7 ? 512 : 503;
    play("an image of 65,540 bytes", lay_out(&p, 1, image), "refused 29\n");
    memset(image, 0, 65537 + 16);
    play("65,536 zeros", 65536, "refused 24\n");
    play("65,537 zeros", 65537, "refused 29\n");
    put_number(image, 0, 4, 65536);
    play("65,536 bytes of kind 0", 65536, "refused 25\n");
    put_number(image, 0, 4, 65537);
    put_number(image, 4, 2, 1);
    play("65,537 bytes of kind 1", 65537, "refused 29\n");
    p = plain();
    p.regions = 8, p.services = 10, p.window = 2016, p.entries = 10000000;
    for (unsigned r = 0; r < 8; r++)
        p.counts[r] = 2016;
    play("the longest image", lay_out(&p, 1, image), "refused 29\n");
}

/* R x M x W at and above 16,384. */
static void rings(void)
{
    struct plan p = plain();
    p.regions = 5, p.services = 10, p.window = 2016, p.halves = 48;
    play("the real market's head", lay_out(&p, 0, image), "refused 29\n");
    p.entries = 1, p.counts[4] = 1;
    play("a large book with a bad price", lay_out(&p, -1, image), "refused 16\n");
    p = plain();
    p.regions = 8, p.services = 1, p.window = 1024;
    play("16,384 places", lay_out(&p, 0, image), NULL);
    p.window = 1025;
    play("16,400 places", lay_out(&p, 0, image), "refused 29\n");
    p.regions = 1, p.services = 10, p.window = 1489;
    play("16,379 places", lay_out(&p, 0, image), NULL);
    p.window = 1490;
    play("16,390 places", lay_out(&p, 0, image), "refused 29\n");
}

/* An image may hold any threshold in range, a multiple of 10,000 or not. */
static void thresholds(void)
{
    static const int64_t in[] = {1, 9999, 10001, 95000, 100000, 99999999999, 100000000000}, out[] = {0, -10000, 100000000001};
    struct plan p = plain();
    for (unsigned i = 0; i < sizeof in / sizeof *in; i++) {
        p.threshold = in[i];
        play("a threshold in range", lay_out(&p, 0, image), "region,market,counted,sum,administered\n0,0,0,0.00,0\n");
    }
    for (unsigned i = 0; i < sizeof out / sizeof *out; i++) {
        p.threshold = out[i];
        play("a threshold out of range", lay_out(&p, 0, image), "refused 26\n");
    }
}

/* Sums at the ends of their range. */
static void sums(void)
{
    struct plan p = plain();
    p.window = 2016, p.entries = 10000000, p.counts[0] = 2016;
    play("the largest sum", lay_out(&p, 10000000, image), "region,market,counted,sum,administered\n0,0,2016,201600000.00,0\n");
    play("the least sum", lay_out(&p, -10000000, image), "region,market,counted,sum,administered\n0,0,2016,-201600000.00,0\n");
    p.window = 1, p.counts[0] = 1, p.periods[0] = 1;
    play("five cents below 0", lay_out(&p, -5, image), "region,market,counted,sum,administered\n0,0,1,-0.05,1\n");
}

int main(int count, char **words)
{
    if (count != 2) {
        printf("usage: test PROGRAM\n");
        return 2;
    }
    program = words[1];
    worked();
    refusals();
    kind_2();
    longest();
    rings();
    thresholds();
    sums();
    for (int i = 0; i < 300; i++) {
        size_t length = any_image(i < 250 ? 20 : 150, image);
        play("any", length, NULL);
        image[4 + below(length - 4)] ^= (uint8_t)(1u << below(8));
        play("a damaged one", length, NULL);
    }
    printf("%lu day sheets alike\n", runs);
    return 0;
}
