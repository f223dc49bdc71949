/* Writes the sample images into the folder that it is given: HOW.md says what they hold. */
#include "../host/c/make.h"

#include <stdio.h>

static uint8_t image[LONGEST];

static int save(const char *folder, const char *name, const struct plan *plan, const int32_t *prices)
{
    char path[4096];
    size_t length = lay_out(plan, 0, image);
    for (size_t i = 0; 148 + 4 * i < length; i++)
        put_price(image, i, prices[i]);
    snprintf(path, sizeof path, "%s/%s", folder, name);
    FILE *file = fopen(path, "wb");
    if (file == NULL || fwrite(image, 1, length, file) != length || fclose(file) != 0) {
        printf("%s: cannot be written\n", path);
        return 1;
    }
    return 0;
}

/* The worked book of document 01's day sheet. */
static int worked(const char *folder)
{
    static const int32_t prices[] = {100000, -5000, 250, 0};
    struct plan p = plain();
    p.services = 1, p.window = 3, p.entries = 2, p.position = 2, p.counts[0] = 2, p.periods[0] = 1;
    return save(folder, "worked.image", &p, prices);
}

static int two_regions(const char *folder)
{
    static const int32_t prices[] = {
        4250, 5510, 125000, 148000, 31025, -1200, /* region 0: energy, then its service */
        150, 0, 525, 990, 310, 45,
        4100, 5375, 121990, 143500, /* region 1 */
        95, 120, 60, 15,
    };
    struct plan p = plain();
    p.regions = 2, p.services = 1, p.window = 6, p.halves = 48, p.parents[1] = 0;
    p.entries = 6, p.position = 6, p.threshold = 300000;
    p.counts[0] = 6, p.counts[1] = 4, p.periods[0] = 1;
    return save(folder, "two-regions.image", &p, prices);
}

int main(int count, char **words)
{
    if (count != 2) {
        printf("usage: make FOLDER\n");
        return 2;
    }
    return worked(words[1]) | two_regions(words[1]);
}
