/* An example host: prints the index of the guide's case, and checks the image files that it is given. */
#include "guxhamole.h"

#include <stdio.h>

static int check_file(const char *path)
{
    static uint8_t bytes[1 << 20];
    FILE *file = fopen(path, "rb");
    if (file == NULL) {
        printf("%s: cannot be opened\n", path);
        return 1;
    }
    size_t length = fread(bytes, 1, sizeof bytes, file);
    fclose(file);
    uint32_t refusal = guxhamole_image_check(bytes, length);
    if (refusal == 0)
        printf("%s: %zu bytes, can be loaded\n", path, length);
    else
        printf("%s: %zu bytes, refused %u\n", path, length, refusal);
    return refusal != 0;
}

int main(int count, char **words)
{
    /* 1,125,000 dollars by quarters of 4,777 over 3,844 in total; last year's 1,359,100 */
    int64_t dollars = guxhamole_index(1125000, 1194, 1194, 1194, 1195, 961, 961, 961, 961, 1359100);
    printf("index: %lld\n", (long long)dollars);
    int bad = 0;
    for (int i = 1; i < count; i++)
        bad |= check_file(words[i]);
    return bad;
}
