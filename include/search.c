/* Finds the cheapest plan of a register, in at most a million visits. Prints its feedings, its cost and the visits; or the refusal.
 * Exit status 0: found, 1: refused, 2: no answer, since the words are wrong or the file can't be read. */
#include <inttypes.h>
#include <stdio.h>

#include "feedcheck.h"

/* Reads a file, as much of it as can matter. Its length, or -1 where it can't be read. */
static long read_file(const char *path, uint8_t *bytes) {
    FILE *file = fopen(path, "rb");
    long length;

    if (file == NULL) {
        perror(path);
        return -1;
    }
    length = (long)fread(bytes, 1, FEEDCHECK_MAX_JOB_READ, file);
    if (ferror(file)) {
        perror(path);
        length = -1;
    }
    fclose(file);
    return length;
}

/* Part 0: no command is at fault. */
static void print_refusal(const char *path, uint8_t number, uint8_t part, size_t position) {
    printf("%s: refusal %d", path, number);
    if (part != 0) {
        printf(" in part %d at byte %zu", part, position);
    }
    printf(": %s\n", feedcheck_refusal_text(number));
}

int main(int count, char **words) {
    static uint8_t bytes[FEEDCHECK_MAX_JOB_READ];
    const uint32_t limit = 1000000;
    FeedcheckSearchAnswer found;
    FeedcheckRegister reg;
    long length;
    size_t i;

    if (count != 2) {
        fprintf(stderr, "usage: search FILE\n");
        return 2;
    }
    length = read_file(words[1], bytes);
    if (length < 0) {
        return 2;
    }

    found = feedcheck_search(bytes, (size_t)length, limit);
    if (found.number != FEEDCHECK_ACCEPTED) {
        print_refusal(words[1], found.number, found.part, found.position);
        return 1;
    }
    reg = feedcheck_register(bytes, (size_t)length).reg;
    for (i = 0; i < reg.choices; i++) {
        if (found.plan >> i & 1) {
            printf("tank %d at minute %d\n", reg.tanks[i], reg.minutes[i]);
        }
    }
    printf("cost %" PRId64 ", found in %" PRIu32 " visits\n", found.cost, found.visits);
    return 0;
}
