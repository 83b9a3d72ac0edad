/* Counts the jobs of several suppliers in one tally. The words are a supplier's number, 0 to 15, and a file, as often as wanted.
 * Prints the refusal of each job that is refused, and at the end the counters of each supplier that has any. Exit status 0: every
 * job was accepted, 1: one was refused, 2: no answer, since the words are wrong or a file can't be read. */
#include <inttypes.h>
#include <stdio.h>
#include <stdlib.h>

#include "feedcheck.h"

/* Reads a file, as much of it as can matter. Its length, or -1 where it can't be read. */
static long read_file(const char *path, uint8_t *bytes) {
    FILE *file = fopen(path, "rb");
    long length;

    if (file == NULL) {
        perror(path);
        return -1;
    }
    length = (long)fread(bytes, 1, FEEDCHECK_MAX_JOB_READ, file);
    if (ferror(file)) {
        perror(path);
        length = -1;
    }
    fclose(file);
    return length;
}

/* The number that a word is, or -1. One above 255 is none: as the call's uint8_t it would become another supplier's, 256 that of
 * supplier 0. */
static int supplier_of(const char *word) {
    char *end;
    long number = strtol(word, &end, 10);

    return end == word || *end != '\0' || number < 0 || number > UINT8_MAX ? -1 : (int)number;
}

/* Part 0: no command is at fault. */
static void print_refusal(const char *path, uint8_t number, uint8_t part, size_t position) {
    printf("%s: refusal %d", path, number);
    if (part != 0) {
        printf(" in part %d at byte %zu", part, position);
    }
    printf(": %s\n", feedcheck_refusal_text(number));
}

static int usage(void) {
    fprintf(stderr, "usage: suppliers SUPPLIER FILE ..\n");
    return 2;
}

static void print_tally(const FeedcheckTally *tally) {
    int i;

    for (i = 0; i < FEEDCHECK_SUPPLIERS; i++) {
        FeedcheckCounters pair = tally->pairs[i];
        if (pair.accepted != 0 || pair.refused != 0) {
            printf("supplier %d: %" PRIu32 " accepted, %" PRIu32 " refused\n", i, pair.accepted, pair.refused);
        }
    }
}

int main(int count, char **words) {
    static uint8_t job[FEEDCHECK_MAX_JOB_READ];
    static int64_t table[FEEDCHECK_TABLE_NUMBERS];
    FeedcheckTally tally = {{{0, 0}}};
    int status = 0, i;

    if (count < 3 || count % 2 == 0) {
        return usage();
    }
    for (i = 1; i < count; i += 2) {
        int supplier = supplier_of(words[i]);
        long length;
        FeedcheckJobAnswer answer;

        if (supplier < 0) {
            return usage();
        }
        length = read_file(words[i + 1], job);
        if (length < 0) {
            return 2;
        }
        answer = feedcheck_job(job, (size_t)length, table, FEEDCHECK_TABLE_NUMBERS, (uint8_t)supplier, tally);
        tally = answer.tally;
        if (answer.number != FEEDCHECK_ACCEPTED) {
            print_refusal(words[i + 1], answer.number, answer.part, answer.position);
            status = 1;
        }
    }
    print_tally(&tally);
    return status;
}
