/* Checks a job with the register that it brings. Prints its bound, cost and gap, the lines of the farm and what its supplier may
 * read; or its refusal. Exit status 0: accepted, 1: refused, 2: no answer, since the words are wrong or the file can't be read. */
#include <inttypes.h>
#include <stdio.h>

#include "feedcheck.h"

/* Reads a file, as much of it as can matter. Its length, or -1 where it can't be read. */
static long read_file(const char *path, uint8_t *bytes) {
    FILE *file = fopen(path, "rb");
    long length;

    if (file == NULL) {
        perror(path);
        return -1;
    }
    length = (long)fread(bytes, 1, FEEDCHECK_MAX_JOB_READ, file);
    if (ferror(file)) {
        perror(path);
        length = -1;
    }
    fclose(file);
    return length;
}

int main(int count, char **words) {
    static uint8_t job[FEEDCHECK_MAX_JOB_READ];
    static int64_t table[FEEDCHECK_TABLE_NUMBERS];
    static uint8_t lines[FEEDCHECK_MAX_LISTING];
    FeedcheckTally tally = {{{0, 0}}};
    FeedcheckJobAnswer answer;
    FeedcheckWriterAnswer written;
    long length;

    if (count != 2) {
        fprintf(stderr, "usage: example FILE\n");
        return 2;
    }
    length = read_file(words[1], job);
    if (length < 0) {
        return 2;
    }

    answer = feedcheck_job(job, (size_t)length, table, FEEDCHECK_TABLE_NUMBERS, 0, tally);
    if (answer.number != FEEDCHECK_ACCEPTED) {
        printf("%s: refusal %d in part %d at byte %zu: %s\n", words[1], answer.number, answer.part, answer.position,
               feedcheck_refusal_text(answer.number));
        return 1;
    }
    printf("bound %" PRId64 ", cost %" PRId64 ", gap %" PRId64 "\n", answer.bound, answer.cost, answer.gap);

    written = feedcheck_listing(job, (size_t)length, table, FEEDCHECK_TABLE_NUMBERS, lines, sizeof lines);
    printf("for the farm:\n");
    fwrite(lines, 1, written.count, stdout);
    written = feedcheck_supplier_listing(job, (size_t)length, table, FEEDCHECK_TABLE_NUMBERS, lines, sizeof lines);
    printf("for the supplier:\n");
    fwrite(lines, 1, written.count, stdout);
    return 0;
}
