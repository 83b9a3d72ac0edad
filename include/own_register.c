/* Checks a supplier's job with the farm's own register in place of the job's part 1. Prints bound, cost and gap at the farm's own
 * costs, ranges, windows, rows and day's length; or the refusal, with part and position in the job. Says where the job's part 1 is
 * not byte for byte the farm's register. Exit status 0: accepted, 1: refused, 2: no answer, since the words are wrong, a file can't
 * be read, or the farm's register is itself refused. */
#include <inttypes.h>
#include <stdio.h>
#include <string.h>

#include "feedcheck.h"

typedef struct {
    uint8_t number, part;
    size_t position;
    int64_t bound, cost;
} Outcome;

/* A file, or a part of one. */
typedef struct {
    const uint8_t *bytes;
    size_t length;
} Run;

/* Reads a file, as much of it as can matter. Its length, or -1 where it can't be read. */
static long read_file(const char *path, uint8_t *bytes) {
    FILE *file = fopen(path, "rb");
    long length;

    if (file == NULL) {
        perror(path);
        return -1;
    }
    length = (long)fread(bytes, 1, FEEDCHECK_MAX_JOB_READ, file);
    if (ferror(file)) {
        perror(path);
        length = -1;
    }
    fclose(file);
    return length;
}

static void print_refusal(FILE *out, const char *path, uint8_t number, uint8_t part, size_t position) {
    fprintf(out, "%s: refusal %d in part %d at byte %zu: %s\n", path, number, part, position, feedcheck_refusal_text(number));
}

static Run between(Run run, size_t start, size_t end) {
    Run part = {run.bytes + start, end - start};
    return part;
}

static Run behind(Run run, size_t start) {
    return between(run, start, run.length);
}

/* Whether a part is right that was given with all bytes behind it: it is then refused PAST_END at the first of them, or accepted
 * where there are none. */
static int is_right(uint8_t number) {
    return number == FEEDCHECK_ACCEPTED || number == FEEDCHECK_REFUSED_PAST_END;
}

/* Where such a part ends in the job. */
static size_t end_of(uint8_t number, size_t position, size_t start, Run job) {
    return number == FEEDCHECK_REFUSED_PAST_END ? start + position : job.length;
}

static Outcome refused(uint8_t number, uint8_t part, size_t position) {
    Outcome outcome = {number, part, position, 0, 0};
    return outcome;
}

static Outcome accepted(int64_t bound, int64_t cost) {
    Outcome outcome = {FEEDCHECK_ACCEPTED, 0, 0, bound, cost};
    return outcome;
}

static FeedcheckCheckAnswer check_certificate(Run own, Run scheme, Run certificate, Run plan) {
    static int64_t table[FEEDCHECK_TABLE_NUMBERS];
    return feedcheck_check(own.bytes, own.length, scheme.bytes, scheme.length, certificate.bytes, certificate.length, plan.bytes,
                           plan.length, table, FEEDCHECK_TABLE_NUMBERS);
}

/* Parts 3 and 4 of a job whose register has no range. The check then looks at no plan. */
static Outcome plan_last(Run own, Run scheme, Run job, size_t part_3) {
    Run none = {job.bytes, 0};
    FeedcheckCheckAnswer checked = check_certificate(own, scheme, behind(job, part_3), none);
    FeedcheckCostAnswer plan;
    size_t part_4;

    if (!is_right(checked.number)) {
        return refused(checked.number, checked.part, part_3 + checked.position);
    }
    part_4 = end_of(checked.number, checked.position, part_3, job);
    plan = feedcheck_cost(own.bytes, own.length, job.bytes + part_4, job.length - part_4);
    if (plan.number != FEEDCHECK_ACCEPTED) {
        return refused(plan.number, plan.part, part_4 + plan.position);
    }
    /* A refused answer has no bound, so the certificate is checked again without the plan behind it. */
    checked = check_certificate(own, scheme, between(job, part_3, part_4), none);
    return accepted(checked.bound, plan.cost);
}

/* Parts 4 and 3 of a job whose register has a range. The plan chooses the coefficients that the certificate is of. */
static Outcome plan_first(Run own, Run scheme, Run job, size_t part_4) {
    FeedcheckCostAnswer plan = feedcheck_cost(own.bytes, own.length, job.bytes + part_4, job.length - part_4);
    FeedcheckCheckAnswer checked;
    size_t part_3;

    if (!is_right(plan.number)) {
        return refused(plan.number, plan.part, part_4 + plan.position);
    }
    part_3 = end_of(plan.number, plan.position, part_4, job);
    checked = check_certificate(own, scheme, behind(job, part_3), between(job, part_4, part_3));
    if (checked.number != FEEDCHECK_ACCEPTED) {
        return refused(checked.number, checked.part, part_3 + checked.position);
    }
    /* A refused answer has no cost, so the plan is read again without the certificate behind it. */
    plan = feedcheck_cost(own.bytes, own.length, job.bytes + part_4, part_3 - part_4);
    return accepted(checked.bound, plan.cost);
}

/* The job with the farm's register, which is accepted, as its part 1. Positions are those of the job as the supplier sent it. */
static Outcome check(Run own, bool has_range, Run job) {
    FeedcheckRegisterAnswer reg = feedcheck_register(job.bytes, job.length);
    FeedcheckSchemeAnswer scheme;
    size_t part_2, end;

    if (!is_right(reg.number)) {
        return refused(reg.number, reg.part, reg.position);
    }
    part_2 = end_of(reg.number, reg.position, 0, job);
    scheme = feedcheck_scheme(own.bytes, own.length, job.bytes + part_2, job.length - part_2);
    if (!is_right(scheme.number)) {
        return refused(scheme.number, scheme.part, part_2 + scheme.position);
    }
    end = end_of(scheme.number, scheme.position, part_2, job);
    if (has_range) {
        return plan_first(own, between(job, part_2, end), job, end);
    }
    return plan_last(own, between(job, part_2, end), job, end);
}

int main(int count, char **words) {
    static uint8_t own_bytes[FEEDCHECK_MAX_JOB_READ], job_bytes[FEEDCHECK_MAX_JOB_READ];
    Run own = {own_bytes, 0}, job = {job_bytes, 0};
    FeedcheckRegisterAnswer reg;
    Outcome outcome;
    long length;

    if (count != 3) {
        fprintf(stderr, "usage: own_register OWN.register SUPPLIER.job\n");
        return 2;
    }
    length = read_file(words[1], own_bytes);
    if (length < 0) {
        return 2;
    }
    own.length = (size_t)length;
    length = read_file(words[2], job_bytes);
    if (length < 0) {
        return 2;
    }
    job.length = (size_t)length;
    reg = feedcheck_register(own.bytes, own.length);
    if (reg.number != FEEDCHECK_ACCEPTED) {
        print_refusal(stderr, words[1], reg.number, reg.part, reg.position);
        return 2;
    }

    /* The bytes of a register say themselves where it ends, so no other register begins with the same bytes. */
    if (job.length < own.length || memcmp(own.bytes, job.bytes, own.length) != 0) {
        printf("%s: part 1 is not byte for byte %s\n", words[2], words[1]);
    }
    outcome = check(own, feedcheck_has_range(&reg.reg), job);
    if (outcome.number != FEEDCHECK_ACCEPTED) {
        print_refusal(stdout, words[2], outcome.number, outcome.part, outcome.position);
        return 1;
    }
    printf("bound %" PRId64 ", cost %" PRId64 ", gap %" PRId64 "\n", outcome.bound, outcome.cost, outcome.cost - outcome.bound);
    return 0;
}
