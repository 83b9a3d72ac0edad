// Times `feedcheck_check` on a full certificate: 64 variables, 1,024 multipliers, 64 squares. The 64 terms are the sets of the
// variables. Each variable has 16 commands `31` with multiplier 2 and a square of weight 1 whose only entry is 1 at its place, so
// that its row of R holds 63 on the diagonal and −31 in column 0; the target makes row 0 hold.
#include <stdio.h>
#include <time.h>

#include "../include/feedcheck.h"

enum { CHOICES = 32, VARIABLES = FEEDCHECK_MAX_VARIABLES, NUMBERS = FEEDCHECK_TABLE_NUMBERS };

static size_t put(uint8_t *to, uint64_t value, size_t width) {
    for (size_t i = 0; i < width; i++)
        to[i] = (uint8_t)(value >> (8 * i));
    return width;
}

// The choices, then the unions of choice 0 with each other choice, then that of choices 1 and 2.
static void operands(uint32_t v, uint32_t *l, uint32_t *r) {
    *l = v < 63 ? 0 : 1;
    *r = v < 63 ? v - 31 : 2;
}

static uint32_t set_of(uint32_t v) {
    uint32_t l, r;
    if (v < CHOICES)
        return 1u << v;
    operands(v, &l, &r);
    return 1u << l | 1u << r;
}

// The variable whose set is the next after `mask`.
static uint32_t next_after(uint32_t mask) {
    uint32_t best = VARIABLES;
    for (uint32_t v = 0; v < VARIABLES; v++)
        if (set_of(v) > mask && (best == VARIABLES || set_of(v) < set_of(best)))
            best = v;
    return best;
}

static size_t put_register(uint8_t *to) {
    size_t at = 0;
    to[at++] = 0x10;
    at += put(to + at, 7, 4);
    for (uint32_t i = 0; i < CHOICES; i++) {
        to[at++] = 0x11;
        at += put(to + at, 1 + i, 2);
        at += put(to + at, 10 * i, 2);
    }
    for (uint32_t v = next_after(0); v < VARIABLES; v = next_after(set_of(v))) {
        to[at++] = 0x12;
        at += put(to + at, set_of(v), 4);
        at += put(to + at, 1, 4);
    }
    to[at++] = 0x1F;
    return at;
}

static size_t put_scheme(uint8_t *to) {
    size_t at = 0;
    for (uint32_t v = CHOICES; v < VARIABLES; v++) {
        uint32_t l, r;
        operands(v, &l, &r);
        to[at++] = 0x21;
        to[at++] = (uint8_t)l;
        to[at++] = (uint8_t)r;
    }
    for (uint32_t v = next_after(0); v < VARIABLES; v = next_after(set_of(v))) {
        to[at++] = 0x22;
        to[at++] = (uint8_t)v;
        to[at++] = (uint8_t)v;
    }
    to[at++] = 0x2F;
    return at;
}

static size_t put_certificate(uint8_t *to) {
    size_t at = 0;
    to[at++] = 0x30;
    at += put(to + at, 1, 4);
    at += put(to + at, (uint64_t)-1000000, 8);
    for (uint32_t i = 0; i < 1024; i++) {
        to[at++] = 0x31;
        to[at++] = (uint8_t)(i % VARIABLES);
        at += put(to + at, 2, 8);
    }
    for (uint32_t v = 0; v < VARIABLES; v++) {
        to[at++] = 0x3A;
        at += put(to + at, 1, 4);
        for (uint32_t i = 0; i < 65; i++)
            at += put(to + at, i == v + 1, 2);
    }
    to[at++] = 0x3F;
    return at;
}

int main(void) {
    static uint8_t reg[4096], scheme[4096], certificate[32768];
    static int64_t table[NUMBERS];
    size_t a = put_register(reg), b = put_scheme(scheme), c = put_certificate(certificate);
    // The register has no range, so the check does not look at the plan.
    FeedcheckCheckAnswer answer = feedcheck_check(reg, a, scheme, b, certificate, c, reg, 0, table, NUMBERS);
    printf("number %u, part %u, position %zu, bound %lld; R(0,0) %lld, R(0,1) %lld, R(1,1) %lld\n", answer.number, answer.part, answer.position, (long long)answer.bound, (long long)table[0], (long long)table[1], (long long)table[66]);
    enum { ROUNDS = 500 };
    struct timespec from, to;
    int64_t sum = 0;
    clock_gettime(CLOCK_PROCESS_CPUTIME_ID, &from);
    for (int i = 0; i < ROUNDS; i++)
        sum += feedcheck_check(reg, a, scheme, b, certificate, c, reg, 0, table, NUMBERS).bound;
    clock_gettime(CLOCK_PROCESS_CPUTIME_ID, &to);
    double micros = ((to.tv_sec - from.tv_sec) * 1e9 + (to.tv_nsec - from.tv_nsec)) / 1e3 / ROUNDS;
    printf("%zu bytes, %.0f microseconds a call (%lld)\n", c, micros, (long long)(sum / ROUNDS));
    return 0;
}
