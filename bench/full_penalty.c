// Times `feedcheck_penalty`, by processor time, on a full scheme without a factor and with one: 48 choices, 16 products and 256 terms.
// Product j is of the choices 0 to j + 1, and follows product j - 1; each product is in the splits of 16 terms, with one of the choices
// 32 to 47, and under those of the products after it.
#include <stdio.h>
#include <time.h>

#include "../include/feedcheck.h"

enum { CHOICES = FEEDCHECK_MAX_CHOICES, PRODUCTS = FEEDCHECK_MAX_VARIABLES - CHOICES, TERMS = FEEDCHECK_MAX_TERMS, ROUNDS = 20000 };

static size_t put(uint8_t *to, uint64_t value, size_t width) {
    for (size_t i = 0; i < width; i++)
        to[i] = (uint8_t)(value >> (8 * i));
    return width;
}

// Term t is of this product and this choice, so that masks rise.
static uint32_t product_of(uint32_t t) { return t % PRODUCTS; }
static uint32_t choice_of(uint32_t t) { return CHOICES - TERMS / PRODUCTS + t / PRODUCTS; }

static size_t put_register(uint8_t *to) {
    size_t at = 0;
    to[at++] = 0x10;
    at += put(to + at, 7, 4);
    for (uint32_t i = 0; i < CHOICES; i++) {
        to[at++] = 0x11;
        at += put(to + at, 1 + i, 2);
        at += put(to + at, 10 * i, 2);
    }
    for (uint32_t t = 0; t < TERMS; t++) {
        to[at++] = 0x15;
        at += put(to + at, (UINT64_C(1) << choice_of(t)) + (UINT64_C(4) << product_of(t)) - 1, 8);
        at += put(to + at, t % 2 ? 1000000 : (uint32_t)-1000000, 4);
    }
    to[at++] = 0x1F;
    return at;
}

static size_t put_pair(uint8_t *to, uint8_t byte, uint32_t l, uint32_t r) {
    to[0] = byte;
    to[1] = (uint8_t)l;
    to[2] = (uint8_t)r;
    return 3;
}

// No factor is said where it is 0.
static size_t put_scheme(uint8_t *to, uint32_t factor) {
    size_t at = 0;
    if (factor != 0) {
        to[at++] = 0x23;
        at += put(to + at, factor, 2);
    }
    at += put_pair(to + at, 0x21, 0, 1);
    for (uint32_t j = 1; j < PRODUCTS; j++)
        at += put_pair(to + at, 0x21, j + 1, CHOICES + j - 1);
    for (uint32_t t = 0; t < TERMS; t++)
        at += put_pair(to + at, 0x22, choice_of(t), CHOICES + product_of(t));
    to[at++] = 0x2F;
    return at;
}

static void run(const char *name, uint32_t factor) {
    static uint8_t reg[8192], scheme[4096];
    static int64_t table[FEEDCHECK_TABLE_NUMBERS];
    size_t a = put_register(reg), b = put_scheme(scheme, factor);
    struct timespec from, to;
    unsigned numbers = 0;
    clock_gettime(CLOCK_PROCESS_CPUTIME_ID, &from);
    for (int i = 0; i < ROUNDS; i++) {
        reg[1] = (uint8_t)i;
        numbers += feedcheck_penalty(reg, a, scheme, b, table, FEEDCHECK_TABLE_NUMBERS).number;
    }
    clock_gettime(CLOCK_PROCESS_CPUTIME_ID, &to);
    double micros = ((to.tv_sec - from.tv_sec) * 1e9 + (to.tv_nsec - from.tv_nsec)) / 1e3 / ROUNDS;
    printf("%s: number %u, scheme of %zu bytes, h(0,%d) %lld, %.2f microseconds a call\n", name, numbers / ROUNDS, b, CHOICES + 1,
           (long long)table[CHOICES + 1], micros);
}

int main(void) {
    run("no factor", 0);
    run("factor 1", 1);
    run("factor 1000", FEEDCHECK_MAX_FACTOR);
    return 0;
}
