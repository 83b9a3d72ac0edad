// Times `feedcheck_register`, by processor time. On a register of 32 choices and 256 terms by `12`: without windows; with two windows for
// each of the 32 tanks that the choices have, on a day whose length is not said and on a long day, there also with 8 rows; and with 64
// windows of the one tank that all choices have. A choice is in the last window of its tank, which goes to the end of the day, and in no
// other, so that all windows of the tank are looked at. And on a register of 48 choices and 256 terms by `15`, without windows.
#include <stdio.h>
#include <time.h>

#include "../include/feedcheck.h"

enum { CHOICES = 32, MORE = FEEDCHECK_MAX_CHOICES, TERMS = FEEDCHECK_MAX_TERMS, WINDOWS = FEEDCHECK_MAX_WINDOWS, ROWS = FEEDCHECK_MAX_ROWS, ROUNDS = 200000 };

typedef enum { NONE, TWO_EACH, TWO_EACH_LONG, TWO_EACH_LONG_ROWS, ONE_TANK, MORE_CHOICES } Shape;

static size_t put(uint8_t *to, uint64_t value, size_t width) {
    for (size_t i = 0; i < width; i++)
        to[i] = (uint8_t)(value >> (8 * i));
    return width;
}

static size_t put_window(uint8_t *to, uint32_t tank, uint32_t first, uint32_t after) {
    size_t at = 0;
    to[at++] = 0x13;
    at += put(to + at, tank, 2);
    at += put(to + at, first, 2);
    at += put(to + at, after, 2);
    return at;
}

// Choice i is at this minute.
static uint32_t minute(uint32_t i) { return WINDOWS + 10 * i; }

static int is_long(Shape shape) { return shape == TWO_EACH_LONG || shape == TWO_EACH_LONG_ROWS; }

static size_t put_windows(uint8_t *to, Shape shape) {
    uint32_t day = is_long(shape) ? FEEDCHECK_LONG_DAY : FEEDCHECK_USUAL_DAY;
    size_t at = 0;
    switch (shape) {
    case NONE:
    case MORE_CHOICES:
        break;
    case TWO_EACH:
    case TWO_EACH_LONG:
    case TWO_EACH_LONG_ROWS:
        for (uint32_t i = 0; i < CHOICES; i++) {
            at += put_window(to + at, 1 + i, 0, minute(i));
            at += put_window(to + at, 1 + i, minute(i), day);
        }
        break;
    case ONE_TANK:
        for (uint32_t w = 0; w < WINDOWS - 1; w++)
            at += put_window(to + at, 1, w, w + 1);
        at += put_window(to + at, 1, WINDOWS - 1, day);
        break;
    }
    return at;
}

// Every entry is another number than 0.
static size_t put_row(uint8_t *to, uint32_t k) {
    size_t at = 0;
    to[at++] = 0x14;
    at += put(to + at, k, 2);
    for (uint32_t i = 0; i < FEEDCHECK_ROW_ENTRIES; i++)
        to[at++] = (uint8_t)(1 + k + i);
    return at;
}

static size_t full(uint8_t *to, Shape shape) {
    size_t at = 0;
    to[at++] = 0x10;
    at += put(to + at, 7, 4);
    if (is_long(shape)) {
        to[at++] = 0x18;
        at += put(to + at, FEEDCHECK_LONG_DAY, 2);
    }
    at += put_windows(to + at, shape);
    for (uint32_t i = 0; i < (shape == MORE_CHOICES ? MORE : CHOICES); i++) {
        to[at++] = 0x11;
        at += put(to + at, shape == ONE_TANK ? 1 : 1 + i, 2);
        at += put(to + at, minute(i), 2);
    }
    if (shape == TWO_EACH_LONG_ROWS)
        for (uint32_t k = 0; k < ROWS; k++)
            at += put_row(to + at, k);
    for (uint32_t t = 0; t < TERMS; t++) {
        if (shape == MORE_CHOICES) {
            to[at++] = 0x15;
            at += put(to + at, 1 + UINT64_C(1099511627775) * t, 8);
        } else {
            to[at++] = 0x12;
            at += put(to + at, 1 + 16777215 * t, 4);
        }
        at += put(to + at, t % 2 ? 1000000 : (uint32_t)-1000000, 4);
    }
    to[at++] = 0x1F;
    return at;
}

static void run(const char *name, Shape shape) {
    static uint8_t bytes[8192];
    size_t length = full(bytes, shape);
    FeedcheckRegisterAnswer answer = feedcheck_register(bytes, length);
    struct timespec from, to;
    size_t sum = 0;
    clock_gettime(CLOCK_PROCESS_CPUTIME_ID, &from);
    for (int i = 0; i < ROUNDS; i++) {
        bytes[1] = (uint8_t)i;
        sum += feedcheck_register(bytes, length).reg.terms;
    }
    clock_gettime(CLOCK_PROCESS_CPUTIME_ID, &to);
    double micros = ((to.tv_sec - from.tv_sec) * 1e9 + (to.tv_nsec - from.tv_nsec)) / 1e3 / ROUNDS;
    printf("%s: number %u, %zu choices, %zu terms, %zu windows, %zu rows, %zu bytes, %.2f microseconds a call\n", name,
           answer.number, answer.reg.choices, sum / ROUNDS, answer.reg.windows, answer.reg.rows, length, micros);
}

int main(void) {
    run("no windows", NONE);
    run("two windows for each tank", TWO_EACH);
    run("two windows for each tank, long day", TWO_EACH_LONG);
    run("two windows for each tank, long day, rows", TWO_EACH_LONG_ROWS);
    run("all windows of one tank", ONE_TANK);
    run("48 choices, no windows", MORE_CHOICES);
    return 0;
}
