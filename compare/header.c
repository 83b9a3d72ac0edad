// The example of the scope through include/feedcheck.h, every call, a register with windows, days of each length, a register with
// rows, one with ranges, one of 48 choices, a scheme with factors, the costliest registers, a tally of several suppliers, what a
// supplier may read, the names and sentences of the refusals, and the version. Prints a line and exits 1 where an answer is another
// than the scope's.
#include <stddef.h>
#include <stdio.h>
#include <string.h>

#include "feedcheck.h"

static const uint8_t JOB[113] = {
    0x10, 0x0A, 0, 0, 0, 0x11, 4, 0, 0xE0, 1, 0x11, 4, 0, 0xD0, 2, 0x11, 7, 0, 0xE0, 1,
    0x12, 1, 0, 0, 0, 0xFA, 0xFF, 0xFF, 0xFF, 0x12, 2, 0, 0, 0, 0xFC, 0xFF, 0xFF, 0xFF, 0x12, 7, 0, 0, 0, 5, 0, 0, 0, 0x1F,
    0x21, 0, 1, 0x21, 2, 3, 0x22, 0, 0, 0x22, 1, 1, 0x22, 4, 4, 0x2F,
    0x30, 1, 0, 0, 0, 0, 0, 0, 0, 0, 0, 0, 0, 0x39, 0, 6, 0, 0, 0, 0, 0, 0, 0, 0x39, 1, 4, 0, 0, 0, 0, 0, 0, 0,
    0x38, 4, 5, 0, 0, 0, 0, 0, 0, 0, 0x3F, 0x40, 3, 0, 0, 0};

// Tank 4 from 480 to 482 and from 720 to the end of a usual day, tank 7 from 0 to 1, then a choice of tank 4 at minute 481.
static const uint8_t WINDOWS[32] = {0x10, 0, 0, 0, 0, 0x13, 4, 0, 0xE0, 1, 0xE2, 1, 0x13, 4, 0, 0xD0, 2, 0xA0, 5,
                                    0x13, 7, 0, 0, 0, 1, 0, 0x11, 4, 0, 0xE1, 1, 0x1F};

// Choices at minutes 480 and 481 of tank 4, rows -1 = 2 z0 - 3 z1 and 1 = z0 + z1, and a term of each choice.
static const uint8_t ROWS[104] = {0x10, 10, 0, 0, 0, 0x11, 4, 0, 0xE0, 1, 0x11, 4, 0, 0xE1, 1,
                                  0x14, 0xFF, 0xFF, 2, 0xFD, 0, 0, 0, 0, 0, 0, 0, 0, 0, 0, 0, 0, 0, 0, 0, 0, 0, 0, 0, 0, 0, 0, 0, 0, 0, 0, 0, 0, 0, 0,
                                  0x14, 1, 0, 1, 1, 0, 0, 0, 0, 0, 0, 0, 0, 0, 0, 0, 0, 0, 0, 0, 0, 0, 0, 0, 0, 0, 0, 0, 0, 0, 0, 0, 0, 0, 0,
                                  0x12, 1, 0, 0, 0, 0xFE, 0xFF, 0xFF, 0xFF, 0x12, 2, 0, 0, 0, 0xFD, 0xFF, 0xFF, 0xFF, 0x1F};

// Choices at minutes 480 and 481 of tank 4, the first costs from -2 to 3, the second -3, and both together from 0 to 5. A scheme
// without products. Plans that feed the second choice, and both, each with its own certificate of ours.
static const uint8_t RANGES[51] = {0x10, 10, 0, 0, 0, 0x11, 4, 0, 0xE0, 1, 0x11, 4, 0, 0xE1, 1,
                                   0x16, 1, 0, 0, 0, 0xFE, 0xFF, 0xFF, 0xFF, 3, 0, 0, 0, 0x12, 2, 0, 0, 0, 0xFD, 0xFF, 0xFF, 0xFF,
                                   0x16, 3, 0, 0, 0, 0, 0, 0, 0, 5, 0, 0, 0, 0x1F};
static const uint8_t RANGES_SCHEME[10] = {0x22, 0, 0, 0x22, 1, 1, 0x22, 0, 1, 0x2F};
static const uint8_t SECOND[5] = {0x40, 2, 0, 0, 0}, BOTH[5] = {0x40, 3, 0, 0, 0};
static const uint8_t FOR_SECOND[34] = {0x30, 1, 0, 0, 0, 5, 0, 0, 0, 0, 0, 0, 0, 0x39, 0, 2, 0, 0, 0, 0, 0, 0, 0,
                                       0x39, 1, 3, 0, 0, 0, 0, 0, 0, 0, 0x3F};
static const uint8_t FOR_BOTH[44] = {0x30, 1, 0, 0, 0, 4, 0, 0, 0, 0, 0, 0, 0, 0x31, 0, 3, 0, 0, 0, 0, 0, 0, 0,
                                     0x31, 1, 3, 0, 0, 0, 0, 0, 0, 0, 0x39, 1, 6, 0, 0, 0, 0, 0, 0, 0, 0x3F};

enum { REGISTER = 48, SCHEME = 16, CERTIFICATE = 44, PLAN = 5 };

static int failed;

static void expect(const char *what, int holds) {
    if (!holds) {
        printf("header: %s is not as expected\n", what);
        failed = 1;
    }
}

// A day of this length, a window of tank 4 up to this "to", and a choice of tank 4 at this minute.
static FeedcheckRegisterAnswer day(unsigned length, unsigned to, unsigned minute) {
    const uint8_t bytes[21] = {0x10, 0, 0, 0, 0, 0x18, (uint8_t)length, (uint8_t)(length >> 8),
                               0x13, 4, 0, 0, 0, (uint8_t)to, (uint8_t)(to >> 8),
                               0x11, 4, 0, (uint8_t)minute, (uint8_t)(minute >> 8), 0x1F};
    return feedcheck_register(bytes, sizeof bytes);
}

static int out_of_range(FeedcheckRegisterAnswer a, size_t position) {
    return a.number == 4 && a.part == 1 && a.position == position && a.reg.day_length == 0 && a.reg.windows == 0;
}

static void try_days(void) {
    static const unsigned LENGTHS[3] = {FEEDCHECK_SHORT_DAY, FEEDCHECK_USUAL_DAY, FEEDCHECK_LONG_DAY};
    for (int i = 0; i < 3; i++) {
        unsigned length = LENGTHS[i];
        FeedcheckRegisterAnswer a = day(length, length, length - 1);
        expect("last minute of a day", a.number == 0 && a.reg.day_length == length && a.reg.window_tos[0] == length &&
                                           a.reg.minutes[0] == length - 1);
        expect("minute after a day", out_of_range(day(length, length, length), 15));
        expect("window past a day", out_of_range(day(length, length + 1, 0), 8));
        expect("another length", out_of_range(day(length + 1, 1, 0), 5) && out_of_range(day(length - 1, 1, 0), 5));
    }
}

// Both plans that fit the second row miss the first: 2 and -3 are not -1. Without the first row plan 2 is the cheapest.
static void try_rows(void) {
    FeedcheckRegisterAnswer a = feedcheck_register(ROWS, sizeof ROWS);
    expect("rows", a.number == 0 && a.reg.choices == 2 && a.reg.rows == 2 && a.reg.row_totals[0] == -1 && a.reg.row_totals[1] == 1 &&
                       a.reg.row_totals[2] == 0 && a.reg.row_entries[0] == 2 && a.reg.row_entries[1] == -3 &&
                       a.reg.row_entries[2] == 0 && a.reg.row_entries[32] == 1 && a.reg.row_entries[33] == 1 && a.reg.terms == 2);
    uint8_t bytes[sizeof ROWS];
    memcpy(bytes, ROWS, sizeof ROWS);
    bytes[20] = 1;
    a = feedcheck_register(bytes, sizeof bytes);
    expect("rows, an entry past the choices", a.number == 5 && a.part == 1 && a.position == 15 && a.reg.rows == 0 &&
                                                  a.reg.row_totals[0] == 0 && a.reg.row_entries[0] == 0);
    memcpy(bytes, ROWS, 15);
    memcpy(bytes + 15, ROWS + 50, sizeof ROWS - 50);
    const uint8_t fed[5] = {0x40, 2, 0, 0, 0}, both[5] = {0x40, 3, 0, 0, 0};
    FeedcheckCostAnswer c = feedcheck_cost(bytes, sizeof ROWS - 35, fed, 5);
    expect("rows, a plan that fits", c.number == 0 && c.cost == 7);
    c = feedcheck_cost(bytes, sizeof ROWS - 35, both, 5);
    expect("rows, a plan that doesn't fit", c.number == 15 && c.part == 4 && c.position == 0 && c.cost == 0);
    FeedcheckSearchAnswer s = feedcheck_search(bytes, sizeof ROWS - 35, 7);
    expect("rows, search", s.number == 0 && s.plan == 2 && s.cost == 7 && s.visits == 7);
    s = feedcheck_search(ROWS, sizeof ROWS, 7);
    expect("rows, search, no plan fits", s.number == 16 && s.part == 0 && s.position == 0 && s.plan == 0 && s.cost == 0 &&
                                             s.visits == 0);
    s = feedcheck_search(ROWS, sizeof ROWS, 6);
    expect("rows, search, limit passed", s.number == 14 && s.part == 0);
}

// Whether our own certificate beside this plan is this one.
static int ours(const uint8_t *plan, const uint8_t *certificate, size_t length) {
    uint8_t buffer[64];
    FeedcheckWriterAnswer w = feedcheck_plain(RANGES, sizeof RANGES, RANGES_SCHEME, sizeof RANGES_SCHEME, plan, PLAN, buffer,
                                              sizeof buffer);
    return w.number == 0 && w.part == 0 && w.position == 0 && w.count == length && memcmp(buffer, certificate, length) == 0;
}

// The check of a certificate beside so many bytes of a plan.
static FeedcheckCheckAnswer beside(const uint8_t *plan, size_t length, const uint8_t *certificate, size_t size, int64_t *table) {
    return feedcheck_check(RANGES, sizeof RANGES, RANGES_SCHEME, sizeof RANGES_SCHEME, certificate, size, plan, length, table,
                           FEEDCHECK_TABLE_NUMBERS);
}

// A job of the plan that feeds both choices and its certificate, the plan first or the certificate.
static FeedcheckJobAnswer ranges_job(int plan_first, int64_t *table) {
    uint8_t job[sizeof RANGES + sizeof RANGES_SCHEME + sizeof BOTH + sizeof FOR_BOTH], *rest = job + 61;
    FeedcheckTally tally;
    memset(&tally, 0, sizeof tally);
    memcpy(job, RANGES, sizeof RANGES);
    memcpy(job + sizeof RANGES, RANGES_SCHEME, sizeof RANGES_SCHEME);
    memcpy(plan_first ? rest : rest + sizeof FOR_BOTH, BOTH, sizeof BOTH);
    memcpy(plan_first ? rest + sizeof BOTH : rest, FOR_BOTH, sizeof FOR_BOTH);
    return feedcheck_job(job, sizeof job, table, FEEDCHECK_TABLE_NUMBERS, 0, tally);
}

// Each certificate is accepted beside its plan; that for the second choice falls short beside the plan that feeds both.
static void try_ranges(int64_t *table) {
    FeedcheckRegisterAnswer a = feedcheck_register(RANGES, sizeof RANGES);
    expect("ranges", a.number == 0 && a.reg.terms == 3 && a.reg.coefficients[0] == -2 && a.reg.highs[0] == 3 && a.reg.ranged[0] == 1 &&
                         a.reg.coefficients[1] == -3 && a.reg.highs[1] == -3 && a.reg.ranged[1] == 0 && a.reg.coefficients[2] == 0 &&
                         a.reg.highs[2] == 5 && a.reg.ranged[2] == 1 && a.reg.highs[3] == 0 && a.reg.ranged[255] == 0);
    uint8_t bytes[sizeof RANGES];
    memcpy(bytes, RANGES, sizeof RANGES);
    bytes[46] = 0, bytes[42] = 1;
    a = feedcheck_register(bytes, sizeof bytes);
    expect("ranges, low above high", a.number == 6 && a.part == 1 && a.position == 37 && a.reg.highs[0] == 0 && a.reg.ranged[0] == 0);
    FeedcheckCostAnswer c = feedcheck_cost(RANGES, sizeof RANGES, BOTH, sizeof BOTH);
    expect("ranges, cost of the highs", c.number == 0 && c.cost == 15);
    FeedcheckSearchAnswer s = feedcheck_search(RANGES, sizeof RANGES, 7);
    expect("ranges, search of the lows", s.number == 0 && s.plan == 3 && s.cost == 5);
    expect("ranges, plain", ours(SECOND, FOR_SECOND, sizeof FOR_SECOND) && ours(BOTH, FOR_BOTH, sizeof FOR_BOTH));
    FeedcheckCheckAnswer k = beside(SECOND, PLAN, FOR_SECOND, sizeof FOR_SECOND, table);
    expect("ranges, check", k.number == 0 && k.bound == 5);
    k = beside(BOTH, PLAN, FOR_BOTH, sizeof FOR_BOTH, table);
    expect("ranges, check beside the other plan", k.number == 0 && k.bound == 4);
    k = beside(BOTH, PLAN, FOR_SECOND, sizeof FOR_SECOND, table);
    expect("ranges, check of the wrong certificate", k.number == 9 && k.part == 3 && k.position == 33);
    table[0] = 77;
    k = beside(BOTH, 0, FOR_BOTH, sizeof FOR_BOTH, table);
    expect("ranges, check without a plan", k.number == 2 && k.part == 4 && k.position == 0 && k.bound == 0 && table[0] == 77);
    FeedcheckJobAnswer j = ranges_job(1, table);
    expect("ranges, job", j.number == 0 && j.bound == 4 && j.cost == 15 && j.gap == 11 && j.tally.pairs[0].accepted == 1);
    table[0] = 77;
    j = ranges_job(0, table);
    expect("ranges, certificate where the plan is due", j.number == 1 && j.part == 4 && j.position == 61 && table[0] == 77);
}

// Writes a number, the lowest byte first.
static uint8_t *put(uint8_t *at, uint64_t number, int bytes) {
    for (int i = 0; i < bytes; i++)
        *at++ = (uint8_t)(number >> 8 * i);
    return at;
}

static uint8_t *put_plan(uint8_t *at, uint64_t plan) {
    *at++ = 0x41;
    return put(at, plan, 8);
}

enum { ALL_CHOICES = 5 + FEEDCHECK_MAX_CHOICES * 5, WIDE = ALL_CHOICES + 35 + 49 * 13 + 1 };

// Base cost 10, and 48 choices, of tanks 1 to 48.
static uint8_t *put_choices(uint8_t *at) {
    *at++ = 0x10;
    at = put(at, 10, 4);
    for (int tank = 1; tank <= FEEDCHECK_MAX_CHOICES; tank++) {
        *at++ = 0x11;
        at = put(at, (uint64_t)tank, 2);
        at = put(at, 0, 2);
    }
    return at;
}

static uint8_t *put_term(uint8_t *at, int wide, uint64_t mask, int32_t coefficient) {
    *at++ = wide ? 0x15 : 0x12;
    at = put(at, mask, wide ? 8 : 4);
    return put(at, (uint64_t)coefficient, 4);
}

// A row: just one of choices 0 and 31 is fed. A term of each choice by itself, by 15 where the number is odd or above 31: choice 0
// costs 4, choice 31 costs 3, choices 32 and 47 save 5 and 1, each other costs 9. Choices 32 and 47 together cost 7.
static size_t put_wide(uint8_t *bytes) {
    uint8_t *at = put_choices(bytes);
    *at++ = 0x14;
    at = put(at, 1, 2);
    memset(at, 0, FEEDCHECK_ROW_ENTRIES);
    at[0] = at[31] = 1;
    at += FEEDCHECK_ROW_ENTRIES;
    for (int i = 0; i < FEEDCHECK_MAX_CHOICES; i++)
        at = put_term(at, i % 2 == 1 || i > 31, UINT64_C(1) << i, i == 0 ? 4 : i == 31 ? 3 : i == 32 ? -5 : i == 47 ? -1 : 9);
    at = put_term(at, 1, UINT64_C(1) << 47 | UINT64_C(1) << 32, 7);
    *at++ = 0x1F;
    return (size_t)(at - bytes);
}

// What the builder answers to a term of the first so many of 48 choices.
static FeedcheckWriterAnswer build_term(int degree) {
    uint8_t bytes[ALL_CHOICES + 14], buffer[FEEDCHECK_MAX_BUILT], *end;
    end = put_term(put_choices(bytes), 1, (UINT64_C(1) << degree) - 1, 1);
    *end = 0x1F;
    return feedcheck_build(bytes, sizeof bytes, buffer, sizeof buffer);
}

// The cheapest plan that fits feeds choices 31 and 32. A job of it, with our own certificate.
static void try_wide(int64_t *table) {
    const uint64_t cheapest = UINT64_C(3) << 31;
    uint8_t job[WIDE + FEEDCHECK_MAX_BUILT + FEEDCHECK_MAX_PLAIN + 9], plan[9], lines[FEEDCHECK_MAX_LISTING];
    size_t length = put_wide(job);
    FeedcheckRegisterAnswer a = feedcheck_register(job, length);
    expect("48 choices", a.number == 0 && a.reg.choices == FEEDCHECK_MAX_CHOICES && a.reg.tanks[47] == 48 && a.reg.terms == 49 &&
                             a.reg.masks[0] == 1 && a.reg.masks[1] == 2 && a.reg.masks[47] == UINT64_C(1) << 47 &&
                             a.reg.masks[48] == UINT64_C(0x800100000000) && a.reg.masks[49] == 0 && a.reg.coefficients[32] == -5 &&
                             a.reg.row_entries[31] == 1 && a.reg.row_entries[32] == 0);
    FeedcheckSearchAnswer s = feedcheck_search(job, length, 1000);
    expect("48 choices, search", s.number == 0 && s.plan == cheapest && s.cost == 8 && s.visits <= 1000);
    put_plan(plan, cheapest);
    FeedcheckCostAnswer c = feedcheck_cost(job, length, plan, sizeof plan);
    expect("48 choices, cost", c.number == 0 && c.cost == 8);
    c = feedcheck_cost(job, length, plan, sizeof plan - 1);
    expect("48 choices, a plan cut off", c.number == 2 && c.part == 4 && c.position == 0);
    put_plan(plan, cheapest | UINT64_C(1) << 48);
    c = feedcheck_cost(job, length, plan, sizeof plan);
    expect("48 choices, choice 48", c.number == 5 && c.part == 4 && c.position == 0);
    FeedcheckWriterAnswer w = feedcheck_build(job, length, job + length, FEEDCHECK_MAX_BUILT);
    expect("48 choices, build", w.number == 0 && w.count == 49 * 3 + 1);
    size_t part_3 = length + w.count;
    w = feedcheck_plain(job, length, job + length, w.count, plan, 0, job + part_3, FEEDCHECK_MAX_PLAIN);
    expect("48 choices, plain", w.number == 0);
    uint8_t *end = put_plan(job + part_3 + w.count, cheapest);
    FeedcheckTally tally;
    memset(&tally, 0, sizeof tally);
    FeedcheckJobAnswer j = feedcheck_job(job, (size_t)(end - job), table, FEEDCHECK_TABLE_NUMBERS, 0, tally);
    expect("48 choices, job", j.number == 0 && j.cost == 8 && j.gap == 8 - j.bound);
    w = feedcheck_supplier_listing(job, (size_t)(end - job), table, FEEDCHECK_TABLE_NUMBERS, lines, sizeof lines);
    expect("48 choices, listing", w.number == 0 && w.count > 326 && memcmp(lines + 207, "C 31 1\nC 32 1\n", 14) == 0);
    // 16 products make 64 variables.
    w = build_term(18);
    expect("64 variables", w.number == 0 && w.count == 16 * 3 + 3 + 1);
    w = build_term(19);
    expect("a 65th variable", w.number == 10 && w.part == 1 && w.position == ALL_CHOICES && w.count == 0);
}

// The example's scheme, with a factor before the byte at this place, and what the scheme reader answers to it.
static uint8_t factor_scheme[3 + SCHEME];

static FeedcheckSchemeAnswer with_factor(unsigned factor, size_t place) {
    memcpy(factor_scheme, JOB + REGISTER, place);
    factor_scheme[place] = 0x23;
    put(factor_scheme + place + 1, factor, 2);
    memcpy(factor_scheme + place + 3, JOB + REGISTER + place, SCHEME - place);
    return feedcheck_scheme(JOB, REGISTER, factor_scheme, sizeof factor_scheme);
}

static int factor_refused(FeedcheckSchemeAnswer b, unsigned number, size_t position) {
    return b.number == number && b.part == 2 && b.position == position && b.scheme.products == 0 && b.scheme.factor == 0;
}

// Both products of the example have the weight 5; the term of all choices is variable 4.
static int heavier(unsigned factor, int64_t *table) {
    const int64_t weight = 5 * (int64_t)factor;
    FeedcheckPenaltyAnswer p = feedcheck_penalty(JOB, REGISTER, factor_scheme, sizeof factor_scheme, table, FEEDCHECK_TABLE_NUMBERS);
    return p.number == 0 && table[0] == 20 && table[1] == -6 && table[4] == 3 * weight && table[5] == 3 * weight + 5 &&
           table[8] == weight && table[10] == -2 * weight;
}

static void try_factors(int64_t *table) {
    static const unsigned RIGHT[3] = {1, 2, FEEDCHECK_MAX_FACTOR}, WRONG[3] = {0, FEEDCHECK_MAX_FACTOR + 1, 65535};
    FeedcheckSchemeAnswer b = feedcheck_scheme(JOB, REGISTER, JOB + REGISTER, SCHEME);
    expect("factors, not said", b.number == 0 && b.scheme.factor == 1);
    for (int i = 0; i < 3; i++) {
        b = with_factor(RIGHT[i], 0);
        expect("factors", b.number == 0 && b.scheme.factor == RIGHT[i] && b.scheme.products == 2 && b.scheme.split_lefts[2] == 4);
        expect("factors, penalty", heavier(RIGHT[i], table));
        expect("factors, out of range", factor_refused(with_factor(WRONG[i], 0), 4, 0));
        expect("factors, after a product", factor_refused(with_factor(RIGHT[i], 3), 1, 3));
        expect("factors, after the splits", factor_refused(with_factor(WRONG[i], SCHEME - 1), 1, SCHEME - 1));
        const uint8_t twice[6] = {0x23, 2, 0, 0x23, (uint8_t)RIGHT[i], (uint8_t)(RIGHT[i] >> 8)};
        expect("factors, a second one", factor_refused(feedcheck_scheme(JOB, REGISTER, twice, sizeof twice), 1, 3));
    }
    with_factor(2, 0);
    expect("factors, cut", factor_refused(feedcheck_scheme(JOB, REGISTER, factor_scheme, 2), 2, 0));
    FeedcheckCheckAnswer k = feedcheck_check(JOB, REGISTER, factor_scheme, sizeof factor_scheme, JOB + REGISTER + SCHEME, CERTIFICATE,
                                             JOB, 0, table, FEEDCHECK_TABLE_NUMBERS);
    expect("factors, check", k.number == 0 && k.bound == 0 && table[0] == 0);
    // The places that docs/LINKING.md speaks of.
    expect("factors, record", sizeof b == 616 && sizeof b.scheme == 600 && offsetof(FeedcheckScheme, factor) == 592);
}

// Two terms of three choices each.
static const uint8_t COSTLIEST[54] = {0x10, 0, 0, 0, 0, 0x11, 1, 0, 0, 0, 0x11, 1, 0, 1, 0, 0x11, 1, 0, 2, 0,
                                      0x11, 1, 0, 3, 0, 0x11, 1, 0, 4, 0, 0x11, 1, 0, 5, 0,
                                      0x12, 7, 0, 0, 0, 1, 0, 0, 0, 0x12, 0x38, 0, 0, 0, 1, 0, 0, 0, 0x1F};

enum { BESIDE = 16 };

// A buffer, with bytes on either side of it.
static uint8_t costliest_buffer[BESIDE + FEEDCHECK_MAX_COSTLIEST + BESIDE];

static FeedcheckWriterAnswer costliest(uint32_t m, uint32_t d, size_t length) {
    memset(costliest_buffer, 0xAA, sizeof costliest_buffer);
    return feedcheck_costliest(m, d, costliest_buffer + BESIDE, length);
}

// Whether no byte was written but the first so many of the buffer.
static int kept_but(size_t count) {
    for (size_t i = 0; i < sizeof costliest_buffer; i++)
        if ((i < BESIDE || i >= BESIDE + count) && costliest_buffer[i] != 0xAA)
            return 0;
    return 1;
}

static int not_written(FeedcheckWriterAnswer w, unsigned number) {
    return w.number == number && w.part == 0 && w.position == 0 && w.count == 0 && kept_but(0);
}

// A shape that there is a costliest register of: its record, its products, and a buffer that is short by a byte.
static void try_shape(uint32_t m, uint32_t d) {
    uint8_t built[FEEDCHECK_MAX_BUILT];
    const uint8_t *bytes = costliest_buffer + BESIDE;
    const size_t count = 5 + 5 * m * d + 9 * m + 1, products = m * (d - 2);
    expect("costliest, short buffer", not_written(costliest(m, d, count - 1), 11) && not_written(costliest(m, d, 0), 11));
    FeedcheckWriterAnswer w = costliest(m, d, count);
    expect("costliest", w.number == 0 && w.part == 0 && w.position == 0 && w.count == count && kept_but(count));
    FeedcheckRegisterAnswer a = feedcheck_register(bytes, count);
    expect("costliest, register", a.number == 0 && a.reg.base == 0 && a.reg.choices == m * d && a.reg.terms == m &&
                                      a.reg.day_length == FEEDCHECK_USUAL_DAY && a.reg.windows == 0 && a.reg.rows == 0);
    for (uint32_t i = 0; i < m * d; i++)
        expect("costliest, choices", a.reg.tanks[i] == 1 && a.reg.minutes[i] == i && (a.reg.masks[i / d] >> i & 1) == 1);
    for (uint32_t t = 0; t < m; t++)
        expect("costliest, terms", a.reg.masks[t] == ((UINT64_C(1) << d) - 1) << t * d && a.reg.coefficients[t] == 1 && !a.reg.ranged[t]);
    w = feedcheck_build(bytes, count, built, sizeof built);
    expect("costliest, products", w.number == 0 && w.count == 3 * products + 3 * m + 1 &&
                                      feedcheck_scheme(bytes, count, built, w.count).scheme.products == products);
}

// Each m and d near the limits, and products that would wrap to 32 or less.
static void try_costliest(void) {
    const uint8_t *bytes = costliest_buffer + BESIDE;
    FeedcheckWriterAnswer w = costliest(2, 3, sizeof COSTLIEST + 1);
    expect("costliest, bytes", w.number == 0 && w.count == sizeof COSTLIEST && kept_but(sizeof COSTLIEST) &&
                                   memcmp(bytes, COSTLIEST, sizeof COSTLIEST) == 0);
    w = costliest(10, 3, FEEDCHECK_MAX_COSTLIEST);
    expect("costliest, longest", w.number == 0 && w.count == FEEDCHECK_MAX_COSTLIEST);
    for (uint32_t m = 0; m <= 40; m++)
        for (uint32_t d = 0; d <= 40; d++) {
            if (m > 0 && d >= 3 && m * d <= 32)
                try_shape(m, d);
            else
                expect("costliest, shapes out of range", not_written(costliest(m, d, FEEDCHECK_MAX_COSTLIEST), 18) &&
                                                             not_written(costliest(m, d, 0), 18));
        }
    static const uint32_t WRAPPING[7][2] = {{UINT32_C(1) << 30, 4}, {4, UINT32_C(1) << 30}, {UINT32_C(1) << 27, 32}, {1431655766, 3},
                                            {65536, 65536}, {(UINT32_C(1) << 31) + 1, 4}, {UINT32_MAX, UINT32_MAX}};
    for (int i = 0; i < 7; i++) {
        w = costliest(WRAPPING[i][0], WRAPPING[i][1], FEEDCHECK_MAX_COSTLIEST);
        expect("costliest, products that wrap", not_written(w, 18));
    }
}

// Unequal counters; those of supplier 15 are at the top and one below it.
static FeedcheckTally unequal(void) {
    FeedcheckTally tally;
    for (uint32_t k = 0; k < FEEDCHECK_SUPPLIERS; k++) {
        tally.pairs[k].accepted = 1 + 2 * k;
        tally.pairs[k].refused = 1000 - 2 * k;
    }
    tally.pairs[15].accepted = UINT32_MAX;
    tally.pairs[15].refused = UINT32_MAX - 1;
    return tally;
}

static int same_tally(FeedcheckTally a, FeedcheckTally b) {
    return memcmp(&a, &b, sizeof a) == 0;
}

// The example, and the example cut off, of each supplier in turn; then suppliers that are not there, and short tables.
static void try_suppliers(int64_t *table) {
    const size_t enough = FEEDCHECK_TABLE_NUMBERS;
    FeedcheckTally before = unequal(), tally = before;
    for (uint8_t supplier = 0; supplier < FEEDCHECK_SUPPLIERS; supplier++) {
        FeedcheckJobAnswer j = feedcheck_job(JOB, sizeof JOB, table, enough, supplier, tally);
        before.pairs[supplier].accepted += supplier < 15;
        expect("suppliers, accepted", j.number == 0 && j.gap == 0 && same_tally(j.tally, before));
        j = feedcheck_job(JOB, sizeof JOB - 1, table, enough, supplier, j.tally);
        before.pairs[supplier].refused += 1;
        expect("suppliers, refused", j.number == 2 && j.part == 4 && j.position == 108 && same_tally(j.tally, before));
        tally = j.tally;
    }
    table[0] = table[FEEDCHECK_TABLE_NUMBERS - 1] = 77;
    for (int supplier = FEEDCHECK_SUPPLIERS; supplier <= 255; supplier++) {
        for (size_t cut = 0; cut < 2; cut++) {
            FeedcheckJobAnswer j = feedcheck_job(JOB, sizeof JOB - cut, table, enough - cut, (uint8_t)supplier, tally);
            expect("suppliers, not there", j.number == 17 && j.part == 0 && j.position == 0 && j.bound == 0 && j.cost == 0 &&
                                               j.gap == 0 && same_tally(j.tally, before));
        }
    }
    FeedcheckJobAnswer j = feedcheck_job(JOB, sizeof JOB, table, enough - 1, 9, tally);
    before.pairs[9].refused += 1;
    expect("suppliers, short table", j.number == 11 && j.part == 0 && j.position == 0 && same_tally(j.tally, before));
    expect("suppliers, table not written", table[0] == 77 && table[FEEDCHECK_TABLE_NUMBERS - 1] == 77);
}

// Whether the supplier is shown just these lines of a job.
static int shown(const uint8_t *job, size_t length, int64_t *table, const char *lines) {
    uint8_t buffer[64];
    size_t count = strlen(lines);
    memset(buffer, 0xAA, sizeof buffer);
    FeedcheckWriterAnswer w = feedcheck_supplier_listing(job, length, table, FEEDCHECK_TABLE_NUMBERS, buffer, count + 1);
    return w.number == 0 && w.part == 0 && w.position == 0 && w.count == count && memcmp(buffer, lines, count) == 0 &&
           buffer[count] == 0xAA;
}

// Whether the example is refused for a table of so many numbers or a buffer of so many bytes, with no byte written.
static int short_lent(int64_t *table, size_t numbers, size_t bytes) {
    uint8_t buffer[64], as_lent[64];
    memset(buffer, 0xAA, sizeof buffer);
    memset(as_lent, 0xAA, sizeof as_lent);
    table[0] = 77;
    FeedcheckWriterAnswer w = feedcheck_supplier_listing(JOB, sizeof JOB, table, numbers, buffer, bytes);
    return w.number == 11 && w.part == 0 && w.position == 0 && w.count == 0 && memcmp(buffer, as_lent, sizeof buffer) == 0;
}

// The example, also with other tanks and minutes and cut off, and lent too little.
static void try_supplier_listing(int64_t *table) {
    static const char LINES[] = "C 0 1\nC 1 1\nC 2 0\nB 0 0 0\n";
    uint8_t other[sizeof JOB];
    expect("supplier's listing", shown(JOB, sizeof JOB, table, LINES));
    memcpy(other, JOB, sizeof JOB);
    other[6] = other[11] = 1, other[8] = 0, other[16] = 9;
    expect("supplier's listing, other tanks and minutes", shown(other, sizeof other, table, LINES));
    expect("supplier's listing, refused job", shown(JOB, sizeof JOB - 1, table, "R 2 108\n"));
    expect("supplier's listing, short buffer", short_lent(table, FEEDCHECK_TABLE_NUMBERS, strlen(LINES) - 1) && table[0] == 0);
    expect("supplier's listing, short table", short_lent(table, FEEDCHECK_TABLE_NUMBERS - 1, strlen(LINES)) && table[0] == 77);
}

// The names, in the order of their numbers.
static const int REFUSALS[18] = {
    FEEDCHECK_REFUSED_NO_COMMAND, FEEDCHECK_REFUSED_CUT_SHORT, FEEDCHECK_REFUSED_TOO_MANY, FEEDCHECK_REFUSED_OUT_OF_RANGE,
    FEEDCHECK_REFUSED_NOT_THERE, FEEDCHECK_REFUSED_MISORDERED, FEEDCHECK_REFUSED_NOT_RISING, FEEDCHECK_REFUSED_SETS_UNFIT,
    FEEDCHECK_REFUSED_FALLS_SHORT, FEEDCHECK_REFUSED_NO_PRODUCT_LEFT, FEEDCHECK_REFUSED_TOO_SHORT, FEEDCHECK_REFUSED_PAST_END,
    FEEDCHECK_REFUSED_OUTSIDE_WINDOWS, FEEDCHECK_REFUSED_PAST_LIMIT, FEEDCHECK_REFUSED_MISFIT, FEEDCHECK_REFUSED_NONE_FITS,
    FEEDCHECK_REFUSED_UNKNOWN_SUPPLIER, FEEDCHECK_REFUSED_SHAPE_OUT_OF_RANGE};

// Each refusal has a sentence of its own, and every other number says that there is none.
static void try_refusals(void) {
    const char *none = feedcheck_refusal_text(FEEDCHECK_ACCEPTED);
    expect("refusals, accepted", FEEDCHECK_ACCEPTED == 0 && strcmp(none, "no refusal") == 0);
    for (int number = 1; number <= 18; number++) {
        const char *text = feedcheck_refusal_text((uint8_t)number);
        expect("refusals, names", REFUSALS[number - 1] == number);
        expect("refusals, sentence", strlen(text) > 0 && strcmp(text, none) != 0);
        for (int other = 1; other < number; other++)
            expect("refusals, sentences differ", strcmp(text, feedcheck_refusal_text((uint8_t)other)) != 0);
    }
    for (int number = 19; number <= 255; number++)
        expect("refusals, no refusal", strcmp(feedcheck_refusal_text((uint8_t)number), none) == 0);
    expect("refusals, misfit",
           strcmp(feedcheck_refusal_text(FEEDCHECK_REFUSED_MISFIT), "the plan does not fit the rows") == 0);
    expect("refusals, products", strcmp(feedcheck_refusal_text(FEEDCHECK_REFUSED_NO_PRODUCT_LEFT),
                                        "the builder needs a 33rd product or a 65th variable") == 0);
}

static void try_version(void) {
    char version[64];
    snprintf(version, sizeof version, "%d.%d.%d", FEEDCHECK_VERSION_MAJOR, FEEDCHECK_VERSION_MINOR, FEEDCHECK_VERSION_PATCH);
    expect("version", strcmp(version, FEEDCHECK_VERSION) == 0);
}

int main(void) {
    static int64_t table[FEEDCHECK_TABLE_NUMBERS];
    uint8_t buffer[FEEDCHECK_MAX_LISTING];
    const uint8_t *scheme = JOB + REGISTER, *certificate = scheme + SCHEME, *plan = certificate + CERTIFICATE;

    FeedcheckRegisterAnswer a = feedcheck_register(JOB, REGISTER);
    expect("register", a.number == 0 && a.reg.base == 10 && a.reg.choices == 3 && a.reg.terms == 3 && a.reg.tanks[2] == 7 &&
                           a.reg.minutes[1] == 720 && a.reg.masks[2] == 7 && a.reg.coefficients[0] == -6);
    expect("register, no ranges", a.reg.highs[0] == -6 && a.reg.highs[2] == 5 && a.reg.highs[3] == 0 && a.reg.ranged[0] == 0);
    expect("register, no length", a.reg.day_length == FEEDCHECK_USUAL_DAY);
    expect("register, no rows", a.reg.rows == 0 && a.reg.row_totals[7] == 0 && a.reg.row_entries[255] == 0);
    expect("register, no windows", a.reg.windows == 0 && a.reg.window_tanks[0] == 0 && a.reg.window_tos[63] == 0);
    a = feedcheck_register(WINDOWS, sizeof WINDOWS);
    expect("windows", a.number == 0 && a.reg.choices == 1 && a.reg.minutes[0] == 481 && a.reg.windows == 3 &&
                          a.reg.window_tanks[1] == 4 && a.reg.window_tanks[2] == 7 && a.reg.window_froms[0] == 480 &&
                          a.reg.window_froms[1] == 720 && a.reg.window_tos[0] == 482 &&
                          a.reg.window_tos[1] == FEEDCHECK_USUAL_DAY && a.reg.window_tos[2] == 1 && a.reg.window_tos[3] == 0);
    uint8_t outside[sizeof WINDOWS];
    memcpy(outside, WINDOWS, sizeof WINDOWS);
    outside[29] = 0xE2;
    a = feedcheck_register(outside, sizeof outside);
    expect("windows, choice outside", a.number == 13 && a.part == 1 && a.position == 26 && a.reg.windows == 0 &&
                                          a.reg.window_tanks[0] == 0);
    try_days();
    try_rows();
    try_ranges(table);
    try_wide(table);
    try_factors(table);
    try_costliest();
    // The places that docs/LINKING.md speaks of.
    expect("record", sizeof a == 5256 && sizeof a.reg == 5240 && offsetof(FeedcheckRegister, day_length) == 4 &&
                         offsetof(FeedcheckRegister, choices) == 8 && offsetof(FeedcheckRegister, masks) == 216);
    FeedcheckSchemeAnswer b = feedcheck_scheme(JOB, REGISTER, scheme, SCHEME);
    expect("scheme", b.number == 0 && b.scheme.products == 2 && b.scheme.splits == 3 && b.scheme.rights[1] == 3 &&
                         b.scheme.split_lefts[2] == 4);
    FeedcheckWriterAnswer w = feedcheck_build(JOB, REGISTER, buffer, sizeof buffer);
    expect("build", w.number == 0 && w.count == 13 && buffer[12] == 0x2F);
    w = feedcheck_build(JOB, REGISTER, buffer, 12);
    expect("build, short buffer", w.number == 11 && w.part == 0 && w.position == 0 && w.count == 0);
    FeedcheckCostAnswer c = feedcheck_cost(JOB, REGISTER, plan, PLAN);
    expect("cost", c.number == 0 && c.cost == 0);
    FeedcheckSearchAnswer s = feedcheck_search(JOB, REGISTER, 9);
    expect("search", s.number == 0 && s.part == 0 && s.position == 0 && s.plan == 3 && s.cost == 0 && s.visits == 9);
    s = feedcheck_search(JOB, REGISTER, 8);
    expect("search, limit passed", s.number == 14 && s.part == 0 && s.position == 0 && s.plan == 0 && s.cost == 0 &&
                                       s.visits == 0);
    s = feedcheck_search(WINDOWS, sizeof WINDOWS, 4294967295u);
    expect("search, no terms", s.number == 0 && s.plan == 0 && s.cost == 0 && s.visits == 3);
    s = feedcheck_search(outside, sizeof outside, 0);
    expect("search, choice outside", s.number == 13 && s.part == 1 && s.position == 26 && s.visits == 0);
    FeedcheckPenaltyAnswer p = feedcheck_penalty(JOB, REGISTER, scheme, SCHEME, table, FEEDCHECK_TABLE_NUMBERS);
    expect("penalty", p.number == 0 && table[0] == 20 && table[5] == 20);
    // Without a range the check and the plain certificate don't look at the plan.
    FeedcheckCheckAnswer k = feedcheck_check(JOB, REGISTER, scheme, SCHEME, certificate, CERTIFICATE, buffer, 0, table,
                                             FEEDCHECK_TABLE_NUMBERS);
    expect("check", k.number == 0 && k.bound == 0 && table[0] == 0);
    k = feedcheck_check(JOB, REGISTER, scheme, SCHEME, certificate, CERTIFICATE - 1, JOB, 1, table, FEEDCHECK_TABLE_NUMBERS);
    expect("check, cut", k.number == 2 && k.part == 3 && k.position == 43);
    w = feedcheck_plain(JOB, REGISTER, scheme, SCHEME, scheme, SCHEME, buffer, sizeof buffer);
    expect("plain", w.number == 0 && w.count == CERTIFICATE && memcmp(buffer, certificate, CERTIFICATE) == 0);
    FeedcheckTally tally = {{{4294967295u, 7}}};
    FeedcheckJobAnswer j = feedcheck_job(JOB, sizeof JOB, table, FEEDCHECK_TABLE_NUMBERS, 0, tally);
    expect("job", j.number == 0 && j.bound == 0 && j.cost == 0 && j.gap == 0 && same_tally(j.tally, tally));
    try_suppliers(table);
    // The places that docs/LINKING.md speaks of.
    expect("tally", sizeof tally == 128 && sizeof j == 168 && offsetof(FeedcheckJobAnswer, tally) == 40);
    static const char LINES[] = "T 0 4 480\nT 1 4 720\nT 2 7 480\nF 4 480\nF 4 720\nB 0 0 0\n";
    w = feedcheck_listing(JOB, sizeof JOB, table, FEEDCHECK_TABLE_NUMBERS, buffer, sizeof buffer);
    expect("listing", w.number == 0 && w.count == strlen(LINES) && memcmp(buffer, LINES, w.count) == 0);
    try_supplier_listing(table);
    try_refusals();
    try_version();
    if (!failed)
        printf("header %s: the example, the windows, the days, the rows, the ranges, the 48 choices, the factors, the costliest "
               "registers, the suppliers and their listing are answered as the scope says, and each refusal has its name and sentence\n",
               FEEDCHECK_VERSION);
    return failed;
}
