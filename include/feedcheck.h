/* The twelve calls of the library, which checks feeding plans of fish farms; for C from C99 on, and for C++. docs/LINKING.md has
 * complete programs with the commands that compile them; the first to look at is include/own_register.c.
 *
 * WORDS. A supplier sends a farm a job, a file of four parts. docs/FORMAT.md explains their bytes.
 *
 *   register     Part 1: what the farm may do and what it costs. A choice is a tank and a minute of the day at which the tank may
 *                be fed. A term is a set of choices and a coefficient, which is added to the cost where all of them are fed. A
 *                coefficient that is not known exactly is given as a range, a low and a high one. There may be windows, the times
 *                of day outside of which a tank must not be fed, rows, which fix totals ("this tank exactly four times"), and the
 *                length of the day.
 *   scheme       Part 2: further variables beside the choices, each of them the product of two others, and for each term its
 *                split, the two variables whose product it is. So the cost becomes a polynomial of degree 2. There may be a factor
 *                that makes the penalty form heavier.
 *   certificate  Part 3: whole numbers which show that no plan that fits costs less than a bound. The check adds them up.
 *   plan         Part 4: which choices are fed. It costs the register's base cost and the coefficients of all terms whose choices
 *                are all fed, of a range the high one. It fits where the total of each row comes out; in a register without rows
 *                every plan fits.
 *
 * RANGES. In a register that has a term with a range, a plan chooses the coefficients: of each range the high one where the plan
 * feeds all choices of the term, else the low one. Cost, bound, gap and our own certificate are of the coefficients that the plan
 * chooses; so feedcheck_check and feedcheck_plain are given the plan too, and in a job part 4 stands between parts 2 and 3. With a
 * gap of 0 no plan that fits is cheaper than this one, whatever the coefficients are within their ranges. feedcheck_search and
 * feedcheck_penalty take the low coefficients, so a search may show another cost of a plan than feedcheck_cost. Where no term has
 * a range there is one coefficient for each term, and the parts of a job stand in the order of their numbers.
 *
 * Costs, coefficients and bounds are whole numbers in whatever unit of money the register is written in. A job brings a register of
 * its own: that it is accepted does not say that this is the farm's (docs/REFUSALS.md, "What an accepted job does not say").
 *
 * WHAT A CALL IS GIVEN. Every call is a function of what it is given: it keeps nothing and allocates nothing, so threads may make
 * calls at the same time. A thread that calls feedcheck_search wants a stack of 256 KB or more, and one that
 * calls feedcheck_plain 128 KB.
 *
 * A run of bytes is a pointer and a length. A pointer is never null, also where the length is 0; a table is aligned as int64_t.
 * A table or buffer is lent to a call to write in, and overlaps nothing else that the call is given. A table has at least
 * FEEDCHECK_TABLE_NUMBERS numbers; a shorter one is refused 11 before anything is read. A buffer shorter than the bytes to be
 * written is refused 11 after everything is read, and is left as it was.
 *
 * A call that is given parts by themselves reads them in the order of their numbers, but part 4 before part 3; each to the end of
 * its run: bytes after the end of a part are refused 12, at the first of them, before the next part is read.
 *
 * WHAT A CALL ANSWERS. An answer's number is 0, FEEDCHECK_ACCEPTED, or that of a refusal, 1 to 18. On a refusal part, 1 to 4, and
 * position tell the command that is refused. The position is that of its first byte, or of the place where a command is missing or
 * where bytes stand past the end. It is counted from 0 at the first byte of that part's run, or of the job where the call is given
 * a whole job. Part and position are 0 where no command is at fault (11, 14, 16, 17, 18), and where nothing is refused. On a
 * refusal every other field is 0, but for a job's tally, the count of accepted and refused jobs, which goes on all the same.
 *
 * A table holds a quadratic function f of N variables, the choices and then the products, each 0 or 1. With side = N + 1, y[0] = 1
 * and y[i + 1] the variable i, f is half of the sum of table[side * i + j] * y[i] * y[j] over all i and j from 0 to N. The numbers
 * at (i, j) and (j, i) are the same. Numbers from side * side on stay as they were lent.
 *
 * LIBRARIES. The calls stand in eleven static libraries, target/staticlib/libNAME.a, both listings in one; the name is given beside
 * each call. tools/libraries makes all eleven, tools/libraries NAME one. They can be linked together, in any order. */
#ifndef FEEDCHECK_H
#define FEEDCHECK_H

#include <stdbool.h>
#include <stddef.h>
#include <stdint.h>

#ifdef __cplusplus
extern "C" {
#endif

/* The version of this header and of the libraries made from the same files; a library does not tell its version. The minor number
 * is that of the last change that users asked for (docs/changes/R-NUMBER.md), and the patch number counts what came after it.
 * Before 1.0 a new minor number may change calls and records, a new patch number does not. docs/LINKING.md tells what a program
 * must change, under "Programs compiled with an earlier header". */
#define FEEDCHECK_VERSION "0.12.0"
#define FEEDCHECK_VERSION_MAJOR 0
#define FEEDCHECK_VERSION_MINOR 12
#define FEEDCHECK_VERSION_PATCH 0

enum {
    FEEDCHECK_MAX_CHOICES = 48,     /* the most choices of a register, */
    FEEDCHECK_MAX_TERMS = 256,      /* terms, and so splits of a scheme, */
    FEEDCHECK_MAX_WINDOWS = 64,     /* windows, of all tanks together, */
    FEEDCHECK_MAX_ROWS = 8,         /* and rows */
    FEEDCHECK_ROW_ENTRIES = 32,     /* entries of a row, for choices 0 to 31; choices from 32 on are in no row */
    FEEDCHECK_MAX_PRODUCTS = 32,    /* the most products of a scheme, */
    FEEDCHECK_MAX_VARIABLES = 64,   /* and variables, choices and products together, so fewer products of more than 32 choices */
    FEEDCHECK_MAX_FACTOR = 1000,    /* the largest factor of a scheme */
    FEEDCHECK_SHORT_DAY = 1380,     /* the lengths of a day in minutes: when the clocks go forward, */
    FEEDCHECK_USUAL_DAY = 1440,     /* when they are left alone, and where a register says no length, */
    FEEDCHECK_LONG_DAY = 1500,      /* when they go back */
    FEEDCHECK_TABLE_NUMBERS = 4225, /* numbers of a table, enough for every scheme */
    FEEDCHECK_MAX_BUILT = 865,      /* a buffer of so many bytes is enough for every scheme that is built, */
    FEEDCHECK_MAX_COSTLIEST = 246,  /* for every register that feedcheck_costliest writes, */
    FEEDCHECK_MAX_PLAIN = 1294,     /* for every certificate that feedcheck_plain writes, */
    FEEDCHECK_MAX_LISTING = 4096,   /* for every listing, the farm's and the supplier's */
    FEEDCHECK_MAX_JOB = 27100,      /* no job of more bytes is accepted */
    FEEDCHECK_MAX_JOB_READ = 27234  /* a longer job is answered as its first so many bytes are */
};

/* How many suppliers a tally counts apart; their numbers begin at 0. A macro, so that #ifdef tells headers without suppliers. */
#define FEEDCHECK_SUPPLIERS 16

/* The number of an answer, named as in the library's own code (crates/wire/src/refusals.rt). docs/REFUSALS.md has examples of each
 * refusal and tells what a supplier and a farm can do. A number with calls beside it is answered by these alone. The others are
 * about the bytes of a part, and every call that reads the part can answer them but the two listings, which write the refusal of a
 * job as a line. */
enum {
    FEEDCHECK_ACCEPTED = 0,
    FEEDCHECK_REFUSED_NO_COMMAND = 1,
    FEEDCHECK_REFUSED_CUT_SHORT = 2,
    FEEDCHECK_REFUSED_TOO_MANY = 3,
    FEEDCHECK_REFUSED_OUT_OF_RANGE = 4,
    FEEDCHECK_REFUSED_NOT_THERE = 5,
    FEEDCHECK_REFUSED_MISORDERED = 6,
    FEEDCHECK_REFUSED_NOT_RISING = 7,
    FEEDCHECK_REFUSED_SETS_UNFIT = 8,
    FEEDCHECK_REFUSED_FALLS_SHORT = 9,        /* feedcheck_check, feedcheck_job */
    FEEDCHECK_REFUSED_NO_PRODUCT_LEFT = 10,   /* feedcheck_build */
    FEEDCHECK_REFUSED_TOO_SHORT = 11,         /* every call that is lent a table or a buffer */
    FEEDCHECK_REFUSED_PAST_END = 12,
    FEEDCHECK_REFUSED_OUTSIDE_WINDOWS = 13,
    FEEDCHECK_REFUSED_PAST_LIMIT = 14,        /* feedcheck_search */
    FEEDCHECK_REFUSED_MISFIT = 15,            /* feedcheck_cost, feedcheck_job; with ranges feedcheck_check, feedcheck_plain */
    FEEDCHECK_REFUSED_NONE_FITS = 16,         /* feedcheck_search */
    FEEDCHECK_REFUSED_UNKNOWN_SUPPLIER = 17,  /* feedcheck_job */
    FEEDCHECK_REFUSED_SHAPE_OUT_OF_RANGE = 18 /* feedcheck_costliest */
};

/* What the number of a refusal means; of any other number, 0 too, "no refusal". The text is constant and is not to be freed. */
static inline const char *feedcheck_refusal_text(uint8_t number) {
    switch (number) {
    case FEEDCHECK_REFUSED_NO_COMMAND:
        return "a byte is not a command here";
    case FEEDCHECK_REFUSED_CUT_SHORT:
        return "the bytes end early";
    case FEEDCHECK_REFUSED_TOO_MANY:
        return "a count is above a limit, or splits or choices are missing";
    case FEEDCHECK_REFUSED_OUT_OF_RANGE:
        return "a number is out of range";
    case FEEDCHECK_REFUSED_NOT_THERE:
        return "something is named that is not there";
    case FEEDCHECK_REFUSED_MISORDERED:
        return "a pair is misordered";
    case FEEDCHECK_REFUSED_NOT_RISING:
        return "a choice, a window or a mask is not rising";
    case FEEDCHECK_REFUSED_SETS_UNFIT:
        return "sets don't fit";
    case FEEDCHECK_REFUSED_FALLS_SHORT:
        return "the certificate does not carry its target";
    case FEEDCHECK_REFUSED_NO_PRODUCT_LEFT:
        return "the builder needs a 33rd product or a 65th variable";
    case FEEDCHECK_REFUSED_TOO_SHORT:
        return "a lent table or buffer is short";
    case FEEDCHECK_REFUSED_PAST_END:
        return "bytes stand after the end";
    case FEEDCHECK_REFUSED_OUTSIDE_WINDOWS:
        return "a choice is outside its tank's windows";
    case FEEDCHECK_REFUSED_PAST_LIMIT:
        return "the search takes more visits than its limit";
    case FEEDCHECK_REFUSED_MISFIT:
        return "the plan does not fit the rows";
    case FEEDCHECK_REFUSED_NONE_FITS:
        return "no plan fits the rows";
    case FEEDCHECK_REFUSED_UNKNOWN_SUPPLIER:
        return "a supplier number is above 15";
    case FEEDCHECK_REFUSED_SHAPE_OUT_OF_RANGE:
        return "m is 0, d is below 3 or above 32, or m times d is above 32";
    default:
        return "no refusal";
    }
}

/* What a register says. choices, terms, windows and rows count the entries of the arrays below them; entries past the counts are 0.
 * base is the cost that every plan has, -1,000,000,000 to 1,000,000,000.
 * day_length, in minutes, is FEEDCHECK_SHORT_DAY, FEEDCHECK_USUAL_DAY or FEEDCHECK_LONG_DAY, and 0 on a refusal. Minutes are
 * counted from 0 at the day's beginning; every minute is below day_length, and no window ends after it.
 * Choice number i is of the tank tanks[i], 1 to 9,999, at the minute minutes[i]. There is at least one choice. Choices rise by tank
 * and then by minute.
 * Term number t is of each choice i for which bit i of masks[t] is set, at least one. Masks rise. Where ranged[t] is false its
 * coefficient is coefficients[t], which is not 0, and highs[t] is the same number. Where ranged[t] is true the term has a range,
 * from coefficients[t] to highs[t]; each may be 0, and they may be equal, and it is of choices 0 to 31. Coefficients, low and high,
 * are -1,000,000 to 1,000,000.
 * Window number w is of the tank window_tanks[w]: window_froms[w] is its first minute, window_tos[w] the first minute after it.
 * Where a tank has no window, every minute of the day is allowed. Windows rise by tank and then by first minute; they may overlap.
 * Row number k has the total row_totals[k], -4,064 to 4,064, and for each choice j below FEEDCHECK_ROW_ENTRIES the entry
 * row_entries[FEEDCHECK_ROW_ENTRIES * k + j], -128 to 127, 0 where there is no choice j; choices from FEEDCHECK_ROW_ENTRIES on are
 * in no row. A plan fits where, for each row, the entries of the choices that it feeds add up to the row's total. */
typedef struct {
    int32_t base;
    uint16_t day_length;
    size_t choices, terms;
    uint16_t tanks[FEEDCHECK_MAX_CHOICES], minutes[FEEDCHECK_MAX_CHOICES];
    uint64_t masks[FEEDCHECK_MAX_TERMS];
    int32_t coefficients[FEEDCHECK_MAX_TERMS], highs[FEEDCHECK_MAX_TERMS];
    bool ranged[FEEDCHECK_MAX_TERMS];
    size_t windows;
    uint16_t window_tanks[FEEDCHECK_MAX_WINDOWS], window_froms[FEEDCHECK_MAX_WINDOWS], window_tos[FEEDCHECK_MAX_WINDOWS];
    size_t rows;
    int16_t row_totals[FEEDCHECK_MAX_ROWS];
    int8_t row_entries[FEEDCHECK_MAX_ROWS * FEEDCHECK_ROW_ENTRIES];
} FeedcheckRegister;

/* Whether a term of the register has a range, be its two coefficients equal. The plan of a job then stands before the certificate,
 * and feedcheck_check and feedcheck_plain read the plan that they are given. */
static inline bool feedcheck_has_range(const FeedcheckRegister *reg) {
    size_t t;

    for (t = 0; t < reg->terms; t++) {
        if (reg->ranged[t]) {
            return true;
        }
    }
    return false;
}

/* What a scheme says. Variables 0 to n - 1 are the register's n choices, and variable n + k is product number k: 1 where both its
 * operands are 1, which are the variables lefts[k] and rights[k], with lefts[k] < rights[k] < n + k. n and products together are at
 * most FEEDCHECK_MAX_VARIABLES.
 * There are as many splits as the register has terms. Term number t is the product of the variables split_lefts[t] and
 * split_rights[t], the left at most the right; where they are the same it is that variable. Entries past the counts are 0.
 * factor, 1 to FEEDCHECK_MAX_FACTOR, is what the weights of the penalty form are multiplied by (feedcheck_penalty): 1 where the
 * scheme says none, and 0 on a refusal. Nothing else depends on it. */
typedef struct {
    size_t products, splits;
    uint8_t lefts[FEEDCHECK_MAX_PRODUCTS], rights[FEEDCHECK_MAX_PRODUCTS];
    uint8_t split_lefts[FEEDCHECK_MAX_TERMS], split_rights[FEEDCHECK_MAX_TERMS];
    uint16_t factor;
} FeedcheckScheme;

/* How many jobs of one supplier were accepted and refused; each count stays at 4,294,967,295. */
typedef struct {
    uint32_t accepted, refused;
} FeedcheckCounters;

/* A count of jobs, kept by the program from one job to the next: the counters of each supplier, by its number. A job moves one
 * counter of its own supplier's pair; one that is refused 17 moves none. */
typedef struct {
    FeedcheckCounters pairs[FEEDCHECK_SUPPLIERS];
} FeedcheckTally;

typedef struct {
    uint8_t number, part;
    size_t position;
    FeedcheckRegister reg;
} FeedcheckRegisterAnswer;

typedef struct {
    uint8_t number, part;
    size_t position;
    FeedcheckScheme scheme;
} FeedcheckSchemeAnswer;

/* count: the bytes that were written to the front of the buffer. Those after them stay as they were, and none is written on a
 * refusal. */
typedef struct {
    uint8_t number, part;
    size_t position;
    size_t count;
} FeedcheckWriterAnswer;

/* cost: -1,256,000,000 to 1,256,000,000. */
typedef struct {
    uint8_t number, part;
    size_t position;
    int64_t cost;
} FeedcheckCostAnswer;

/* plan: bit i is set where choice i is fed. As part 4 it is the byte 0x40 and the lower 4 bytes of it where the others are 0, else
 * 0x41 and all 8, the lowest first. cost: with the low coefficients where there are ranges. visits: the partial plans that the search
 * came to, the empty one, full ones and those that it left at once included; with n choices never more than 2 to the power (n + 1),
 * less 1. */
typedef struct {
    uint8_t number, part;
    size_t position;
    uint64_t plan;
    int64_t cost;
    uint32_t visits;
} FeedcheckSearchAnswer;

typedef struct {
    uint8_t number, part;
    size_t position;
} FeedcheckPenaltyAnswer;

/* bound: no plan that fits the rows costs less; where there are ranges, with the coefficients that the given plan chooses.
 * -4,000,000,000,000,000 to 4,000,000,000,000,000. */
typedef struct {
    uint8_t number, part;
    size_t position;
    int64_t bound;
} FeedcheckCheckAnswer;

/* bound and cost as above; gap: the cost less the bound, 0 or more, so that no plan that fits is cheaper by more than the gap.
 * Where there are ranges and the gap is 0, no plan that fits is cheaper, with any coefficients within the ranges.
 * tally: the one that the call was given, with this job counted. */
typedef struct {
    uint8_t number, part;
    size_t position;
    int64_t bound, cost, gap;
    FeedcheckTally tally;
} FeedcheckJobAnswer;

/* Reads a register, the bytes of part 1. A whole job, given in its place, is refused 12 with the position at which part 2 begins,
 * if part 1 is right. libregister.a */
FeedcheckRegisterAnswer feedcheck_register(const uint8_t *reg, size_t reg_length);

/* Reads a scheme, the bytes of part 2, of a register. Part 2 of a job with all that stands behind it, given in the scheme's place,
 * is refused 12 in part 2 with the position at which the next part begins, if part 2 is right: part 3 or, where the register has a
 * range, part 4. libscheme.a */
FeedcheckSchemeAnswer feedcheck_scheme(const uint8_t *reg, size_t reg_length, const uint8_t *scheme, size_t scheme_length);

/* Builds a scheme of a register and writes its bytes; it says no factor, so that its factor is 1. Refused 10, in part 1 at the
 * command of the term, where a term needs a 33rd product, or one that is the 65th variable. libbuilder.a */
FeedcheckWriterAnswer feedcheck_build(const uint8_t *reg, size_t reg_length, uint8_t *buffer, size_t buffer_length);

/* Writes a register, the bytes of part 1, for which feedcheck_build forms m * (d - 2) products. For no accepted register with at
 * most m terms, none over more than d choices, does it form more, whatever else the register has. The base cost is 0, the choices
 * are m * d, of tank 1 at the minutes from 0 up, and term number t is of the d choices from number d * t on and has the coefficient
 * 1. m is 1 or more, d 3 to 32, and m * d, which does not wrap, at most 32. For any other m and d it is refused 18, with part and
 * position 0, whatever the buffer's length. libcostliest.a */
FeedcheckWriterAnswer feedcheck_costliest(uint32_t m, uint32_t d, uint8_t *buffer, size_t buffer_length);

/* The cost of a plan, the bytes of part 4, of a range with the high coefficient. Refused 15, at the plan's command, where the plan
 * does not fit the rows. Where parts 4 and 3 of a job with ranges are given in the plan's place it is refused 12 in part 4 with the
 * position at which part 3 begins, if part 4 is right. libplan.a */
FeedcheckCostAnswer feedcheck_cost(const uint8_t *reg, size_t reg_length, const uint8_t *plan, size_t plan_length);

/* Finds a plan that fits the rows and costs at most any other that fits, of equals the smallest number. Costs here are those with
 * the low coefficients of ranges. Refused 14, with part and position 0, where that takes more visits than the limit; it stops
 * there, so the limit bounds the time of the call. As many as the limit are accepted. Refused 16, with part and position 0, where
 * no plan fits; 14 comes before it. libsearch.a */
FeedcheckSearchAnswer feedcheck_search(const uint8_t *reg, size_t reg_length, uint32_t limit);

/* Leaves the penalty form in the table, a function of the scheme's variables for solvers that take no conditions. Where every
 * product is 1 just where both its operands are, the function is the cost of the plan that feeds the choices which are 1; its least
 * value over all 0s and 1s is the least cost. Where the register has rows, the least value over those whose choices fit is the
 * least cost of the plans that fit. Costs here are those with the low coefficients of ranges.
 * The weight of a product is the sum of the absolute values of the coefficients, of ranges the low ones, of the terms that use it,
 * multiplied by the scheme's factor. A term uses the products of its split, their operands that are products, and so on down. The
 * higher the factor, the higher is the function where a product of weight above 0 is not that of its operands; elsewhere it is the
 * same. Its least value is the same with any factor. With a factor of 2 or more, all 0s and 1s that reach it and whose choices fit
 * have each product of weight above 0 equal to the product of its operands; with 1 others may reach it too.
 * On a refusal the table stays as it was. libpenalty.a */
FeedcheckPenaltyAnswer feedcheck_penalty(const uint8_t *reg, size_t reg_length, const uint8_t *scheme, size_t scheme_length,
                                         int64_t *table, size_t table_length);

/* Checks a certificate, the bytes of part 3. Where the register has a range, the plan, the bytes of part 4, chooses coefficients:
 * it is read after part 2 and before part 3, and refused as by feedcheck_cost, 15 among the refusals. Where it has none the plan's
 * bytes are not looked at; give any, or none with a pointer that is not null. Leaves R in the table, what the certificate leaves
 * over (docs/SUPPLIERS.md). It is refused 9, at its end command, where in some row of R, numbers side * i to side * i + N, the one
 * on the diagonal is less than the absolute values of the others together. The table is written where the end command is reached:
 * also on a refusal 9, or 12 in part 3; on any other it stays as it was. libbound.a */
FeedcheckCheckAnswer feedcheck_check(const uint8_t *reg, size_t reg_length, const uint8_t *scheme, size_t scheme_length,
                                     const uint8_t *certificate, size_t certificate_length, const uint8_t *plan,
                                     size_t plan_length, int64_t *table, size_t table_length);

/* Writes a certificate for a register and a scheme that takes no solver, and for a plan, which is looked at as by feedcheck_check:
 * where the register has a range. It is always accepted with this plan; its bound is often far below the least cost. libplain.a */
FeedcheckWriterAnswer feedcheck_plain(const uint8_t *reg, size_t reg_length, const uint8_t *scheme, size_t scheme_length,
                                      const uint8_t *plan, size_t plan_length, uint8_t *buffer, size_t buffer_length);

/* A whole job of this supplier, 0 to 15: the bound, the plan's cost, the gap, and the tally with the job counted. Refused 15 where
 * its plan does not fit the rows. Where the register has a range the parts stand in the order 1, 2, 4, 3. Leaves R in the table
 * where the end command of part 3 is reached: also where it is refused 9, or behind that command. Refused 17, with
 * part and position 0, where the supplier is above 15; that comes before anything else, a short table too, and leaves the table as
 * it was. libjob.a */
FeedcheckJobAnswer feedcheck_job(const uint8_t *job, size_t job_length, int64_t *table, size_t table_length, uint8_t supplier,
                                 FeedcheckTally tally);

/* Writes the farm's lines of a job: for each choice `T`, its number, tank and minute, for each choice that the plan feeds `F`, tank
 * and minute, and then `B`, bound, cost and gap. A refused job has the one line `R`, number and position, and is no refusal of this
 * call, which refuses nothing but a short table or buffer. The text is ASCII with a line feed after each line and no 0 at its end.
 * The table is written as feedcheck_job does, also where the buffer is short. liblisting.a */
FeedcheckWriterAnswer feedcheck_listing(const uint8_t *job, size_t job_length, int64_t *table, size_t table_length,
                                        uint8_t *buffer, size_t buffer_length);

/* Writes what the supplier of a job may read; lent and refused as feedcheck_listing. For each choice the line `C`, its number and 1
 * or 0 for fed or not, then the farm's `B` line; of a refused job its `R` line. No tank, minute or window is in the lines: accepted
 * jobs that differ only in the tanks and minutes of choices and in the tanks, "from" and "to" of windows, and are lent alike, get
 * the same answer and leave the same in buffer and table. liblisting.a */
FeedcheckWriterAnswer feedcheck_supplier_listing(const uint8_t *job, size_t job_length, int64_t *table, size_t table_length,
                                                 uint8_t *buffer, size_t buffer_length);

#ifdef __cplusplus
}
#endif

#endif
