/* Prints the table of docs/PRODUCTS.md: how many products the builder makes of the costliest register of m terms of d choices each,
 * a row for each d and a column for each m. A place is empty where there is no such register. */
#include <stdio.h>

#include "feedcheck.h"

enum { FEWEST_CHOICES = 3, MOST_CHOICES = 32, MOST_TERMS = 10 };

/* How many products the builder makes of the costliest register of m terms of d choices each, or -1 where there is none. */
static int costliest_products(uint32_t m, uint32_t d) {
    uint8_t reg[FEEDCHECK_MAX_COSTLIEST], scheme[FEEDCHECK_MAX_BUILT];
    FeedcheckWriterAnswer written = feedcheck_costliest(m, d, reg, sizeof reg), built;

    if (written.number != FEEDCHECK_ACCEPTED) {
        return -1;
    }
    built = feedcheck_build(reg, written.count, scheme, sizeof scheme);
    return (int)feedcheck_scheme(reg, written.count, scheme, built.count).scheme.products;
}

static void print_head(void) {
    int m;

    printf("| d | m = 1 |");
    for (m = 2; m <= MOST_TERMS; m++) {
        printf(" %d |", m);
    }
    printf("\n|---|");
    for (m = 1; m <= MOST_TERMS; m++) {
        printf("---|");
    }
    printf("\n");
}

static void print_row(int d) {
    int m;

    printf("| %d |", d);
    for (m = 1; m <= MOST_TERMS; m++) {
        int products = costliest_products((uint32_t)m, (uint32_t)d);
        if (products >= 0) {
            printf(" %d", products);
        }
        printf(" |");
    }
    printf("\n");
}

int main(void) {
    int d;

    print_head();
    for (d = FEWEST_CHOICES; d <= MOST_CHOICES; d++) {
        print_row(d);
    }
    return 0;
}
