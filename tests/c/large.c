/* Large sites, where question 10 marks, walks, searches and goes by ranges: up to 1,024 rows in up to 16 tables, terms at random out of few
 * or many, in a third of the sites in ranges that overlap, in another third with all objects above all subjects, so that only objects of
 * other tables reach them, and in each store one word after another damaged, of its entries and of all its words. The build is compared with the
 * reference word for word, and of each store whether a plan is made, which one, or with which number it is refused, and the same of whether
 * there is a solution. Seeded: every run is the same. */
#include "closing.h"
#include "files.h"
#include "reference.h"

#include <stdio.h>
#include <stdlib.h>
#include <string.h>

enum { SITES = 280, WIDTHS = 7, DAMAGES = 6, MOST_ROWS = 1024, MOST_PREDICATES = 16 };

static struct file site;
static struct row rows[MOST_PREDICATES][MOST_ROWS];
static size_t count[MOST_PREDICATES];
static uint32_t store[CLOSING_STORE_WORDS], expected[CLOSING_STORE_WORDS];
static uint64_t state = 1;

static uint32_t random_below(uint32_t limit) {
    state = state * 6364136223846793005u + 1442695040888963407u;
    return (uint32_t)(state >> 33) % limit;
}

/* So many rows at random, of so many terms from `first` on, objects `above` more, ascending, each once. */
static size_t make_rows(struct row *row, size_t most, uint32_t first, uint32_t terms, uint32_t above) {
    size_t kept = 0;
    for (size_t i = 0; i < most; i++)
        row[i] = (struct row){first + random_below(terms), first + above + random_below(terms)};
    qsort(row, most, sizeof *row, compare_rows);
    for (size_t i = 0; i < most; i++)
        if (kept == 0 || compare_rows(&row[kept - 1], &row[i]) != 0) row[kept++] = row[i];
    return kept;
}

/* Of each table the terms from some place on, `own` of them, and as many for its objects, so much above. */
static void make_site(uint32_t predicates, uint32_t terms, uint32_t own, uint32_t above) {
    site.size = 0;
    put_number(&site, predicates);
    for (uint32_t p = 0; p < predicates; p++) {
        count[p] = make_rows(rows[p], random_below(MOST_ROWS / predicates + 1), random_below(terms - own - above + 1), own, above);
        put_number(&site, p + 1);
        put_number(&site, (uint32_t)count[p]);
    }
    for (uint32_t p = 0; p < predicates; p++)
        for (size_t i = 0; i < count[p]; i++)
            put_row(&site, rows[p][i]);
}

/* A check of two triple patterns: ?0 p ?1 and ?1 q ?2, or ?0 p ?1 and ?2 q ?1. */
enum { CHECK_BYTES = 7 };

/* The number that is returned for a plan, or -1 where the engine and the reference disagree. */
static int planned(size_t used, const uint8_t check[CHECK_BYTES]) {
    uint8_t plan[16] = {0}, other[16] = {0};
    uint64_t answer[4] = {0}, wanted[4] = {0};
    const uint32_t number = closing_plan(store, used, check, CHECK_BYTES, plan, answer);
    if (number != reference_plan(store, used, check, CHECK_BYTES, other, wanted)) return -1;
    return memcmp(plan, other, sizeof plan) == 0 && memcmp(answer, wanted, sizeof answer) == 0 ? (int)number : -1;
}

/* The kind that is told by a plan in written order, 0 where it is refused, or -1 where the engine and the reference disagree. */
static int told(size_t used, const uint8_t check[CHECK_BYTES]) {
    static const uint8_t plan[] = {0, 0, 1, 0};
    uint64_t answer[4] = {0}, wanted[4] = {0};
    const uint32_t number = closing_whether(store, used, check, CHECK_BYTES, plan, sizeof plan, answer);
    if (number != reference_whether(store, used, check, CHECK_BYTES, plan, sizeof plan, wanted)) return -1;
    return memcmp(answer, wanted, sizeof answer) == 0 ? (int)answer[0] : -1;
}

int main(void) {
    static const uint32_t terms[WIDTHS] = {20, 100, 300, 1000, 5000, 65536, 16777216};
    uint64_t answer[4], wanted[4];
    long made = 0, refused = 0, yes = 0, no = 0;
    for (uint32_t n = 0; n < SITES; n++) {
        const uint32_t predicates = 1 + random_below(MOST_PREDICATES), t = n % 3 == 0 ? random_below(1001) : 1000;
        const uint32_t wide = terms[n % WIDTHS], third = n / WIDTHS % 3;
        make_site(predicates, wide, wide >> third, third == 2 ? wide / 2 : 0);
        if (closing_build(t, site.byte, site.size, store, CLOSING_STORE_WORDS, answer) != 0) return 1;
        if (reference_build(t, site.byte, site.size, expected, CLOSING_STORE_WORDS, wanted) != 0) return 1;
        const size_t used = (size_t)answer[1];
        if (answer[1] != wanted[1] || memcmp(store, expected, used * sizeof *store) != 0) return printf("site %u: another store\n", (unsigned)n), 1;
        for (int damage = 0; damage <= DAMAGES; damage++) {
            const size_t entries = 3 + 3 * predicates + 8 * predicates * predicates, at = random_below((uint32_t)(damage % 3 == 0 ? entries : used));
            const uint32_t kept = store[at];
            if (damage > 0) store[at] = damage % 2 == 0 ? kept + 1 : damage == 3 ? 0 : random_below(17000000);
            const uint32_t p = 1 + random_below(predicates), q = 1 + random_below(predicates);
            const int shares_object = damage % 2;
            const uint8_t check[CHECK_BYTES] = {2, 1, (uint8_t)(2 * p), 3, shares_object ? 5 : 3, (uint8_t)(2 * q), shares_object ? 3 : 5};
            const int number = planned(used, check), kind = told(used, check);
            if (number < 0) return printf("site %u, word %u: the plans differ\n", (unsigned)n, (unsigned)at), 1;
            if (kind < 0) return printf("site %u, word %u: what is told differs\n", (unsigned)n, (unsigned)at), 1;
            *(number == 0 ? &made : &refused) += 1;
            yes += kind == CLOSING_YES;
            no += kind == CLOSING_NO;
            store[at] = kept;
        }
    }
    printf("%d large sites: %ld plans (%ld yes, %ld no) and %ld refusals are the reference's\n", SITES, made, yes, no, refused);
    return made < SITES || refused < SITES || yes == 0 || no == 0;
}
