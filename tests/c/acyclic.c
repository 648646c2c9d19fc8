/* S-16 moves no plan of a check without a ring: each of its triple patterns that may be picked next has as many variables met as any other.
 * A ring is a circle of variables, each beside the next in a triple pattern; two triple patterns with the same two variables are one, and so is
 * a triple pattern that names one variable twice. Checks at random over small sites: without a ring the engine's plan is the reference's that
 * counts written terms only, as before S-16; with one it is the reference's that counts variables met, and some plans must differ. Each plan is
 * run, and the rows are those of the plan by written terms. Seeded: every run is the same. */
#include "closing.h"
#include "files.h"
#include "reference.h"

#include <stdio.h>
#include <string.h>

enum { SITES = 400, CHECKS = 25, PREDICATES = 3, TERMS = 6, TRIPLES = 8, VARIABLES = 8, ROW_WORDS = 4096 };

static struct file site, check;
static uint32_t store[CLOSING_STORE_WORDS];
static uint64_t state = 16;

static uint32_t random_below(uint32_t limit) {
    state = state * 6364136223846793005u + 1442695040888963407u;
    return (uint32_t)(state >> 33) % limit;
}

/* Each pair of terms is a row of each predicate or not, one in three or four. */
static void make_site(void) {
    uint8_t has[PREDICATES][TERMS * TERMS];
    site.size = 0;
    put_number(&site, PREDICATES);
    for (uint32_t p = 0; p < PREDICATES; p++) {
        uint32_t count = 0, one_in = 3 + random_below(2);
        for (uint32_t r = 0; r < TERMS * TERMS; r++)
            count += has[p][r] = random_below(one_in) == 0;
        put_number(&site, p + 1);
        put_number(&site, count);
    }
    for (uint32_t p = 0; p < PREDICATES; p++)
        for (uint32_t r = 0; r < TERMS * TERMS; r++)
            if (has[p][r])
                put_row(&site, (struct row){r / TERMS, r % TERMS});
}

/* The tree that a variable belongs to, named by one of its variables. */
static uint32_t tree_of(const uint32_t *above, uint32_t v) {
    while (above[v] != v)
        v = above[v];
    return v;
}

/* A term, or a variable in first-use order: one more than there are, or one of them. */
static uint32_t random_position(uint32_t *seen) {
    if (random_below(8) == 0)
        return term(random_below(TERMS));
    const uint32_t v = *seen == 0 || (*seen < VARIABLES && random_below(5) < 3) ? (*seen)++ : random_below(*seen);
    return variable(v);
}

/* A check of two to eight triple patterns; whether it is without a ring. */
static int make_check(void) {
    const uint32_t count = 2 + random_below(TRIPLES - 1);
    uint32_t seen = 0, above[VARIABLES];
    int acyclic = 1;
    for (uint32_t v = 0; v < VARIABLES; v++)
        above[v] = v;
    check.size = 0;
    put_number(&check, count);
    for (uint32_t i = 0; i < count; i++) {
        const uint32_t subject = random_position(&seen), object = random_position(&seen);
        put_number(&check, subject);
        put_number(&check, term(1 + random_below(PREDICATES)));
        put_number(&check, object);
        if (subject % 2 == 1 && object % 2 == 1) {
            const uint32_t a = tree_of(above, subject / 2), b = tree_of(above, object / 2);
            acyclic = acyclic && a != b;
            above[a] = b;
        }
    }
    return acyclic;
}

/* What a run by a plan answers and writes. */
struct result {
    uint32_t number, rows[ROW_WORDS];
    uint64_t answer[4];
};

static void run_plan(size_t used, const uint8_t *plan, size_t steps, struct result *result) {
    memset(result, 0, sizeof *result);
    result->number = closing_run(store, used, check.byte, check.size, plan, 2 * steps, result->rows, ROW_WORDS, result->answer);
}

int main(void) {
    static struct result result, other;
    long trees = 0, rings = 0, moved = 0, with_rows = 0;
    for (int n = 0; n < SITES; n++) {
        uint64_t answer[4] = {0}, wanted[4] = {0};
        make_site();
        if (closing_build(n % 3 == 0 ? random_below(1001) : 1000, site.byte, site.size, store, CLOSING_STORE_WORDS, answer) != 0)
            return printf("site %d is not built\n", n), 1;
        const size_t used = (size_t)answer[1];
        for (int k = 0; k < CHECKS; k++) {
            uint8_t plan[16] = {0}, written[16] = {0}, counted[16] = {0};
            const int acyclic = make_check();
            if (closing_plan(store, used, check.byte, check.size, plan, answer) != 0 ||
                reference_plan_by(WRITTEN_ONLY, store, used, check.byte, check.size, written, wanted) != 0 ||
                reference_plan_by(MET_TOO, store, used, check.byte, check.size, counted, wanted) != 0)
                return printf("site %d, check %d: no plan\n", n, k), 1;
            if (memcmp(plan, acyclic ? written : counted, sizeof plan) != 0)
                return printf("site %d, check %d: another plan of a check with%s a ring\n", n, k, acyclic ? "out" : ""), 1;
            run_plan(used, plan, (size_t)answer[1], &result);
            run_plan(used, written, (size_t)answer[1], &other);
            if (memcmp(&result, &other, sizeof result) != 0)
                return printf("site %d, check %d: the rows depend on the plan\n", n, k), 1;
            *(acyclic ? &trees : &rings) += 1;
            moved += memcmp(plan, written, sizeof plan) != 0;
            with_rows += result.number == 0 && result.answer[0] == CLOSING_ROWS;
        }
    }
    printf("%ld checks without a ring are planned as before S-16; of %ld with one %ld are not; all give the same rows, %ld some\n", trees, rings, moved,
           with_rows);
    return trees < SITES || rings < SITES || moved == 0 || with_rows == 0;
}
