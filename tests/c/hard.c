/* Checks that a call must not answer by the product of their tables, at T 0 and at T 1,000. A call that takes it does not end. Each is put to
 * closing_run and to closing_whether, by the planner's plan, by one in written order and by four in turns; rows and answers, word for word:
 *   - eight components that share no variable, with 512 rows each: 21, as their 2^72 rows do not fit, and Yes at once
 *   - the same, but at one place a component that never matches: None and No at once, at every place
 *   - four components of two steps each, and one chain of eight steps, with one solution: its row, and Yes. Plans in turns take
 *     components, or steps that are not linked yet, by turns: the product of the steps that come first is 10^12 rows
 *   - the same, but the end of one component, or of the chain, never matches: None and No */
#include "closing.h"
#include "files.h"

#include <stdio.h>
#include <string.h>

enum { FREE_ROWS = 512, CHAIN_ROWS = 1000, PATTERNS = 8, ROW_WORDS = 64, MARK = 7777777 };

static struct file site;
static uint32_t store[CLOSING_STORE_WORDS], rows[ROW_WORDS];

/* ---- sites */

/* Predicate 1 with so many rows, and predicate 2 with one. */
static void declare(uint32_t count) {
    const uint32_t front[] = {2, 1, count, 2, 1};
    site.size = 0;
    for (size_t i = 0; i < sizeof front / sizeof *front; i++)
        put_number(&site, front[i]);
}

/* Predicate 1: 512 subjects with the object 1. Predicate 2: (1, 9). */
static void make_free_site(void) {
    declare(FREE_ROWS);
    for (uint32_t s = 0; s < FREE_ROWS; s++)
        put_row(&site, (struct row){s, 1});
    put_row(&site, (struct row){1, 9});
}

/* Predicate 1: (0, 1), (1, 2), up to 1,000. Predicate 2: (1000, 9), so that the last row alone leads to it. */
static void make_chain_site(void) {
    declare(CHAIN_ROWS);
    for (uint32_t s = 0; s < CHAIN_ROWS; s++)
        put_row(&site, (struct row){s, s + 1});
    put_row(&site, (struct row){CHAIN_ROWS, 9});
}

/* ---- checks: at the place `never` stands ?v 2 8, which no row matches */

enum { NOWHERE = PATTERNS };

typedef void make_check(struct file *check, uint32_t never);

static void put_triple(struct file *check, uint32_t subject, uint32_t predicate, uint32_t object) {
    put_number(check, subject);
    put_number(check, term(predicate));
    put_number(check, object);
}

/* ?v 2 9 at place v. */
static void put_end(struct file *check, uint32_t v, uint32_t never) {
    put_triple(check, variable(v), 2, term(v == never ? 8 : 9));
}

static void begin_check(struct file *check) {
    check->size = 0;
    put_number(check, PATTERNS);
}

/* ?0 1 1, ?1 1 1, and so on: each place is a component. */
static void make_free(struct file *check, uint32_t never) {
    begin_check(check);
    for (uint32_t v = 0; v < PATTERNS; v++)
        if (v == never)
            put_end(check, v, never);
        else
            put_triple(check, variable(v), 1, term(1));
}

/* ?0 1 ?1, ?1 2 9, and so on: places 2i and 2i + 1 are a component. */
static void make_parts(struct file *check, uint32_t never) {
    begin_check(check);
    for (uint32_t v = 0; v < PATTERNS; v += 2) {
        put_triple(check, variable(v), 1, variable(v + 1));
        put_end(check, v + 1, never);
    }
}

/* ?0 1 ?1, ?1 1 ?2, up to ?7 2 9: each place is linked to the next. */
static void make_chain(struct file *check, uint32_t never) {
    begin_check(check);
    for (uint32_t v = 0; v + 1 < PATTERNS; v++)
        put_triple(check, variable(v), 1, variable(v + 1));
    put_end(check, PATTERNS - 1, never);
}

/* ---- plans */

/* The written order, then four in turns: in every check no two places with an even number share a variable, so four such steps are a product. */
static const uint8_t order[][PATTERNS] = {
    {0, 1, 2, 3, 4, 5, 6, 7}, {0, 2, 4, 6, 1, 3, 5, 7}, {6, 4, 2, 0, 7, 5, 3, 1}, {0, 2, 4, 6, 7, 5, 3, 1}, {2, 6, 0, 4, 3, 1, 7, 5}};

enum { ORDERS = sizeof order / sizeof *order, PLANS = 1 + ORDERS };

/* The first plan is the planner's; in the others each step takes the whole table. */
static int make_plan(const struct file *check, size_t which, uint8_t plan[16]) {
    uint64_t answer[4];
    if (which == 0) return closing_plan(store, CLOSING_STORE_WORDS, check->byte, check->size, plan, answer) == 0;
    for (size_t n = 0; n < PATTERNS; n++) {
        plan[2 * n] = order[which - 1][n];
        plan[2 * n + 1] = 0;
    }
    return 1;
}

/* ---- what the two calls say */

enum { NOTHING, ROW_OF_PARTS, ROW_OF_CHAIN, MANY, OUTCOMES };

/* What closing_run returns, the answers, and the words of rows that are written. */
struct outcome {
    uint32_t number;
    uint64_t run[4], whether[4];
    size_t row_words;
    uint32_t row[PATTERNS];
};

static const struct outcome wanted[OUTCOMES] = {
    [NOTHING] = {0, {CLOSING_NONE}, {CLOSING_NO}, 0, {0}},
    [ROW_OF_PARTS] = {0, {CLOSING_ROWS, 1, PATTERNS}, {CLOSING_YES}, PATTERNS, {999, 1000, 999, 1000, 999, 1000, 999, 1000}},
    [ROW_OF_CHAIN] = {0, {CLOSING_ROWS, 1, PATTERNS}, {CLOSING_YES}, PATTERNS, {993, 994, 995, 996, 997, 998, 999, 1000}},
    [MANY] = {21, {MARK, MARK, MARK, MARK}, {CLOSING_YES}, 0, {0}},
};

static int tried[OUTCOMES];

static int run_says(const struct file *check, const uint8_t plan[16], const struct outcome *outcome) {
    uint64_t answer[4] = {MARK, MARK, MARK, MARK};
    for (size_t i = 0; i < ROW_WORDS; i++)
        rows[i] = MARK;
    const uint32_t number = closing_run(store, CLOSING_STORE_WORDS, check->byte, check->size, plan, 16, rows, ROW_WORDS, answer);
    for (size_t i = 0; i < ROW_WORDS; i++)
        if (rows[i] != (i < outcome->row_words ? outcome->row[i] : MARK)) return 0;
    return number == outcome->number && memcmp(answer, outcome->run, sizeof answer) == 0;
}

static int whether_says(const struct file *check, const uint8_t plan[16], const struct outcome *outcome) {
    uint64_t answer[4] = {MARK, MARK, MARK, MARK};
    const uint32_t number = closing_whether(store, CLOSING_STORE_WORDS, check->byte, check->size, plan, 16, answer);
    return number == 0 && memcmp(answer, outcome->whether, sizeof answer) == 0;
}

/* The call that does not answer as it should, or NULL. */
static const char *wrong_call(const struct file *check, size_t which, const struct outcome *outcome) {
    uint8_t plan[16];
    if (!make_plan(check, which, plan)) return "plan";
    if (!run_says(check, plan, outcome)) return "run";
    return whether_says(check, plan, outcome) ? NULL : "whether";
}

/* ---- trials */

/* A check, what it gives where all match, and the places that may be without a match: `first`, and every `step` places on. */
struct trial {
    const char *name;
    make_check *make;
    int matching;
    uint32_t first, step;
};

static const struct trial of_free = {"eight components", make_free, MANY, 0, 1}, of_parts = {"four components", make_parts, ROW_OF_PARTS, 1, 2},
                          of_chain = {"the chain", make_chain, ROW_OF_CHAIN, PATTERNS - 1, 1};

/* By every plan. */
static int is_answered(const struct trial *trial, uint32_t never, int outcome) {
    struct file check;
    trial->make(&check, never);
    for (size_t which = 0; which < PLANS; which++) {
        const char *call = wrong_call(&check, which, &wanted[outcome]);
        if (call) {
            printf("closing_%s of %s, no match at place %u (%d is nowhere), by plan %u: not what it should be\n", call, trial->name, (unsigned)never,
                   NOWHERE, (unsigned)which);
            return 0;
        }
        tried[outcome]++;
    }
    return 1;
}

static int all_answered(const struct trial *trial) {
    int all = is_answered(trial, NOWHERE, trial->matching);
    for (uint32_t never = trial->first; never < PATTERNS && all; never += trial->step)
        all = is_answered(trial, never, NOTHING);
    return all;
}

static int builds(uint32_t t) {
    uint64_t answer[4];
    return closing_build(t, site.byte, site.size, store, CLOSING_STORE_WORDS, answer) == 0;
}

static int all_answered_at(uint32_t t) {
    make_free_site();
    if (!builds(t) || !all_answered(&of_free)) return 0;
    make_chain_site();
    return builds(t) && all_answered(&of_parts) && all_answered(&of_chain);
}

int main(void) {
    for (uint32_t t = 0; t <= 1000; t += 1000)
        if (!all_answered_at(t)) {
            printf("at T %u\n", (unsigned)t);
            return 1;
        }
    printf("hard checks, each by a plan: %d None and No, %d their row and Yes, %d refused with 21 and Yes\n", tried[NOTHING],
           tried[ROW_OF_PARTS] + tried[ROW_OF_CHAIN], tried[MANY]);
    return 0;
}
