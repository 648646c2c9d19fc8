/* Compares the engine's rows with SQLite's, and whether it says that there is one, on seeded good checks over good sites.
 *
 *     agree [SEED [COUNT]]     COUNT checks, from the inputs of SEED on; 1 and 5,000 unless said otherwise
 *
 * Inputs whose site or check the engine refuses are left out. Its status is 0 only if every row of every check agreed, and whether there is
 * one with SQLite's LIMIT 1 and with the engine's own run. */
#include "closing.h"
#include "inputs.h"
#include "peer.h"

#include <inttypes.h>
#include <stdio.h>
#include <stdlib.h>
#include <string.h>

/* More than the 4,096 words of the check program, so that few checks are left with nothing but a refusal to compare. */
enum { COMPARED_WORDS = 1 << 20 };

/* An answer to a check: its rows, or that they do not fit, as a count of SIZE_MAX. */
struct rows {
    size_t count;
    uint32_t width;
    uint32_t word[COMPARED_WORDS];
};

static struct rows engine_rows, peer_rows;

/* 1 for yes, 0 for no. */
static int engine_decides, peer_decides;

static struct {
    uint64_t checks, with_rows, without, too_many, rows, decided[2], refused_sites, refused_checks;
} tally;

/* What the engine makes of an input: a check that it answered, or one to leave out. */
enum asked { ANSWERED, LEFT_OUT, WRONGLY_REFUSED };

/* Runs the engine's own plan; the only refusal that is left is 21. */
static enum asked run_engine(const uint32_t *store, const struct file *pattern, const uint8_t *plan, size_t plan_bytes) {
    uint64_t answer[4];
    uint32_t refusal = closing_run(store, CLOSING_STORE_WORDS, pattern->byte, pattern->size, plan, plan_bytes, engine_rows.word, COMPARED_WORDS,
                                   answer);
    if (refusal != 0 && refusal != 21)
        return WRONGLY_REFUSED;
    int has_rows = refusal == 0 && answer[0] == CLOSING_ROWS;
    engine_rows.count = refusal == 21 ? SIZE_MAX : has_rows ? (size_t)answer[1] : 0;
    engine_rows.width = has_rows ? (uint32_t)answer[2] : 0;
    return ANSWERED;
}

/* Whether there is a row, by the same plan. */
static enum asked decide_engine(const uint32_t *store, const struct file *pattern, const uint8_t *plan, size_t plan_bytes) {
    uint64_t answer[4];
    if (closing_whether(store, CLOSING_STORE_WORDS, pattern->byte, pattern->size, plan, plan_bytes, answer) != 0)
        return WRONGLY_REFUSED;
    engine_decides = answer[0] == CLOSING_YES;
    return engine_decides || answer[0] == CLOSING_NO ? ANSWERED : WRONGLY_REFUSED;
}

static enum asked ask_engine(const struct input *input) {
    static uint32_t store[CLOSING_STORE_WORDS];
    uint8_t plan[16];
    uint64_t answer[4];
    if (closing_build(input->held_t, input->held_site.byte, input->held_site.size, store, CLOSING_STORE_WORDS, answer) != 0) {
        tally.refused_sites++;
        return LEFT_OUT;
    }
    if (closing_plan(store, CLOSING_STORE_WORDS, input->pattern.byte, input->pattern.size, plan, answer) != 0) {
        tally.refused_checks++;
        return LEFT_OUT;
    }
    size_t plan_bytes = 2 * (size_t)answer[1];
    enum asked asked = run_engine(store, &input->pattern, plan, plan_bytes);
    return asked == ANSWERED ? decide_engine(store, &input->pattern, plan, plan_bytes) : asked;
}

/* Gives 0 if the database itself is not in order. */
static int ask_peer(const struct input *input) {
    struct peer *peer = peer_load(input->held_site.byte, input->held_site.size);
    peer_prepare(peer, input->pattern.byte, input->pattern.size);
    peer_rows.count = peer_query(peer, peer_rows.word, COMPARED_WORDS, &peer_rows.width);
    peer_decides = peer_whether(peer);
    int is_ok = peer_quick_check(peer);
    peer_close(peer);
    return is_ok;
}

static const char *difference(void) {
    size_t count = engine_rows.count;
    if (engine_decides != peer_decides)
        return "whether there is a row differs";
    if (engine_decides != (count != 0))
        return "the engine finds rows and says that there is none, or none and says that there is one";
    if (count != peer_rows.count)
        return "the counts of rows differ";
    if (count == 0 || count == SIZE_MAX)
        return NULL;
    if (engine_rows.width != peer_rows.width)
        return "the widths of the rows differ";
    if (memcmp(engine_rows.word, peer_rows.word, count * engine_rows.width * sizeof *engine_rows.word) != 0)
        return "the words of the rows differ";
    return NULL;
}

static void count_check(void) {
    tally.checks++;
    tally.decided[engine_decides]++;
    if (engine_rows.count == SIZE_MAX)
        tally.too_many++;
    else if (engine_rows.count == 0)
        tally.without++;
    else {
        tally.with_rows++;
        tally.rows += engine_rows.count;
    }
}

/* What differs in the answers to an input, or NULL. */
static const char *compare_input(const struct input *input) {
    enum asked asked = ask_engine(input);
    if (asked == LEFT_OUT)
        return NULL;
    if (asked == WRONGLY_REFUSED)
        return "the engine refuses its own plan";
    if (!ask_peer(input))
        return "quick_check finds the database damaged";
    count_check();
    return difference();
}

static void print_rows(const char *name, const struct rows *rows) {
    if (rows->count == SIZE_MAX)
        printf("%s: more rows than fit\n", name);
    else
        printf("%s: %zu rows of width %" PRIu32 "\n", name, rows->count, rows->width);
}

static void print_difference(const char *what, uint64_t seed, const struct input *input) {
    printf("seed %" PRIu64 ": %s\n", seed, what);
    print_rows("engine", &engine_rows);
    print_rows("SQLite", &peer_rows);
    printf("whether there is a row: engine %d, SQLite %d\n", engine_decides, peer_decides);
    print_input(input);
}

static void print_tally(uint64_t seed, uint64_t end) {
    printf("%" PRIu64 " checks agree: %" PRIu64 " with rows, %" PRIu64 " with none, %" PRIu64 " whose rows do not fit; %" PRIu64 " rows in all\n",
           tally.checks, tally.with_rows, tally.without, tally.too_many, tally.rows);
    printf("whether there is a row agrees with LIMIT 1 and with the run: %" PRIu64 " yes, %" PRIu64 " no\n", tally.decided[1], tally.decided[0]);
    printf("seeds %" PRIu64 " to %" PRIu64 "; left out: %" PRIu64 " refused sites, %" PRIu64 " refused checks\n", seed, end - 1, tally.refused_sites,
           tally.refused_checks);
}

int main(int argc, char **argv) {
    static struct input input;
    uint64_t seed = argc > 1 ? strtoull(argv[1], NULL, 10) : 1, count = argc > 2 ? strtoull(argv[2], NULL, 10) : 5000, next = seed;
    for (; tally.checks < count; next++) {
        make_input(next, &input);
        const char *what = compare_input(&input);
        if (what) {
            print_difference(what, next, &input);
            return 1;
        }
    }
    print_tally(seed, next);
    return 0;
}
