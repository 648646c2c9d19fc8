/* Times each call of the archive beside plain C, two ways, beside the archive of before and beside SQLite, on the sites and checks of
 * shops.c. Prints a line for each call, site and check, its columns apart by tabs:
 *   call, site, rows of the site, check, triple patterns, rows of the answer (-1 for none by refusal 21; of whether 1 for yes, 0 for no), then
 *   for each engine (ours, plain C by the same algorithm, the archive of before, plain C at its best, SQLite, SQLite with its check) the
 *   median, the two quartiles and the least in nanoseconds; 0 where an engine has no such call or is not timed.
 * `measure --before` times two engines only, ours and the archive of before; a call that this has not, or that it refuses, is left out.
 * `measure --best` times ours and plain C at its best, checks only.
 * `measure --inputs` prints the sites and the checks in hexadecimal and times nothing.
 * All engines run in one process; their repeats, and those of all calls of a check, are interleaved, so that what slows the machine slows
 * them alike. What a call returns is looked at before it is timed, so that no refusal passes for an answer. */
#define _POSIX_C_SOURCE 199309L
#include "closing.h"
#include "peer.h"
#include "plain.h"
#include "shops.h"

#include <inttypes.h>
#include <stdio.h>
#include <stdlib.h>
#include <string.h>
#include <time.h>

enum { ENGINE, PLAIN, BEFORE, BEST, QUERY, CHECKED, ENGINES };

/* Whole pages, so that two stores lie alike in theirs. */
enum { SAMPLES = 21, PAGE_WORDS = 1024, STORE_WORDS = (CLOSING_STORE_WORDS / PAGE_WORDS + 1) * PAGE_WORDS, ROW_WORDS = 1 << 20 };

/* What a call is given beside its check: the words of a store, and a plan. */
struct given {
    uint32_t *store;
    size_t used;
    uint8_t plan[16];
    size_t plan_bytes;
};

/* Ours and plain C are given one store and one plan. The archive of before is given its own: it may know fewer kinds of reduced tables, and
 * then ours are neither a store nor a plan to it. */
static uint32_t stores[2][STORE_WORDS], rows[ROW_WORDS];
static struct given ours = {.store = stores[0]}, theirs = {.store = stores[1]};

static struct workload workload;
static uint8_t planned[16];
static uint64_t answer[4];
static const struct named_file *check; /* NULL while a site is built */
static struct peer *peer;
static int beside = -1; /* the only engine that is timed beside ours, if there is one */

static void require(int holds, const char *what) {
    if (holds)
        return;
    fprintf(stderr, "%s, %s: %s\n", workload.site.name, check ? check->name : "build", what);
    exit(1);
}

/* ---- what is timed */

/* 0; 21 where the rows do not fit; or the number of another refusal. */
typedef uint32_t call(void);

/* That the rows do not fit is an answer too. */
static int is_refusal(uint32_t number) {
    return number != 0 && number != 21;
}

#define SITE_FILE workload.site.file.byte, workload.site.file.size
#define CHECK_OVER(given) given.store, given.used, check->file.byte, check->file.size
#define PLANNED_OVER(given) CHECK_OVER(given), given.plan, given.plan_bytes

#define TIMED_BUILD(way, given) \
    static uint32_t way##_builds(void) { return way##_build(1000, SITE_FILE, given.store, STORE_WORDS, answer); }
/* What is planned is not what is run: ours and plain C run one plan. */
#define TIMED_CHECK(way, given)                                                                              \
    static uint32_t way##_plans(void) { return way##_plan(CHECK_OVER(given), planned, answer); }             \
    static uint32_t way##_runs(void) { return way##_run(PLANNED_OVER(given), rows, ROW_WORDS, answer); }     \
    static uint32_t way##_decides(void) { return way##_whether(PLANNED_OVER(given), answer); }

/* A build is the same in both ways of plain C. */
TIMED_BUILD(closing, ours)
TIMED_BUILD(search, ours)
TIMED_BUILD(before, theirs)
TIMED_CHECK(closing, ours)
TIMED_CHECK(search, ours)
TIMED_CHECK(before, theirs)
TIMED_CHECK(best, ours)

static uint32_t peer_builds(void) {
    peer_close(peer_load(SITE_FILE));
    return 0;
}

static uint32_t peer_ask(void) {
    uint32_t width;
    return peer_query(peer, rows, ROW_WORDS, &width) == SIZE_MAX ? 21 : 0;
}

static uint32_t peer_decides(void) {
    peer_whether(peer);
    return 0;
}

/* quick_check is SQLite's question 10. */
static uint32_t peer_ask_checked(void) {
    return peer_quick_check(peer) ? peer_ask() : 10;
}

static uint32_t peer_decides_checked(void) {
    return peer_quick_check(peer) ? peer_decides() : 10;
}

/* ---- time */

static double now(void) {
    struct timespec t;
    clock_gettime(CLOCK_MONOTONIC, &t);
    return (double)t.tv_sec * 1e9 + (double)t.tv_nsec;
}

/* So many calls take at least half a millisecond. */
static uint32_t repeats_of(call *f) {
    for (uint32_t n = 1;; n *= 2) {
        double start = now();
        for (uint32_t i = 0; i < n; i++)
            f();
        if (now() - start > 5e5)
            return n;
    }
}

static int compare_doubles(const void *a, const void *b) {
    double x = *(const double *)a, y = *(const double *)b;
    return (x > y) - (x < y);
}

/* A line of the output: its call, its rows of the answer, and the call of each engine. */
struct line {
    const char *name;
    long found;
    call *engine[ENGINES];
};

enum { MOST_LINES = 3 };

static int is_asked(const struct line *line, int engine) {
    return line->engine[engine] && (beside < 0 || engine == ENGINE || engine == beside);
}

/* Each engine is called once, and returns what ours does; only the archive of before may refuse, and is not timed then. */
static int is_timed(const struct line *line, int engine) {
    if (!is_asked(line, engine))
        return 0;
    const uint32_t number = line->engine[engine]();
    if (engine == BEFORE && is_refusal(number))
        return 0;
    require(!is_refusal(number) && number == line->engine[ENGINE](), "a call is refused, or answered otherwise");
    return 1;
}

/* Of each engine; 0 of one that is not timed, and of ours where it is timed beside one that is not. */
static void find_repeats(const struct line *line, uint32_t repeats[ENGINES]) {
    for (int e = 0; e < ENGINES; e++)
        repeats[e] = is_timed(line, e) ? repeats_of(line->engine[e]) : 0;
    if (beside >= 0 && repeats[beside] == 0)
        repeats[ENGINE] = 0;
}

static double time_of(call *f, uint32_t repeats) {
    double start = now();
    for (uint32_t i = 0; i < repeats; i++)
        f();
    return repeats ? (now() - start) / repeats : 0;
}

static void print_line(const struct line *line, double sample[ENGINES][SAMPLES]) {
    printf("%s\t%s\t%" PRIu32 "\t%s\t%u\t%ld", line->name, workload.site.name, workload.rows, check ? check->name : "",
           check ? check->file.byte[0] : 0u, line->found);
    for (int e = 0; e < ENGINES; e++) {
        qsort(sample[e], SAMPLES, sizeof sample[e][0], compare_doubles);
        printf("\t%.1f\t%.1f\t%.1f\t%.1f", sample[e][SAMPLES / 2], sample[e][SAMPLES / 4], sample[e][3 * SAMPLES / 4], sample[e][0]);
    }
    printf("\n");
    fflush(stdout);
}

/* Up to MOST_LINES, interleaved; one that ours is not timed in is left out. */
static void measure_lines(const struct line *line, size_t lines) {
    static double sample[MOST_LINES][ENGINES][SAMPLES];
    uint32_t repeats[MOST_LINES][ENGINES];
    for (size_t n = 0; n < lines; n++)
        find_repeats(&line[n], repeats[n]);
    for (int s = 0; s < SAMPLES; s++)
        for (size_t n = 0; n < lines; n++)
            for (int e = 0; e < ENGINES; e++)
                sample[n][e][s] = time_of(line[n].engine[e], repeats[n][e]);
    for (size_t n = 0; n < lines; n++)
        if (repeats[n][ENGINE] != 0)
            print_line(&line[n], sample[n]);
}

/* ---- the workloads */

/* A refused site has no words, which every other call refuses. */
static void take_store(call *builds, struct given *given) {
    given->used = builds() == 0 ? (size_t)answer[1] : 0;
}

typedef uint32_t planner(const uint32_t *store, size_t store_words, const uint8_t *pattern, size_t pattern_bytes, uint8_t plan[16],
                         uint64_t answer[4]);

/* A refused check has a plan of no bytes, which every other call refuses. */
static void take_plan(planner *plans, struct given *given) {
    const uint32_t number = plans(given->store, given->used, check->file.byte, check->file.size, given->plan, answer);
    given->plan_bytes = number == 0 ? 2 * (size_t)answer[1] : 0;
}

/* Gives whether there was another choice. */
static int choose_vp_alone(struct given *given) {
    int had_another = 0;
    for (size_t n = 1; n < given->plan_bytes; n += 2) {
        had_another |= given->plan[n] != 0;
        given->plan[n] = 0;
    }
    return had_another;
}

static uint32_t other[ROW_WORDS];

/* The archive of before gives the rows that a run of ours gave, or refuses. */
static void require_rows_of_before(uint32_t number) {
    uint64_t their_answer[4] = {0};
    const uint32_t their_number = before_run(PLANNED_OVER(theirs), other, ROW_WORDS, their_answer);
    const size_t words = (size_t)(answer[1] * answer[2]);
    require(is_refusal(their_number) || (their_number == number && memcmp(their_answer, answer, sizeof answer) == 0 &&
                                         memcmp(other, rows, words * sizeof *rows) == 0),
            "the archive of before gives other rows");
}

/* The rows that the engine gives are SQLite's; -1 where they do not fit. */
static long rows_found(void) {
    uint32_t width = 0;
    memset(answer, 0, sizeof answer);
    const uint32_t number = closing_runs();
    const long count = number == 21 ? -1 : (long)answer[1];
    require(!is_refusal(number), "a run is refused");
    require_rows_of_before(number);
    const size_t found = peer_query(peer, other, ROW_WORDS, &width);
    require(count < 0 ? found == SIZE_MAX : (long)found == count && memcmp(rows, other, 4 * found * width) == 0, "the rows are not SQLite's");
    return count;
}

/* 1 for yes and 0 for no: the engine's answer, SQLite's, that of a run, which found so many rows, and that of the archive of before. */
static long decided(long found) {
    require(closing_decides() == 0, "whether is refused");
    const long yes = answer[0] == CLOSING_YES;
    require(yes == (found != 0) && yes == peer_whether(peer), "whether there are rows is not what a run and SQLite say");
    if (before_whether && before_decides() == 0)
        require(yes == (answer[0] == CLOSING_YES), "the archive of before tells otherwise whether there are rows");
    return yes;
}

static void measure_check(void) {
    take_plan(before_plan, &theirs);
    take_plan(closing_plan, &ours);
    peer_prepare(peer, check->file.byte, check->file.size);
    const long found = rows_found();
    call *before = before_whether ? before_decides : NULL;
    const struct line lines[MOST_LINES] = {
        {"plan", found, {closing_plans, search_plans, before_plans, best_plans, NULL, NULL}},
        {"run", found, {closing_runs, search_runs, before_runs, best_runs, peer_ask, peer_ask_checked}},
        {"whether", decided(found), {closing_decides, search_decides, before, best_decides, peer_decides, peer_decides_checked}},
    };
    measure_lines(lines, MOST_LINES);
    if (beside == BEST || !choose_vp_alone(&ours))
        return;
    /* without reduced tables a plan is the same to every archive */
    memcpy(theirs.plan, ours.plan, theirs.plan_bytes = ours.plan_bytes);
    measure_lines(&(const struct line){"run, VP alone", rows_found(), {closing_runs, search_runs, before_runs, best_runs, NULL, NULL}}, 1);
}

static void measure_site(void) {
    check = NULL;
    take_store(before_builds, &theirs);
    take_store(closing_builds, &ours);
    if (beside != BEST)
        measure_lines(&(const struct line){"build", (long)ours.used, {closing_builds, search_builds, before_builds, NULL, peer_builds, NULL}}, 1);
    closing_builds(); /* its own store again, for the checks */
    peer = peer_load(SITE_FILE);
    for (size_t c = 0; c < workload.checks; c++) {
        check = &workload.check[c];
        measure_check();
    }
    peer_close(peer);
}

static void print_bytes(const char *kind, const struct named_file *named) {
    printf("%s\t%s\t", kind, named->name);
    for (size_t i = 0; i < named->file.size; i++)
        printf("%02x", named->file.byte[i]);
    printf("\n");
}

/* What is measured, for whoever counts rows and comparisons. */
static void print_inputs(void) {
    print_bytes("site", &workload.site);
    for (size_t c = 0; c < workload.checks; c++)
        print_bytes("check", &workload.check[c]);
}

int main(int argc, char **argv) {
    const char *mode = argc > 1 ? argv[1] : "";
    beside = strcmp(mode, "--before") == 0 ? BEFORE : strcmp(mode, "--best") == 0 ? BEST : -1;
    for (size_t k = 0; k < SITES; k++) {
        make_workload(k, &workload);
        if (strcmp(mode, "--inputs") == 0)
            print_inputs();
        else
            measure_site();
    }
    return 0;
}
