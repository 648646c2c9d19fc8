/* Compares every call of the archive with the reference, on seeded inputs: what is returned, the answer, every lent word.
 *
 *     compare [SEED [COUNT]]     COUNT inputs from SEED on; 1 and 10,000 unless said otherwise
 *     compare --fault            expects a word of the rows wrongly, to show that it is seen
 *
 * It prints how many of each answer and of each refusal it met, call by call. Its status is 0 only if every input agreed and each
 * answer and each refusal occurred. */
#include "closing.h"
#include "inputs.h"
#include "lent.h"
#include "reference.h"

#include <inttypes.h>
#include <stdio.h>
#include <stdlib.h>
#include <string.h>

enum { BUILD, PLAN, RUN, WHETHER, CALLS };

/* Answers are counted by their kind and refusals by their number, both from 1. */
enum { KINDS = CLOSING_NO + 1, NUMBERS = 21 + 1 };

static const char *const call_name[CALLS] = {"build", "plan", "run", "whether"};

/* The least and the greatest refusal of each call. */
static const uint32_t first_refusal[CALLS] = {1, 10, 10, 10}, last_refusal[CALLS] = {9, 17, 21, 20};

static uint64_t refused[CALLS][NUMBERS], answered[CALLS][KINDS];

static int expects_wrongly;

/* What a call is lent and gives back: what is only read, what may be written, and the four words of its answer. */
struct lending {
    struct lent read[3], written, answer;
};

static struct lending lending;

/* What was there before the call, and what the reference makes of it: what is only read stays as it was. */
struct expected {
    const void *read[3];
    int reads;
    uint32_t words[STORE_WORDS];
    size_t size;
    uint64_t answer[4];
    uint32_t number;
};

static struct expected expected;

static void lend_read(const struct input *input, int i, const void *content, size_t size) {
    expected.read[i] = content;
    expected.reads = i + 1;
    lent_fill(&lending.read[i], content, size, input->at_end);
}

static void lend_check(const struct input *input, const uint32_t *store, size_t store_words) {
    lend_read(input, 0, store, 4 * store_words);
    lend_read(input, 1, input->pattern.byte, input->pattern.size);
}

static void lend_planned_check(const struct input *input, const uint32_t *store, size_t store_words) {
    lend_check(input, store, store_words);
    lend_read(input, 2, input->plan.byte, input->plan.size);
}

/* What may be written: the answer, and so many bytes of other memory. */
static void lend_written(const struct input *input, size_t size) {
    static const uint64_t before[4] = {11, 22, 33, 44};
    expected.size = size;
    for (size_t i = 0; i < size / 4; i++)
        expected.words[i] = (uint32_t)(0xC0FFEE00u + i);
    memcpy(expected.answer, before, sizeof before);
    lent_fill(&lending.written, expected.words, size, input->at_end);
    lent_fill(&lending.answer, before, sizeof before, input->at_end);
}

/* The last disagreement, in words. */
static char disagreement[160];

static int differs(int call, uint32_t number) {
    const char *what = NULL;
    if (expects_wrongly && call == RUN && expected.number == 0 && expected.answer[0] == CLOSING_ROWS && expected.size > 0)
        expected.words[0]++;
    if (number != expected.number)
        what = "the number returned";
    else if (memcmp(lending.answer.data, expected.answer, sizeof expected.answer) != 0)
        what = "the answer";
    else if (memcmp(lending.written.data, expected.words, expected.size) != 0)
        what = "the lent memory";
    else if (!lent_is_marked(&lending.written) || !lent_is_marked(&lending.answer))
        what = "memory beside what was lent";
    for (int i = 0; i < expected.reads && !what; i++)
        if (memcmp(lending.read[i].data, expected.read[i], lending.read[i].size) != 0 || !lent_is_marked(&lending.read[i]))
            what = "memory that is only read";
    if (what)
        snprintf(disagreement, sizeof disagreement, "closing_%s: %s is not what it should be; returned %" PRIu32 ", to be %" PRIu32, call_name[call],
                 what, number, expected.number);
    return what != NULL;
}

static void count_answer(int call) {
    if (expected.number)
        refused[call][expected.number]++;
    else
        answered[call][expected.answer[0]]++;
}

static int build_differs(const struct input *input) {
    lend_read(input, 0, input->site.byte, input->site.size);
    lend_written(input, 4 * input->store_words);
    expected.number = reference_build(input->t, input->site.byte, input->site.size, expected.words, input->store_words, expected.answer);
    uint32_t number = closing_build(input->t, lending.read[0].data, input->site.size, (uint32_t *)(void *)lending.written.data, input->store_words,
                                    (uint64_t *)(void *)lending.answer.data);
    count_answer(BUILD);
    return differs(BUILD, number);
}

static int plan_differs(const struct input *input, const uint32_t *store, size_t store_words) {
    lend_check(input, store, store_words);
    lend_written(input, 16);
    uint8_t plan[16];
    memcpy(plan, expected.words, sizeof plan);
    expected.number = reference_plan(store, store_words, input->pattern.byte, input->pattern.size, plan, expected.answer);
    memcpy(expected.words, plan, sizeof plan);
    uint32_t number = closing_plan((uint32_t *)(void *)lending.read[0].data, store_words, lending.read[1].data, input->pattern.size,
                                   lending.written.data, (uint64_t *)(void *)lending.answer.data);
    count_answer(PLAN);
    return differs(PLAN, number);
}

static int run_differs(const struct input *input, const uint32_t *store, size_t store_words) {
    lend_planned_check(input, store, store_words);
    lend_written(input, 4 * input->row_words);
    expected.number = reference_run(store, store_words, input->pattern.byte, input->pattern.size, input->plan.byte, input->plan.size, expected.words,
                                    input->row_words, expected.answer);
    uint32_t number = closing_run((uint32_t *)(void *)lending.read[0].data, store_words, lending.read[1].data, input->pattern.size,
                                  lending.read[2].data, input->plan.size, (uint32_t *)(void *)lending.written.data, input->row_words,
                                  (uint64_t *)(void *)lending.answer.data);
    count_answer(RUN);
    return differs(RUN, number);
}

static int whether_differs(const struct input *input, const uint32_t *store, size_t store_words) {
    lend_planned_check(input, store, store_words);
    lend_written(input, 0);
    expected.number =
        reference_whether(store, store_words, input->pattern.byte, input->pattern.size, input->plan.byte, input->plan.size, expected.answer);
    uint32_t number = closing_whether((uint32_t *)(void *)lending.read[0].data, store_words, lending.read[1].data, input->pattern.size,
                                      lending.read[2].data, input->plan.size, (uint64_t *)(void *)lending.answer.data);
    count_answer(WHETHER);
    return differs(WHETHER, number);
}

static int input_differs(const struct input *input) {
    static uint32_t store[STORE_WORDS];
    size_t store_words = held_store(input, store);
    return build_differs(input) || plan_differs(input, store, store_words) || run_differs(input, store, store_words) ||
           whether_differs(input, store, store_words);
}

/* Leaves out of the input whatever is not needed to show the disagreement. */
static void make_small(struct input *input) {
    static struct input smaller;
    for (size_t k = 0; smaller_input(input, k, &smaller);)
        if (memcmp(&smaller, input, sizeof smaller) != 0 && input_differs(&smaller)) {
            *input = smaller;
            k = 0;
        } else
            k++;
}

/* Prints what occurred; 0 if something never did. */
static int all_occurred(void) {
    static const uint64_t kinds[CALLS][2] = {
        {CLOSING_BUILT, CLOSING_BUILT}, {CLOSING_PLAN, CLOSING_PLAN}, {CLOSING_ROWS, CLOSING_NONE}, {CLOSING_YES, CLOSING_NO}};
    static const char *const kind_name[KINDS] = {"", "rows", "none", "built", "plan", "yes", "no"};
    int all = 1;
    for (int call = 0; call < CALLS; call++) {
        printf("closing_%s:", call_name[call]);
        for (uint64_t kind = 1; kind < KINDS; kind++)
            if (kind == kinds[call][0] || kind == kinds[call][1]) {
                printf(" %s %" PRIu64, kind_name[kind], answered[call][kind]);
                all = all && answered[call][kind] > 0;
            }
        printf("; refused");
        for (uint32_t number = first_refusal[call]; number <= last_refusal[call]; number++) {
            printf(" %" PRIu32 ": %" PRIu64, number, refused[call][number]);
            all = all && refused[call][number] > 0;
        }
        printf("\n");
    }
    return all;
}

int main(int argc, char **argv) {
    static struct input input;
    expects_wrongly = argc > 1 && strcmp(argv[1], "--fault") == 0;
    uint64_t seed = argc > 1 && !expects_wrongly ? strtoull(argv[1], NULL, 10) : 1, count = argc > 2 ? strtoull(argv[2], NULL, 10) : 10000;
    for (int i = 0; i < 3; i++)
        lending.read[i] = lent_make(4 * STORE_WORDS);
    lending.written = lent_make(4 * STORE_WORDS);
    lending.answer = lent_make(32);
    for (uint64_t n = 0; n < count; n++) {
        make_input(seed + n, &input);
        if (input_differs(&input)) {
            make_small(&input);
            input_differs(&input);
            printf("%s\nseed %" PRIu64 "; a small input that shows it:\n", disagreement, seed + n);
            print_input(&input);
            return 1;
        }
    }
    printf("%" PRIu64 " inputs from seed %" PRIu64 " agree\n", count, seed);
    if (!all_occurred()) {
        printf("an answer or a refusal never occurred\n");
        return 1;
    }
    return 0;
}
