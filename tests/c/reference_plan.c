/* The pattern, the choices and the planner: questions 11 to 17. */
#include "reference.h"
#include "reference_parts.h"

#include <stdlib.h>
#include <string.h>

/* ---- the pattern */

static uint32_t read_position(struct bytes *file, struct pattern *pattern, struct position *position) {
    uint32_t value;
    if (!take_number(file, &value))
        return 11;
    position->is_variable = value % 2 == 1;
    position->number = value / 2;
    if (!position->is_variable)
        return position->number > MOST_TERM ? 15 : 0;
    if (position->number >= MOST_VARIABLES || position->number > pattern->variables)
        return 16;
    if (position->number == pattern->variables)
        pattern->variables++;
    return 0;
}

static uint32_t read_predicate(struct bytes *file, const struct site *site, struct position *position, const struct table **table) {
    uint32_t value;
    if (!take_number(file, &value))
        return 11;
    if (value % 2 == 1 || value / 2 > MOST_TERM)
        return 13;
    position->is_variable = 0;
    position->number = value / 2;
    for (uint32_t i = 0; i < site->predicates; i++)
        if (site->table[i].predicate == position->number) {
            *table = &site->table[i];
            return 0;
        }
    return 14;
}

static uint32_t read_pattern(const uint8_t *data, size_t size, const struct site *site, struct pattern *pattern) {
    struct bytes file = {data, 0, size};
    pattern->variables = 0;
    if (!take_number(&file, &pattern->count))
        return 11;
    if (pattern->count < 1 || pattern->count > MOST_TRIPLES)
        return 12;
    for (uint32_t i = 0; i < pattern->count; i++) {
        struct position *at = pattern->at[i];
        uint32_t refusal = read_position(&file, pattern, &at[0]);
        if (refusal == 0)
            refusal = read_predicate(&file, site, &at[1], &pattern->table[i]);
        if (refusal == 0)
            refusal = read_position(&file, pattern, &at[2]);
        if (refusal)
            return refusal;
    }
    return file.at < file.size ? 17 : 0;
}

uint32_t read_check(const uint32_t *store, size_t store_words, const uint8_t *data, size_t size, struct site *site,
                           struct pattern *pattern) {
    return read_store(store, store_words, site) ? read_pattern(data, size, site, pattern) : 10;
}

/* ---- choices: 0 is VP, 1 + 4j + k is kind k against the triple pattern at place j */

static int same_variable(const struct position *a, const struct position *b) {
    return a->is_variable && b->is_variable && a->number == b->number;
}

int64_t choice_rows(const struct site *site, const struct pattern *pattern, uint32_t i, uint32_t choice) {
    if (choice == 0)
        return pattern->table[i]->count;
    uint32_t j = (choice - 1) / KINDS, k = (choice - 1) % KINDS;
    if (j >= pattern->count || j == i)
        return -1;
    if (!same_variable(&pattern->at[i][2 * own_column[k]], &pattern->at[j][2 * other_column[k]]))
        return -1;
    uint32_t rows = reduced_rows(site, pattern->table[i], pattern->table[j], (int)k);
    return is_stored(site, rows, pattern->table[i]->count) ? (int64_t)rows : -1;
}

size_t reference_choices(const uint32_t *store, size_t store_words, const uint8_t *data, size_t size, uint32_t place, uint8_t open[MOST_CHOICES]) {
    struct site site;
    struct pattern pattern;
    size_t count = 0;
    if (read_check(store, store_words, data, size, &site, &pattern) != 0 || place >= pattern.count)
        return 0;
    for (uint32_t choice = 0; choice < MOST_CHOICES; choice++)
        if (choice_rows(&site, &pattern, place, choice) >= 0)
            open[count++] = (uint8_t)choice;
    return count;
}

/* ---- the planner */

struct candidate {
    uint32_t choice;
    int64_t rows;
    int taken;
};

static struct candidate candidate_at(const struct site *site, const struct pattern *pattern, uint32_t i) {
    struct candidate best = {0, pattern->table[i]->count, 0};
    for (uint32_t choice = 1; choice < MOST_CHOICES; choice++) {
        int64_t rows = choice_rows(site, pattern, i, choice);
        if (rows >= 0 && rows < best.rows) {
            best.choice = choice;
            best.rows = rows;
        }
    }
    return best;
}

/* The position holds a variable that stands in a place taken. */
static int is_met(const struct pattern *pattern, const struct candidate *candidates, const struct position *position) {
    for (uint32_t j = 0; j < pattern->count; j++)
        for (int column = 0; candidates[j].taken && column < 3; column++)
            if (same_variable(position, &pattern->at[j][column]))
                return 1;
    return 0;
}

static uint32_t met_positions(const struct pattern *pattern, const struct candidate *candidates, uint32_t i) {
    uint32_t count = 0;
    for (int column = 0; column < 3; column++)
        count += (uint32_t)is_met(pattern, candidates, &pattern->at[i][column]);
    return count;
}

/* The terms of place i: those written and, as S-16 says, the variables met. */
static uint32_t count_terms(const struct pattern *pattern, const struct candidate *candidates, uint32_t i, enum counting counting) {
    uint32_t count = counting == MET_TOO ? met_positions(pattern, candidates, i) : 0;
    for (int column = 0; column < 3; column++)
        count += !pattern->at[i][column].is_variable;
    return count;
}

static uint32_t next_place(const struct pattern *pattern, const struct candidate *candidates, enum counting counting) {
    for (int joined = 1; joined >= 0; joined--) {
        uint32_t best = MOST_TRIPLES, most = 0;
        for (uint32_t i = 0; i < pattern->count; i++) {
            if (candidates[i].taken || (joined && met_positions(pattern, candidates, i) == 0))
                continue;
            uint32_t terms = count_terms(pattern, candidates, i, counting);
            if (best == MOST_TRIPLES || terms > most || (terms == most && candidates[i].rows < candidates[best].rows)) {
                best = i;
                most = terms;
            }
        }
        if (best < MOST_TRIPLES)
            return best;
    }
    abort();
}

uint32_t reference_plan_by(enum counting counting, const uint32_t *store, size_t store_words, const uint8_t *data, size_t size, uint8_t plan[16],
                           uint64_t answer[4]) {
    struct site site;
    struct pattern pattern;
    struct candidate candidates[MOST_TRIPLES];
    uint32_t refusal = read_check(store, store_words, data, size, &site, &pattern);
    if (refusal)
        return refusal;
    memset(plan, 0, 16);
    for (uint32_t i = 0; i < pattern.count; i++)
        candidates[i] = candidate_at(&site, &pattern, i);
    for (uint32_t n = 0; n < pattern.count; n++) {
        uint32_t i = next_place(&pattern, candidates, counting);
        candidates[i].taken = 1;
        plan[2 * n] = (uint8_t)i;
        plan[2 * n + 1] = (uint8_t)candidates[i].choice;
    }
    set_answer(answer, PLAN, pattern.count, 0);
    return 0;
}

uint32_t reference_plan(const uint32_t *store, size_t store_words, const uint8_t *data, size_t size, uint8_t plan[16], uint64_t answer[4]) {
    return reference_plan_by(MET_TOO, store, store_words, data, size, plan, answer);
}
