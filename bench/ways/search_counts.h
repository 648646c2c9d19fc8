/* As the engine is: the table of a triple pattern, choice by choice. Included by plain.c. */

/* On a tie the lowest choice stays: VP first, then lowest j, then lowest k. */
static void choose_table(const uint32_t *store, const struct pattern *pattern, size_t i, struct candidate *candidate) {
    const uint32_t *at = pattern->triples[i].at, terms = POSITIONS - at[SUBJECT] % 2 - at[PREDICATE] % 2 - at[OBJECT] % 2;
    *candidate = (struct candidate){0, table_of(store, pattern, i, 0)[0], terms, 0, false};
    for (uint32_t choice = 1; choice <= KINDS * pattern->count; choice++) {
        const uint32_t rows = table_of(store, pattern, i, choice)[0];
        if (may_choose(store, pattern, i, choice) && rows < candidate->rows)
            *candidate = (struct candidate){choice, rows, terms, 0, false};
    }
}
