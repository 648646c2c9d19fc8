/* The best C: the table of a triple pattern by the entries of each kind. Included by plain.c. */

/* On a tie the lowest choice stays: VP first, then lowest j, then lowest k. */
static void choose_table(const uint32_t *store, const struct pattern *pattern, size_t i, struct candidate *candidate) {
    const struct triple *own = &pattern->triples[i], *other = pattern->triples;
    const uint32_t *at = own->at, full = table_of(store, pattern, i, 0)[0];
    *candidate = (struct candidate){0, full, POSITIONS - at[SUBJECT] % 2 - at[OBJECT] % 2, 0, false};
    for (uint32_t choice = 1; choice <= KINDS * pattern->count; choice += KINDS, other++) {
        const uint32_t *entry = entries_of(store, own, other);
        for (uint32_t k = 0; k < KINDS; k++)
            if (kind_qualifies(own, other, k) && entry[2 * k] < candidate->rows && is_stored(store[1], entry[2 * k], full)) {
                candidate->choice = choice + k;
                candidate->rows = entry[2 * k];
            }
    }
}
