/* The site, its tables and its store: questions 1 to 10. */
#include "reference.h"
#include "reference_parts.h"

#include <stdlib.h>
#include <string.h>

int take_number(struct bytes *file, uint32_t *value) {
    *value = 0;
    for (int place = 0; place < 4; place++) {
        if (file->at == file->size)
            return 0;
        uint8_t byte = file->data[file->at++];
        *value |= (uint32_t)(byte & 0x7F) << (7 * place);
        if (byte < 0x80)
            return byte != 0 || place == 0;
    }
    return 0;
}

/* ---- the site */

static int row_above(const uint32_t low[2], const uint32_t high[2]) {
    return low[0] < high[0] || (low[0] == high[0] && low[1] < high[1]);
}

static uint32_t read_declarations(struct bytes *file, struct site *site) {
    if (!take_number(file, &site->predicates))
        return 2;
    if (site->predicates > MOST_PREDICATES)
        return 3;
    site->total = 0;
    for (uint32_t i = 0; i < site->predicates; i++) {
        struct table *table = &site->table[i];
        if (!take_number(file, &table->predicate))
            return 2;
        if (table->predicate > MOST_TERM || (i > 0 && table->predicate <= table[-1].predicate))
            return 4;
        if (!take_number(file, &table->count))
            return 2;
        table->first = site->total;
        site->total += table->count;
        if (site->total > MOST_ROWS)
            return 5;
    }
    return 0;
}

static uint32_t read_rows(struct bytes *file, struct site *site, const struct table *table) {
    for (uint32_t r = 0; r < table->count; r++) {
        uint32_t *row = site->row[table->first + r];
        for (int column = 0; column < 2; column++) {
            if (!take_number(file, &row[column]))
                return 2;
            if (row[column] > MOST_TERM)
                return 6;
        }
        if (r > 0 && !row_above(site->row[table->first + r - 1], row))
            return 7;
    }
    return 0;
}

static uint32_t read_site(const uint8_t *data, size_t size, struct site *site) {
    struct bytes file = {data, 0, size};
    uint32_t refusal = read_declarations(&file, site);
    for (uint32_t i = 0; refusal == 0 && i < site->predicates; i++)
        refusal = read_rows(&file, site, &site->table[i]);
    if (refusal == 0 && file.at < file.size)
        refusal = 8;
    return refusal;
}

/* ---- tables */

const int own_column[KINDS] = {0, 1, 0, 1}, other_column[KINDS] = {0, 0, 1, 1};

static int has_partner(const struct site *site, const uint32_t *row, const struct table *q, int k) {
    for (uint32_t r = 0; r < q->count; r++)
        if (site->row[q->first + r][other_column[k]] == row[own_column[k]])
            return 1;
    return 0;
}

uint32_t reduced_rows(const struct site *site, const struct table *p, const struct table *q, int k) {
    uint32_t count = 0;
    for (uint32_t r = 0; r < p->count; r++)
        count += (uint32_t)has_partner(site, site->row[p->first + r], q, k);
    return count;
}

int is_stored(const struct site *site, uint32_t reduced, uint32_t full) {
    return reduced >= 1 && 1000 * reduced < site->threshold * full;
}

/* ---- the store */

struct words {
    uint32_t *data;
    size_t count, room;
};

static void put(struct words *words, uint32_t word) {
    if (words->count == words->room) {
        words->room = 2 * words->room + 4096;
        words->data = realloc(words->data, words->room * sizeof *words->data);
        if (!words->data)
            abort();
    }
    words->data[words->count++] = word;
}

static void put_row(struct words *words, const uint32_t row[2]) {
    put(words, row[0]);
    put(words, row[1]);
}

/* P; T; words used; the entries of the predicates and of the semi-joins; all VP rows; all stored tables' rows. */
static struct words store_of(const struct site *site) {
    struct words store = {0}, stored = {0};
    uint32_t p_count = site->predicates, start = 3 + 3 * p_count + 2 * KINDS * p_count * p_count;
    put(&store, p_count);
    put(&store, site->threshold);
    put(&store, 0);
    for (uint32_t i = 0; i < p_count; i++) {
        put(&store, site->table[i].predicate);
        put(&store, site->table[i].count);
        put(&store, start + 2 * site->table[i].first);
    }
    for (uint32_t i = 0; i < p_count; i++)
        for (uint32_t j = 0; j < p_count; j++)
            for (int k = 0; k < KINDS; k++) {
                const struct table *p = &site->table[i], *q = &site->table[j];
                uint32_t reduced = reduced_rows(site, p, q, k);
                int keep = is_stored(site, reduced, p->count);
                put(&store, reduced);
                put(&store, keep ? start + 2 * site->total + (uint32_t)stored.count : 0);
                for (uint32_t r = 0; keep && r < p->count; r++)
                    if (has_partner(site, site->row[p->first + r], q, k))
                        put_row(&stored, site->row[p->first + r]);
            }
    for (uint32_t r = 0; r < site->total; r++)
        put_row(&store, site->row[r]);
    for (size_t i = 0; i < stored.count; i++)
        put(&store, stored.data[i]);
    store.data[2] = (uint32_t)store.count;
    free(stored.data);
    return store;
}

void set_answer(uint64_t answer[4], uint64_t kind, uint64_t first, uint64_t second) {
    answer[0] = kind;
    answer[1] = first;
    answer[2] = second;
    answer[3] = 0;
}

uint32_t reference_build(uint32_t t, const uint8_t *data, size_t size, uint32_t *memory, size_t memory_words, uint64_t answer[4]) {
    struct site site;
    if (t > MOST_THRESHOLD)
        return 1;
    site.threshold = t;
    uint32_t refusal = read_site(data, size, &site);
    if (refusal)
        return refusal;
    struct words store = store_of(&site);
    if (store.count > memory_words)
        refusal = 9;
    else {
        memcpy(memory, store.data, store.count * sizeof *memory);
        set_answer(answer, BUILT, store.count, 0);
    }
    free(store.data);
    return refusal;
}

/* The site that words would be the store of, if the words go that far. */
static int decode(const uint32_t *words, size_t count, struct site *site) {
    if (count < 3 || words[0] > MOST_PREDICATES || words[1] > MOST_THRESHOLD)
        return 0;
    site->predicates = words[0];
    site->threshold = words[1];
    site->total = 0;
    size_t at = 3 + 3 * words[0] + 2 * KINDS * words[0] * words[0];
    if (count < at)
        return 0;
    for (uint32_t i = 0; i < site->predicates; i++) {
        struct table *table = &site->table[i];
        table->predicate = words[3 + 3 * i];
        table->count = words[4 + 3 * i];
        table->first = site->total;
        if (table->predicate > MOST_TERM || (i > 0 && table->predicate <= table[-1].predicate))
            return 0;
        if (table->count > MOST_ROWS - site->total || count < at + 2 * table->count)
            return 0;
        site->total += table->count;
        for (uint32_t r = 0; r < table->count; r++, at += 2) {
            uint32_t *row = site->row[table->first + r];
            memcpy(row, words + at, sizeof site->row[0]);
            if (row[0] > MOST_TERM || row[1] > MOST_TERM || (r > 0 && !row_above(row - 2, row)))
                return 0;
        }
    }
    return 1;
}

int read_store(const uint32_t *words, size_t count, struct site *site) {
    if (!decode(words, count, site))
        return 0;
    struct words store = store_of(site);
    int same = words[2] == store.count && store.count <= count && memcmp(store.data, words, store.count * sizeof *words) == 0;
    free(store.data);
    return same;
}
