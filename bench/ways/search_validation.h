/* As the engine is: question 10 by ranges, by filter, by walking two columns, and by search. Included by plain.c. */

/* 1 where a is at least b, else 0, by a difference: terms are below the half of a word. */
static uint32_t at_least(uint32_t a, uint32_t b) { return (0x80000000u + a - b) / 0x80000000u; }

/* In two walks that no row ends, so that several are compared at once. */
static bool rows_proper(const uint32_t *row, size_t count) {
    bool terms = true, ascending = true;
    for (size_t i = 0; i < 2 * count; i++)
        if (row[i] > MOST_TERM) terms = false;
    for (size_t i = 1; terms && i < count; i++)
        if (row[2 * i] < row[2 * i - 2] + at_least(row[2 * i - 1], row[2 * i + 1])) ascending = false;
    return terms && ascending;
}

static bool tables_proper(const uint32_t *store, size_t count) {
    for (const uint32_t *entry = store + 3; entry < store + 3 + 3 * count; entry += 3)
        if (!rows_proper(store + entry[2], entry[1])) return false;
    return true;
}

static bool search_word(const uint32_t *words, size_t stride, size_t n, uint32_t value) {
    return words[stride * (n - 1)] >= value && words[stride * lower_bound(words, stride, n, value)] == value;
}

/* The same: the place is tried first that the value has where terms are numbered in a row. */
static bool has_word(const uint32_t *words, size_t stride, size_t n, uint32_t value) {
    if (n == 0 || value < words[0]) return false;
    const size_t guess = value - words[0];
    if (guess < n && words[stride * guess] == value) return true;
    return search_word(words, stride, n, value);
}

/* A column that ascends: the subjects of a table, or the sorted copy of its objects. */
struct column { const uint32_t *words; size_t stride, n; };

static struct column column_of(const uint32_t *store, const uint32_t *objects, size_t count, size_t table, size_t column) {
    const uint32_t *entry = store + 3 + 3 * table;
    if (column == 0) return (struct column){store + entry[2], 2, entry[1]};
    return (struct column){objects + (entry[2] - rows_start(count)) / 2, 1, entry[1]};
}

/* Each word is at most one above the one before: no value between the first and the last is missing. */
static bool is_gapless(struct column column) {
    for (size_t i = 1; i < column.n; i++)
        if (column.words[column.stride * i] - column.words[column.stride * (i - 1)] > 1) return false;
    return true;
}

/* The values of a column: the lowest, the highest, and whether each number between them is known to be a value too; of none it is empty. */
struct range { uint32_t lowest, highest; bool whole; };

/* Of the subjects of a table, which ascend, and of its objects, in no order: in one walk that no row ends. */
static void column_ranges(const uint32_t *rows, size_t n, struct range *ranges) {
    ranges[0] = ranges[1] = (struct range){1, 0, false};
    if (n == 0) return;
    uint32_t last = rows[0], whole = 1, lowest = rows[1], highest = rows[1];
    for (size_t i = 1; i < n; i++) {
        const uint32_t subject = rows[2 * i], object = rows[2 * i + 1];
        if (subject - last > 1) whole = 0;
        last = subject;
        if (object < lowest) lowest = object;
        if (highest < object) highest = object;
    }
    ranges[0] = (struct range){rows[0], last, whole == 1};
    ranges[1] = (struct range){lowest, highest, false};
}

/* What all semi-joins are checked by: the range of each column, and the objects that another column reaches, in ascending order. */
struct sorted { struct range ranges[2 * MOST_PREDICATES]; uint32_t objects[MOST_ROWS]; };

static void collect_statistics(const uint32_t *store, size_t count, struct sorted *sorted) {
    for (size_t i = 0; i < count; i++) column_ranges(store + store[3 + 3 * i + 2], store[3 + 3 * i + 1], sorted->ranges + 2 * i);
}

static bool columns_apart(const struct range *a, const struct range *b) { return a->highest < b->lowest || b->highest < a->lowest; }

/* Whether a column of some table, other than the one whose range this is, is not apart from it. */
static bool is_reached(const struct sorted *sorted, size_t count, size_t column, const struct range *range) {
    for (size_t p = 0; p < count; p++) {
        const struct range *a = &sorted->ranges[2 * p + column];
        if (a != range && !columns_apart(a, range)) return true;
    }
    return false;
}

/* By subjects, which OS and SO compare with objects, or by other objects, which OO does. */
static bool objects_reached(const struct sorted *sorted, size_t count, size_t table) {
    const struct range *objects = &sorted->ranges[2 * table + 1];
    return is_reached(sorted, count, 0, objects) || is_reached(sorted, count, 1, objects);
}

static void copy_objects(const uint32_t *store, size_t count, struct sorted *sorted) {
    for (size_t i = 0; i < count; i++) {
        const uint32_t *entry = store + 3 + 3 * i;
        uint32_t *to = sorted->objects + (entry[2] - rows_start(count)) / 2;
        if (!objects_reached(sorted, count, i)) continue;
        for (size_t r = 0; r < entry[1]; r++) to[r] = store[entry[2] + 2 * r + 1];
        sort_rows(to, 1, entry[1]);
        sorted->ranges[2 * i + 1].whole = is_gapless((struct column){to, 1, entry[1]});
    }
}

/* A one-hash filter: a value whose slot is empty is none of those inserted. Few values, or those without gaps, are not inserted, and then all count
 * as such. */
enum { SLOTS = 1024, FEW = 16 };
struct filter { bool used; uint8_t slot[SLOTS]; };

static void insert_values(struct filter *filter, const uint32_t *values, size_t n, const struct range *range) {
    filter->used = n >= FEW && !range->whole;
    if (!filter->used) return;
    memset(filter->slot, 0, sizeof filter->slot);
    for (size_t i = 0; i < n; i++) filter->slot[values[2 * i] % SLOTS] = 1;
}

static bool may_contain(const struct filter *filter, uint32_t value) { return !filter->used || filter->slot[value % SLOTS] == 1; }

/* Whether an ascending column has a value, by a walk from a place before which all words are below it. */
static bool walk_to(struct column column, const struct filter *filter, size_t *place, uint32_t value) {
    if (!may_contain(filter, value)) return false;
    while (*place < column.n && column.words[column.stride * *place] < value) ++*place;
    return *place < column.n && column.words[column.stride * *place] == value;
}

/* Both ascend, and are walked once. */
static uint32_t count_common(struct column own, struct column partners, const struct filter *filter) {
    uint32_t kept = 0;
    size_t place = 0;
    for (size_t i = 0; i < own.n; i++)
        if (walk_to(partners, filter, &place, own.words[own.stride * i])) kept++;
    return kept;
}

/* Rows whose subject is between two numbers stand one behind another. */
static bool compare_between(const uint32_t *rows, size_t m, const struct range *range, const uint32_t *next, const uint32_t *end) {
    const size_t before = guessed_lower_bound(rows, 2, m, range->lowest), rest = m - before;
    const uint32_t *first = rows + 2 * before;
    const bool all = rest == 0 || first[2 * rest - 2] <= range->highest;
    const size_t count = all ? rest : guessed_lower_bound(first, 2, rest, range->highest + 1);
    bool same = true;
    if (next + 2 * count != end) return false;
    for (size_t i = 0; i < 2 * count; i++)
        if (next[i] != first[i]) same = false;
    return same;
}

/* Subjects ascend and are walked, for objects each partner is searched. */
static bool compare_partnered(const uint32_t *rows, size_t m, size_t own, struct column partners, const struct filter *filter, const uint32_t *next,
                              const uint32_t *end) {
    size_t place = 0;
    for (const uint32_t *row = rows; row != rows + 2 * m; row += 2) {
        if (own == 0 ? !walk_to(partners, filter, &place, row[0])
                     : !may_contain(filter, row[1]) || !has_word(partners.words, partners.stride, partners.n, row[1]))
            continue;
        if (next == end || next[0] != row[0] || next[1] != row[1]) return false;
        next += 2;
    }
    return next == end;
}

/* All are left where the one range is within the other and that has no gaps; columns that are apart do not come here. */
static uint32_t count_partnered(struct column own, struct column partners, const uint32_t *values, const struct range *a, const struct range *b) {
    struct filter filter;
    if (b->whole && b->lowest <= a->lowest && a->highest <= b->highest) return (uint32_t)own.n;
    insert_values(&filter, values, partners.n, b);
    return count_common(own, partners, &filter);
}

/* Where the rows end that are stored of none, `here`, if their entry has `counted` for their count and no start; else 0. */
static size_t not_stored_end(const uint32_t *entry, size_t counted, size_t here) { return entry[0] == counted && entry[1] == 0 ? here : 0; }

/* Where the stored rows of the semi-join of kind k of p against q end, if they begin at `here`; 0 where they or its entry are wrong. */
static size_t semi_join_end(const uint32_t *store, const struct sorted *sorted, size_t count, size_t p, size_t q, size_t k, size_t here,
                            size_t used) {
    const uint32_t *entry = store + 3 + 3 * count + 2 * ((p * count + q) * KINDS + k), *rows = store + store[3 + 3 * p + 2];
    const size_t m = store[3 + 3 * p + 1], end = here + 2 * (size_t)entry[0], own = own_column[k], other = partner_column[k];
    const struct range *a = &sorted->ranges[2 * p + own], *b = &sorted->ranges[2 * q + other];
    if (a == b) return not_stored_end(entry, m, here); /* a column against itself leaves all rows, which are never stored */
    if (columns_apart(a, b)) return not_stored_end(entry, 0, here);
    if (entry[0] > m) return 0;
    const struct column partners = column_of(store, sorted->objects, count, q, other);
    const uint32_t *values = store + store[3 + 3 * q + 2] + other;
    if (is_stored(store[1], entry[0], (uint32_t)m)) {
        struct filter filter;
        if (entry[1] != here || end > used) return 0;
        if (own == 0 && b->whole) return compare_between(rows, m, b, store + here, store + end) ? end : 0;
        insert_values(&filter, values, partners.n, b);
        return compare_partnered(rows, m, own, partners, &filter, store + here, store + end) ? end : 0;
    }
    return not_stored_end(entry, count_partnered(column_of(store, sorted->objects, count, p, own), partners, values, a, b), here);
}

/* No semi-join of p against q leaves a row, by the ranges, and the entries say so. */
static bool is_empty_pair(const uint32_t *store, const struct sorted *sorted, size_t count, size_t p, size_t q) {
    const uint32_t *entry = store + 3 + 3 * count + 2 * ((p * count + q) * KINDS);
    for (size_t k = 0; k < KINDS; k++)
        if (!columns_apart(&sorted->ranges[2 * p + own_column[k]], &sorted->ranges[2 * q + partner_column[k]])) return false;
    for (size_t i = 0; i < 2 * KINDS; i++)
        if (entry[i] != 0) return false;
    return true;
}

static bool site_holds(const uint32_t *store, size_t count, size_t here, size_t used) {
    struct sorted sorted;
    if (!tables_proper(store, count)) return false;
    collect_statistics(store, count, &sorted);
    copy_objects(store, count, &sorted);
    for (size_t p = 0; p < count; p++)
        for (size_t q = 0; q < count; q++) {
            if (is_empty_pair(store, &sorted, count, p, q)) continue;
            for (size_t k = 0; k < KINDS; k++)
                if ((here = semi_join_end(store, &sorted, count, p, q, k, here, used)) == 0) return false;
        }
    return here == used;
}
