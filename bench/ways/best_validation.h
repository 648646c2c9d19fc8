/* The best C: question 10 by bits, or by hashing. Included by plain.c. */

/* The lowest and the highest term of a table's subjects or objects, and whether no term between them is known to be missing. */
struct column { uint32_t low, high; bool gapless; };

/* Whether the rows hold terms and ascend, and their two columns; nothing is decided row by row, so that rows go side by side. */
static bool read_columns(const uint32_t *row, size_t n, struct column *columns) {
    columns[0] = columns[1] = (struct column){MOST_TERM + 1, 0, false};
    if (n == 0) return true;
    uint32_t all = row[0] | row[1], falls = 0, gaps = 0;
    int32_t low = (int32_t)row[1], high = low;
    for (size_t i = 2; i < 2 * n; i += 2) {
        const uint32_t subject = row[i], object = row[i + 1];
        all |= subject | object;
        low = (int32_t)object < low ? (int32_t)object : low;
        high = (int32_t)object > high ? (int32_t)object : high;
        /* of terms the top bit of a difference is set where it is below 0: the object ascends; neither it nor the subject does; a gap */
        const uint32_t step = subject - row[i - 2], ascends = (row[i - 1] - object) >> 31;
        falls |= step - 1 + ascends;
        gaps |= 1 - step;
    }
    columns[0] = (struct column){row[0], row[2 * n - 2], gaps >> 31 == 0};
    columns[1] = (struct column){(uint32_t)low, (uint32_t)high, false};
    return all <= MOST_TERM && falls >> 31 == 0;
}

/* The terms that a column has, in as many words as the engine has for the objects. Where it spans few enough, a bit for each term from
 * `base` on; the bit behind the last stays clear, for terms that are outside. Words are cleared once in a call, and then where bits were
 * set. Where it spans more, two bytes for each slot of a hash table: one more than the row that has the term. */
enum { WINDOW_TERMS = 32 * MOST_ROWS, SLOTS = 2 * MOST_ROWS };
struct window {
    const uint32_t *held;
    size_t n, cleared;
    uint32_t base, size;
    bool hashed;
    union { uint32_t bits[MOST_ROWS + 1]; uint16_t slots[SLOTS]; } of;
};

static void forget(struct window *window) {
    const uint32_t base = window->base, *held = window->held;
    for (const uint32_t *end = held + 2 * window->n; held != end; held += 2) window->of.bits[(*held - base) / 32] = 0;
    window->n = 0;
}

/* The column's terms, from `base` to `high`, fewer than a window holds; gives how many there are. */
static uint32_t hold(struct window *window, const uint32_t *column, size_t n, uint32_t base, uint32_t high) {
    const uint32_t size = high - base + 1, words = size / 32 + 1;
    uint32_t terms = 0;
    forget(window);
    window->held = column;
    window->n = n;
    window->hashed = false;
    window->base = base;
    window->size = size;
    if (window->cleared < words) {
        memset(window->of.bits + window->cleared, 0, (words - window->cleared) * sizeof *window->of.bits);
        window->cleared = words;
    }
    for (size_t i = 0; i < n; i++) {
        const uint32_t at = column[2 * i] - base;
        uint32_t *word = &window->of.bits[at / 32];
        terms += (*word >> at % 32 & 1) ^ 1;
        *word |= 1u << at % 32;
    }
    return terms;
}

/* The upper bits of a product depend on all bits of the term. */
static uint32_t slot_of(uint32_t term) { return term * 0x9E3779B1u >> 21; }

/* The slot that has the term, or an empty one. */
static uint32_t find_slot(const struct window *window, uint32_t term) {
    uint32_t at = slot_of(term);
    while (window->of.slots[at] != 0 && window->held[2 * (window->of.slots[at] - 1u)] != term) at = (at + 1) % SLOTS;
    return at;
}

static void hash_terms(struct window *window, const uint32_t *column, size_t n) {
    memset(window->of.slots, 0, sizeof window->of.slots);
    window->held = column;
    for (size_t i = 0; i < n; i++) window->of.slots[find_slot(window, column[2 * i])] = (uint16_t)(i + 1);
    window->n = window->cleared = 0;
    window->hashed = true;
}

/* 1 where the column has the term, else 0. */
static inline uint32_t is_held(const struct window *window, uint32_t term, bool hashed) {
    if (hashed) return window->of.slots[find_slot(window, term)] != 0;
    const uint32_t at = term - window->base < window->size ? term - window->base : window->size;
    return window->of.bits[at / 32] >> at % 32 & 1;
}

/* Whether each stored row is one of the rows, in their order. */
static bool are_among(const uint32_t *stored, size_t left, const uint32_t *row, size_t n) {
    const uint32_t *const end = stored + 2 * left;
    for (size_t i = 0; i < n && stored != end; i++, row += 2) stored += 2 * (size_t)((stored[0] == row[0]) & (stored[1] == row[1]));
    return stored == end;
}

/* Rows whose subject is between two terms stand in a row. */
static bool holds_between(const uint32_t *store, const uint32_t *entry, const uint32_t *rows, size_t n, struct column of) {
    const size_t first = guessed_lower_bound(rows, 2, n, of.low), end = rows[2 * n - 2] <= of.high ? n : guessed_lower_bound(rows, 2, n, of.high + 1);
    return end - first == entry[0] && (entry[1] == 0 || memcmp(store + entry[1], rows + 2 * first, 2 * entry[0] * sizeof *rows) == 0);
}

/* A column of n rows: every other word. */
struct words { const uint32_t *first; size_t n; };

static inline uint32_t count_held(const struct window *window, struct words column, bool hashed) {
    uint32_t kept = 0;
    for (size_t i = 0; i < column.n; i++) kept += is_held(window, column.first[2 * i], hashed);
    return kept;
}

static uint32_t count_between(struct words column, uint32_t low, uint32_t high) {
    uint32_t kept = 0;
    for (size_t i = 0; i < column.n; i++) kept += column.first[2 * i] - low <= high - low;
    return kept;
}

/* Few partners are compared one by one. */
static uint32_t count_equal(struct words column, struct words partners) {
    uint32_t kept = 0;
    for (size_t i = 0; i < column.n; i++) {
        uint32_t is_kept = 0;
        for (size_t j = 0; j < partners.n; j++) is_kept |= column.first[2 * i] == partners.first[2 * j];
        kept += is_kept;
    }
    return kept;
}

/* A semi-join that the lowest and highest terms left open: its entry, its rows and the stored ones, the column of both that is asked. */
struct asked { const uint32_t *entry, *rows, *stored; size_t n, own; };

static struct asked asked_of(const uint32_t *store, size_t count, size_t at, size_t q, size_t other) {
    const size_t p = at / 2, own = at % 2;
    const uint32_t *table = store + 3 + 3 * p, *entry = store + 3 + 3 * count + 2 * ((p * count + q) * KINDS + own + 2 * other);
    return (struct asked){entry, store + table[2], store + entry[1], table[1], own};
}

static struct words rows_asked(const struct asked *asked) { return (struct words){asked->rows + asked->own, asked->n}; }

/* No words where no rows are stored. */
static struct words stored_asked(const struct asked *asked) {
    return (struct words){asked->stored + asked->own, asked->entry[1] == 0 ? 0 : asked->entry[0]};
}

/* Of the rows and of the stored ones so many have a partner: the entry says so, and the stored rows are those. */
static bool is_answered(const struct asked *asked, uint32_t kept, uint32_t stored_kept) {
    if (kept != asked->entry[0]) return false;
    return asked->entry[1] == 0 || (stored_kept == kept && are_among(asked->stored, kept, asked->rows, asked->n));
}

/* The partners have every term between their lowest and highest: where no term of the own column is outside, all rows are left. */
static bool is_answered_between(const uint32_t *store, const struct asked *asked, struct column own, struct column of) {
    if (of.low <= own.low && own.high <= of.high) return asked->entry[0] == asked->n;
    if (asked->own == 0) return holds_between(store, asked->entry, asked->rows, asked->n, of);
    return is_answered(asked, count_between(rows_asked(asked), of.low, of.high), count_between(stored_asked(asked), of.low, of.high));
}

static bool is_answered_few(const struct asked *asked, struct words partners) {
    return is_answered(asked, count_equal(rows_asked(asked), partners), count_equal(stored_asked(asked), partners));
}

/* The same with all the partners' terms in the window, row by row: the stored rows are walked with those that have a partner. */
static inline bool is_answered_row_by_row(const struct asked *asked, const struct window *window, bool hashed) {
    if (asked->entry[1] == 0) return count_held(window, rows_asked(asked), hashed) == asked->entry[0];
    const uint32_t left = asked->entry[0];
    uint32_t kept = 0, differs = 0;
    for (const uint32_t *row = asked->rows, *end = row + 2 * asked->n; row != end; row += 2) {
        const uint32_t is_kept = is_held(window, row[asked->own], hashed), *stored = asked->stored + 2 * (kept < left ? kept : 0);
        differs |= is_kept & (uint32_t)((stored[0] != row[0]) | (stored[1] != row[1]));
        kept += is_kept;
    }
    return kept == left && differs == 0;
}

static bool is_answered_held(const struct asked *asked, const struct window *window) {
    return window->hashed ? is_answered_row_by_row(asked, window, true) : is_answered_row_by_row(asked, window, false);
}

/* The semi-joins against one column that are open. */
static bool open_hold(const uint32_t *store, size_t count, const struct column *columns, size_t partner, uint32_t open, struct window *window) {
    enum { FEW = 8 };
    const size_t q = partner / 2, other = partner % 2;
    const uint32_t *table = store + 3 + 3 * q;
    const struct words partners = {store + table[2] + other, table[1]};
    struct column of = columns[partner];
    /* only so many rows can have every term between */
    if (!of.gapless && partners.n > FEW && of.high - of.low < partners.n)
        of.gapless = hold(window, partners.first, partners.n, of.low, of.high) == of.high - of.low + 1;
    else if (!of.gapless && partners.n > FEW) {
        if (of.high - of.low < WINDOW_TERMS) hold(window, partners.first, partners.n, of.low, of.high);
        else hash_terms(window, partners.first, partners.n);
    }
    for (size_t at = 0; at < 2 * count; at++) {
        if ((open >> at & 1) == 0) continue;
        const struct asked asked = asked_of(store, count, at, q, other);
        const bool holds = of.gapless         ? is_answered_between(store, &asked, columns[at], of)
                           : partners.n > FEW ? is_answered_held(&asked, window)
                                              : is_answered_few(&asked, partners);
        if (!holds) return false;
    }
    return true;
}

/* What the lowest and highest terms leave open, marked at the partners' column by a bit for each own column: where no row is said to be left,
 * and where some are. */
struct marks { uint32_t empty[2 * MOST_PREDICATES], open[2 * MOST_PREDICATES]; };

/* The entries of all semi-joins, by the lowest and highest terms. */
static bool entries_hold(const uint32_t *store, size_t count, const struct column *columns, size_t here, size_t used, struct marks *marks) {
    const uint32_t *entry = store + 3 + 3 * count, t = store[1];
    for (size_t p = 0; p < count; p++) {
        const uint32_t rows = store[3 + 3 * p + 1];
        for (size_t q = 0; q < count; q++)
            for (size_t k = 0; k < KINDS; k++, entry += 2) {
                const size_t own = 2 * p + own_column[k], other = 2 * q + partner_column[k];
                const struct column a = columns[own], b = columns[other];
                if (a.high < b.low || b.high < a.low) {
                    if ((entry[0] | entry[1]) != 0) return false;
                    continue;
                }
                if (entry[0] > rows || entry[1] != (is_stored(t, entry[0], rows) ? here : 0)) return false;
                if (entry[1] != 0) here += 2 * entry[0];
                if (own == other || (b.gapless && b.low <= a.low && a.high <= b.high)) {
                    if (entry[0] != rows) return false;
                } else if (entry[0] != 0)
                    marks->open[other] |= 1u << own;
                else
                    marks->empty[other] |= 1u << own;
            }
    }
    return here == used;
}

/* 2 for a column whose terms need not be held, 1 for one whose terms are held anyway, else 0. */
static unsigned ease_of(const struct column *columns, const struct marks *marks, size_t at) { return columns[at].gapless ? 2 : marks->open[at] != 0; }

/* Two columns without a common term leave no row of each other: it is said both ways, and asked one way, against the easier one. */
static bool share_empty(const struct column *columns, size_t count, struct marks *marks) {
    for (size_t a = 0; a < 2 * count; a++)
        for (size_t b = 0; marks->empty[a] != 0 && b < 2 * count; b++) {
            if ((marks->empty[a] >> b & 1) == 0) continue;
            if ((marks->empty[b] >> a & 1) == 0) return false;
            const size_t easier = ease_of(columns, marks, a) < ease_of(columns, marks, b) ? b : a;
            if (a < b) marks->open[easier] |= 1u << (a + b - easier);
        }
    return true;
}

static bool site_holds(const uint32_t *store, size_t count, size_t here, size_t used) {
    struct column columns[2 * MOST_PREDICATES];
    struct marks marks = {{0}, {0}};
    struct window window;
    window.held = store;
    window.n = window.cleared = window.base = window.size = 0;
    window.hashed = false;
    for (size_t i = 0; i < count; i++)
        if (!read_columns(store + store[3 + 3 * i + 2], store[3 + 3 * i + 1], columns + 2 * i)) return false;
    if (!entries_hold(store, count, columns, here, used, &marks) || !share_empty(columns, count, &marks)) return false;
    for (size_t i = 0; i < 2 * count; i++)
        if (marks.open[i] != 0 && !open_hold(store, count, columns, i, marks.open[i], &window)) return false;
    return true;
}
