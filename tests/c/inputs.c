#include "inputs.h"
#include "reference.h"

#include <inttypes.h>
#include <stdio.h>
#include <string.h>

/* ---- chance, the same on every machine (xorshift64*) */

static uint64_t chance;

static uint32_t below(uint32_t n) {
    chance ^= chance >> 12;
    chance ^= chance << 25;
    chance ^= chance >> 27;
    return (uint32_t)((chance * UINT64_C(2685821657736338717)) >> 33) % n;
}

static int one_in(uint32_t n) {
    return below(n) == 0;
}

/* ---- numbers that are not in shortest form or not whole, and other damage */

/* Four bytes with their top bit set are no number, whatever stands behind them; with three, the byte behind may end one. */
static void put_bad_number(struct file *file) {
    static const struct { int size; uint8_t byte[4]; } bad[] = {
        {2, {0x80, 0x00}}, {3, {0x81, 0x80, 0x00}}, {4, {0x80, 0x80, 0x80, 0x00}}, {4, {0x80, 0x80, 0x80, 0x80}}, {4, {0xFF, 0xFF, 0xFF, 0xFF}},
    };
    uint32_t which = below(sizeof bad / sizeof *bad);
    for (int i = 0; i < bad[which].size; i++)
        put_byte(file, bad[which].byte[i]);
}

/* Cuts a file short, lengthens it, or changes a byte. */
static void damage_file(struct file *file) {
    switch (below(4)) {
    case 0:
        file->size = file->size ? below((uint32_t)file->size) : 0;
        break;
    case 1:
        put_byte(file, below(256));
        break;
    case 2:
        if (file->size)
            file->byte[below((uint32_t)file->size)] = (uint8_t)below(256);
        break;
    default:
        if (file->size)
            file->byte[below((uint32_t)file->size)] ^= (uint8_t)(1u << below(8));
    }
}

/* ---- sites */

/* What is wrong with a site that is made: nothing, or one of its fields. */
enum fault { NO_FAULT, BAD_NUMBER, MANY_PREDICATES, PREDICATE_NOT_ABOVE, WIDE_PREDICATE, MANY_ROWS, WIDE_TERM, ROW_NOT_ABOVE, FAULTS };

/* Terms are few, so that rows meet, and in some sites `stride` apart from `base` on, up to the greatest: then many are equal in their last
 * 16 bits, or their last 10. */
struct shape {
    uint32_t predicates, term[17], count[17], stride, base;
};

enum { GREATEST_TERM = 16777215, MOST_TERMS = 70 };

static uint32_t spread(const struct shape *shape, uint32_t t) {
    return shape->base + shape->stride * t;
}

static void make_spread(struct shape *shape) {
    static const uint32_t strides[] = {1, 1, 1024, 65536, 65537, 3 * 65536};
    shape->stride = strides[below(sizeof strides / sizeof *strides)];
    const uint32_t most = GREATEST_TERM - shape->stride * (MOST_TERMS - 1);
    shape->base = shape->stride == 1 && one_in(2) ? 0 : one_in(3) ? most : below(most + 1);
}

static struct shape make_shape(void) {
    struct shape shape = {.predicates = one_in(40) ? 16 : one_in(25) ? 0 : 1 + below(4)};
    uint32_t next = below(3);
    for (uint32_t i = 0; i < shape.predicates; i++) {
        shape.term[i] = next;
        shape.count[i] = one_in(12) ? 0 : 1 + below(14);
        next += one_in(12) ? 65536 * (1 + below(9)) : 1 + (one_in(5) ? below(9000) / (shape.predicates + 1) : below(2));
    }
    if (one_in(150) && shape.predicates > 0)
        shape.count[0] = one_in(2) ? 1024 : 200 + below(300);
    make_spread(&shape);
    return shape;
}

/* So many ascending rows, over few terms so that they meet; `fault` may stand in the last. */
static void put_rows(struct file *file, const struct shape *shape, uint32_t count, enum fault fault) {
    uint32_t terms = count > 36 ? 40 + below(30) : 7, row = count > 36 ? 0 : below(terms * terms - count + 1);
    for (uint32_t r = 0; r < count; r++) {
        int here = fault != NO_FAULT && r + 1 == count;
        uint32_t shift = here && fault == WIDE_TERM ? GREATEST_TERM + 1 : 0, in_object = below(2);
        if (here && fault == ROW_NOT_ABOVE && r > 0)
            row -= 1 + below(2 < row ? 2 : 1);
        if (here && fault == BAD_NUMBER)
            put_bad_number(file);
        put_number(file, spread(shape, row / terms) + (in_object ? 0 : shift));
        put_number(file, spread(shape, row % terms) + (in_object ? shift : 0));
        uint32_t left = count - r - 1;
        row += 1 + (left < terms * terms - row - 1 ? below((terms * terms - row - 1 - left) / (left + 1) + 1) : 0);
    }
}

static void put_site(struct file *file, struct shape shape, enum fault fault) {
    uint32_t at = shape.predicates ? below(shape.predicates) : 0;
    file->size = 0;
    if (fault == MANY_PREDICATES)
        shape.predicates = one_in(2) ? 17 : 17 + below(3000);
    put_number(file, shape.predicates);
    if (fault == MANY_PREDICATES)
        return;
    for (uint32_t i = 0; i < shape.predicates; i++) {
        uint32_t predicate = shape.term[i];
        if (i == at && fault == WIDE_PREDICATE)
            predicate = GREATEST_TERM + 1 + below(1000);
        if (i == at && fault == PREDICATE_NOT_ABOVE && i > 0)
            predicate = shape.term[i - 1] - (shape.term[i - 1] > 0 ? below(2) : 0);
        put_number(file, predicate);
        put_number(file, i == at && fault == MANY_ROWS ? 1025 + below(2000) : shape.count[i]);
    }
    for (uint32_t i = 0; i < shape.predicates; i++)
        put_rows(file, &shape, shape.count[i], i == at ? fault : NO_FAULT);
}

static void make_build(struct input *input, struct shape shape) {
    uint64_t answer[4];
    static uint32_t store[STORE_WORDS];
    input->t = one_in(30) ? 1001 + below(100000) : one_in(3) ? 1000 : below(1001);
    put_site(&input->site, shape, one_in(2) ? NO_FAULT : (enum fault)below(FAULTS));
    if (one_in(6))
        damage_file(&input->site);
    input->store_words = STORE_WORDS;
    if (reference_build(input->t, input->site.byte, input->site.size, store, STORE_WORDS, answer) == 0)
        input->store_words = one_in(5) ? below((uint32_t)answer[1]) : (size_t)answer[1] - (size_t)one_in(5) + below(3);
    else
        input->store_words = below(200);
}

/* ---- the store that plan, run and whether are given */

static void make_held(struct input *input, struct shape shape) {
    input->held_t = one_in(2) ? 1000 : below(1001);
    put_site(&input->held_site, shape, NO_FAULT);
    input->held_more = one_in(3) ? below(5) : 0;
    input->held_less = one_in(40) ? 1 + below(20) : 0;
    input->is_damaged = one_in(15);
    input->damaged_at = below(one_in(2) ? 12 : 2000);
    input->damaged_by = one_in(2) ? 1 : below(5) ? UINT32_MAX : below(1u << 30);
}

size_t held_store(const struct input *input, uint32_t words[STORE_WORDS]) {
    uint64_t answer[4] = {0};
    if (reference_build(input->held_t, input->held_site.byte, input->held_site.size, words, STORE_WORDS - 8, answer) != 0)
        return 0;
    size_t used = (size_t)answer[1], count = used + input->held_more;
    for (size_t i = used; i < count; i++)
        words[i] = 7;
    if (input->is_damaged)
        words[input->damaged_at % used] += input->damaged_by;
    return count > input->held_less ? count - input->held_less : 0;
}

/* ---- patterns: variables in first-use order, terms that the site has, and now and then a fault */

static void put_position(struct file *file, const struct shape *shape, uint32_t *seen) {
    if (one_in(120))
        put_bad_number(file);
    else if (one_in(80))
        put_number(file, term(GREATEST_TERM + 1 + below(1000)));
    else if (one_in(60))
        put_number(file, variable(*seen + 1 + below(10)));
    else if (one_in(6))
        put_number(file, term(spread(shape, below(8))));
    else {
        uint32_t v = below(*seen < 8 ? *seen + 1 : 8);
        if (v == *seen)
            ++*seen;
        put_number(file, variable(v));
    }
}

static void put_predicate(struct file *file, const struct shape *shape) {
    if (shape->predicates == 0 || one_in(60))
        put_number(file, term(below(20)));
    else if (one_in(80))
        put_number(file, one_in(2) ? term(GREATEST_TERM + 1 + below(1000)) : variable(below(10)));
    else
        put_number(file, term(shape->term[below(shape->predicates)]));
}

static void make_pattern(struct input *input, const struct shape *shape) {
    uint32_t count = one_in(40) ? below(2) * (9 + below(200)) : one_in(12) ? 4 + below(5) : 1 + below(3), seen = 0;
    input->pattern.size = 0;
    put_number(&input->pattern, count);
    for (uint32_t i = 0; i < count && i < 10; i++) {
        put_position(&input->pattern, shape, &seen);
        put_predicate(&input->pattern, shape);
        put_position(&input->pattern, shape, &seen);
    }
    if (one_in(20))
        damage_file(&input->pattern);
}

/* ---- plans: any order, open choices, and now and then a fault */

static void exchange_steps(uint8_t *a, uint8_t *b) {
    for (int k = 0; k < 2; k++) {
        uint8_t kept = a[k];
        a[k] = b[k];
        b[k] = kept;
    }
}

static void make_plan(struct input *input, const uint32_t *store, size_t store_words) {
    uint8_t order[16] = {0}, open[MOST_CHOICES];
    uint64_t answer[4] = {0};
    input->plan.size = 0;
    if (reference_plan(store, store_words, input->pattern.byte, input->pattern.size, order, answer) != 0) {
        put_byte(&input->plan, below(256));
        return;
    }
    uint32_t count = (uint32_t)answer[1];
    int as_planned = one_in(3);
    for (uint32_t n = 0; n < count; n++) {
        if (!as_planned)
            exchange_steps(order + 2 * n, order + 2 * (n + below(count - n)));
        uint32_t place = order[2 * n], choice = order[2 * n + 1];
        if (!as_planned) {
            size_t choices = reference_choices(store, store_words, input->pattern.byte, input->pattern.size, place, open);
            choice = open[below((uint32_t)choices)];
        }
        put_number(&input->plan, one_in(60) ? below(9) : place);
        put_number(&input->plan, one_in(40) ? below(40) : one_in(200) ? 1u << 27 : choice);
    }
    if (one_in(12))
        damage_file(&input->plan);
}

static size_t make_room(const struct input *input, const uint32_t *store, size_t store_words) {
    static uint32_t rows[ROW_WORDS];
    uint64_t answer[4] = {0};
    if (reference_run(store, store_words, input->pattern.byte, input->pattern.size, input->plan.byte, input->plan.size, rows, ROW_WORDS, answer) != 0)
        return below(300);
    size_t needed = (size_t)(answer[1] * answer[2]);
    switch (below(6)) {
    case 0:
        return needed > 0 ? needed - 1 : 0;
    case 1:
        return one_in(2) ? 0 : below((uint32_t)needed + 1);
    default:
        return needed + below(4);
    }
}

void make_input(uint64_t seed, struct input *input) {
    static uint32_t store[STORE_WORDS];
    memset(input, 0, sizeof *input);
    chance = (seed + 1) * UINT64_C(0x9E3779B97F4A7C15);
    for (int i = 0; i < 4; i++)
        below(2);
    struct shape shape = make_shape();
    make_build(input, shape);
    make_held(input, shape);
    size_t store_words = held_store(input, store);
    make_pattern(input, &shape);
    make_plan(input, store, store_words);
    input->row_words = make_room(input, store, store_words);
    input->at_end = (int)below(2);
}

/* ---- smaller inputs */

enum { MOST_LEFT_OUT = 4 };

static int without_byte(struct file *file, size_t *k) {
    if (*k >= file->size) {
        *k -= file->size;
        return 0;
    }
    memmove(file->byte + *k, file->byte + *k + 1, file->size - *k - 1);
    file->size--;
    return 1;
}

/* Two bytes fewer, and one row fewer declared of the first predicates: where numbers are short, that is a row left out. */
static int without_row(struct file *file, size_t *k) {
    size_t ways = MOST_LEFT_OUT * file->size, at = *k % (file->size + 1), count = 2 * (*k / (file->size + 1)) + 2;
    if (*k >= ways) {
        *k -= ways;
        return 0;
    }
    if (at + 1 < file->size && count < at && file->byte[count] > 0) {
        file->byte[count]--;
        memmove(file->byte + at, file->byte + at + 2, file->size - at - 2);
        file->size -= 2;
    }
    return 1;
}

int smaller_input(const struct input *input, size_t k, struct input *smaller) {
    *smaller = *input;
    struct file *files[] = {&smaller->site, &smaller->held_site, &smaller->pattern, &smaller->plan};
    for (int i = 0; i < 4; i++)
        if (without_byte(files[i], &k))
            return 1;
    for (int i = 0; i < 2; i++)
        if (without_row(files[i], &k))
            return 1;
    size_t *sizes[] = {&smaller->store_words, &smaller->row_words, &smaller->held_more, &smaller->held_less};
    if (k < 4) {
        *sizes[k] /= 2;
        return 1;
    }
    smaller->is_damaged = 0;
    return k == 4;
}

static void print_file(const char *name, const struct file *file) {
    printf("%s:", name);
    for (size_t i = 0; i < file->size; i++)
        printf(" %02X", file->byte[i]);
    printf("\n");
}

void print_input(const struct input *input) {
    printf("build: T %" PRIu32 ", %zu words lent\n", input->t, input->store_words);
    print_file("site", &input->site);
    printf("plan, run and whether over the store at T %" PRIu32 ", with %zu words more and %zu fewer", input->held_t, input->held_more,
           input->held_less);
    if (input->is_damaged)
        printf(", word %zu (modulo those used) raised by %" PRIu32, input->damaged_at, input->damaged_by);
    printf("\n");
    print_file("of the site", &input->held_site);
    print_file("pattern", &input->pattern);
    print_file("plan", &input->plan);
    printf("%zu words lent for rows; lent memory %s\n", input->row_words, input->at_end ? "ends at a page without access" : "begins after one");
}
