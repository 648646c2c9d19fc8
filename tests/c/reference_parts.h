/* What the files of the reference share. */
#ifndef REFERENCE_PARTS_H
#define REFERENCE_PARTS_H

#include <stddef.h>
#include <stdint.h>

enum { MOST_PREDICATES = 16, MOST_ROWS = 1024, MOST_TRIPLES = 8, MOST_VARIABLES = 8, KINDS = 4, MOST_TERM = 16777215, MOST_THRESHOLD = 1000 };

enum { ROWS = 1, NONE = 2, BUILT = 3, PLAN = 4, YES = 5, NO = 6 };

struct bytes {
    const uint8_t *data;
    size_t at, size;
};

struct table {
    uint32_t predicate, count, first;
};

struct site {
    uint32_t threshold, predicates, total;
    struct table table[MOST_PREDICATES];
    uint32_t row[MOST_ROWS][2];
};

struct position {
    int is_variable;
    uint32_t number;
};

struct pattern {
    uint32_t count, variables;
    struct position at[MOST_TRIPLES][3];
    const struct table *table[MOST_TRIPLES];
};

/* A number of 1 to 4 bytes, seven bits each, low group first, in shortest form; 0 where there is none. */
int take_number(struct bytes *file, uint32_t *value);

void set_answer(uint64_t answer[4], uint64_t kind, uint64_t first, uint64_t second);

/* SS, OS, SO and, by S-14, OO: the column of p and the column of q that must agree. */
extern const int own_column[KINDS], other_column[KINDS];

uint32_t reduced_rows(const struct site *site, const struct table *p, const struct table *q, int k);

int is_stored(const struct site *site, uint32_t reduced, uint32_t full);

/* Question 10. */
int read_store(const uint32_t *words, size_t count, struct site *site);

/* Questions 10 to 17: 0, or the number of the first that is answered no. */
uint32_t read_check(const uint32_t *store, size_t store_words, const uint8_t *data, size_t size, struct site *site, struct pattern *pattern);

/* The rows of the table that a choice names for place i, or -1 where it may not be chosen. */
int64_t choice_rows(const struct site *site, const struct pattern *pattern, uint32_t i, uint32_t choice);

#endif
