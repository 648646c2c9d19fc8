/* Seeded inputs of the four calls, good and damaged. */
#ifndef INPUTS_H
#define INPUTS_H

#include "files.h"

enum { STORE_WORDS = 136000, ROW_WORDS = 4096 };

/* One input: a build; and a plan, a run and whether over the store of a good site, which may be damaged. */
struct input {
    uint32_t t;
    struct file site;
    size_t store_words;
    uint32_t held_t;
    struct file held_site;
    size_t held_more, held_less;
    int is_damaged;
    size_t damaged_at;
    uint32_t damaged_by;
    struct file pattern, plan;
    size_t row_words;
    int at_end;
};

void make_input(uint64_t seed, struct input *input);

/* The words of the input's held store, damage and all; their count. */
size_t held_store(const struct input *input, uint32_t words[STORE_WORDS]);

/* Smaller inputs, one after the other: the k-th way to leave something out of an input; 0 where there is no such way. */
int smaller_input(const struct input *input, size_t k, struct input *smaller);

void print_input(const struct input *input);

#endif
