/* The stack that each call needs: of a thread whose stack was painted, the bytes that a call wrote, less those of a thread that does
 * nothing. Eight steps along a path, with rows, go deepest. */
#define _DEFAULT_SOURCE
#include "closing.h"

#include <pthread.h>
#include <stdio.h>
#include <string.h>
#include <sys/mman.h>

enum { PAINT = 0xA5, STACK = 1 << 20 };

static uint8_t site[512], plan[16];
static size_t site_bytes;
static uint32_t store[CLOSING_STORE_WORDS], rows[4096];
static uint64_t answer[4];

static void make_site(void) {
    site[site_bytes++] = 1;
    site[site_bytes++] = 1;
    site[site_bytes++] = 64;
    for (uint8_t r = 0; r < 64; r++)
        for (int column = 0; column < 2; column++)
            site[site_bytes++] = r;
}

static const uint8_t path[] = {8, 1, 2, 3, 3, 2, 5, 5, 2, 7, 7, 2, 9, 9, 2, 11, 11, 2, 13, 13, 2, 15, 15, 2, 15};

static void *nothing(void *x) {
    return x;
}

static void *build(void *x) {
    closing_build(1000, site, site_bytes, store, CLOSING_STORE_WORDS, answer);
    return x;
}

static void *make_plan(void *x) {
    closing_plan(store, CLOSING_STORE_WORDS, path, sizeof path, plan, answer);
    return x;
}

static void *run(void *x) {
    closing_run(store, CLOSING_STORE_WORDS, path, sizeof path, plan, 16, rows, 4096, answer);
    return x;
}

static void *whether(void *x) {
    closing_whether(store, CLOSING_STORE_WORDS, path, sizeof path, plan, 16, answer);
    return x;
}

static size_t depth(void *(*call)(void *)) {
    uint8_t *stack = mmap(NULL, STACK, PROT_READ | PROT_WRITE, MAP_PRIVATE | MAP_ANONYMOUS, -1, 0);
    pthread_attr_t attributes;
    pthread_t thread;
    size_t untouched = 0;
    memset(stack, PAINT, STACK);
    pthread_attr_init(&attributes);
    pthread_attr_setstack(&attributes, stack, STACK);
    if (pthread_create(&thread, &attributes, call, NULL) != 0)
        return 0;
    pthread_join(thread, NULL);
    while (stack[untouched] == PAINT)
        untouched++;
    munmap(stack, STACK);
    return STACK - untouched;
}

int main(void) {
    make_site();
    size_t empty = depth(nothing);
    printf("build %zu\n", depth(build) - empty);
    printf("plan %zu\n", depth(make_plan) - empty);
    printf("run %zu\n", depth(run) - empty);
    int has_rows = answer[0] == CLOSING_ROWS;
    printf("whether %zu\n", depth(whether) - empty);
    return has_rows && answer[0] == CLOSING_YES ? 0 : 1;
}
