/* plain.h - what the engine's speed is compared with: its calls in plain C, two ways (plain.c says which), and those of its archive as it
 * was at an older commit (bench/archives.sh). They are the calls of closing.h under other names; of plain C nothing is proved.
 *
 * Inputs, answers, refusals and lent memory are those of closing.h, word for word; of the older archive those of its own closing.h, so that
 * it is given only stores that it built, and plans that it made or that name no reduced table. */
#ifndef PLAIN_H
#define PLAIN_H

#include <stddef.h>
#include <stdint.h>

#define PLAIN_CALLS(way)                                                                                                                  \
    uint32_t way##_build(uint32_t t, const uint8_t *site, size_t site_bytes, uint32_t *store, size_t store_words, uint64_t answer[4]);     \
    uint32_t way##_plan(const uint32_t *store, size_t store_words, const uint8_t *pattern, size_t pattern_bytes, uint8_t plan[16],         \
                        uint64_t answer[4]);                                                                                               \
    uint32_t way##_run(const uint32_t *store, size_t store_words, const uint8_t *pattern, size_t pattern_bytes, const uint8_t *plan,       \
                       size_t plan_bytes, uint32_t *rows, size_t row_words, uint64_t answer[4]);                                           \
    uint32_t way##_whether(const uint32_t *store, size_t store_words, const uint8_t *pattern, size_t pattern_bytes, const uint8_t *plan,   \
                           size_t plan_bytes, uint64_t answer[4]);

/* An archive of before it has no before_whether: linked with one, its address is null. */
#pragma weak before_whether
PLAIN_CALLS(before)
PLAIN_CALLS(search)
PLAIN_CALLS(best)

#endif
