/* What documents 01 and 02 say of the four calls, in plain C, by brute force: no reduced table is used to find a solution. The calls take
 * and give what those of closing.h do. Nothing is shared with the engine or its header, nor with bench/plain.c, tools/reference.py or
 * files.h: what is said there again is worked out again, so that no common mistake passes for agreement. */
#ifndef REFERENCE_H
#define REFERENCE_H

#include <stddef.h>
#include <stdint.h>

#define MOST_CHOICES 33

uint32_t reference_build(uint32_t t, const uint8_t *site, size_t site_bytes, uint32_t *store, size_t store_words, uint64_t answer[4]);

uint32_t reference_plan(const uint32_t *store, size_t store_words, const uint8_t *pattern, size_t pattern_bytes, uint8_t plan[16],
                        uint64_t answer[4]);

/* The same, with what counts as a term: only what is written, as before S-16, or a variable met in an earlier step too. */
enum counting { WRITTEN_ONLY, MET_TOO };

uint32_t reference_plan_by(enum counting counting, const uint32_t *store, size_t store_words, const uint8_t *pattern, size_t pattern_bytes,
                           uint8_t plan[16], uint64_t answer[4]);

uint32_t reference_run(const uint32_t *store, size_t store_words, const uint8_t *pattern, size_t pattern_bytes, const uint8_t *plan,
                       size_t plan_bytes, uint32_t *rows, size_t row_words, uint64_t answer[4]);

uint32_t reference_whether(const uint32_t *store, size_t store_words, const uint8_t *pattern, size_t pattern_bytes, const uint8_t *plan,
                           size_t plan_bytes, uint64_t answer[4]);

/* The choices that question 20 leaves open at a place of an accepted pattern; their count, 0 where there is no such place. */
size_t reference_choices(const uint32_t *store, size_t store_words, const uint8_t *pattern, size_t pattern_bytes, uint32_t place,
                         uint8_t open[MOST_CHOICES]);

#endif
