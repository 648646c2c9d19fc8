/* The facts of one site in SQLite, in memory: what the engine is measured against.
 *
 * Sites and checks are taken to be good: ask the engine first. A failure of SQLite is printed and ends the program with status 2.
 * For a program of one thread that does not use SQLite before the first peer_load; with glibc. */
#ifndef PEER_H
#define PEER_H

#include <stddef.h>
#include <stdint.h>

struct peer;

/* A database with the facts of a site, as one indexed table. */
struct peer *peer_load(const uint8_t *site, size_t site_bytes);

/* Prepares a check as a self-join, its terms bound: with ORDER BY for its rows, and with LIMIT 1 for whether there is one. It takes the
 * place of the check before. */
void peer_prepare(struct peer *peer, const uint8_t *pattern, size_t pattern_bytes);

/* Runs the prepared check to its end: the rows as closing_run writes them, their count and their width. It stops where they do not fit,
 * and then gives SIZE_MAX, and the content of `rows` is open. It may be called again and again. */
size_t peer_query(struct peer *peer, uint32_t *rows, size_t row_words, uint32_t *width);

/* 1 if the prepared check has a row: the first ends it. */
int peer_whether(struct peer *peer);

/* PRAGMA quick_check: 1 if it says ok. Its statement is prepared at the first call, so one call comes before those that are timed. */
int peer_quick_check(struct peer *peer);

void peer_close(struct peer *peer);

#endif
