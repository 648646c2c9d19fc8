#include "peer.h"

#include <malloc.h>
#include <sqlite3.h>
#include <stdio.h>
#include <stdlib.h>
#include <string.h>

enum { MOST_TRIPLES = 8, MOST_VARIABLES = 8, COLUMNS = 3 };

/* A prepared statement and the words of its rows. */
struct query {
    sqlite3_stmt *statement;
    uint32_t width;
};

struct peer {
    sqlite3 *database;
    struct query rows, whether;
    sqlite3_stmt *quick_check;
};

/* ---- calls of SQLite that must succeed */

static void expect(sqlite3 *database, int is_expected) {
    if (is_expected)
        return;
    fprintf(stderr, "SQLite: %s\n", sqlite3_errmsg(database));
    exit(2);
}

static void execute(sqlite3 *database, const char *text) {
    expect(database, sqlite3_exec(database, text, NULL, NULL, NULL) == SQLITE_OK);
}

static sqlite3_stmt *prepare(sqlite3 *database, const char *text) {
    sqlite3_stmt *statement = NULL;
    expect(database, sqlite3_prepare_v2(database, text, -1, &statement, NULL) == SQLITE_OK);
    return statement;
}

static void bind_term(sqlite3_stmt *statement, int parameter, uint32_t term) {
    expect(sqlite3_db_handle(statement), sqlite3_bind_int(statement, parameter, (int)term) == SQLITE_OK);
}

/* ---- numbers of a good file: seven bits a byte, low group first */

struct reader {
    const uint8_t *next, *end;
};

static uint32_t read_number(struct reader *reader) {
    uint32_t value = 0;
    for (unsigned shift = 0; reader->next < reader->end; shift += 7) {
        uint8_t byte = *reader->next++;
        value |= (uint32_t)(byte & 0x7F) << shift;
        if (byte < 0x80)
            break;
    }
    return value;
}

/* ---- loading */

/* As SQLite advises for speed: no mutex, as there is one thread, and no statistics of memory. It takes this only before its first use. */
static void configure(void) {
    static int is_configured;
    if (is_configured)
        return;
    if (sqlite3_config(SQLITE_CONFIG_SINGLETHREAD) != SQLITE_OK || sqlite3_config(SQLITE_CONFIG_MEMSTATUS, 0) != SQLITE_OK) {
        fprintf(stderr, "SQLite: in use before peer_load\n");
        exit(2);
    }
    is_configured = 1;
}

/* No journal, no locks and no files: nothing of this outlives the program, so nothing is kept safe. */
static const char settings[] = "PRAGMA journal_mode = OFF; PRAGMA synchronous = OFF; PRAGMA temp_store = MEMORY;"
                               "PRAGMA locking_mode = EXCLUSIVE; PRAGMA cache_size = -65536;";

/* The key finds a fact by its subject, the index by its object; both hold all of the fact, so that no look-up goes through two trees. */
static const char table[] = "CREATE TABLE fact(s INTEGER, p INTEGER, o INTEGER, PRIMARY KEY (p, s, o)) WITHOUT ROWID";
static const char by_object[] = "CREATE INDEX fact_by_object ON fact(p, o, s)";

/* ANALYZE helps, on the shops of shops.c, from 256 facts on (half of the time for a query) but not up to 64 (a fifth more of it). */
enum { LEAST_ANALYZED = 128 };

static void insert_rows(sqlite3_stmt *insert, struct reader *reader, uint32_t predicate, uint32_t count) {
    bind_term(insert, 2, predicate);
    for (uint32_t row = 0; row < count; row++) {
        bind_term(insert, 1, read_number(reader));
        bind_term(insert, 3, read_number(reader));
        expect(sqlite3_db_handle(insert), sqlite3_step(insert) == SQLITE_DONE);
        sqlite3_reset(insert);
    }
}

/* Gives the count of facts. */
static uint32_t insert_site(sqlite3 *database, const uint8_t *site, size_t site_bytes) {
    struct reader heads = {site, site + site_bytes}, rows;
    uint32_t predicates = read_number(&heads), facts = 0;
    rows = heads;
    for (uint32_t number = 0; number < 2 * predicates; number++)
        read_number(&rows);
    sqlite3_stmt *insert = prepare(database, "INSERT INTO fact(s, p, o) VALUES (?, ?, ?)");
    for (uint32_t i = 0; i < predicates; i++) {
        uint32_t predicate = read_number(&heads), count = read_number(&heads);
        insert_rows(insert, &rows, predicate, count);
        facts += count;
    }
    sqlite3_finalize(insert);
    return facts;
}

struct peer *peer_load(const uint8_t *site, size_t site_bytes) {
    struct peer *peer = calloc(1, sizeof *peer);
    if (!peer)
        abort();
    configure();
    int result = sqlite3_open(":memory:", &peer->database);
    expect(peer->database, result == SQLITE_OK);
    execute(peer->database, settings);
    execute(peer->database, "BEGIN");
    execute(peer->database, table);
    uint32_t facts = insert_site(peer->database, site, site_bytes);
    /* An index over rows that are there already takes less time than one that grows with each. */
    execute(peer->database, by_object);
    if (facts >= LEAST_ANALYZED)
        execute(peer->database, "ANALYZE");
    execute(peer->database, "COMMIT");
    return peer;
}

void peer_close(struct peer *peer) {
    sqlite3_finalize(peer->rows.statement);
    sqlite3_finalize(peer->whether.statement);
    sqlite3_finalize(peer->quick_check);
    expect(peer->database, sqlite3_close(peer->database) == SQLITE_OK);
    free(peer);
}

/* ---- the self-join of a check */

/* A column of one of the joined tables: f2.o is {2, 'o'}. */
struct column {
    uint32_t place;
    char name;
};

struct check {
    uint32_t triples, width;
    uint32_t position[MOST_TRIPLES][COLUMNS];
    struct column first_use[MOST_VARIABLES];
};

static const char column_name[COLUMNS] = {'s', 'p', 'o'};

static int is_variable(uint32_t position) {
    return position % 2 == 1;
}

static struct check read_check(const uint8_t *pattern, size_t pattern_bytes) {
    struct reader reader = {pattern, pattern + pattern_bytes};
    struct check check = {.triples = read_number(&reader)};
    for (uint32_t i = 0; i < check.triples; i++)
        for (int k = 0; k < COLUMNS; k++) {
            uint32_t position = check.position[i][k] = read_number(&reader);
            if (is_variable(position) && position / 2 == check.width)
                check.first_use[check.width++] = (struct column){i, column_name[k]};
        }
    return check;
}

static void put_column(sqlite3_str *text, struct column column) {
    sqlite3_str_appendf(text, "f%u.%c", column.place, column.name);
}

static int is_same(struct column a, struct column b) {
    return a.place == b.place && a.name == b.name;
}

/* What a column must equal: a parameter, or the first use of its variable, which itself needs no condition. */
static void put_condition(sqlite3_str *text, const struct check *check, struct column column, uint32_t position, const char **separator) {
    if (is_variable(position) && is_same(column, check->first_use[position / 2]))
        return;
    sqlite3_str_appendall(text, *separator);
    *separator = " AND ";
    put_column(text, column);
    sqlite3_str_appendall(text, " = ");
    if (is_variable(position))
        put_column(text, check->first_use[position / 2]);
    else
        sqlite3_str_appendall(text, "?");
}

static void put_conditions(sqlite3_str *text, const struct check *check) {
    const char *separator = " WHERE ";
    for (uint32_t i = 0; i < check->triples; i++)
        for (int k = 0; k < COLUMNS; k++)
            put_condition(text, check, (struct column){i, column_name[k]}, check->position[i][k], &separator);
}

static void put_variables(sqlite3_str *text, const struct check *check, uint32_t width, const char *before) {
    for (uint32_t v = 0; v < width; v++) {
        sqlite3_str_appendall(text, v == 0 ? before : ", ");
        put_column(text, check->first_use[v]);
    }
}

static void put_tables(sqlite3_str *text, const struct check *check) {
    for (uint32_t i = 0; i < check->triples; i++)
        sqlite3_str_appendf(text, "%s fact AS f%u", i == 0 ? " FROM" : ",", i);
}

/* The terms of all variables, or of none: then only whether there is a row. DISTINCT is not needed: the terms of all variables say which fact
 * each table gives, and no fact is there twice. */
static char *query_text(sqlite3 *database, const struct check *check, uint32_t width) {
    sqlite3_str *text = sqlite3_str_new(database);
    put_variables(text, check, width, "SELECT ");
    if (width == 0)
        sqlite3_str_appendall(text, "SELECT 1");
    put_tables(text, check);
    put_conditions(text, check);
    put_variables(text, check, width, " ORDER BY ");
    if (width == 0)
        sqlite3_str_appendall(text, " LIMIT 1");
    return sqlite3_str_finish(text);
}

static void bind_terms(sqlite3_stmt *statement, const struct check *check) {
    int parameter = 0;
    for (uint32_t i = 0; i < check->triples; i++)
        for (int k = 0; k < COLUMNS; k++)
            if (!is_variable(check->position[i][k]))
                bind_term(statement, ++parameter, check->position[i][k] / 2);
}

/* A query takes the place of the one before. */
static void prepare_query(sqlite3 *database, const struct check *check, uint32_t width, struct query *query) {
    char *text = query_text(database, check, width);
    sqlite3_finalize(query->statement);
    *query = (struct query){prepare(database, text), width};
    bind_terms(query->statement, check);
    sqlite3_free(text);
}

void peer_prepare(struct peer *peer, const uint8_t *pattern, size_t pattern_bytes) {
    struct check check = read_check(pattern, pattern_bytes);
    prepare_query(peer->database, &check, check.width, &peer->rows);
    prepare_query(peer->database, &check, 0, &peer->whether);
}

/* ---- running */

/* ORDER BY may have to sort all rows of a cross join before it gives the first: only the memory that it takes says that they do not fit. */
enum { INSTRUCTIONS_BETWEEN_LOOKS = 1 << 20, OTHER_BYTES = 1 << 20 };

/* The bytes allocated at the first look, 0 before it, and how many more show that the rows do not fit. */
struct watch {
    size_t first, most_more;
};

/* More than SQLite's sorter takes for the rows that fit: each is an allocation of at most 17 + 4 x width bytes. */
static struct watch make_watch(size_t row_words, uint32_t width) {
    size_t rows = width == 0 ? 1 : row_words / width + 1;
    return (struct watch){.most_more = OTHER_BYTES + rows * (64 + 8 * (size_t)width)};
}

/* SQLite asks this once in a million instructions, so that a short query pays nothing for it, and stops where it is not 0. */
static int holds_too_much(void *data) {
    struct watch *watch = data;
    struct mallinfo2 now = mallinfo2();
    size_t bytes = now.uordblks + now.hblkhd;
    if (watch->first == 0)
        watch->first = bytes;
    return bytes > watch->first + watch->most_more;
}

/* Steps to the end; SIZE_MAX where the rows do not fit. */
static size_t take_rows(sqlite3 *database, const struct query *query, uint32_t *rows, size_t row_words) {
    size_t count = 0;
    int result;
    while ((result = sqlite3_step(query->statement)) == SQLITE_ROW) {
        if (query->width > row_words)
            return SIZE_MAX;
        for (uint32_t v = 0; v < query->width; v++)
            *rows++ = (uint32_t)sqlite3_column_int(query->statement, (int)v);
        row_words -= query->width;
        count++;
    }
    expect(database, result == SQLITE_DONE || result == SQLITE_INTERRUPT);
    return result == SQLITE_DONE ? count : SIZE_MAX;
}

static size_t run_query(sqlite3 *database, const struct query *query, uint32_t *rows, size_t row_words) {
    struct watch watch = make_watch(row_words, query->width);
    sqlite3_progress_handler(database, INSTRUCTIONS_BETWEEN_LOOKS, holds_too_much, &watch);
    size_t count = take_rows(database, query, rows, row_words);
    sqlite3_progress_handler(database, 0, NULL, NULL);
    sqlite3_reset(query->statement);
    return count;
}

size_t peer_query(struct peer *peer, uint32_t *rows, size_t row_words, uint32_t *width) {
    *width = peer->rows.width;
    return run_query(peer->database, &peer->rows, rows, row_words);
}

int peer_whether(struct peer *peer) {
    size_t count = run_query(peer->database, &peer->whether, NULL, 0);
    /* it sorts nothing, so that it is not stopped for its memory */
    expect(peer->database, count <= 1);
    return count == 1;
}

int peer_quick_check(struct peer *peer) {
    int result, is_ok = 0;
    if (!peer->quick_check)
        peer->quick_check = prepare(peer->database, "PRAGMA quick_check");
    while ((result = sqlite3_step(peer->quick_check)) == SQLITE_ROW)
        is_ok = strcmp((const char *)sqlite3_column_text(peer->quick_check, 0), "ok") == 0;
    expect(peer->database, result == SQLITE_DONE);
    sqlite3_reset(peer->quick_check);
    return is_ok;
}
