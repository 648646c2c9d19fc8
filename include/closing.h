/* closing.h - the closing-check engine: builds a site's tables, plans a check over them, runs it or tells whether it has a solution.
 *
 * Link with libclosing.a, which `tools/build archive` writes; x86-64 Linux. What each call does is proved, for every input, against
 * the definitions in crates/model/specs/Calls.antt; this text says it in words. "01" is the project's scope document.
 *
 * THE FOUR CALLS. closing_build turns the file of a site into a store, closing_plan plans a check over a store, closing_run runs a
 * plan and gives the rows, or none, and closing_whether, for a lamp, only tells whether there is a row. Each call asks its own
 * questions of everything that it is given, in the order of the list below, and asks no earlier check of its caller: a store, a check
 * or a plan may come from anywhere.
 *
 * WHAT IS RETURNED. 0, and then `answer` holds the kind of the answer and its values, unused words 0. Or the number of the first
 * question that was answered no, 1 to 21, and then no lent memory is altered, `answer` included.
 *
 * NONE. CLOSING_NONE and CLOSING_NO are said only of a store that is, word for word, that of a site, and only where that whole site
 * holds no match: of one store, check and plan closing_run says none exactly where closing_whether says no. A site that was not read
 * whole has no store: closing_build refuses it. Whoever answers a refusal with "nothing open" undoes this.
 *
 * MEMORY. Pieces of memory lent to one call must not overlap, but that what is only read may overlap what is only read. Words are
 * uint32_t, aligned to 4, in the machine's own byte order, and so is a store that is kept in a file; `answer` is aligned to 8. Bytes
 * need no alignment. No pointer may be null, not even with a length of 0: then any other aligned address will do, and nothing is read
 * or written through it. Lengths are counts of elements, bytes or words.
 *
 * STATE, STACK, TIME. No call keeps state or allocates: calls may run side by side on memory of their own. On x86-64 a call of
 * closing_build was measured to need 16.3 KiB of stack, closing_plan 7.8 KiB, closing_run and closing_whether 7.4 KiB. closing_build
 * compares each row with each other one a few times: at most some ten million comparisons at 1,024 rows. The other calls walk or search
 * the sorted tables: at most about R log R steps for each pair of tables. Beside that, closing_run and closing_whether ask each part of
 * the check that shares no variable with the rest whether it has a solution, at worst in the product of the rows of that part's tables;
 * if one has none, the answer is none, or no. closing_whether ends there: a solution that is met early costs little, one that is met late
 * what comes before it. closing_run then counts and writes, up to one row more than fit, and searches a part anew for each solution of
 * the parts before it. A plan may take the triple patterns in any order: where they are not linked in it, those of a part are put
 * together first.
 */
#ifndef CLOSING_H
#define CLOSING_H

#include <stddef.h>
#include <stdint.h>

#ifdef __cplusplus
extern "C" {
#endif

/* Raised when the inputs of a call, their limits or the numbers of an answer change. Since 2 there is closing_whether. Since 3 a term is at
 * most 16,777,215 and a number has up to 4 bytes; files that were accepted before mean what they meant (a law: FilesMeanWhatTheyMeant
 * in crates/model/proofs/Demands/Kept.antt). Since 4 there is a fourth kind of reduced table, OO: a store lists four kinds for each pair of
 * predicates, and a choice is 1 + 4j + k. A store that was kept from before is refused with 10 (a law: ThreeKindsRefused in
 * crates/model/proofs/Demands/SharedObjects.antt), so build it anew from its site's file; a plan that was kept must be made anew, by
 * closing_plan. */
#define CLOSING_VERSION 4

/* A store of this many words holds every site at every threshold: with it closing_build never returns 9 (a law: StoreWordsSuffice
 * in crates/model/proofs/Demands/Store.antt). Most sites need far fewer; 01's shop needs 102. */
#define CLOSING_STORE_WORDS 135219

/* Kinds of reduced tables: the rows of a predicate p that have a partner among those of a predicate q, which may be p.
 *    0  SS  whose subject is a subject in q        1  OS  whose object is a subject in q
 *    2  SO  whose subject is an object in q        3  OO  whose object is an object in q
 * A step of a plan is the place of a triple pattern and a choice: 0 for all rows of its predicate, or 1 + 4j + k for kind k against the
 * triple pattern at place j, where those positions hold one variable and the table is stored. */

/* Kinds of answers, in answer[0], and what stands behind them in answer[1] and answer[2]. answer[3] is 0. */
#define CLOSING_ROWS 1  /* the count of rows, at least 1; the words of each row, V */
#define CLOSING_NONE 2  /* no solution; 0, 0 */
#define CLOSING_BUILT 3 /* the count of the store's words used; 0 */
#define CLOSING_PLAN 4  /* the count of steps; 0 */
#define CLOSING_YES 5   /* a solution; 0, 0 */
#define CLOSING_NO 6    /* no solution; 0, 0 */

/* Refusals: the question that was answered no. Those of one file are asked as its bytes are read, from the front; the form of a
 * number (1 to 4 bytes, seven bits each, low group first, in shortest form) is questioned before its field.
 *
 * closing_build:
 *    1  Is T at most 1,000?
 *    2  Is each number of the site whole and in shortest form?
 *    3  Is the count of predicates at most 16?
 *    4  Is each predicate a term (at most 16,777,215) above the one before?
 *    5  Is the running total of rows at most 1,024?
 *    6  Is each subject and object a term?
 *    7  Is each row above the one before in its table?
 *    8  Does the site's file end there?
 *    9  Does the lent store hold the words needed?
 * closing_plan, closing_run and closing_whether:
 *   10  Are the store's words what some site and some T give? Its first "words used" words are compared in full.
 *   11  Is each number of the pattern whole and in shortest form?
 *   12  Is the count of triple patterns 1 to 8?
 *   13  Is the predicate a term position?
 *   14  Is the predicate declared in the store?
 *   15  Is each other fixed position a term?
 *   16  Is each variable at most 7, and in first-use order?
 *   17  Does the pattern's file end there?
 * closing_run and closing_whether:
 *   18  Is each number of the plan whole and in shortest form, with a step for each triple pattern and no more bytes?
 *   19  Is the place a triple pattern's, and not yet used?
 *   20  Is the choice 0, or a table that is stored and qualifies?
 * closing_run:
 *   21  Do the rows fit the lent words? Asked only where there are rows; rows of no words always fit. */

/* Builds the store of a site.
 *   t            the threshold T, 0 to 1,000: a reduced table is stored if it has rows and 1,000 x its rows < T x those of its table
 *   site         the site's file, `site_bytes` bytes
 *   store        `store_words` words to fill; those past the words used keep their content
 *   answer       CLOSING_BUILT and the count of words used
 * Returns 0, or 1 to 9. */
uint32_t closing_build(uint32_t t, const uint8_t *site, size_t site_bytes, uint32_t *store, size_t store_words, uint64_t answer[4]);

/* Plans a check over a store: the smallest stored table for each triple pattern, and an order that joins by shared variables.
 *   store        `store_words` words; those past the words used are not looked at
 *   pattern      the check's file, `pattern_bytes` bytes
 *   plan         the place and the choice of each step, 0 past the last: plan[0 .. 2 x steps] is what closing_run takes
 *   answer       CLOSING_PLAN and the count of steps
 * Returns 0, or 10 to 17. A plan is given also where the answer will be none. */
uint32_t closing_plan(const uint32_t *store, size_t store_words, const uint8_t *pattern, size_t pattern_bytes, uint8_t plan[16],
                      uint64_t answer[4]);

/* Runs a plan of a check over a store.
 *   store, pattern   as for closing_plan
 *   plan             the plan's file, `plan_bytes` bytes: closing_plan's, or any other that takes each triple pattern once. The rows
 *                    are the same for every plan that is accepted
 *   rows             `row_words` words for rows of V words each, variable 0 first, ascending, each once; words past them, and all of
 *                    them where the answer is none, keep their content
 *   answer           CLOSING_ROWS, the count of rows and V; or CLOSING_NONE
 * Returns 0, or 10 to 21. */
uint32_t closing_run(const uint32_t *store, size_t store_words, const uint8_t *pattern, size_t pattern_bytes, const uint8_t *plan,
                     size_t plan_bytes, uint32_t *rows, size_t row_words, uint64_t answer[4]);

/* Tells whether a check over a store has a solution. The first solution that is met ends the call: none is counted or written.
 *   store, pattern, plan   as for closing_run; what is told is the same for every plan that is accepted
 *   answer                 CLOSING_YES or CLOSING_NO
 * Returns 0, or 10 to 20: no rows memory is lent, so 21 is not asked. */
uint32_t closing_whether(const uint32_t *store, size_t store_words, const uint8_t *pattern, size_t pattern_bytes, const uint8_t *plan,
                         size_t plan_bytes, uint64_t answer[4]);

#ifdef __cplusplus
}
#endif

#endif
