/* Files as the tests and the benchmark write them. The reference has no part in this: it reads files by document 01 alone. */
#ifndef FILES_H
#define FILES_H

#include <stddef.h>
#include <stdint.h>

enum { FILE_BYTES = 16384 };

struct file {
    size_t size;
    uint8_t byte[FILE_BYTES];
};

/* A byte that does not fit is left out. */
static inline void put_byte(struct file *file, uint32_t byte) {
    if (file->size < FILE_BYTES)
        file->byte[file->size++] = (uint8_t)byte;
}

/* Seven bits a byte, low group first, in shortest form. */
static inline void put_number(struct file *file, uint32_t value) {
    for (; value >= 0x80; value >>= 7)
        put_byte(file, (value & 0x7F) | 0x80);
    put_byte(file, value);
}

/* ---- the rows of a site */

struct row {
    uint32_t subject, object;
};

/* For qsort: the order that rows have in a table. */
static inline int compare_rows(const void *a, const void *b) {
    const struct row *r = a, *q = b;
    return r->subject != q->subject ? (r->subject > q->subject) - (r->subject < q->subject) : (r->object > q->object) - (r->object < q->object);
}

static inline void put_row(struct file *file, struct row row) {
    put_number(file, row.subject);
    put_number(file, row.object);
}

/* ---- the positions of a check */

static inline uint32_t variable(uint32_t v) {
    return 2 * v + 1;
}

static inline uint32_t term(uint32_t t) {
    return 2 * t;
}

#endif
