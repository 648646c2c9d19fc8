/* Memory that is lent to the archive: it ends at a page without access, or begins after one. */
#ifndef LENT_H
#define LENT_H

#include <stddef.h>
#include <stdint.h>

struct lent {
    uint8_t *pages;
    size_t room;
    uint8_t *data;
    size_t size;
    int at_end;
};

/* Room for so many bytes between two pages without access. */
struct lent lent_make(size_t most);

/* Lends a copy of `size` bytes: at the end of the room, or at its front. The rest of its page is filled with a mark. */
void lent_fill(struct lent *lent, const void *content, size_t size, int at_end);

/* The mark still stands beside what was lent. */
int lent_is_marked(const struct lent *lent);

#endif
