#define _DEFAULT_SOURCE
#include "lent.h"

#include <stdio.h>
#include <stdlib.h>
#include <string.h>
#include <sys/mman.h>
#include <unistd.h>

enum { MARK = 0x5A };

static size_t page(void) {
    return (size_t)sysconf(_SC_PAGESIZE);
}

struct lent lent_make(size_t most) {
    size_t room = (most + page() - 1) / page() * page();
    uint8_t *all = mmap(NULL, room + 2 * page(), PROT_NONE, MAP_PRIVATE | MAP_ANONYMOUS, -1, 0);
    if (all == MAP_FAILED || mprotect(all + page(), room, PROT_READ | PROT_WRITE) != 0) {
        perror("memory to lend");
        exit(2);
    }
    return (struct lent){.pages = all + page(), .room = room};
}

/* What is left, beside the lent bytes, of the page in which they begin or end. */
static uint8_t *beside(const struct lent *lent) {
    size_t left = (page() - lent->size % page()) % page();
    return lent->at_end ? lent->data - left : lent->data + lent->size;
}

void lent_fill(struct lent *lent, const void *content, size_t size, int at_end) {
    if (size > lent->room)
        abort();
    lent->data = at_end ? lent->pages + lent->room - size : lent->pages;
    lent->size = size;
    lent->at_end = at_end;
    memset(beside(lent), MARK, (page() - size % page()) % page());
    if (size > 0)
        memcpy(lent->data, content, size);
}

int lent_is_marked(const struct lent *lent) {
    const uint8_t *at = beside(lent), *end = at + (page() - lent->size % page()) % page();
    while (at < end)
        if (*at++ != MARK)
            return 0;
    return 1;
}
