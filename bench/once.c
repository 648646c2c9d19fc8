/* Each call once on each site and check of shops.c, for callgrind to count its instructions: behind each a dump, named as measure names its
 * lines. To be run with --toggle-collect of the calls, so that nothing else is counted. */
#include "closing.h"
#include "shops.h"

#include <stdio.h>
#include <valgrind/callgrind.h>

enum { ROW_WORDS = 1 << 20 };

static struct workload workload;
static uint32_t store[CLOSING_STORE_WORDS], rows[ROW_WORDS];

static void dump(const char *call, const char *check) {
    char name[128];
    snprintf(name, sizeof name, "%s\t%s\t%s", call, workload.site.name, check);
    CALLGRIND_DUMP_STATS_AT(name);
}

/* Whether a run has rows exactly where yes is told. */
static int count_check(size_t used, const struct named_file *check) {
    const struct file *file = &check->file;
    uint8_t plan[16];
    uint64_t answer[4];
    closing_plan(store, used, file->byte, file->size, plan, answer);
    dump("plan", check->name);
    const size_t plan_bytes = 2 * (size_t)answer[1];
    const uint32_t number = closing_run(store, used, file->byte, file->size, plan, plan_bytes, rows, ROW_WORDS, answer);
    dump("run", check->name);
    const int has_rows = number != 0 || answer[0] == CLOSING_ROWS;
    closing_whether(store, used, file->byte, file->size, plan, plan_bytes, answer);
    dump("whether", check->name);
    return has_rows == (answer[0] == CLOSING_YES);
}

int main(void) {
    int agree = 1;
    for (size_t k = 0; k < SITES; k++) {
        uint64_t answer[4];
        make_workload(k, &workload);
        closing_build(1000, workload.site.file.byte, workload.site.file.size, store, CLOSING_STORE_WORDS, answer);
        dump("build", "");
        const size_t used = (size_t)answer[1];
        for (size_t c = 0; c < workload.checks; c++)
            agree &= count_check(used, &workload.check[c]);
    }
    return !agree;
}
