/* The sites and the checks that are measured. */
#ifndef SHOPS_H
#define SHOPS_H

#include "files.h"

enum { SITES = 18, CHECKS = 12 };

struct named_file {
    char name[40];
    struct file file;
};

struct workload {
    struct named_file site;
    uint32_t rows;
    size_t checks;
    struct named_file check[CHECKS];
};

/* The k-th of SITES: the worked shop, shops of 16, 64, 256 and 1,024 rows, the worst sites for semi-joins, shops whose
 * columns have gaps: their terms numbered by first appearance, or scattered over 16 bits or over 24; shops whose predicates share doors, with
 * checks of two sensors on one door; and shops whose doors lead to zones, with checks whose variables stand in a ring. */
void make_workload(size_t k, struct workload *workload);

#endif
