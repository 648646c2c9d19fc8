#include "shops.h"

#include <stdio.h>
#include <stdlib.h>
#include <string.h>

/* ---- files */

/* An empty file of that name. */
static struct file *begin_file(struct named_file *named, const char *name, uint32_t number) {
    snprintf(named->name, sizeof named->name, name, (unsigned)number);
    named->file.size = 0;
    return &named->file;
}

static void copy_bytes(struct file *file, const uint8_t *bytes, size_t size) {
    memcpy(file->byte, bytes, file->size = size);
}

/* ---- checks: triple patterns of ?0 to ?7 and terms */

static void add_check(struct workload *workload, const char *name, uint32_t count, const uint32_t triple[][3]) {
    struct file *check = begin_file(&workload->check[workload->checks++], name, count);
    put_number(check, count);
    for (uint32_t i = 0; i < count; i++)
        for (int column = 0; column < 3; column++)
            put_number(check, triple[i][column]);
}

enum { COVERS = 1, IN = 2, WATCHES = 2, STATE = 3, BATTERY = 4, LEADS = 4, LOCKS = 5, SEES = 5, CLOSED = 40, OPEN = 41, AJAR = 42, LOW = 50, GOOD = 51 };

enum { FIRST_SENSOR = 1000, FIRST_DOOR = 3000, FIRST_ZONE = 5000 };

/* Other numbers for the terms of a shop: none; by first appearance, as tools/site_text.py numbers names, so that sensors and doors take
 * turns; or with gaps everywhere, in another order, over 16 bits or over 24. */
typedef uint32_t renaming(uint32_t t);

static uint32_t as_numbered(uint32_t t) {
    return t;
}

static uint32_t number_of[65536], next_number;

static uint32_t by_appearance(uint32_t t) {
    if (number_of[t] == 0)
        number_of[t] = next_number++;
    return number_of[t];
}

static uint32_t scattered(uint32_t t) {
    return (uint32_t)((uint64_t)t * 40503 % 65521);
}

static uint32_t widely_scattered(uint32_t t) {
    return (uint32_t)((uint64_t)t * 10368889 % 16777213);
}

/* The shapes of the S2RDF paper over a shop: star, path, snowflake and a cross join; none, few and many rows. */
static void add_shop_checks(struct workload *w, renaming *of) {
    const uint32_t s = variable(0), covers = term(COVERS), in = term(IN), state = term(STATE), battery = term(BATTERY);
    const uint32_t open = term(of(OPEN)), ajar = term(of(AJAR)), low = term(of(LOW)), good = term(of(GOOD));
    add_check(w, "one: open doors", 1, (const uint32_t[][3]){{s, state, open}});
    add_check(w, "one: all of a table", 1, (const uint32_t[][3]){{s, covers, variable(1)}});
    add_check(w, "path: sensors of open doors", 2, (const uint32_t[][3]){{s, covers, variable(1)}, {variable(1), state, open}});
    add_check(w, "star: door, zone, battery", 3,
              (const uint32_t[][3]){{s, covers, variable(1)}, {s, in, variable(2)}, {s, battery, variable(3)}});
    add_check(w, "snowflake: open, low battery", 4,
              (const uint32_t[][3]){{s, covers, variable(1)}, {s, in, variable(2)}, {variable(1), state, open}, {s, battery, low}});
    add_check(w, "cross join: low, open", 2, (const uint32_t[][3]){{s, battery, low}, {variable(1), state, open}});
    add_check(w, "none by the join: ajar", 3,
              (const uint32_t[][3]){{s, covers, variable(1)}, {s, in, variable(2)}, {variable(1), state, ajar}});
    add_check(w, "none by the counts", 2, (const uint32_t[][3]){{s, state, variable(1)}, {variable(1), state, variable(2)}});
    add_check(w, "path of 5", 5,
              (const uint32_t[][3]){{s, battery, good},
                                    {s, in, variable(1)},
                                    {variable(2), in, variable(1)},
                                    {variable(2), covers, variable(3)},
                                    {variable(3), state, open}});
    add_check(w, "star and path of 6", 6,
              (const uint32_t[][3]){{s, covers, variable(1)},
                                    {s, in, variable(2)},
                                    {s, battery, variable(3)},
                                    {variable(1), state, open},
                                    {variable(4), in, variable(2)},
                                    {variable(4), battery, low}});
    add_check(w, "snowflake of 7", 7,
              (const uint32_t[][3]){{s, covers, variable(1)},
                                    {variable(1), state, variable(2)},
                                    {s, in, variable(3)},
                                    {variable(4), in, variable(3)},
                                    {variable(4), covers, variable(5)},
                                    {variable(5), state, open},
                                    {variable(4), battery, low}});
    add_check(w, "star of 8", 8,
              (const uint32_t[][3]){{s, covers, variable(1)},
                                    {s, in, variable(2)},
                                    {s, battery, variable(3)},
                                    {s, covers, variable(4)},
                                    {s, in, variable(5)},
                                    {s, battery, variable(6)},
                                    {variable(1), state, variable(7)},
                                    {variable(4), state, open}});
}

/* Checks that share an object: OO leaves fewer rows than any other kind, none, which the counts tell, or, against the same table, all. */
static void add_shared_door_checks(struct workload *w) {
    const uint32_t s = variable(0), door = variable(1), covers = term(COVERS), watches = term(WATCHES), locks = term(LOCKS);
    add_check(w, "two sensors on one door", 2, (const uint32_t[][3]){{s, covers, door}, {variable(2), watches, door}});
    add_check(w, "two sensors on one open door", 3,
              (const uint32_t[][3]){{s, covers, door}, {variable(2), watches, door}, {door, term(STATE), term(OPEN)}});
    add_check(w, "two sensors, one of low battery", 3,
              (const uint32_t[][3]){{s, covers, door}, {variable(2), watches, door}, {variable(2), term(BATTERY), term(LOW)}});
    add_check(w, "three sensors on one door", 3,
              (const uint32_t[][3]){{s, covers, door}, {variable(2), watches, door}, {variable(3), watches, door}});
    add_check(w, "none by the counts: covered and locked", 2, (const uint32_t[][3]){{s, covers, door}, {variable(2), locks, door}});
    add_check(w, "two contacts on one door", 2, (const uint32_t[][3]){{s, covers, door}, {variable(2), covers, door}});
}

/* Checks whose variables stand in a ring: when its other triple patterns are taken, the one that closes it has no variable that is not met. */
static void add_ring_checks(struct workload *w) {
    const uint32_t covers = term(COVERS), in = term(IN), state = term(STATE), leads = term(LEADS), sees = term(SEES), open = term(OPEN);
    const uint32_t a = variable(0), b = variable(1), c = variable(2), d = variable(3);
    add_check(w, "covers and sees one door", 3, (const uint32_t[][3]){{a, covers, b}, {a, in, c}, {a, sees, b}});
    add_check(w, "triangle: in its door's zone", 3, (const uint32_t[][3]){{a, covers, b}, {b, leads, c}, {a, in, c}});
    add_check(w, "triangle, and another door seen", 4, (const uint32_t[][3]){{a, covers, b}, {b, leads, c}, {a, sees, d}, {a, in, c}});
    add_check(w, "triangle at an open door, its zone", 5,
              (const uint32_t[][3]){{a, state, open}, {a, leads, b}, {c, in, b}, {d, in, b}, {c, covers, a}});
    add_check(w, "square: two sensors, door and zone", 4, (const uint32_t[][3]){{a, covers, b}, {c, covers, b}, {a, in, d}, {c, in, d}});
    add_check(w, "star that sees its door", 4, (const uint32_t[][3]){{a, covers, b}, {a, in, c}, {b, state, d}, {a, sees, b}});
    add_check(w, "two sensors of one zone see one door", 5,
              (const uint32_t[][3]){{a, sees, b}, {c, covers, b}, {a, in, d}, {c, in, d}, {c, sees, b}});
    add_check(w, "triangle seen beside an open door", 6,
              (const uint32_t[][3]){{a, leads, b}, {c, sees, a}, {d, state, open}, {c, in, b}, {c, covers, a}, {c, sees, d}});
}

/* ---- sites */

/* The predicates 1, 2 and so on, of which each has so many rows. */
static void put_declarations(struct file *site, uint32_t predicates, const uint32_t *count) {
    put_number(site, predicates);
    for (uint32_t p = 0; p < predicates; p++) {
        put_number(site, p + 1);
        put_number(site, count[p]);
    }
}

/* A shop of so many rows: three in ten are sensors that cover a door, and as many that sit in a zone; two in ten are doors with their
 * state, and as many sensors with their battery. One door in eight is open, one battery in eight is low. */
static void make_shop(struct workload *w, const char *name, uint32_t rows, renaming *of) {
    static struct row row[1024];
    uint32_t sensors = rows * 3 / 10, doors = rows / 5, batteries = rows - 2 * sensors - doors, zones = 1 + rows / 40;
    const uint32_t count[4] = {sensors, sensors, doors, batteries};
    struct file *site = begin_file(&w->site, name, rows);
    w->rows = rows;
    put_declarations(site, 4, count);
    memset(number_of, 0, sizeof number_of);
    next_number = BATTERY + 1;
    for (uint32_t p = 0; p < 4; p++) {
        for (uint32_t r = 0; r < count[p]; r++) {
            const uint32_t object[4] = {FIRST_DOOR + r * doors / sensors, FIRST_ZONE + r % zones, r % 8 == 5 ? OPEN : CLOSED, r % 8 == 3 ? LOW : GOOD};
            row[r].subject = of(p == 2 ? FIRST_DOOR + r : FIRST_SENSOR + r);
            row[r].object = of(object[p]);
        }
        qsort(row, count[p], sizeof *row, compare_rows);
        for (uint32_t r = 0; r < count[p]; r++)
            put_row(site, row[r]);
    }
    add_shop_checks(w, of);
}

/* A shop of so many rows whose predicates share doors: one row in five is a door with its state. Doors go in fours: two contacts cover each of
 * the first three, two cameras watch each of the last two, two locks hold each last one; so a third of the contacts and half of the cameras have
 * a door in common, contacts and locks none. The other rows are batteries, a quarter of them of contacts, the rest of cameras. One door in
 * five is open, one battery in five is low. */
static void make_watched_shop(struct workload *w, const char *name, uint32_t rows) {
    const uint32_t doors = rows / 5, contacts = 2 * (doors - doors / 4), cameras = 2 * (doors / 2), locks = 2 * (doors / 4);
    const uint32_t batteries = rows - contacts - cameras - doors - locks, first_camera = FIRST_SENSOR + contacts;
    const uint32_t count[5] = {contacts, cameras, doors, batteries, locks};
    const uint32_t first[5] = {FIRST_SENSOR, first_camera, FIRST_DOOR, first_camera - batteries / 4, first_camera + cameras};
    struct file *site = begin_file(&w->site, name, rows);
    w->rows = rows;
    put_declarations(site, 5, count);
    for (uint32_t p = 0; p < 5; p++)
        for (uint32_t r = 0; r < count[p]; r++) {
            const uint32_t covered = r / 6 * 4 + r / 2 % 3, watched = r / 4 * 4 + 2 + r / 2 % 2, locked = r / 2 * 4 + 3;
            const uint32_t object[5] = {FIRST_DOOR + covered, FIRST_DOOR + watched, r % 5 == 2 ? OPEN : CLOSED, r % 5 == 3 ? LOW : GOOD,
                                        FIRST_DOOR + locked};
            put_row(site, (struct row){first[p] + r, object[p]});
        }
    add_shared_door_checks(w);
}

/* A shop of so many rows whose doors lead to zones: three in ten are sensors that cover a door, and as many that sit in a zone, every other one
 * in that of its door; one in eight is a door with its state, and as many with the zone that it leads to. The others are sensors that see a door,
 * two of three the one that they cover. One door in eight is open. */
static void make_ringed_shop(struct workload *w, const char *name, uint32_t rows) {
    const uint32_t sensors = rows * 3 / 10, doors = rows / 8, zones = 1 + rows / 40, seeing = rows - 2 * sensors - 2 * doors;
    const uint32_t count[5] = {sensors, sensors, doors, doors, seeing}, first[5] = {FIRST_SENSOR, FIRST_SENSOR, FIRST_DOOR, FIRST_DOOR, FIRST_SENSOR};
    struct file *site = begin_file(&w->site, name, rows);
    w->rows = rows;
    put_declarations(site, 5, count);
    for (uint32_t p = 0; p < 5; p++)
        for (uint32_t r = 0; r < count[p]; r++) {
            const uint32_t door = r % doors;
            const uint32_t object[5] = {FIRST_DOOR + door, FIRST_ZONE + (door + r / doors % 2) % zones, r % 8 == 5 ? OPEN : CLOSED,
                                        FIRST_ZONE + r % zones, FIRST_DOOR + (door + (r % 3 == 2)) % doors};
            put_row(site, (struct row){first[p] + r, object[p]});
        }
    add_ring_checks(w);
}

/* 01's worked shop, and its check. */
static void make_worked(struct workload *w) {
    static const uint8_t site[] = {3, 1, 3, 2, 2, 3, 2, 10, 20, 11, 21, 12, 21, 10, 30, 11, 30, 20, 40, 21, 41};
    static const uint8_t check[] = {3, 1, 2, 3, 1, 4, 5, 3, 6, 82};
    copy_bytes(begin_file(&w->site, "worked shop", 0), site, sizeof site);
    copy_bytes(begin_file(&w->check[0], "01's check", 0), check, sizeof check);
    w->rows = 7;
    w->checks = 1;
}

/* Tables of so many predicates and rows each, whose subjects and objects have no partner in another table, or partners everywhere. */
static void make_tables(struct workload *w, const char *name, uint32_t predicates, uint32_t each, int partners) {
    uint32_t count[16];
    struct file *site = begin_file(&w->site, name, predicates);
    w->rows = predicates * each;
    for (uint32_t p = 0; p < predicates; p++)
        count[p] = each;
    put_declarations(site, predicates, count);
    for (uint32_t p = 0; p < predicates; p++)
        for (uint32_t r = 0; r < each; r++)
            put_row(site, partners ? (struct row){r + 1, each - r} : (struct row){100 + p * each + r, 10000 + p * each + r});
    add_check(w, "one: all of a table", 1, (const uint32_t[][3]){{variable(0), term(1), variable(1)}});
    if (predicates > 1) {
        add_check(w, "path of 2", 2, (const uint32_t[][3]){{variable(0), term(1), variable(1)}, {variable(1), term(2), variable(2)}});
        add_check(w, "path of 4", 4,
                  (const uint32_t[][3]){{variable(0), term(1), variable(1)},
                                        {variable(1), term(2), variable(2)},
                                        {variable(2), term(3), variable(3)},
                                        {variable(3), term(4), variable(4)}});
    }
}

void make_workload(size_t k, struct workload *w) {
    memset(w, 0, sizeof *w);
    switch (k) {
    case 0:
        make_worked(w);
        break;
    case 5:
        make_tables(w, "%u x 64 rows, no partner", 16, 64, 0);
        break;
    case 6:
        make_tables(w, "%u x 64 rows, partners", 16, 64, 1);
        break;
    case 7:
        make_tables(w, "%u x 1,024 rows, no partner", 1, 1024, 0);
        break;
    case 8:
    case 9:
        make_shop(w, "named shop of %u rows", k == 8 ? 256 : 1024, by_appearance);
        break;
    case 10:
    case 11:
        make_shop(w, "scattered shop of %u rows", k == 10 ? 256 : 1024, scattered);
        break;
    case 12:
    case 13:
        make_shop(w, "24-bit shop of %u rows", k == 12 ? 256 : 1024, widely_scattered);
        break;
    case 14:
    case 15:
        make_watched_shop(w, "watched shop of %u rows", k == 14 ? 256 : 1024);
        break;
    case 16:
    case 17:
        make_ringed_shop(w, "ringed shop of %u rows", k == 16 ? 256 : 1024);
        break;
    default:
        make_shop(w, "shop of %u rows", 4u << (2 * k), as_numbered);
    }
}
