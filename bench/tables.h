/* Random tables, good and damaged. All come from a seed, so that a run can be repeated. */
#ifndef BENCH_TABLES_H
#define BENCH_TABLES_H

#include <stddef.h>
#include <stdint.h>

#define TABLE_ROOM 4096 /* the longest table is 2,574 bytes; damaged ones may be longer */

struct bytes {
    size_t len;
    uint8_t at[TABLE_ROOM];
};

struct random {
    uint64_t state;
};

uint64_t random_next(struct random *r);
/* A number from 0 to below - 1. */
uint64_t random_below(struct random *r, uint64_t below);

enum load { LOAD_FULL, LOAD_NEAR, LOAD_HALF, LOAD_LIGHT, LOAD_OVER, LOADS };
enum periods { PERIODS_ANY, PERIODS_SMALL, PERIODS_MIDDLE, PERIODS_LARGE, PERIODS_ONE, PERIODS_SET, PERIODS };

struct wish {
    unsigned processors;
    uint32_t scale;
    unsigned planes;
    unsigned count;
    enum load load;
    enum periods periods;
    int equal; /* all tasks with the same c and p: many ties */
};

/* Writes a table as wished, its tags and their order random. Where the scale has no room for so many, it is overloaded. */
void table_make(struct bytes *table, struct random *r, const struct wish *wish);
/* A header without rows, and a row behind the last. */
void table_header(struct bytes *table, unsigned processors, uint32_t scale, unsigned planes);
void table_row(struct bytes *table, unsigned tag, uint32_t execution, uint32_t period);
/* Any wish, its plan of at most about `segments` segments. */
struct wish random_wish(struct random *r, unsigned segments);
/* Damages a table in one of many ways. */
void table_damage(struct bytes *table, struct random *r);
/* The bytes that the table's plan needs by its header, whatever else it holds. */
uint64_t table_need(const struct bytes *table);

#endif
