#ifndef BENCH_COMPARE_H
#define BENCH_COMPARE_H

#include "arena.h"
#include "tables.h"

#define PLAN_ROOM (4u << 20)

struct compare {
    struct arena table;
    struct arena plan[3];
    uint64_t tables, calls, accepted, segments, differences;
    uint64_t refused[36];
};

void compare_open(struct compare *c);
/* Calls all planners with the table and a buffer of plan_len bytes, at most PLAN_ROOM. */
void compare_call(struct compare *c, const struct bytes *table, size_t plan_len, enum place place);
/* Random tables, valid and damaged, most with plans of at most about `segments` segments. */
void compare_tables(struct compare *c, uint64_t tables, uint64_t seed, unsigned segments);
/* Prints what was found; answers 1 on a difference. */
int compare_report(const struct compare *c);

#endif
