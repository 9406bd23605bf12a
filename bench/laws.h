/* A check of plan bytes against the laws alone: it knows nothing of how a plan is made. */
#ifndef BENCH_LAWS_H
#define BENCH_LAWS_H

#include <stddef.h>
#include <stdint.h>

struct laws {
    const char *broken; /* the first law that the plan breaks, or NULL */
    uint64_t record;    /* the record at which it is broken, from 0 */
    uint64_t records;
    uint64_t releases; /* shares found exact at a release */
    uint64_t planes;
    uint64_t last_tick; /* the plan's last */
    unsigned longest;   /* most records of a plane */
};

/* The table must be one that a whole plan accepts. */
struct laws laws_check(const uint8_t *table, size_t table_len, const uint8_t *plan, size_t plan_len);

#endif
