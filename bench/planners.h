/* The planners that the runner compares. All take the same numbers and give the same answers. */
#ifndef BENCH_PLANNERS_H
#define BENCH_PLANNERS_H

#include <stddef.h>
#include <stdint.h>

typedef int64_t whole_plan(const uint8_t *table, size_t table_len, uint8_t *plan, size_t plan_len);

whole_plan kiln_whole_plan;     /* the library */
whole_plan heap_whole_plan;     /* C: a heap of all active tokens in each step */
whole_plan sorted_whole_plan;   /* C: tokens kept sorted between steps */
whole_plan floating_whole_plan; /* C: the old way, in floating point */

/* What the last call of floating_whole_plan did that an exact plan never does. */
struct floating_faults {
    uint64_t segments;
    uint64_t repeated;   /* segments whose end is not later than their start, as numbers of the program */
    uint64_t zero;       /* segments of less than half a unit: their length is written as 0 */
    uint64_t overlong;   /* planes of more than n + 1 segments */
    uint64_t unfinished; /* tokens with time left at their plane's end */
};
extern struct floating_faults floating_faults;

#endif
