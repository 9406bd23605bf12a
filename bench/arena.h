/* Memory for a call: the bytes lent, with guard bytes around them and pages without any access at both ends. */
#ifndef BENCH_ARENA_H
#define BENCH_ARENA_H

#include <stdint.h>
#include <stdio.h>
#include <stdlib.h>
#include <string.h>
#include <sys/mman.h>

#define GUARD 64
#define PAGE 4096

struct arena {
    uint8_t *base;
    size_t size;
};

static inline uint8_t guard_byte(size_t i) {
    return (uint8_t)(0xA5 ^ i * 37);
}

static inline void arena_paint(struct arena *a, size_t from, size_t to) {
    for (size_t i = from; i < to; i++)
        a->base[i] = guard_byte(i);
}

static inline struct arena arena_open(size_t size) {
    size = (size + PAGE - 1) / PAGE * PAGE;
    uint8_t *all = mmap(NULL, size + 2 * PAGE, PROT_NONE, MAP_PRIVATE | MAP_ANONYMOUS | MAP_NORESERVE, -1, 0);
    if (all == MAP_FAILED || mprotect(all + PAGE, size, PROT_READ | PROT_WRITE) != 0) {
        fprintf(stderr, "no memory\n");
        exit(2);
    }
    return (struct arena){all + PAGE, size};
}

enum place { PLACE_MIDDLE, PLACE_FRONT, PLACE_END };

/* Where len bytes lie: against the page in front, against the page behind, or between guard bytes. */
static inline size_t arena_place(const struct arena *a, size_t len, enum place place) {
    return place == PLACE_FRONT ? 0 : place == PLACE_END ? a->size - len : GUARD;
}

/* Whether the guard bytes around the len bytes at `at`, and the lent ones from `written` on, are as before. */
static inline int arena_whole(const struct arena *a, size_t at, size_t len, size_t written) {
    size_t from = at < GUARD ? 0 : at - GUARD, to = at + len + GUARD;
    if (to > a->size)
        to = a->size;
    for (size_t i = from; i < at; i++)
        if (a->base[i] != guard_byte(i))
            return 0;
    for (size_t i = at + written; i < to; i++)
        if (a->base[i] != guard_byte(i))
            return 0;
    return 1;
}

#endif
