/* What the C planners share: reading and judging a table, and writing the plan file. */
#ifndef BENCH_TABLE_H
#define BENCH_TABLE_H

#include <stddef.h>
#include <stdint.h>
#include <string.h>

#define MOST_TASKS 256
#define MOST_PROCESSORS 16
#define MOST_SCALE UINT32_C(134217728)
#define LAST_TICK UINT64_C(2147483648)
#define TABLE_HEADER 14
#define TABLE_ROW 10
#define PLAN_HEADER 10

struct task {
    uint32_t weight; /* units in each tick: c × Q / p */
    uint32_t period;
    uint32_t execution;
    uint16_t tag;
};

struct table {
    unsigned processors;
    uint32_t scale;
    unsigned planes;
    unsigned count;
    struct task tasks[MOST_TASKS]; /* in order of tag */
};

static inline unsigned get16(const uint8_t *b) {
    return (unsigned)b[0] << 8 | b[1];
}

static inline uint32_t get32(const uint8_t *b) {
    return (uint32_t)b[0] << 24 | (uint32_t)b[1] << 16 | (uint32_t)b[2] << 8 | b[3];
}

static inline uint64_t get64(const uint8_t *b) {
    return (uint64_t)get32(b) << 32 | get32(b + 4);
}

static inline void put16(uint8_t *b, unsigned x) {
    b[0] = (uint8_t)(x >> 8);
    b[1] = (uint8_t)x;
}

static inline void put32(uint8_t *b, uint32_t x) {
    put16(b, x >> 16);
    put16(b + 2, x & 0xFFFF);
}

static inline void put64(uint8_t *b, uint64_t x) {
    put32(b, (uint32_t)(x >> 32));
    put32(b + 4, (uint32_t)x);
}

/* Puts a row in its place by tag; answers minus the refusal's number, or 0. */
static inline int table_admit(struct table *t, uint64_t *load, const uint8_t *row) {
    unsigned tag = get16(row);
    uint32_t execution = get32(row + 2), period = get32(row + 6);
    unsigned low = 0, high = t->count;

    if (tag == 0)
        return -4;
    if (execution == 0 || execution > period)
        return -5;
    if (t->scale % period != 0)
        return -6;
    while (low < high) {
        unsigned middle = (low + high) / 2;
        if (t->tasks[middle].tag < tag)
            low = middle + 1;
        else
            high = middle;
    }
    if (low < t->count && t->tasks[low].tag == tag)
        return -7;
    uint32_t weight = execution * (t->scale / period);
    if (*load + weight > (uint64_t)t->processors * t->scale)
        return -9;
    *load += weight;
    memmove(&t->tasks[low + 1], &t->tasks[low], (t->count - low) * sizeof t->tasks[0]);
    t->tasks[low] = (struct task){weight, period, execution, (uint16_t)tag};
    t->count++;
    return 0;
}

/* The releases ahead of tasks that were all admitted at tick 0. */
struct releases {
    uint64_t now;
    uint32_t next[MOST_TASKS]; /* at most 2^31 + 2^27 */
};

static inline void releases_open(struct releases *r, const struct table *t) {
    r->now = 0;
    for (unsigned i = 0; i < t->count; i++)
        r->next[i] = t->tasks[i].period;
}

/* Goes on to the earliest release after now; answers the ticks up to it. */
static inline uint64_t releases_advance(struct releases *r, const struct table *t) {
    uint32_t first = r->next[0];
    for (unsigned i = 1; i < t->count; i++)
        if (r->next[i] < first)
            first = r->next[i];
    for (unsigned i = 0; i < t->count; i++)
        if (r->next[i] == first)
            r->next[i] += t->tasks[i].period;
    uint64_t ticks = first - r->now;
    r->now = first;
    return ticks;
}

/* Whether one of the planes would end past the last tick. */
static inline int table_passes_last_tick(const struct table *t) {
    uint32_t shortest = t->tasks[0].period;
    for (unsigned i = 1; i < t->count; i++)
        if (t->tasks[i].period < shortest)
            shortest = t->tasks[i].period;
    /* No plane is longer than the shortest period, so that most tables need no second look. */
    if (t->planes * (uint64_t)shortest <= LAST_TICK)
        return 0;

    struct releases r;
    releases_open(&r, t);
    for (unsigned k = 0; k < t->planes; k++) {
        releases_advance(&r, t);
        if (r.now > LAST_TICK)
            return 1;
    }
    return 0;
}

/* Reads and judges all that a whole plan may refuse; answers minus the refusal's number, or 0. */
static inline int table_open(struct table *t, const uint8_t *bytes, size_t len, size_t plan_len) {
    if (len < TABLE_HEADER)
        return -20;
    if (memcmp(bytes, "KTB", 3) != 0)
        return -21;
    if (get16(bytes + 3) != 1)
        return -22;
    unsigned rows = get16(bytes + 12);
    if (len != TABLE_HEADER + (size_t)TABLE_ROW * rows)
        return -23;
    t->planes = get16(bytes + 10);
    if (t->planes == 0)
        return -24;
    if (rows == 0 || rows > MOST_TASKS)
        return -25;
    t->processors = bytes[5];
    if (t->processors < 1 || t->processors > MOST_PROCESSORS)
        return -1;
    t->scale = get32(bytes + 6);
    if (t->scale < 1 || t->scale > MOST_SCALE)
        return -2;
    uint64_t load = 0;
    t->count = 0;
    for (unsigned i = 0; i < rows; i++) {
        int refusal = table_admit(t, &load, bytes + TABLE_HEADER + TABLE_ROW * i);
        if (refusal)
            return refusal;
    }
    if (table_passes_last_tick(t))
        return -13;
    uint64_t need = PLAN_HEADER + (uint64_t)t->planes * (rows + 1) * (9 + 2 * t->processors);
    return plan_len < need ? -26 : 0;
}

static inline uint8_t *plan_header(uint8_t *at, const struct table *t) {
    memcpy(at, "KPL\0\1", 5);
    at[5] = (uint8_t)t->processors;
    put32(at + 6, t->scale);
    return at + PLAN_HEADER;
}

/* Which token runs on each processor. */
struct places {
    int16_t token[MOST_PROCESSORS]; /* its place in order of tag, or -1 */
    uint8_t chosen[MOST_TASKS];     /* only inside places_give; else all 0 */
};

static inline void places_open(struct places *p) {
    for (unsigned i = 0; i < MOST_PROCESSORS; i++)
        p->token[i] = -1;
}

/* Gives the chosen tokens their processors: who has one keeps it, the others take the free ones in order of tag. */
static inline void places_give(struct places *p, unsigned processors, const uint8_t *chosen, unsigned count) {
    uint8_t fresh[MOST_PROCESSORS];
    unsigned waiting = 0;

    for (unsigned i = 0; i < count; i++)
        p->chosen[chosen[i]] = 1;
    for (unsigned i = 0; i < processors; i++) {
        if (p->token[i] < 0)
            continue;
        if (p->chosen[p->token[i]])
            p->chosen[p->token[i]] = 0; /* it keeps its processor */
        else
            p->token[i] = -1;
    }
    for (unsigned i = 0; i < count; i++) {
        if (!p->chosen[chosen[i]])
            continue;
        p->chosen[chosen[i]] = 0;
        unsigned at = waiting++;
        for (; at > 0 && fresh[at - 1] > chosen[i]; at--)
            fresh[at] = fresh[at - 1];
        fresh[at] = chosen[i];
    }
    for (unsigned i = 0, k = 0; k < waiting; i++)
        if (p->token[i] < 0)
            p->token[i] = fresh[k++];
}

static inline uint8_t *plan_record(uint8_t *at, const struct table *t, uint64_t length, int kind,
                                   const struct places *p) {
    put64(at, length);
    at[8] = (uint8_t)kind;
    at += 9;
    for (unsigned i = 0; i < t->processors; i++, at += 2)
        put16(at, p->token[i] < 0 ? 0 : t->tasks[p->token[i]].tag);
    return at;
}

#endif
