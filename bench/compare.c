/* Calls the planners on the same bytes and looks for any difference. */
#include "compare.h"

#include <inttypes.h>

#include "laws.h"
#include "planners.h"
#include "table.h"

static const struct {
    const char *name;
    whole_plan *call;
} planners[] = {
    {"heap", heap_whole_plan},
    {"sorted", sorted_whole_plan},
#ifndef WITHOUT_LIBRARY
    {"library", kiln_whole_plan},
#endif
};
#define PLANNERS (sizeof planners / sizeof planners[0])

void compare_open(struct compare *c) {
    memset(c, 0, sizeof *c);
    c->table = arena_open(TABLE_ROOM + 2 * GUARD);
    arena_paint(&c->table, 0, c->table.size);
    for (unsigned i = 0; i < PLANNERS; i++) {
        c->plan[i] = arena_open(PLAN_ROOM + 2 * GUARD);
        arena_paint(&c->plan[i], 0, c->plan[i].size);
    }
}

static void difference(struct compare *c, const struct bytes *table, size_t plan_len, const char *who, const char *what) {
    if (c->differences++ >= 5)
        return;
    printf("DIFFERENCE: %s %s; buffer of %zu, table", who, what, plan_len);
    for (size_t i = 0; i < table->len; i++)
        printf("%s%02X", i % 2 ? "" : " ", table->at[i]);
    printf("\n");
}

void compare_call(struct compare *c, const struct bytes *table, size_t plan_len, enum place place) {
    size_t table_at = arena_place(&c->table, table->len, place);
    uint8_t *bytes = c->table.base + table_at;
    int64_t answers[PLANNERS];

    memcpy(bytes, table->at, table->len);
    c->calls++;
    for (unsigned i = 0; i < PLANNERS; i++) {
        struct arena *a = &c->plan[i];
        size_t at = arena_place(a, plan_len, place);
        int64_t answer = answers[i] = planners[i].call(bytes, table->len, a->base + at, plan_len);
        size_t written = answer > 0 ? (size_t)answer : 0;
        if (answer == 0 || answer < -35 || written > plan_len) {
            difference(c, table, plan_len, planners[i].name, "gives an answer that is none");
            written = plan_len;
        }
        if (memcmp(bytes, table->at, table->len) != 0 || !arena_whole(&c->table, table_at, table->len, table->len))
            difference(c, table, plan_len, planners[i].name, "changes the table");
        if (!arena_whole(a, at, plan_len, written))
            difference(c, table, plan_len, planners[i].name, "changes bytes that it must not");
        if (answer != answers[0])
            difference(c, table, plan_len, planners[i].name, "gives another answer");
        else if (i > 0 && written > 0 &&
                 memcmp(a->base + at, c->plan[0].base + arena_place(&c->plan[0], plan_len, place), written) != 0)
            difference(c, table, plan_len, planners[i].name, "gives other bytes");
    }
    if (answers[0] > 0) {
        c->accepted++;
        uint8_t *plan = c->plan[0].base + arena_place(&c->plan[0], plan_len, place);
        struct laws laws = laws_check(bytes, table->len, plan, (size_t)answers[0]);
        c->segments += laws.records;
        if (laws.broken)
            difference(c, table, plan_len, "all", laws.broken);
    } else if (answers[0] >= -35) {
        c->refused[-answers[0]]++;
    }
    for (unsigned i = 0; i < PLANNERS; i++) {
        size_t at = arena_place(&c->plan[i], plan_len, place);
        arena_paint(&c->plan[i], at, at + (answers[i] > 0 ? (size_t)answers[i] : 0));
    }
    arena_paint(&c->table, table_at, table_at + table->len);
}

/* Every size of buffer from none to a little more than the need. */
static void every_size(struct compare *c, const struct bytes *table, uint64_t need) {
    for (size_t len = 0; len <= need + 8; len++)
        compare_call(c, table, len, (enum place)(len % 3));
}

/* Sizes about the limit, and some others. */
static void some_sizes(struct compare *c, struct random *r, const struct bytes *table, uint64_t need) {
    enum place place = (enum place)random_below(r, 3);
    if (need > PLAN_ROOM) {
        compare_call(c, table, random_below(r, 4096), place);
        return;
    }
    size_t about = need + random_below(r, 7);
    compare_call(c, table, about < 3 ? 0 : about - 3, place);
    compare_call(c, table, need + (random_below(r, 4) == 0 ? random_below(r, 64) : 0), place);
    if (random_below(r, 4) == 0)
        compare_call(c, table, random_below(r, need + 1), place);
    if (random_below(r, 8) == 0)
        compare_call(c, table, random_below(r, 12), place);
}

/* How many planes end by the last tick; at most 65,535. */
static unsigned planes_in_time(const struct bytes *table) {
    unsigned rows = get16(table->at + 12), planes = 0;
    for (uint64_t now = 0; planes < 65535; planes++) {
        uint64_t first = UINT64_MAX;
        for (unsigned i = 0; i < rows; i++) {
            uint64_t period = get32(table->at + TABLE_HEADER + TABLE_ROW * i + 6);
            uint64_t next = (now / period + 1) * period;
            first = next < first ? next : first;
        }
        if (first > LAST_TICK)
            break;
        now = first;
    }
    return planes;
}

/* Long periods, and as many planes as there is time for, or one or two more or less. */
static void to_the_last_tick(struct bytes *table, struct random *r) {
    static const uint32_t longs[] = {134217728, 134217727, 129140163, 100663296, 122522400, 110270160, 67108864, 4194304};
    struct wish w = random_wish(r, 64);
    w.scale = longs[random_below(r, sizeof longs / sizeof longs[0])];
    w.count = 1 + (unsigned)random_below(r, 6);
    w.periods = PERIODS_LARGE;
    w.planes = 1;
    table_make(table, r, &w);
    unsigned planes = planes_in_time(table) + (unsigned)random_below(r, 4);
    put16(table->at + 10, planes > 65536 ? 65535 : planes < 2 ? 1 : planes - 1);
}

void compare_tables(struct compare *c, uint64_t tables, uint64_t seed, unsigned segments) {
    struct random r = {seed};
    static struct bytes table;
    for (uint64_t i = 0; i < tables; i++) {
        if (random_below(&r, 16) == 0) {
            to_the_last_tick(&table, &r);
        } else {
            struct wish w = random_wish(&r, i % 64 == 0 ? 16 * segments : segments);
            table_make(&table, &r, &w);
        }
        /* Half of the tables stay whole; the others get one damage or several. */
        for (unsigned k = (unsigned)random_below(&r, 2) * (1 + (unsigned)(random_next(&r) % 5) / 3); k > 0; k--)
            table_damage(&table, &r);
        uint64_t need = table_need(&table);
        if (need <= 400 && random_below(&r, 64) == 0)
            every_size(c, &table, need);
        else
            some_sizes(c, &r, &table, need);
        c->tables++;
    }
}

int compare_report(const struct compare *c) {
    printf("%" PRIu64 " tables, %" PRIu64 " calls: %" PRIu64 " accepted with %" PRIu64 " segments in all, refused", c->tables,
           c->calls, c->accepted, c->segments);
    for (unsigned i = 0; i < 36; i++)
        if (c->refused[i])
            printf(" %u: %" PRIu64, i, c->refused[i]);
    printf("\n%" PRIu64 " differences between", c->differences);
    for (unsigned i = 0; i < PLANNERS; i++)
        printf(" %s", planners[i].name);
    printf(" (answers, every byte of the buffer, guard bytes, the laws)\n");
    return c->differences != 0;
}
