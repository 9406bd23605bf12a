#include "laws.h"

#include "table.h"

struct burn {
    struct laws laws;
    const struct table *t;
    uint64_t start;            /* of the next record, in units */
    uint64_t plane_start;
    uint64_t plane_end;
    unsigned plane_records;
    uint64_t total[MOST_TASKS]; /* units run since tick 0 */
    uint64_t plane[MOST_TASKS]; /* units run in this plane */
    int16_t task_of[65536];     /* by tag; -1 where the table has none */
};

static void broken(struct burn *b, const char *law) {
    if (!b->laws.broken) {
        b->laws.broken = law;
        b->laws.record = b->laws.records;
    }
}

/* The next tick after now at which some task is released, found by division. */
static uint64_t next_release(const struct table *t, uint64_t now) {
    uint64_t first = UINT64_MAX;
    for (unsigned i = 0; i < t->count; i++) {
        uint64_t next = (now / t->tasks[i].period + 1) * t->tasks[i].period;
        if (next < first)
            first = next;
    }
    return first;
}

static void open_plane(struct burn *b) {
    b->plane_start = b->start;
    b->plane_end = next_release(b->t, b->start / b->t->scale) * b->t->scale;
    b->plane_records = 0;
    memset(b->plane, 0, sizeof b->plane);
}

/* Each task has its even share of the plane, and at a release exactly k × c ticks in all. */
static void close_plane(struct burn *b) {
    const struct table *t = b->t;
    uint64_t tick = b->start / t->scale, ticks = (b->plane_end - b->plane_start) / t->scale;
    for (unsigned i = 0; i < t->count; i++) {
        const struct task *task = &t->tasks[i];
        if (b->plane[i] != ticks * task->weight)
            broken(b, "a task has not its even share of a plane");
        if (tick % task->period == 0) {
            if (b->total[i] != tick / task->period * task->execution * t->scale)
                broken(b, "a task's share at a release is not exact");
            b->laws.releases++;
        }
    }
    b->laws.planes++;
    b->laws.last_tick = tick;
}

static void run_row(struct burn *b, const uint8_t *tags, uint64_t length) {
    for (unsigned i = 0; i < b->t->processors; i++) {
        unsigned tag = get16(tags + 2 * i);
        if (tag == 0)
            continue;
        for (unsigned k = 0; k < i; k++)
            if (get16(tags + 2 * k) == tag)
                broken(b, "a tag stands twice in a row");
        if (b->task_of[tag] < 0) {
            broken(b, "a tag is not in the table");
            continue;
        }
        b->total[b->task_of[tag]] += length;
        b->plane[b->task_of[tag]] += length;
    }
}

static void judge_kind(struct burn *b, int kind, const uint8_t *tags) {
    const struct table *t = b->t;
    uint64_t ticks = (b->plane_end - b->plane_start) / t->scale, span = b->plane_end - b->start;
    int used_up = 0, ceiling = 0;
    uint8_t runs[MOST_TASKS] = {0};

    for (unsigned i = 0; i < t->processors; i++) {
        int task = b->task_of[get16(tags + 2 * i)];
        if (task >= 0)
            runs[task] = 1;
    }
    for (unsigned i = 0; i < t->count; i++) {
        uint64_t left = ticks * t->tasks[i].weight - b->plane[i];
        if (runs[i] && left == 0)
            used_up = 1;
        if (!runs[i] && left == span)
            ceiling = 1;
        if (left > span) /* also where it ran too long */
            broken(b, "a task has more time left than its plane");
    }
    if (kind != used_up + 2 * ceiling)
        broken(b, "the kind is not what ended the segment");
}

static void judge_record(struct burn *b, const uint8_t *record) {
    uint64_t length = get64(record);
    int kind = record[8];
    if (b->plane_records == 0)
        open_plane(b);
    if (length == 0)
        broken(b, "a start is not later than the one before");
    if (length > b->plane_end - b->start) {
        broken(b, "a segment passes the end of its plane");
        return;
    }
    run_row(b, record + 9, length);
    b->start += length;
    b->plane_records++;
    if (b->plane_records > b->laws.longest)
        b->laws.longest = b->plane_records;
    if (b->plane_records > b->t->count + 1)
        broken(b, "a plane has more than n + 1 records");
    if ((b->start == b->plane_end) != (kind == 4))
        broken(b, "kind 4 and the plane's end do not go together");
    if (b->start == b->plane_end) {
        close_plane(b);
        b->plane_records = 0;
    } else {
        judge_kind(b, kind, record + 9);
    }
}

struct laws laws_check(const uint8_t *table, size_t table_len, const uint8_t *plan, size_t plan_len) {
    static struct burn b;
    struct table t;

    memset(&b, 0, sizeof b);
    b.t = &t;
    if (table_open(&t, table, table_len, SIZE_MAX) != 0)
        broken(&b, "the table is refused");
    else if (plan_len < PLAN_HEADER || memcmp(plan, "KPL\0\1", 5) != 0 || memcmp(plan + 5, table + 5, 5) != 0)
        broken(&b, "the header is not that of the table");
    memset(b.task_of, -1, sizeof b.task_of);
    for (unsigned i = 0; !b.laws.broken && i < t.count; i++)
        b.task_of[t.tasks[i].tag] = (int16_t)i;
    size_t record = 9 + 2 * t.processors, at = PLAN_HEADER;
    while (!b.laws.broken && at + record <= plan_len) {
        judge_record(&b, plan + at);
        at += record;
        b.laws.records++;
    }
    if (!b.laws.broken && at != plan_len)
        broken(&b, "the last record is not whole");
    if (!b.laws.broken && (b.plane_records != 0 || b.laws.planes != t.planes))
        broken(&b, "the planes are not those of the table");
    return b.laws;
}
