#include "tables.h"

#include <stdlib.h>
#include <string.h>

#include "table.h"

uint64_t random_next(struct random *r) {
    uint64_t x = r->state += UINT64_C(0x9E3779B97F4A7C15);
    x = (x ^ x >> 30) * UINT64_C(0xBF58476D1CE4E5B9);
    x = (x ^ x >> 27) * UINT64_C(0x94D049BB133111EB);
    return x ^ x >> 31;
}

uint64_t random_below(struct random *r, uint64_t below) {
    return random_next(r) % below;
}

static int one_in(struct random *r, unsigned n) {
    return random_below(r, n) == 0;
}

/* Scales with many divisors, and the limits. */
static const uint32_t scales[] = {
    1,        2,         3,         4,         6,         12,       30,       60,       97,        210,      720,
    1000,     5040,      27720,     55440,     65536,     720720,   1000000,  1441440,  3603600,   4194304,  7207200,
    14414400, 21621600,  36756720,  61261200,  68191760,  73513440, 94143178, 99999989, 110270160, 122522400, 129140163,
    122070312, 134217600, 134217727, 134217728,
};
#define SCALES (sizeof scales / sizeof scales[0])

struct divisors {
    unsigned count;
    uint32_t at[1024]; /* rising; no number up to 2^27 has more than 640 */
};

static int compare32(const void *a, const void *b) {
    uint32_t x = *(const uint32_t *)a, y = *(const uint32_t *)b;
    return x < y ? -1 : x > y;
}

static void find_divisors(struct divisors *d, uint32_t scale) {
    d->count = 0;
    for (uint32_t i = 1; (uint64_t)i * i <= scale; i++) {
        if (scale % i != 0)
            continue;
        d->at[d->count++] = i;
        if (i != scale / i)
            d->at[d->count++] = scale / i;
    }
    qsort(d->at, d->count, sizeof d->at[0], compare32);
}

/* The divisors of the listed scales are found once. */
static const struct divisors *divisors_of(uint32_t scale) {
    static struct divisors known[SCALES], other;
    for (unsigned i = 0; i < SCALES; i++) {
        if (scales[i] != scale)
            continue;
        if (known[i].count == 0)
            find_divisors(&known[i], scale);
        return &known[i];
    }
    find_divisors(&other, scale);
    return &other;
}

void table_header(struct bytes *table, unsigned processors, uint32_t scale, unsigned planes) {
    memcpy(table->at, "KTB\0\1", 5);
    table->at[5] = (uint8_t)processors;
    put32(table->at + 6, scale);
    put16(table->at + 10, planes);
    put16(table->at + 12, 0);
    table->len = TABLE_HEADER;
}

void table_row(struct bytes *table, unsigned tag, uint32_t execution, uint32_t period) {
    put16(table->at + table->len, tag);
    put32(table->at + table->len + 2, execution);
    put32(table->at + table->len + 6, period);
    table->len += TABLE_ROW;
    put16(table->at + 12, get16(table->at + 12) + 1);
}

static void make_tags(uint16_t *tags, unsigned count, struct random *r) {
    static uint16_t all[65535];
    unsigned way = (unsigned)random_below(r, 4);
    for (unsigned i = 0; i < 65535 && (way == 0 || i < count); i++)
        all[i] = (uint16_t)(way == 3 ? 65535 - i : i + 1);
    if (way == 1) { /* 1 to n in this order */
        memcpy(tags, all, count * sizeof tags[0]);
        return;
    }
    for (unsigned i = 0; i < count; i++) {
        unsigned other = i + (unsigned)random_below(r, (way == 0 ? 65535 : count) - i);
        uint16_t tag = all[other];
        all[other] = all[i];
        tags[i] = all[i] = tag;
    }
}

static uint32_t choose_period(struct random *r, const struct divisors *d, enum periods periods, const uint32_t *few) {
    unsigned some = d->count < 12 ? d->count : 12;
    switch (periods) {
    case PERIODS_SMALL:
        return d->at[random_below(r, some)];
    case PERIODS_MIDDLE: { /* 1,000 to 100,000 ticks, so that hardly two weights are the same; else any */
        uint32_t period = d->at[random_below(r, d->count)];
        for (unsigned i = 0; i < 64 && (period < 1000 || period > 100000); i++)
            period = d->at[random_below(r, d->count)];
        return period;
    }
    case PERIODS_LARGE:
        return d->at[d->count - 1 - random_below(r, some)];
    case PERIODS_ONE:
        return few[0];
    case PERIODS_SET:
        return few[random_below(r, 4)];
    default:
        return d->at[random_below(r, d->count)];
    }
}

void table_make(struct bytes *table, struct random *r, const struct wish *wish) {
    const struct divisors *d = divisors_of(wish->scale);
    uint64_t scale = wish->scale, room = scale * wish->processors;
    uint16_t tags[MOST_TASKS];
    uint32_t few[4];

    for (unsigned i = 0; i < 4; i++)
        few[i] = d->at[random_below(r, d->count)];
    if (wish->load == LOAD_NEAR)
        room -= room / (20 + random_below(r, 1000));
    else if (wish->load == LOAD_HALF)
        room /= 2;
    else if (wish->load == LOAD_LIGHT)
        room /= 16;
    else if (wish->load == LOAD_OVER)
        room += 1 + random_below(r, 1 + room / 50);

    make_tags(tags, wish->count, r);
    table_header(table, wish->processors, wish->scale, wish->planes);
    uint32_t period = 0, execution = 0;
    for (unsigned i = 0; i < wish->count; i++) {
        unsigned behind = wish->count - i;
        if (!wish->equal || i == 0) {
            uint64_t most = 2 * room / behind;
            uint64_t weight = behind == 1 || wish->equal ? room / behind : random_below(r, most + 1);
            if (weight + (behind - 1) * scale < room) /* the others cannot take the rest */
                weight = room - (behind - 1) * scale;
            if (weight > scale)
                weight = scale;
            if (weight > room)
                weight = room;
            period = choose_period(r, d, wish->periods, few);
            execution = (uint32_t)(weight * period / scale);
            if (execution == 0) { /* too little for that period: a longer one */
                period = wish->scale;
                execution = weight == 0 ? 1 : (uint32_t)weight;
            } else if (behind == 1 && weight * period % scale != 0 && wish->load != LOAD_HALF) {
                period = wish->scale; /* to the last unit */
                execution = (uint32_t)weight;
            }
        }
        uint64_t taken = execution * (scale / period);
        room -= taken < room ? taken : room;
        table_row(table, tags[i], execution, period);
    }
}

struct wish random_wish(struct random *r, unsigned segments) {
    static const unsigned counts[] = {1, 2, 3, 4, 8, 16, 17, 64, 255, 256};
    struct wish w;
    w.processors = 1 + (unsigned)random_below(r, MOST_PROCESSORS);
    w.scale = one_in(r, 20) ? 1 + (uint32_t)random_below(r, MOST_SCALE) : scales[random_below(r, SCALES)];
    w.count = one_in(r, 3) ? counts[random_below(r, 10)] : 1 + (unsigned)random_below(r, one_in(r, 8) ? 256 : 24);
    /* Half of the tables have more tasks than processors and no more than the scale has units for. */
    if (one_in(r, 2) && w.count > w.processors * (uint64_t)w.scale)
        w.count = w.processors * w.scale;
    unsigned planes = segments / (w.count + 1);
    w.planes = 1 + (unsigned)random_below(r, planes < 65535 ? planes + 1 : 65535);
    w.load = (enum load)random_below(r, LOADS);
    if (one_in(r, 2))
        w.load = one_in(r, 2) ? LOAD_FULL : LOAD_NEAR;
    w.periods = (enum periods)random_below(r, PERIODS);
    w.equal = one_in(r, 8);
    return w;
}

static uint32_t odd_number(struct random *r) {
    static const uint32_t odd[] = {0, 1, 2, 3, 255, 256, 65535, 65536, 134217727, 134217728, 134217729, 0x7FFFFFFF,
                                   0x80000000, 0xFFFFFFFF};
    return one_in(r, 4) ? (uint32_t)random_next(r) : odd[random_below(r, sizeof odd / sizeof odd[0])];
}

static void damage_header(struct bytes *table, struct random *r) {
    uint8_t *b = table->at;
    unsigned rows = get16(b + 12);
    switch (random_below(r, 10)) {
    case 0: b[random_below(r, 3)] ^= (uint8_t)(1 << random_below(r, 8)); break;
    case 1: put16(b + 3, odd_number(r) & 0xFFFF); break;
    case 2: b[5] = (uint8_t)(one_in(r, 2) ? 0 : 17); break;
    case 3: b[5] = (uint8_t)random_next(r); break;
    case 4: put32(b + 6, odd_number(r)); break;
    case 5: put16(b + 10, 0); break;
    case 6: put16(b + 10, odd_number(r) & 0xFFFF); break;
    case 7: put16(b + 12, rows + (one_in(r, 2) ? 1 : 65535)); break;
    case 8: put16(b + 12, odd_number(r) & 0xFFFF); break;
    default: /* no row, and the length of none */
        put16(b + 12, 0);
        table->len = TABLE_HEADER;
    }
}

static void damage_row(struct bytes *table, struct random *r) {
    unsigned rows = (unsigned)((table->len - TABLE_HEADER) / TABLE_ROW);
    if (rows == 0)
        return;
    uint8_t *row = table->at + TABLE_HEADER + TABLE_ROW * random_below(r, rows);
    const uint8_t *other = table->at + TABLE_HEADER + TABLE_ROW * random_below(r, rows);
    switch (random_below(r, 9)) {
    case 0: put16(row, 0); break;
    case 1: memcpy(row, other, 2); break; /* a tag twice, unless the two are one */
    case 2: put32(row + 2, 0); break;
    case 3: put32(row + 2, get32(row + 6) + 1); break;
    case 4: put32(row + 6, get32(row + 6) + 1); break;
    case 5: put32(row + 6, 0); break;
    case 6: put32(row + 2, odd_number(r)); break;
    case 7: put32(row + 6, odd_number(r)); break;
    default: put32(row + 2, get32(row + 6)); break; /* always runs: often an overload */
    }
}

static void damage_length(struct bytes *table, struct random *r) {
    size_t len = table->len;
    switch (random_below(r, 6)) {
    case 0: table->len = random_below(r, 20); break;
    case 1: table->len = random_below(r, len + 1); break;
    case 2: table->len = len > 0 ? len - 1 : 0; break;
    case 3: table->len = len + 1; break;
    case 4: table->len = len + 10; break;
    default: table->len = len + 1 + random_below(r, 40); break;
    }
    if (table->len > TABLE_ROOM)
        table->len = TABLE_ROOM;
    for (size_t i = len; i < table->len; i++)
        table->at[i] = (uint8_t)random_next(r);
}

/* More rows than a board has places for, and the length of them. */
static void too_many_rows(struct bytes *table, struct random *r) {
    while (get16(table->at + 12) < 257 + (random_next(r) & 1) && table->len + TABLE_ROW <= TABLE_ROOM)
        table_row(table, 1 + (unsigned)random_below(r, 65535), 1, get32(table->at + 6));
}

static void any_bytes(struct bytes *table, struct random *r) {
    size_t from = random_below(r, 15);
    if (one_in(r, 2))
        table->len = random_below(r, 64);
    for (size_t i = from; i < table->len; i++)
        table->at[i] = (uint8_t)random_next(r);
}

void table_damage(struct bytes *table, struct random *r) {
    if (table->len < TABLE_HEADER)
        return;
    switch (random_below(r, 9)) {
    case 0: case 1: damage_header(table, r); break;
    case 2: case 3: case 4: damage_row(table, r); break;
    case 5: damage_length(table, r); break;
    case 6: too_many_rows(table, r); break;
    case 7: any_bytes(table, r); break;
    default: /* some bits */
        for (unsigned i = 1 + (unsigned)random_below(r, 4); i > 0; i--)
            table->at[random_below(r, table->len)] ^= (uint8_t)(1 << random_below(r, 8));
    }
}

uint64_t table_need(const struct bytes *table) {
    if (table->len < TABLE_HEADER)
        return PLAN_HEADER;
    const uint8_t *b = table->at;
    return PLAN_HEADER + (uint64_t)get16(b + 10) * (get16(b + 12) + 1) * (9 + 2 * b[5]);
}
