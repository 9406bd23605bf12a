/* Compares the library with the planners in C, in one process: worked cases, random tables, long burns, times.
 *
 *   runner            everything
 *   runner WORD..     some of: cases compare judge long floating speed growth
 *   runner compare TABLES SEED SEGMENTS      as many tables as said, from a seed of your own
 *   runner plans PROCESSORS TASKS PLANES TIMES NAME      calls one planner only, for a profile */
#include <inttypes.h>
#include <stdio.h>
#include <stdlib.h>
#include <string.h>
#include <time.h>

#include "compare.h"
#include "laws.h"
#include "planners.h"
#include "table.h"
#include "tables.h"

static const struct {
    const char *name;
    whole_plan *call;
} forms[] = {
    {"heap", heap_whole_plan},
    {"sorted", sorted_whole_plan},
    {"floating", floating_whole_plan},
#ifndef WITHOUT_LIBRARY
    {"library", kiln_whole_plan},
#endif
};
#define FORMS (sizeof forms / sizeof forms[0])
enum form { HEAP, SORTED, FLOATING, LIBRARY };

/* Worked cases */

static const uint8_t three_tasks[] = "KTB\0\1\2\0\0\0\3\0\1\0\3"
                                     "\0\1\0\0\0\2\0\0\0\3"
                                     "\0\2\0\0\0\2\0\0\0\3"
                                     "\0\3\0\0\0\2\0\0\0\3";
static const uint8_t three_tasks_plan[] = "KPL\0\1\2\0\0\0\3"
                                          "\0\0\0\0\0\0\0\3\2\0\1\0\2"
                                          "\0\0\0\0\0\0\0\3\3\0\1\0\3"
                                          "\0\0\0\0\0\0\0\3\4\0\2\0\3";

static void eight_tasks(struct bytes *table, unsigned processors, unsigned planes) {
    static const uint32_t rows[8][2] = {{3, 7}, {1, 16}, {5, 19}, {4, 5}, {2, 26}, {15, 26}, {20, 29}, {14, 17}};
    table_header(table, processors, 68191760, planes);
    for (unsigned i = 0; i < 8; i++)
        table_row(table, i + 1, rows[i][0], rows[i][1]);
}

static const uint64_t eight_lengths[9] = {194833600, 77933440, 21309925, 8022560, 3770000, 1147675, 725725, 5334515, 27881360};
static const uint8_t eight_kinds[9] = {2, 1, 1, 1, 1, 1, 1, 1, 4};
static const uint8_t eight_tags[9][4] = {{4, 6, 7, 8}, {4, 1, 3, 8}, {2, 1, 5, 7}, {3, 1, 8, 7}, {3, 1, 5, 7},
                                         {6, 1, 5, 7}, {6, 1, 0, 7}, {0, 1, 0, 7}, {0, 1, 0, 0}};

static unsigned cases, wrong;

static void expect(int holds, const char *form, const char *what) {
    cases++;
    if (!holds) {
        wrong++;
        printf("WRONG: %s: %s\n", form, what);
    }
}

static int is_eight_plan(const uint8_t *at) {
    for (unsigned i = 0; i < 9; i++, at += 17) {
        if (get64(at) != eight_lengths[i] || at[8] != eight_kinds[i])
            return 0;
        for (unsigned k = 0; k < 4; k++)
            if (get16(at + 9 + 2 * k) != eight_tags[i][k])
                return 0;
    }
    return 1;
}

static int64_t one_task(whole_plan *call, unsigned m, uint32_t scale, unsigned planes, uint32_t c, uint32_t p, uint8_t *plan) {
    struct bytes table;
    table_header(&table, m, scale, planes);
    table_row(&table, 1, c, p);
    return call(table.at, table.len, plan, 4096);
}

static void worked_cases(const char *name, whole_plan *call) {
    static uint8_t plan[4096];
    struct bytes table;
    int64_t len = call(three_tasks, 44, plan, sizeof plan);
    expect(len == 49 && memcmp(plan, three_tasks_plan, 49) == 0, name, "three tasks on two processors");
    eight_tasks(&table, 4, 1);
    len = call(table.at, table.len, plan, sizeof plan);
    expect(len == 10 + 9 * 17 && is_eight_plan(plan + 10), name, "the eight-task table");
    eight_tasks(&table, 3, 1);
    expect(call(table.at, table.len, plan, sizeof plan) == -9, name, "the eight-task table on three processors");
    table_header(&table, 1, 6, 1);
    table_row(&table, 1, 1, 6);
    table_row(&table, 2, 4, 6);
    len = call(table.at, table.len, plan, sizeof plan);
    expect(len == 43 && get64(plan + 10) == 24 && plan[20] == 2 && get64(plan + 21) == 6 && plan[31] == 1 &&
               get64(plan + 32) == 6 && plan[42] == 0 && plan[40] == 4,
           name, "two tasks on one processor");
    expect(one_task(call, 1, 6, 1, 1, 6, plan) > 0 && one_task(call, 16, 6, 1, 1, 6, plan) > 0, name, "1 and 16 processors");
    expect(one_task(call, 0, 6, 1, 1, 6, plan) == -1 && one_task(call, 17, 6, 1, 1, 6, plan) == -1, name, "0 and 17 processors");
    expect(one_task(call, 1, 134217729, 1, 1, 3, plan) == -2, name, "the scale past its limit");
    expect(one_task(call, 1, 6, 1, 1, 4, plan) == -6, name, "a period of 4 at a scale of 6");
    expect(one_task(call, 1, 6, 1, 3, 3, plan) > 0 && one_task(call, 1, 6, 1, 4, 3, plan) == -5, name, "(3, 3) and (4, 3)");
    len = one_task(call, 1, 134217728, 16, 1, 134217728, plan);
    expect(len == 10 + 32 * 11 && get64(plan + 10) == 134217728 && plan[18] == 1 &&
               get64(plan + 21) == UINT64_C(18014398375264256) && plan[29] == 4,
           name, "sixteen planes to the last tick");
    expect(one_task(call, 1, 134217728, 17, 1, 134217728, plan) == -13, name, "a plane past the last tick");
}

static int all_cases(void) {
    for (unsigned i = 0; i < FORMS; i++)
        if (i != FLOATING)
            worked_cases(forms[i].name, forms[i].call);
    printf("%u worked cases, %u wrong\n", cases, wrong);
    return wrong != 0;
}

/* The judge itself: it must find every change of one bit in the records of a plan. */

static int judge(void) {
    static struct bytes table;
    static uint8_t plan[4096];
    struct random r = {3};
    uint64_t plans = 0, changes = 0, overlooked = 0;
    while (plans < 200) {
        struct wish wish = random_wish(&r, 12);
        wish.count = wish.count > 8 ? 8 : wish.count;
        table_make(&table, &r, &wish);
        int64_t len = heap_whole_plan(table.at, table.len, plan, sizeof plan);
        if (len <= 0)
            continue;
        plans++;
        for (int64_t i = 8 * PLAN_HEADER; i < 8 * len; i++, changes++) {
            plan[i / 8] ^= (uint8_t)(1 << i % 8);
            overlooked += laws_check(table.at, table.len, plan, (size_t)len).broken == NULL;
            plan[i / 8] ^= (uint8_t)(1 << i % 8);
        }
    }
    printf("%" PRIu64 " changes of one bit in the records of %" PRIu64 " plans, %" PRIu64 " not found by the laws\n", changes, plans,
           overlooked);
    return overlooked != 0;
}

/* Long burns */

static struct arena burn_arena(const struct bytes *table) {
    return arena_open(table_need(table));
}

static void arena_close(struct arena *a) {
    munmap(a->base - PAGE, a->size + 2 * PAGE);
}

static int law_run(const char *what, const struct bytes *table, struct arena *a, enum form form) {
    int64_t len = forms[form].call(table->at, table->len, a->base, a->size);
    if (len <= 0) {
        printf("%-44s %-8s refused %" PRId64 "\n", what, forms[form].name, -len);
        return 1;
    }
    struct laws laws = laws_check(table->at, table->len, a->base, (size_t)len);
    printf("%-44s %-8s %6" PRIu64 " planes to tick %10" PRIu64 ", %8" PRIu64 " records, at most %u in a plane, %9" PRIu64
           " shares exact: %s\n",
           what, forms[form].name, laws.planes, laws.last_tick, laws.records, laws.longest, laws.releases,
           laws.broken ? laws.broken : "all laws hold");
    return laws.broken != NULL;
}

/* The library's plan by the laws, and byte for byte that of the heap form. */
static int long_burn(const char *what, const struct bytes *table) {
    struct arena first = burn_arena(table), second = burn_arena(table);
    int bad = law_run(what, table, &first, FORMS > LIBRARY ? LIBRARY : SORTED);
    int64_t len = heap_whole_plan(table->at, table->len, second.base, second.size);
    if (!bad && memcmp(first.base, second.base, (size_t)len) != 0) {
        printf("DIFFERENCE: %s\n", what);
        bad = 1;
    }
    arena_close(&first);
    arena_close(&second);
    return bad;
}

static int long_burns(void) {
    struct bytes table;
    struct random r = {7};
    int bad = 0;

    table_header(&table, 1, 134217728, 16);
    table_row(&table, 1, 1, 134217728);
    bad |= long_burn("to the last tick, one task", &table);

    table_header(&table, 3, 134217728, 32);
    table_row(&table, 9, 134217727, 134217728);
    table_row(&table, 4, 1, 2 * 33554432);
    table_row(&table, 65535, 67108863, 67108864);
    table_row(&table, 7, 1, 134217728);
    bad |= long_burn("to the last tick, four tasks on three", &table);

    table_header(&table, 2, 134217728, 65535);
    table_row(&table, 1, 21845, 32768);
    table_row(&table, 2, 21845, 32768);
    table_row(&table, 3, 21846, 32768);
    bad |= long_burn("65,535 planes of 32,768 ticks", &table);

    eight_tasks(&table, 4, 65535);
    bad |= long_burn("65,535 planes of the eight tasks", &table);

    struct wish many = {16, 110270160, 65535, 64, LOAD_FULL, PERIODS_ANY, 0};
    table_make(&table, &r, &many);
    bad |= long_burn("65,535 planes of 64 tasks on 16", &table);
    return bad;
}

/* The old way */

/* With room for more segments than an exact plan can have. */
static void floating_burn(const char *what, const struct bytes *table) {
    struct arena a = arena_open(4 * table_need(table));
    int64_t len = sorted_whole_plan(table->at, table->len, a.base, a.size);
    uint64_t exact = len > 0 ? ((uint64_t)len - PLAN_HEADER) / (9 + 2 * table->at[5]) : 0;
    floating_whole_plan(table->at, table->len, a.base, a.size);
    const struct floating_faults *f = &floating_faults;
    printf("%-36s %9" PRIu64 " %9" PRIu64 " %9" PRIu64 " %9" PRIu64 " %9" PRIu64 " %9" PRIu64 "\n", what, exact, f->segments,
           f->repeated, f->zero, f->overlong, f->unfinished);
    arena_close(&a);
}

static int floating_burns(void) {
    struct bytes table;
    struct random r = {11};
    printf("%-36s %9s %9s %9s %9s %9s %9s\n", "the old way, in floating point", "exact", "segments", "repeated", "zero", "overlong",
           "undone");
    table_header(&table, 2, 3, 65535);
    for (unsigned i = 1; i <= 3; i++)
        table_row(&table, i, 2, 3);
    floating_burn("three tasks on 2, 65,535 planes", &table);
    eight_tasks(&table, 4, 65535);
    floating_burn("eight tasks on 4, 65,535 planes", &table);
    struct wish wish = {8, 110270160, 10000, 64, LOAD_FULL, PERIODS_SMALL, 0};
    table_make(&table, &r, &wish);
    floating_burn("64 full tasks on 8, 10,000 planes", &table);
    wish = (struct wish){16, 110270160, 2000, 256, LOAD_FULL, PERIODS_SMALL, 0};
    table_make(&table, &r, &wish);
    floating_burn("256 full tasks on 16, 2,000 planes", &table);
    return 0;
}

/* Times */

#define MOST_REPEATS 31

static double seconds(void) {
    struct timespec t;
    clock_gettime(CLOCK_PROCESS_CPUTIME_ID, &t);
    return (double)t.tv_sec + (double)t.tv_nsec * 1e-9;
}

static int compare_double(const void *a, const void *b) {
    double x = *(const double *)a, y = *(const double *)b;
    return x < y ? -1 : x > y;
}

static double median(double *at, unsigned count) {
    qsort(at, count, sizeof at[0], compare_double);
    return count % 2 ? at[count / 2] : (at[count / 2 - 1] + at[count / 2]) / 2;
}

struct timed {
    double nanoseconds;  /* a segment of the heap form */
    double ratio[FORMS]; /* to the heap form */
};

static uint8_t room[16u << 20];
static const size_t room_len = sizeof room;

static double time_calls(whole_plan *call, const struct bytes *table, unsigned times) {
    double from = seconds();
    for (unsigned i = 0; i < times; i++)
        if (call(table->at, table->len, room, room_len) <= 0)
            exit(3);
    return seconds() - from;
}

/* All forms in turn, several times over: the medians of the ratios within each turn. */
static struct timed time_table(const struct bytes *table, unsigned repeats) {
    static double at[FORMS][MOST_REPEATS], heap[MOST_REPEATS];
    struct timed timed;
    int64_t len = heap_whole_plan(table->at, table->len, room, room_len);
    if (len <= 0) {
        printf("the table is refused: %" PRId64 "\n", -len);
        exit(3);
    }
    double segments = (double)(len - PLAN_HEADER) / (9 + 2 * table->at[5]);
    double once = time_calls(heap_whole_plan, table, 1);
    unsigned times = 1 + (unsigned)(0.004 / (once + 1e-7));
    for (unsigned k = 0; k < repeats; k++) {
        double turn[FORMS];
        for (unsigned i = 0; i < FORMS; i++)
            turn[i] = time_calls(forms[i].call, table, times);
        heap[k] = turn[HEAP] / times / segments * 1e9;
        for (unsigned i = 0; i < FORMS; i++)
            at[i][k] = turn[i] / turn[HEAP];
    }
    timed.nanoseconds = median(heap, repeats);
    for (unsigned i = 0; i < FORMS; i++)
        timed.ratio[i] = median(at[i], repeats);
    return timed;
}

/* The median over several random tables of a size. */
static struct timed time_size(unsigned processors, unsigned tasks, unsigned planes, unsigned tables, unsigned repeats) {
    static double at[FORMS + 1][16];
    struct timed all;
    struct random r = {1000 * tasks + processors};
    for (unsigned k = 0; k < tables; k++) {
        static struct bytes table;
        struct wish wish = {processors, 110270160, planes, tasks, LOAD_NEAR, PERIODS_MIDDLE, 0};
        table_make(&table, &r, &wish);
        struct timed one = time_table(&table, repeats);
        at[FORMS][k] = one.nanoseconds;
        for (unsigned i = 0; i < FORMS; i++)
            at[i][k] = one.ratio[i];
    }
    all.nanoseconds = median(at[FORMS], tables);
    for (unsigned i = 0; i < FORMS; i++)
        all.ratio[i] = median(at[i], tables);
    return all;
}

static void print_head(const char *what) {
    printf("%-34s", what);
    for (unsigned i = 0; i < FORMS; i++)
        printf(" %9s", forms[i].name);
    if (FORMS > LIBRARY)
        printf(" %15s", "library/sorted");
    printf(" %17s\n", "heap, ns/segment");
}

static void print_timed(const char *what, const struct timed *t) {
    printf("%-34s", what);
    for (unsigned i = 0; i < FORMS; i++)
        printf(" %9.2f", t->ratio[i]);
    if (FORMS > LIBRARY)
        printf(" %15.2f", t->ratio[LIBRARY] / t->ratio[SORTED]);
    printf(" %17.0f\n", t->nanoseconds);
}

/* As many planes as the program's buffer of 65,536 bytes has room for. */
static unsigned planes_of(unsigned processors, unsigned tasks) {
    return 65526 / ((tasks + 1) * (9 + 2 * processors));
}

static int speed(void) {
    static const unsigned sizes[4][2] = {{3, 2}, {8, 4}, {64, 8}, {256, 16}};
    struct bytes table;
    struct timed t;
    char what[64];

    print_head("time of a whole plan, heap = 1");
    memcpy(table.at, three_tasks, table.len = 44);
    put16(table.at + 10, planes_of(2, 3));
    t = time_table(&table, 15);
    print_timed("  3 tasks on  2, worked case", &t);
    eight_tasks(&table, 4, planes_of(4, 8));
    t = time_table(&table, 15);
    print_timed("  8 tasks on  4, worked case", &t);
    for (unsigned i = 0; i < 4; i++) {
        unsigned tasks = sizes[i][0], m = sizes[i][1];
        t = time_size(m, tasks, planes_of(m, tasks), 5, 9);
        snprintf(what, sizeof what, "%3u tasks on %2u, random tables", tasks, m);
        print_timed(what, &t);
    }
    t = time_size(16, 256, 1, 5, 9);
    print_timed("256 tasks on 16, one plane alone", &t);
    return 0;
}

static void print_growth(const char *what, const struct timed *t, double *first) {
    enum form form = FORMS > LIBRARY ? LIBRARY : SORTED;
    double here = t->nanoseconds * t->ratio[form];
    if (*first == 0)
        *first = here;
    printf("%-34s", what);
    for (unsigned i = 0; i < FORMS; i++)
        printf(" %9.2f", t->ratio[i]);
    printf(" %15.2f\n", here / *first);
}

static void growth_head(const char *what) {
    printf("%-34s", what);
    for (unsigned i = 0; i < FORMS; i++)
        printf(" %9s", forms[i].name);
    printf(" %15s\n", "its growth");
}

static int growth(void) {
    char what[64];
    double first = 0;
    growth_head("time of a segment, by tasks");
    for (unsigned tasks = 4; tasks <= 256; tasks *= 2) {
        struct timed t = time_size(4, tasks, planes_of(4, tasks), 3, 5);
        snprintf(what, sizeof what, "%3u tasks on  4", tasks);
        print_growth(what, &t, &first);
    }
    first = 0;
    growth_head("by processors");
    for (unsigned m = 1; m <= 16; m *= 2) {
        struct timed t = time_size(m, 64, planes_of(16, 64), 3, 5);
        snprintf(what, sizeof what, " 64 tasks on %2u", m);
        print_growth(what, &t, &first);
    }
    first = 0;
    growth_head("by planes");
    for (unsigned planes = 1; planes <= 16384; planes *= 8) {
        struct timed t = time_size(4, 8, planes, 3, 5);
        snprintf(what, sizeof what, "  8 tasks on  4, %5u planes", planes);
        print_growth(what, &t, &first);
    }
    return 0;
}

/* One planner alone, for a profile */

static int plans(char **words) {
    static struct bytes table;
    unsigned m = (unsigned)atoi(words[0]), tasks = (unsigned)atoi(words[1]), planes = (unsigned)atoi(words[2]);
    struct random r = {1000 * tasks + m};
    struct wish wish = {m, 110270160, planes ? planes : planes_of(m, tasks), tasks, LOAD_NEAR, PERIODS_MIDDLE, 0};
    table_make(&table, &r, &wish);
    for (unsigned i = 0; i < FORMS; i++) {
        if (strcmp(forms[i].name, words[4]) != 0)
            continue;
        int64_t len = 0;
        for (int k = atoi(words[3]); k > 0; k--)
            len = forms[i].call(table.at, table.len, room, room_len);
        printf("%" PRId64 " bytes, %" PRId64 " segments a plan\n", len, (len - PLAN_HEADER) / (9 + 2 * m));
    }
    return 0;
}

static int compare(uint64_t tables, uint64_t seed, unsigned segments) {
    static struct compare c;
    compare_open(&c);
    compare_tables(&c, tables, seed, segments);
    return compare_report(&c);
}

int main(int words, char **word) {
    static const struct {
        const char *word;
        int (*call)(void);
    } parts[] = {{"cases", all_cases}, {"judge", judge}, {"long", long_burns}, {"floating", floating_burns}, {"speed", speed}, {"growth", growth}};
    int bad = 0;

    setvbuf(stdout, NULL, _IOLBF, 0);
    if (words == 5 && strcmp(word[1], "compare") == 0)
        return compare(strtoull(word[2], NULL, 10), strtoull(word[3], NULL, 10), (unsigned)atoi(word[4]));
    if (words == 7 && strcmp(word[1], "plans") == 0)
        return plans(word + 2);
    for (int i = 1; i < words || (i == 1 && words == 1); i++) {
        if (words == 1 || strcmp(word[i], "compare") == 0)
            bad |= compare(120000, 1, 400);
        for (unsigned k = 0; k < sizeof parts / sizeof parts[0]; k++)
            if (words == 1 || strcmp(word[i], parts[k].word) == 0) {
                printf("%s", words == 1 ? "\n" : "");
                bad |= parts[k].call();
            }
    }
    return bad;
}
