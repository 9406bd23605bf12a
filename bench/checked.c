/* Runs tables, most of them damaged, with table and plan in blocks of exactly their size, for memcheck and sanitizers.
 *
 *   checked TABLES SEED */
#include <inttypes.h>
#include <stdio.h>
#include <stdlib.h>
#include <string.h>

#include "planners.h"
#include "tables.h"

static uint64_t calls, differences;

/* A block of exactly so many bytes. It is not set to anything: no answer may depend on what a plan buffer held. */
static uint8_t *block(size_t len) {
    uint8_t *at = malloc(len);
    return at ? at : malloc(1);
}

static void check(const struct bytes *table, size_t plan_len) {
    uint8_t *bytes = block(table->len), *plan = block(plan_len), *other = block(plan_len);
    memcpy(bytes, table->at, table->len);
    int64_t answer = kiln_whole_plan(bytes, table->len, plan, plan_len);
    int64_t expected = sorted_whole_plan(bytes, table->len, other, plan_len);
    if (answer != expected || (answer > 0 && memcmp(plan, other, (size_t)answer) != 0)) {
        differences++;
        printf("DIFFERENCE: %" PRId64 " in place of %" PRId64 "\n", answer, expected);
    }
    calls++;
    free(bytes);
    free(plan);
    free(other);
}

int main(int words, char **word) {
    uint64_t tables = words > 1 ? strtoull(word[1], NULL, 10) : 1000;
    struct random r = {words > 2 ? strtoull(word[2], NULL, 10) : 1};
    static struct bytes table;

    for (uint64_t i = 0; i < tables; i++) {
        struct wish w = random_wish(&r, 60);
        table_make(&table, &r, &w);
        for (unsigned k = (unsigned)random_below(&r, 4); k > 0; k--)
            table_damage(&table, &r);
        uint64_t need = table_need(&table);
        if (need > 1u << 20) {
            check(&table, random_below(&r, 256));
            continue;
        }
        check(&table, need);
        check(&table, need - 1);
        check(&table, random_below(&r, need + 1));
    }
    printf("%" PRIu64 " tables, %" PRIu64 " calls, %" PRIu64 " differences\n", tables, calls, differences);
    return differences != 0;
}
