/* A target for libFuzzer: two bytes for the size of the plan buffer, then the table. The library and both planners in C
 * must agree in their answer and in every byte of the buffer, and their plan must keep the laws. */
#include <stdio.h>
#include <stdlib.h>
#include <string.h>

#include "laws.h"
#include "planners.h"
#include "table.h"

#define ROOM (1u << 20)

size_t LLVMFuzzerMutate(uint8_t *data, size_t size, size_t most);

static void differ(const char *what) {
    fprintf(stderr, "DIFFERENCE: %s\n", what);
    abort();
}

/* The size: about the need for most values of the two bytes, else their value. */
static size_t plan_size(const uint8_t *data, const uint8_t *table, size_t len) {
    unsigned word = get16(data);
    uint64_t need = PLAN_HEADER;
    if (len >= TABLE_HEADER)
        need += (uint64_t)get16(table + 10) * (get16(table + 12) + 1) * (9 + 2 * table[5]);
    if (word & 0x8000 || need > ROOM)
        return word & 0x7FFF;
    uint64_t size = need + (word & 7);
    return size < 3 ? 0 : size - 3;
}

static uint8_t *painted(size_t len) {
    uint8_t *at = malloc(len + 1);
    memset(at, 0x5A, len + 1);
    return at;
}

int LLVMFuzzerTestOneInput(const uint8_t *data, size_t size) {
    if (size < 2)
        return 0;
    size_t len = size - 2, plan_len = plan_size(data, data + 2, len);
    uint8_t *table = malloc(len ? len : 1), *plan = painted(plan_len), *heap = painted(plan_len), *sorted = painted(plan_len);
    memcpy(table, data + 2, len);
    int64_t answer = kiln_whole_plan(table, len, plan, plan_len);
    if (answer != heap_whole_plan(table, len, heap, plan_len) || answer != sorted_whole_plan(table, len, sorted, plan_len))
        differ("the answer");
    if (memcmp(plan, heap, plan_len + 1) != 0 || memcmp(plan, sorted, plan_len + 1) != 0)
        differ("the bytes of the buffer");
    if (memcmp(table, data + 2, len) != 0)
        differ("the table is changed");
    if (answer > 0 && laws_check(table, len, plan, (size_t)answer).broken)
        differ(laws_check(table, len, plan, (size_t)answer).broken);
    free(table);
    free(plan);
    free(heap);
    free(sorted);
    return 0;
}

/* Mutations that know the layout: without them hardly a table has the length of its rows. */
size_t LLVMFuzzerCustomMutator(uint8_t *data, size_t size, size_t most, unsigned seed) {
    static const uint32_t scales[] = {1, 6, 12, 60, 720, 5040, 720720, 61261200, 110270160, 134217728};
    uint8_t *table = data + 2;
    size_t head = 2 + TABLE_HEADER;
    if (seed % 4 == 0 || size < head || most < head + TABLE_ROW * 4)
        return LLVMFuzzerMutate(data, size, most);
    unsigned rows = (unsigned)((size - head) / TABLE_ROW);
    unsigned way = seed / 4 % 8, pick = seed / 32;
    if (way == 0 && head + TABLE_ROW * (rows + 1) <= most && rows < 257) { /* a row more */
        uint8_t *row = table + TABLE_HEADER + TABLE_ROW * rows++;
        put16(row, pick % 65536);
        uint32_t scale = get32(table + 6), period = 1 + pick % 64;
        put32(row + 2, 1 + pick / 64 % 8);
        put32(row + 6, scale > 0 && scale % period == 0 ? period : scale);
    } else if (way == 1 && rows > 0) { /* a row less */
        rows--;
    } else if (way == 2) {
        put32(table + 6, scales[pick % 10]);
    } else if (way == 3) {
        put16(table + 10, 1 + pick % 40);
    } else if (way == 4 && rows > 0) { /* another period */
        uint8_t *row = table + TABLE_HEADER + TABLE_ROW * (pick % rows);
        uint32_t scale = get32(table + 6), divisor = 1 + pick / 256 % 24;
        if (scale % divisor == 0)
            put32(row + 6, scale / divisor);
    } else if (way == 5 && rows > 0) { /* another execution time */
        uint8_t *row = table + TABLE_HEADER + TABLE_ROW * (pick % rows);
        put32(row + 2, 1 + pick / 256 % (get32(row + 6) ? get32(row + 6) : 1));
    } else if (way == 6) {
        table[5] = (uint8_t)(pick % 18);
    } else {
        return LLVMFuzzerMutate(data, size, most);
    }
    put16(table + 12, rows);
    return head + TABLE_ROW * rows;
}
