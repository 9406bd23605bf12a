/*
 * Plans a table file from C, as kiln_plan does: the plan file goes to standard output, or the line `refused N`.
 *
 *   sh tools/archive && gcc -O2 -Icrates/whole_plan/include examples/c/plan.c target/staticlib/libwhole_plan.a -o target/plan_c
 *   target/plan_c < examples/three-tasks.ktb | od -A d -t x1
 *
 * With an argument it reads the table from that file.
 */
#include <stdio.h>

#include "kiln_whole_plan.h"

/* One byte more than the longest table has, so that a longer file is seen to be too long. */
#define MOST_INPUT 2575
#define PLAN_ROOM 65536

static uint8_t table[MOST_INPUT];
static uint8_t plan[PLAN_ROOM];

int main(int argc, char **argv) {
    FILE *in = argc > 1 ? fopen(argv[1], "rb") : stdin;
    if (in == NULL) {
        perror(argv[1]);
        return 1;
    }
    size_t table_len = fread(table, 1, sizeof table, in);
    if (ferror(in)) {
        perror("reading the table");
        return 1;
    }
    int64_t answer = kiln_whole_plan(table, table_len, plan, sizeof plan);
    if (answer < 0)
        printf("refused %d\n", (int)-answer);
    else
        fwrite(plan, 1, (size_t)answer, stdout);
    return fflush(stdout) == 0 ? 0 : 1;
}
