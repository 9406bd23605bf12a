/* Measures the stack of a whole plan: a thread runs on painted memory, and the paint that is gone was used. */
#include <inttypes.h>
#include <pthread.h>
#include <stdio.h>
#include <stdlib.h>
#include <string.h>
#include <sys/mman.h>

#include "planners.h"
#include "tables.h"

#define STACK (256u << 10)
#define ROOM (1u << 20)

struct job {
    whole_plan *call;
    const struct bytes *table;
    uint8_t *plan;
    int64_t answer;
};

static void *work(void *job_) {
    struct job *job = job_;
    job->answer = job->call ? job->call(job->table->at, job->table->len, job->plan, ROOM) : 0;
    return NULL;
}

static size_t used(struct job *job) {
    uint8_t *stack = mmap(NULL, STACK, PROT_READ | PROT_WRITE, MAP_PRIVATE | MAP_ANONYMOUS, -1, 0);
    pthread_attr_t attributes;
    pthread_t thread;
    memset(stack, 0xC3, STACK);
    pthread_attr_init(&attributes);
    if (pthread_attr_setstack(&attributes, stack, STACK) != 0 || pthread_create(&thread, &attributes, work, job) != 0)
        exit(2);
    pthread_join(thread, NULL);
    size_t clean = 0;
    while (clean < STACK && stack[clean] == 0xC3)
        clean++;
    munmap(stack, STACK);
    return STACK - clean;
}

int main(void) {
    static struct bytes table;
    static uint8_t plan[ROOM];
    static const unsigned sizes[][2] = {{3, 2}, {8, 4}, {64, 8}, {256, 16}};
    static const struct {
        const char *name;
        whole_plan *call;
    } forms[] = {{"library", kiln_whole_plan}, {"heap", heap_whole_plan}, {"sorted", sorted_whole_plan}};
    struct job job = {NULL, &table, plan, 0};
    size_t none = used(&job);

    for (unsigned f = 0; f < 3; f++) {
        printf("stack of a whole plan, %-8s", forms[f].name);
        for (unsigned i = 0; i < 4; i++) {
            struct random r = {i};
            struct wish wish = {sizes[i][1], 110270160, 8, sizes[i][0], LOAD_NEAR, PERIODS_MIDDLE, 0};
            table_make(&table, &r, &wish);
            job.call = forms[f].call;
            size_t bytes = used(&job) - none;
            printf(" %6zu%s (%u tasks)", bytes, job.answer > 0 ? "" : " refused", sizes[i][0]);
        }
        printf(" bytes\n");
    }
    return 0;
}
