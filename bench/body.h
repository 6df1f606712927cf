/* The 40 blocks of bench/plans.h as a plain loop over the body, with no runtime, for the programs
   that time the same blocks in other ways. The body is taken from the plan's text, so that it is
   the one that the runtime reads. */
#ifndef BODY_H
#define BODY_H

#include <stdint.h>
#include <stdio.h>
#include <stdlib.h>
#include <string.h>
#include <time.h>

#include "../host/loop.h"
#include "../host/reading.h"
#include "plans.h"

enum { DEFAULT_PASSES = 5000, PASSES_AT_ONCE = 10, RUNS = 5 };

/* A task of the body: its reads in record order, the cells among them that it does not write, and
   those that it writes. */
struct body_task {
    int kernel, reads, only_reads, writes;
    uint64_t constant;
    int read[MAX_ACCESSES], only_read[MAX_ACCESSES], written[MAX_ACCESSES];
};

static struct plan plan;
static struct body_task body[MAX_TASKS];

static inline void take_task(const struct task *from, struct body_task *to) {
    memset(to, 0, sizeof *to);
    to->kernel = from->kernel;
    to->constant = from->constant;
    for (int a = 0; a < from->accesses; a++) {
        int region = from->access[a].region;
        if (reads(from->access[a]))
            to->read[to->reads++] = region;
        if (writes(from->access[a]))
            to->written[to->writes++] = region;
        else
            to->only_read[to->only_reads++] = region;
    }
}

/* The text of the blocks with so many passes; gives its length. */
static inline size_t blocks_text(char *text, uint64_t passes) {
    return (size_t)with_passes(text, named_plan(text, "blocks"), passes);
}

/* The passes that the last argument says, if there is one. */
static inline uint64_t passes_given(int argc, char **argv) {
    return argc > 1 ? (uint64_t)strtoull(argv[argc - 1], NULL, 10) : (uint64_t)DEFAULT_PASSES;
}

static inline bool take_body(uint64_t passes) {
    static char text[TEXT_ROOM];
    size_t length = blocks_text(text, passes);
    if (read_text((const uint8_t *)text, length, &plan).refusal != 0)
        return false;
    for (int i = 0; i < plan.tasks; i++)
        take_task(&plan.task[i], &body[i]);
    return plan.passes > 0;
}

static inline uint64_t word_of(const struct body_task *task, const uint64_t *cells) {
    uint64_t word = task->constant;
    const int *read = task->read;
    switch (task->kernel) {
    case 0:
        return word;
    case 1:
        for (int r = 0; r < task->reads; r++)
            word += cells[read[r]];
        return word;
    case 2:
        return cells[read[0]] - cells[read[1]] + word;
    case 3:
        return mean(cells[read[0]], cells[read[1]], cells[read[2]], cells[read[3]]);
    default:
        word = 0;
        for (int r = 0; r < task->reads; r++)
            word = cells[read[r]] > word ? cells[read[r]] : word;
        return word;
    }
}

static inline void run_task(const struct body_task *task, uint64_t *cells) {
    uint64_t word = word_of(task, cells);
    for (int w = 0; w < task->writes; w++)
        cells[task->written[w]] = word;
}

static inline void run_plain(uint64_t *cells, int at_once) {
    (void)at_once;
    for (uint64_t p = 0; p < plan.passes; p++)
        for (int i = 0; i < plan.tasks; i++)
            run_task(&body[i], cells);
}

static inline double now(void) {
    struct timespec time;
    clock_gettime(CLOCK_MONOTONIC, &time);
    return (double)time.tv_sec * 1e9 + (double)time.tv_nsec;
}

/* Runs the loop from the starting values some times and answers the least nanoseconds an instance.
   The cells are as the last run leaves them. */
static inline double measure(void (*run)(uint64_t *, int), int at_once, uint64_t *cells) {
    double least = 0;
    for (int k = 0; k < RUNS; k++) {
        memcpy(cells, plan.start, sizeof plan.start);
        double begun = now();
        run(cells, at_once);
        double time = (now() - begun) / ((double)plan.passes * plan.tasks);
        least = k == 0 || time < least ? time : least;
    }
    return least;
}

/* Measures a run and prints the nanoseconds an instance under this name; whether it leaves the
   final numbers of the plain loop. */
static inline bool print_measured(const char *name, void (*run)(uint64_t *, int), int at_once) {
    uint64_t cells[MAX_REGIONS], plain[MAX_REGIONS];
    memcpy(plain, plan.start, sizeof plan.start);
    run_plain(plain, 1);
    printf("%s %.1f\n", name, measure(run, at_once, cells));
    return memcmp(cells, plain, (size_t)plan.regions * sizeof *cells) == 0;
}

#endif
