/* A plan as the host programs know it: its words by docs/LAYOUT.md, and the sources and transfers
   of the paper. Nothing here uses the runtime: what its answers are compared with rests on these
   functions. */
#ifndef HOST_PLAN_H
#define HOST_PLAN_H

#include <stdbool.h>
#include <stdint.h>

#define MAX_PASSES UINT64_C(1000000000000)

enum {
    MAX_RANKS = 16,
    MAX_REGIONS = 128,
    MAX_TASKS = 128,
    MAX_ACCESSES = 8,
    MAX_KERNEL = 4,
    MAX_TRANSFERS = 256
};
enum { PLAN_WORDS = 1668, START_WORDS = 4, TASK_WORDS = 132, WORDS_A_TASK = 12 };

enum mode { IN, OUT, INOUT };

struct access {
    int region;
    enum mode mode;
};

struct task {
    int rank, kernel;
    uint64_t constant;
    int accesses;
    struct access access[MAX_ACCESSES];
};

struct plan {
    uint64_t passes;
    int ranks, regions, tasks;
    uint64_t start[MAX_REGIONS];
    struct task task[MAX_TASKS];
};

/* For each task and region, the other ranks that read the region with this task as the source, a
   bit a rank: those where such a read stands at or before the task in the body, and those where one
   stands behind it. */
struct wants {
    uint16_t before[MAX_TASKS][MAX_REGIONS], behind[MAX_TASKS][MAX_REGIONS];
};

static inline bool reads(struct access access) {
    return access.mode != OUT;
}

static inline bool writes(struct access access) {
    return access.mode != IN;
}

/* How many accesses of a task read. */
int read_count(const struct task *task);

/* Whether a kernel may have this number of reads. */
bool permitted(int kernel, int reads);

/* The last task that writes the region, or -1. */
int last_writer(const struct plan *plan, int region);

/* Finds who wants what, and answers the number of transfers. */
int find_wants(const struct plan *plan, struct wants *wants);

/* The words that reading leaves for the plan. */
void plan_words(const struct plan *plan, uint64_t *words);

/* Whether the words are what reading leaves for some text; then the plan is the one that they
   hold. */
bool plan_of_words(const uint64_t *words, struct plan *plan);

#endif
