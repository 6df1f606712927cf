#include "draw.h"

#include <inttypes.h>
#include <stdio.h>

#include "writing.h"

uint64_t draw(struct rng *rng) {
    uint64_t z = rng->state += 0x9e3779b97f4a7c15u;
    z = (z ^ (z >> 30)) * 0xbf58476d1ce4e5b9u;
    z = (z ^ (z >> 27)) * 0x94d049bb133111ebu;
    return z ^ (z >> 31);
}

struct rng rng_of(uint64_t seed, uint64_t number) {
    struct rng rng = {seed ^ number << 32};
    return (struct rng){draw(&rng)};
}

int draw_below(struct rng *rng, int n) {
    return (int)((draw(rng) >> 32) * (uint64_t)n >> 32);
}

uint64_t draw_word_below(struct rng *rng, uint64_t n) {
    return (uint64_t)((unsigned __int128)draw(rng) * n >> 64);
}

uint64_t draw_word(struct rng *rng) {
    switch (draw_below(rng, 5)) {
    case 0:
        return (uint64_t)draw_below(rng, 10);
    case 1:
        return UINT64_MAX - (uint64_t)draw_below(rng, 10);
    case 2:
        return (UINT64_C(1) << draw_below(rng, 64)) - (uint64_t)draw_below(rng, 2);
    default:
        return draw(rng);
    }
}

uint64_t draw_many_passes(struct rng *rng) {
    const uint64_t passes[] = {MAX_PASSES,
                               MAX_PASSES - 1,
                               MAX_PASSES - (uint64_t)draw_below(rng, 1000),
                               (UINT64_C(1) << 32) - 1,
                               UINT64_C(1) << 32,
                               (UINT64_C(1) << 32) + 1,
                               1000000,
                               1000001,
                               MAX_PASSES - draw_word_below(rng, MAX_PASSES)};
    return passes[draw_below(rng, (int)(sizeof passes / sizeof *passes))];
}

static uint64_t draw_passes(struct rng *rng, enum size size) {
    static const int most[SIZES] = {12, 5, 3, 2, 2};
    int kind = draw_below(rng, 12);
    return kind == 0   ? 0
           : kind == 1 ? draw_many_passes(rng)
                       : 1 + (uint64_t)draw_below(rng, most[size]);
}

/* A region that the task does not name yet; the first few more often than others. */
static int draw_region(struct rng *rng, const struct plan *plan, const struct task *task) {
    for (;;) {
        int region =
            draw_below(rng, draw_below(rng, 3) == 0 ? plan->regions : plan->regions / 4 + 1);
        int a = 0;
        while (a < task->accesses && task->access[a].region != region)
            a++;
        if (a == task->accesses)
            return region;
        if (draw_below(rng, 16) == 0)
            return -1;
    }
}

static void draw_kernel(struct rng *rng, struct task *task) {
    do
        task->kernel = draw_below(rng, MAX_KERNEL + 1);
    while (!permitted(task->kernel, read_count(task)) ||
           (task->kernel == 0 && draw_below(rng, 4) != 0));
    task->constant = draw_word(rng);
}

static void draw_task(struct rng *rng, const struct plan *plan, struct task *task, int most) {
    int accesses = draw_below(rng, 2) == 0 ? draw_below(rng, most + 1) : most * 3 / 4;
    task->rank = draw_below(rng, plan->ranks);
    task->accesses = 0;
    for (int a = 0; a < accesses; a++) {
        int region = draw_region(rng, plan, task);
        if (region >= 0)
            task->access[task->accesses++] = (struct access){region, (enum mode)draw_below(rng, 3)};
    }
    draw_kernel(rng, task);
}

/* 1 to the limit; the limit itself more often than others. */
static int draw_number(struct rng *rng, int limit) {
    return draw_below(rng, 6) == 0 ? limit : 1 + draw_below(rng, limit);
}

/* Task i of a ring: it writes region i and reads regions that lie ahead of it, going round. Those
   at the offsets `first` and `second` belong to tasks on two other ranks; the rest, 16 or a
   multiple of it ahead, to tasks on its own. */
static void draw_ring_task(struct rng *rng, int i, int first, int second, struct task *task) {
    int ahead[MAX_ACCESSES] = {0, first, second};
    task->rank = i % MAX_RANKS;
    task->accesses = 3 + draw_below(rng, MAX_ACCESSES - 2);
    for (int a = 3; a < task->accesses; a++)
        ahead[a] = MAX_RANKS * a;
    for (int a = 0; a < task->accesses; a++)
        task->access[a] = (struct access){(i + ahead[a]) % MAX_REGIONS, a == 0 ? OUT : IN};
    draw_kernel(rng, task);
}

static void draw_ring(struct rng *rng, struct plan *plan) {
    int first = 1 + draw_below(rng, MAX_RANKS - 1), other = 1 + draw_below(rng, MAX_RANKS - 2);
    int second =
        (other < first ? other : other + 1) + MAX_RANKS * draw_below(rng, MAX_REGIONS / MAX_RANKS);
    for (int i = 0; i < plan->tasks; i++)
        draw_ring_task(rng, i, first, second, &plan->task[i]);
}

void draw_body(struct rng *rng, enum size size, struct plan *plan) {
    static const int ranks[SIZES] = {4, 16, 16}, regions[SIZES] = {8, 40, 128},
                     tasks[SIZES] = {6, 24, 128};
    plan->passes = draw_passes(rng, size);
    plan->ranks = size == RING      ? MAX_RANKS
                  : size == LARGEST ? 2 + draw_below(rng, 15)
                                    : draw_number(rng, ranks[size]);
    plan->regions = size == RING      ? MAX_REGIONS
                    : size == LARGEST ? 16 + draw_below(rng, 113)
                                      : draw_number(rng, regions[size]);
    plan->tasks = size >= LARGEST ? MAX_TASKS : draw_number(rng, tasks[size]);
    for (int g = 0; g < plan->regions; g++)
        plan->start[g] = draw_below(rng, 4) == 0 ? 0 : draw_word(rng);
    if (size == RING)
        draw_ring(rng, plan);
    else
        for (int i = 0; i < plan->tasks; i++)
            draw_task(rng, plan, &plan->task[i], MAX_ACCESSES);
}

/* Drops the read of access a: an `in` goes, an `inout` becomes an `out`. So no source changes, and
   at most one transfer goes. */
static void drop_read(struct task *task, int a) {
    if (task->access[a].mode == INOUT) {
        task->access[a].mode = OUT;
        return;
    }
    task->accesses--;
    for (; a < task->accesses; a++)
        task->access[a] = task->access[a + 1];
}

/* Drops some read of the plan, which has one. */
static void drop_some_read(struct rng *rng, struct plan *plan) {
    for (;;) {
        struct task *task = &plan->task[draw_below(rng, plan->tasks)];
        int a = draw_below(rng, MAX_ACCESSES);
        if (a < task->accesses && reads(task->access[a])) {
            drop_read(task, a);
            draw_kernel(rng, task);
            return;
        }
    }
}

void drop_reads(struct rng *rng, struct plan *plan) {
    static struct wants wants;
    while (find_wants(plan, &wants) > MAX_TRANSFERS)
        drop_some_read(rng, plan);
}

void draw_plan(struct rng *rng, enum size size, struct plan *plan) {
    static struct wants wants;
    do
        draw_body(rng, size, plan);
    while (size == LARGEST && find_wants(plan, &wants) < MAX_TRANSFERS);
    drop_reads(rng, plan);
}

/* A word of 20 digits, as many as a word can have. */
static uint64_t draw_long(struct rng *rng) {
    return draw(rng) | UINT64_C(3) << 62;
}

/* The tasks go round up to three ranks. Those of a rank have seven regions of their own; all share
   the last region, so there are at most 128 transfers. */
void draw_longest(struct rng *rng, struct plan *plan) {
    int ranks = 1 + draw_below(rng, 3);
    *plan = (struct plan){MAX_PASSES, MAX_RANKS, MAX_REGIONS, MAX_TASKS, {0}, {{0}}};
    for (int g = 0; g < MAX_REGIONS; g++)
        plan->start[g] = draw_long(rng);
    for (int i = 0; i < MAX_TASKS; i++) {
        struct task *task = &plan->task[i];
        task->rank = 10 + i % ranks;
        for (int a = 0; a < MAX_ACCESSES - 1; a++)
            task->access[a] = (struct access){100 + 7 * (i % ranks) + a, INOUT};
        task->access[MAX_ACCESSES - 1] = (struct access){MAX_REGIONS - 1, INOUT};
        task->accesses = MAX_ACCESSES;
        draw_kernel(rng, task);
        task->constant = draw_long(rng);
    }
}

static int put_starts(struct rng *rng, const struct plan *plan, char *text) {
    int order[MAX_REGIONS], at = 0;
    for (int g = 0; g < plan->regions; g++) {
        int k = draw_below(rng, g + 1);
        order[g] = order[k];
        order[k] = g;
    }
    for (int k = 0; k < plan->regions; k++)
        if (plan->start[order[k]] != 0 || draw_below(rng, 4) == 0)
            at += sprintf(text + at, "start\t%d\t%" PRIu64 "\n", order[k], plan->start[order[k]]);
    return at;
}

int draw_text(struct rng *rng, const struct plan *plan, char *text) {
    int at = sprintf(text, "loop\t%" PRIu64 "\t%d\t%d\n", plan->passes, plan->ranks, plan->regions);
    at += put_starts(rng, plan, text + at);
    return at + write_tasks(plan, text + at);
}
