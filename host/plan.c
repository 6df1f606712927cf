#include "plan.h"

#include <string.h>

int read_count(const struct task *task) {
    int count = 0;
    for (int a = 0; a < task->accesses; a++)
        count += reads(task->access[a]);
    return count;
}

bool permitted(int kernel, int reads) {
    switch (kernel) {
    case 0:
    case 1:
        return true;
    case 2:
        return reads == 2;
    case 3:
        return reads == 4;
    case 4:
        return reads >= 1;
    default:
        return false;
    }
}

static bool task_writes(const struct task *task, int region) {
    for (int a = 0; a < task->accesses; a++)
        if (writes(task->access[a]) && task->access[a].region == region)
            return true;
    return false;
}

int last_writer(const struct plan *plan, int region) {
    for (int i = plan->tasks - 1; i >= 0; i--)
        if (task_writes(&plan->task[i], region))
            return i;
    return -1;
}

/* The source of a read of the region by a task: the last writer before it, from the body's end on
   where none stands before it; -1 if nobody writes the region. */
static int source(const struct plan *plan, bool written[MAX_TASKS][MAX_REGIONS], int reader,
                  int region) {
    for (int back = 1; back <= plan->tasks; back++) {
        int i = (reader - back + plan->tasks) % plan->tasks;
        if (written[i][region])
            return i;
    }
    return -1;
}

static void find_written(const struct plan *plan, bool written[MAX_TASKS][MAX_REGIONS]) {
    memset(written, 0, (size_t)plan->tasks * sizeof written[0]);
    for (int i = 0; i < plan->tasks; i++)
        for (int a = 0; a < plan->task[i].accesses; a++)
            if (writes(plan->task[i].access[a]))
                written[i][plan->task[i].access[a].region] = true;
}

int find_wants(const struct plan *plan, struct wants *wants) {
    static bool written[MAX_TASKS][MAX_REGIONS];
    int transfers = 0;
    find_written(plan, written);
    memset(wants->before, 0, (size_t)plan->tasks * sizeof wants->before[0]);
    memset(wants->behind, 0, (size_t)plan->tasks * sizeof wants->behind[0]);
    for (int j = 0; j < plan->tasks; j++) {
        const struct task *reader = &plan->task[j];
        for (int a = 0; a < reader->accesses; a++) {
            int region = reader->access[a].region;
            int i = reads(reader->access[a]) ? source(plan, written, j, region) : -1;
            if (i < 0 || plan->task[i].rank == reader->rank)
                continue;
            uint16_t bit = (uint16_t)(1u << reader->rank);
            uint16_t *before = &wants->before[i][region], *behind = &wants->behind[i][region];
            transfers += ((*before | *behind) & bit) == 0;
            *(j > i ? behind : before) |= bit;
        }
    }
    return transfers;
}

void plan_words(const struct plan *plan, uint64_t *words) {
    memset(words, 0, PLAN_WORDS * sizeof *words);
    words[0] = plan->passes;
    words[1] = (uint64_t)plan->ranks;
    words[2] = (uint64_t)plan->regions;
    words[3] = (uint64_t)plan->tasks;
    memcpy(words + START_WORDS, plan->start, (size_t)plan->regions * sizeof *words);
    for (int i = 0; i < plan->tasks; i++) {
        const struct task *task = &plan->task[i];
        uint64_t *at = words + TASK_WORDS + WORDS_A_TASK * i;
        at[0] = (uint64_t)task->rank;
        at[1] = (uint64_t)task->kernel;
        at[2] = task->constant;
        at[3] = (uint64_t)task->accesses;
        for (int a = 0; a < task->accesses; a++)
            at[4 + a] =
                (uint64_t)(task->access[a].region + MAX_REGIONS * (int)task->access[a].mode);
    }
}

static bool zeros(const uint64_t *from, const uint64_t *to) {
    for (; from < to; from++)
        if (*from != 0)
            return false;
    return true;
}

static bool names_twice(const struct task *task) {
    for (int a = 0; a < task->accesses; a++)
        for (int b = 0; b < a; b++)
            if (task->access[a].region == task->access[b].region)
                return true;
    return false;
}

/* Whether the twelve words are those of a task of the plan, whose ranks and regions are known. */
static bool task_of_words(const struct plan *plan, const uint64_t *at, struct task *task) {
    if (at[0] >= (uint64_t)plan->ranks || at[1] > MAX_KERNEL || at[3] > MAX_ACCESSES ||
        !zeros(at + 4 + at[3], at + WORDS_A_TASK))
        return false;
    task->rank = (int)at[0];
    task->kernel = (int)at[1];
    task->constant = at[2];
    task->accesses = (int)at[3];
    for (int a = 0; a < task->accesses; a++) {
        uint64_t word = at[4 + a];
        if (word / MAX_REGIONS > INOUT || word % MAX_REGIONS >= (uint64_t)plan->regions)
            return false;
        task->access[a] =
            (struct access){(int)(word % MAX_REGIONS), (enum mode)(word / MAX_REGIONS)};
    }
    return !names_twice(task) && permitted(task->kernel, read_count(task));
}

/* Whether the word is 1 to the limit. */
static bool lies(uint64_t word, uint64_t limit) {
    return word >= 1 && word <= limit;
}

bool plan_of_words(const uint64_t *words, struct plan *plan) {
    static struct wants wants;
    if (words[0] > MAX_PASSES || !lies(words[1], MAX_RANKS) || !lies(words[2], MAX_REGIONS) ||
        !lies(words[3], MAX_TASKS))
        return false;
    plan->passes = words[0];
    plan->ranks = (int)words[1];
    plan->regions = (int)words[2];
    plan->tasks = (int)words[3];
    memcpy(plan->start, words + START_WORDS, (size_t)plan->regions * sizeof *words);
    if (!zeros(words + START_WORDS + plan->regions, words + TASK_WORDS))
        return false;
    if (!zeros(words + TASK_WORDS + WORDS_A_TASK * plan->tasks, words + PLAN_WORDS))
        return false;
    for (int i = 0; i < plan->tasks; i++)
        if (!task_of_words(plan, words + TASK_WORDS + WORDS_A_TASK * i, &plan->task[i]))
            return false;
    return find_wants(plan, &wants) <= MAX_TRANSFERS;
}
