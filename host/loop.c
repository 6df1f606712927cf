#include "loop.h"

#include <stdio.h>
#include <stdlib.h>
#include <string.h>

uint64_t word_by(uint64_t kernel, uint64_t constant, const uint64_t *read, int count) {
    uint64_t word = constant;
    switch (kernel) {
    case 0:
        return word;
    case 1:
        for (int r = 0; r < count; r++)
            word += read[r];
        return word;
    case 2:
        return read[0] - read[1] + word;
    case 3:
        return mean(read[0], read[1], read[2], read[3]);
    case 4:
        word = 0;
        for (int r = 0; r < count; r++)
            word = read[r] > word ? read[r] : word;
        return word;
    default:
        return 0;
    }
}

uint64_t kernel_word(const struct task *task, const uint64_t *read) {
    return word_by((uint64_t)task->kernel, task->constant, read, read_count(task));
}

void loop_begin(struct loop *loop, const struct plan *plan) {
    *loop = (struct loop){.plan = plan};
    memcpy(loop->cells, plan->start, (size_t)plan->regions * sizeof *plan->start);
}

void loop_end(struct loop *loop) {
    free(loop->words);
    loop->words = NULL;
}

static uint64_t run_task(struct loop *loop, const struct task *task) {
    uint64_t read[MAX_ACCESSES];
    int count = 0;
    for (int a = 0; a < task->accesses; a++)
        if (reads(task->access[a]))
            read[count++] = loop->cells[task->access[a].region];
    uint64_t word = kernel_word(task, read);
    for (int a = 0; a < task->accesses; a++)
        if (writes(task->access[a]))
            loop->cells[task->access[a].region] = word;
    return word;
}

/* Makes room for the words of another pass. */
static uint64_t *next_words(struct loop *loop) {
    size_t tasks = (size_t)loop->plan->tasks;
    if (loop->passes == loop->room) {
        loop->room = 2 * loop->room + 8;
        loop->words = realloc(loop->words, loop->room * tasks * sizeof *loop->words);
        if (loop->words == NULL) {
            fprintf(stderr, "no memory for the unrolled loop\n");
            exit(2);
        }
    }
    return loop->words + loop->passes * tasks;
}

static void run_passes(struct loop *loop, uint64_t passes) {
    while (loop->passes < passes) {
        uint64_t *words = next_words(loop);
        for (int i = 0; i < loop->plan->tasks; i++)
            words[i] = run_task(loop, &loop->plan->task[i]);
        loop->passes++;
    }
}

uint64_t loop_word(struct loop *loop, uint64_t pass, int task) {
    run_passes(loop, pass + 1);
    return loop->words[pass * (size_t)loop->plan->tasks + (size_t)task];
}

uint64_t loop_final(struct loop *loop, int region) {
    run_passes(loop, loop->plan->passes);
    return loop->cells[region];
}
