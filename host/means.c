/* The group of stress that tries kernel 3 on reads whose mean is known beforehand. */
#include <inttypes.h>

#include "groups.h"

enum { READS = 4 };

typedef unsigned __int128 wide;

/* A number from low to high, often one of the two or near one. */
static uint64_t draw_between(struct rng *rng, uint64_t low, uint64_t high) {
    uint64_t most = high - low, step = draw_word(rng);
    if (step > most)
        step %= most + 1;
    return draw_below(rng, 2) == 0 ? low + step : high - step;
}

/* Four words with this exact sum. */
static void draw_reads(struct rng *rng, wide sum, uint64_t *read) {
    int first = draw_below(rng, READS);
    for (int more = READS - 1; more >= 0; more--) {
        wide others = (wide)UINT64_MAX * (unsigned)more;
        uint64_t low = sum > others ? (uint64_t)(sum - others) : 0;
        uint64_t high = sum < UINT64_MAX ? (uint64_t)sum : UINT64_MAX;
        uint64_t word = draw_between(rng, low, high);
        read[(first + more) % READS] = word;
        sum -= word;
    }
}

/* Draws the mean first; then a sum within 2 of 4 × mean, exactly 2 away only where the mean is
   even; then reads with that sum. So the mean is not computed from the sum. */
static uint64_t draw_mean(struct rng *rng, uint64_t *read) {
    uint64_t mean = draw_word(rng);
    int off = draw_below(rng, 5) - 2;
    if (off == 2 || off == -2)
        mean -= mean % 2;
    if ((off < 0 && mean == 0) || (off > 0 && mean == UINT64_MAX))
        off = -off;
    draw_reads(rng, (wide)mean * READS + (wide)off, read);
    return mean;
}

/* Makes a call that is accepted and answers the mean, by the runtime and by the second method. */
static void try_mean(struct trial *trial, struct rng *rng, enum call call, uint64_t number,
                     uint64_t mean) {
    struct answer answer = try_call(trial, call, draw_enough(rng), number);
    uint64_t expected = with_changed_mean(trial, mean);
    if (answer.refusal != 0 || answer.word != expected)
        differ(trial, "refusal %" PRIu64 ", the mean is %" PRIu64 ", expected %" PRIu64,
               answer.refusal, answer.word, expected);
}

/* One task with four reads and one word to write. */
void means_group(struct trial *trial, struct rng *rng) {
    struct plan plan = {.passes = 1, .ranks = 1, .regions = READS + 1, .tasks = 1};
    struct task *task = &plan.task[0];
    uint64_t mean = draw_mean(rng, plan.start);
    *task = (struct task){.kernel = 3, .constant = draw_word(rng), .accesses = READS + 1};
    for (int g = 0; g <= READS; g++)
        task->access[g] = (struct access){g, g < READS ? IN : OUT};
    fill_memory(trial, rng);
    put_plan(trial, &plan);
    try_call(trial, OPEN_CALL, draw_enough(rng), 0);
    try_mean(trial, rng, START_CALL, 0, mean);
    try_mean(trial, rng, FINISH_CALL, 0, mean);
    try_mean(trial, rng, RESULT_CALL, READS, mean);
}
