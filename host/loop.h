/* The unrolled loop that runs are compared with: one cell a region, the tasks in body order, pass
   after pass. It knows neither ranks nor transfers, and has kernels of its own. */
#ifndef HOST_LOOP_H
#define HOST_LOOP_H

#include <stdint.h>

#include "plan.h"

/* `passes` of the loop have been run: the cells are as they stand after them, and the words of each
   are kept. */
struct loop {
    const struct plan *plan;
    uint64_t passes, room;
    uint64_t cells[MAX_REGIONS];
    uint64_t *words;
};

/* The whole number nearest to the mean of four words, the even one where two are equally near. */
static inline uint64_t mean(uint64_t a, uint64_t b, uint64_t c, uint64_t d) {
    unsigned __int128 sum = (unsigned __int128)a + b + c + d;
    uint64_t down = (uint64_t)(sum / 4);
    int rest = (int)(sum % 4);
    return down + (rest > 2 || (rest == 2 && down % 2 == 1));
}

/* The word of a kernel with this constant and so many reads; of a number that is no kernel, 0. A
   kernel that wants more reads takes the words behind them. */
uint64_t word_by(uint64_t kernel, uint64_t constant, const uint64_t *read, int count);

/* The word of a task that has these reads. */
uint64_t kernel_word(const struct task *task, const uint64_t *read);

/* Begins a loop that has run no pass. loop_end gives back its memory. */
void loop_begin(struct loop *loop, const struct plan *plan);
void loop_end(struct loop *loop);

/* The word of a task in a pass of the plan; runs the loop as far as that. */
uint64_t loop_word(struct loop *loop, uint64_t pass, int task);

/* The final number of a region; runs the loop to its end. */
uint64_t loop_final(struct loop *loop, int region);

#endif
