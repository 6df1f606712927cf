/* The 40 blocks of bench/plans.h by a C host that goes by prepared calls, on one thread:
   prepared [PASSES]. It asks once which items are ready; each finish lists those that it makes
   ready. Prints the nanoseconds an instance, one task in one pass, with opening, preparing, sends
   and receives, the least of some runs. Exit status 0 where no call is refused and the results are
   the plain loop's final numbers. */
#include "../include/taskiter.h"
#include "body.h"

static uint64_t words[TASKITER_PLAN_WORDS];
static TASKITER_COUNT_TYPE counts[TASKITER_COUNTS];
static uint64_t values[TASKITER_VALUES];
static uint16_t tables[TASKITER_PREPARED], ready[TASKITER_MAX_ITEMS], freed[TASKITER_FREED];
static uint64_t refused;

/* Starts and finishes an item, and puts those that it makes ready behind the others. Gives how many
   are ready then. */
static uint64_t run_item(uint64_t item, uint64_t number) {
    taskiter_answer start = taskiter_start_prepared(
        words, TASKITER_PLAN_WORDS, tables, TASKITER_PREPARED, counts, TASKITER_COUNTS, values,
        TASKITER_VALUES, item);
    taskiter_answer finish = taskiter_finish_freeing(
        words, TASKITER_PLAN_WORDS, tables, TASKITER_PREPARED, counts, TASKITER_COUNTS, values,
        TASKITER_VALUES, freed, TASKITER_FREED, item);
    refused += start.refusal + finish.refusal;
    for (uint64_t k = 1; k <= freed[0]; k++)
        ready[number++] = freed[k];
    return number;
}

/* Runs the plan to its end and puts the results. */
static void run_prepared(uint64_t *cells, int at_once) {
    (void)at_once;
    refused += taskiter_open(words, TASKITER_PLAN_WORDS, counts, TASKITER_COUNTS, values,
                             TASKITER_VALUES);
    refused += taskiter_prepare(words, TASKITER_PLAN_WORDS, tables, TASKITER_PREPARED).refusal;
    uint64_t number = taskiter_ready(words, TASKITER_PLAN_WORDS, counts, TASKITER_COUNTS, values,
                                     TASKITER_VALUES, ready, TASKITER_MAX_ITEMS)
                          .number;
    while (number > 0 && refused == 0)
        number = run_item(ready[number - 1], number - 1);
    for (int g = 0; g < plan.regions; g++)
        cells[g] = taskiter_result(words, TASKITER_PLAN_WORDS, counts, TASKITER_COUNTS, values,
                                   TASKITER_VALUES, (uint64_t)g)
                       .word;
}

int main(int argc, char **argv) {
    static char text[TEXT_ROOM];
    uint64_t passes = passes_given(argc, argv);
    size_t length = blocks_text(text, passes);
    if (!take_body(passes) ||
        taskiter_read((const uint8_t *)text, length, words, TASKITER_PLAN_WORDS).refusal != 0)
        return 2;
    bool same = print_measured("prepared", run_prepared, 1);
    return same && refused == 0 ? 0 : 1;
}
