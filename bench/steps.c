/* Makes one call through the C boundary, for an instruction count of it:
   steps (start|finish|ready|result|open|short) PLAN [ITEM]. The call is made by `measured` alone.
   Before a start or finish of an item in pass 0, and before ready, the items before it have
   finished that pass, so that the call is accepted; before a result all items have finished their
   passes. The passes are put by hand, and the unmet waits counted over the edges. Prints the number
   of items; fails where the call is not answered as it should be.

   steps (prepared|freeing) PLAN PASSES plays the plan with so many passes from its opening to the
   end by tables: each item is started and finished, with the list of freed items or without it.
   Each of these calls is made by a function `measured_...` alone. Prints the number of items, and
   how many starts there were. */
#include <stdbool.h>
#include <stddef.h>
#include <stdint.h>
#include <stdlib.h>

#include "../host/recount.h"
#include "plans.h"

static char text[TEXT_ROOM];
static uint64_t plan[TASKITER_PLAN_WORDS];
static TASKITER_COUNT_TYPE counts[TASKITER_COUNTS];
static uint64_t values[TASKITER_VALUES];
static uint16_t items[TASKITER_MAX_ITEMS], ready[TASKITER_MAX_ITEMS];
static uint16_t tables[TASKITER_PREPARED], freed[TASKITER_FREED];

static uint64_t measured(const char *call, uint64_t item) __attribute__((noinline));

static uint64_t measured(const char *call, uint64_t item) {
    switch (call[1]) {
    case 't': /* start */
        return taskiter_start(plan, TASKITER_PLAN_WORDS, counts, TASKITER_COUNTS, values, TASKITER_VALUES, item).refusal;
    case 'i': /* finish */
        return taskiter_finish(plan, TASKITER_PLAN_WORDS, counts, TASKITER_COUNTS, values, TASKITER_VALUES, item).refusal;
    case 'e': /* ready, result */
        if (call[2] == 'a')
            return taskiter_ready(plan, TASKITER_PLAN_WORDS, counts, TASKITER_COUNTS, values, TASKITER_VALUES, ready, TASKITER_MAX_ITEMS).refusal;
        return taskiter_result(plan, TASKITER_PLAN_WORDS, counts, TASKITER_COUNTS, values, TASKITER_VALUES, item).refusal;
    case 'p': /* open */
        return taskiter_open(plan, TASKITER_PLAN_WORDS, counts, TASKITER_COUNTS, values, TASKITER_VALUES);
    default: /* short */
        return taskiter_start(plan, TASKITER_PLAN_WORDS - 1, counts, TASKITER_COUNTS, values, TASKITER_VALUES, item).refusal;
    }
}

static __attribute__((noinline)) uint64_t measured_start(uint64_t item) {
    return taskiter_start_prepared(plan, TASKITER_PLAN_WORDS, tables, TASKITER_PREPARED, counts,
                                   TASKITER_COUNTS, values, TASKITER_VALUES, item)
        .refusal;
}

static __attribute__((noinline)) uint64_t measured_finish(uint64_t item) {
    return taskiter_finish_prepared(plan, TASKITER_PLAN_WORDS, tables, TASKITER_PREPARED, counts,
                                    TASKITER_COUNTS, values, TASKITER_VALUES, item)
        .refusal;
}

static __attribute__((noinline)) uint64_t measured_freeing(uint64_t item) {
    return taskiter_finish_freeing(plan, TASKITER_PLAN_WORDS, tables, TASKITER_PREPARED, counts,
                                   TASKITER_COUNTS, values, TASKITER_VALUES, freed,
                                   TASKITER_FREED, item)
        .refusal;
}

/* Starts and finishes the items in their order, pass after pass, which is always accepted. */
static int play_prepared(bool freeing, uint64_t number) {
    uint64_t starts = 0;
    uint64_t refused =
        taskiter_prepare(plan, TASKITER_PLAN_WORDS, tables, TASKITER_PREPARED).refusal;
    for (uint64_t pass = 0; pass < plan[0]; pass++)
        for (uint64_t a = 0; a < number; a++) {
            if (pass >= recount_passes(plan, items[a]))
                continue;
            refused += measured_start(a);
            refused += freeing ? measured_freeing(a) : measured_finish(a);
            starts++;
        }
    printf("%" PRIu64 " %" PRIu64 "\n", number, starts);
    return refused == 0 ? 0 : 1;
}

int main(int argc, char **argv) {
    if (argc < 3)
        return 2;
    const char *call = argv[1];
    int length = named_plan(text, argv[2]);
    uint64_t item = argc > 3 ? strtoull(argv[3], NULL, 10) : 0;
    bool freeing = strcmp(call, "freeing") == 0, played = freeing || strcmp(call, "prepared") == 0;
    if (played)
        length = with_passes(text, length, item);
    if (taskiter_read((const uint8_t *)text, (size_t)length, plan, TASKITER_PLAN_WORDS).refusal != 0)
        return 1;
    if (taskiter_open(plan, TASKITER_PLAN_WORDS, counts, TASKITER_COUNTS, values, TASKITER_VALUES) != 0)
        return 1;
    uint64_t number = taskiter_items(plan, TASKITER_PLAN_WORDS, items, TASKITER_MAX_ITEMS).number;
    if (played)
        return play_prepared(freeing, number);
    int whole = strcmp(call, "result") == 0;
    for (uint64_t a = 0; a < (whole ? number : item); a++)
        counts[a] = counts[TASKITER_FIRST_FINISHED + a] = whole ? recount_passes(plan, items[a]) : 1;
    recount_waits(plan, counts);
    if (strcmp(call, "finish") == 0)
        counts[item] = 1;
    uint64_t refusal = measured(call, item);
    if (refusal != (strcmp(call, "short") == 0 ? 11 : 0))
        return 1;
    printf("%" PRIu64 "\n", number);
    return 0;
}
