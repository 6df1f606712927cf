/* The numbers of unmet waits of a state, counted over the edges: for a state that was kept without
   them, as one of version 4 or before. The plan is one that reading left, and the counts have
   TASKITER_COUNTS words, of which those of started and finished passes stand. The others of the
   plan's items are put; what lies behind them stays. */
#ifndef HOST_RECOUNT_H
#define HOST_RECOUNT_H

#include <string.h>

#include "../include/taskiter.h"

/* The passes that an item has, by its number from taskiter_items. */
static inline uint64_t recount_passes(const uint64_t *plan, uint16_t number) {
    uint64_t passes = plan[0], fewer = TASKITER_ITEM_FEWER(number);
    return passes > fewer ? passes - fewer : 0;
}

static inline void recount_waits(const uint64_t *plan, TASKITER_COUNT_TYPE *counts) {
    static uint16_t items[TASKITER_MAX_ITEMS];
    static uint32_t edges[TASKITER_EDGE_NUMBERS];
    const TASKITER_COUNT_TYPE *finished = counts + TASKITER_FIRST_FINISHED;
    TASKITER_COUNT_TYPE *unmet = counts + TASKITER_FIRST_UNMET;
    uint64_t number = taskiter_items(plan, TASKITER_PLAN_WORDS, items, TASKITER_MAX_ITEMS).number;
    uint64_t last = taskiter_edges(plan, TASKITER_PLAN_WORDS, edges, TASKITER_EDGE_NUMBERS).number;
    memset(unmet, 0, number * sizeof *unmet);
    for (uint64_t e = 0; e < last; e++) {
        uint64_t from = edges[3 * e], to = edges[3 * e + 1], distance = edges[3 * e + 2];
        uint64_t pass = finished[to]; /* the first that it has not finished */
        unmet[to] += pass < recount_passes(plan, items[to]) && finished[from] + distance <= pass &&
                     pass - distance < recount_passes(plan, items[from]);
    }
}

#endif
