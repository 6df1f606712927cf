/* One plan played by a host: the plan's text from a file or a random one, the slices lent to the
   runtime, and the unrolled loop that every word is compared with. */
#ifndef HOST_PLAY_H
#define HOST_PLAY_H

#include "../include/taskiter.h"
#include "draw.h"
#include "loop.h"

/* `task` is an item's task, or the writer whose word it carries. `tables` are those of the plan,
   and `ready` has the items that are ready, for hosts that go by the tables: the host takes off it
   what it starts. `total` is how many steps there are from the opening to the end. `differ` counts
   the words that are not the unrolled loop's, and what was refused and should not be. */
struct play {
    uint64_t words[TASKITER_PLAN_WORDS];
    TASKITER_COUNT_TYPE counts[TASKITER_COUNTS];
    uint64_t values[TASKITER_VALUES];
    uint16_t tables[TASKITER_PREPARED];
    uint16_t item[TASKITER_MAX_ITEMS], ready[TASKITER_MAX_ITEMS];
    int items, readies;
    int task[TASKITER_MAX_ITEMS];
    uint64_t started[TASKITER_MAX_ITEMS], finished[TASKITER_MAX_ITEMS];
    uint64_t total, steps, refused, differ;
    struct plan plan;
    struct loop loop;
};

/* Reads and opens the plan in the file, or a random one where the name is NULL or "-". Says what is
   wrong and answers false where it cannot. */
bool play_begin(struct play *play, const char *file, struct rng *rng);

/* The same of the plan in a text. */
bool play_text(struct play *play, const char *text, size_t length);

/* The rank of an item. */
int play_rank(const struct play *play, int item);

/* Starts or finishes an item, and counts it as taken or refused. Answers the refusal, 0 if there is
   none. */
uint64_t play_start(struct play *play, int item);
uint64_t play_finish(struct play *play, int item);

/* Prepares the plan and asks, once, which items are ready. Answers false where it cannot. */
bool play_prepare(struct play *play);

/* The same steps by the tables; a finish adds the items that it makes ready to the list. */
uint64_t play_start_prepared(struct play *play, int item);
uint64_t play_finish_prepared(struct play *play, int item);

/* Prints a line for each region's result, and whether anything differs from the unrolled loop.
   Answers the exit status. */
int play_end(struct play *play);

#endif
