/* Plays the paper's example on two ranks in three orders, and shows that the results are the same:
   the lowest step first; every start before any finish, so that items run side by side; and steps
   at random. Exit status 0 if there are 4 items, 10 edges and a total of 16 steps, and every order
   took so many and gave 7 and 13. */
#include <inttypes.h>
#include <stdbool.h>
#include <stdio.h>
#include <string.h>

#include "../include/taskiter.h"

enum { ITEMS = 4, EDGES = 10, REGIONS = 2, STEPS = 16 };

static const char text[] = "loop\t2\t2\t2\n"
                           "start\t0\t5\n"
                           "begin\t0\t1\t1\n"
                           "inout\t0\n"
                           "end\n"
                           "begin\t1\t1\t0\n"
                           "in\t0\n"
                           "inout\t1\n"
                           "end\n";

static const uint64_t expected[REGIONS] = {7, 13};

static uint64_t plan[TASKITER_PLAN_WORDS];
static TASKITER_COUNT_TYPE counts[TASKITER_COUNTS];
static uint64_t values[TASKITER_VALUES];
static uint16_t items[TASKITER_MAX_ITEMS];
static uint32_t edges[TASKITER_EDGE_NUMBERS];

/* Step k of the 2 × ITEMS there are: the start of item k / 2, or its finish. */
static taskiter_answer take(int k) {
    uint64_t item = (uint64_t)(k / 2);
    return k % 2 == 0 ? taskiter_start(plan, TASKITER_PLAN_WORDS, counts, TASKITER_COUNTS, values,
                                       TASKITER_VALUES, item)
                      : taskiter_finish(plan, TASKITER_PLAN_WORDS, counts, TASKITER_COUNTS, values,
                                        TASKITER_VALUES, item);
}

static int lowest(int k) {
    return k;
}

static int starts_first(int k) {
    return k < ITEMS ? 2 * (ITEMS - 1 - k) : 2 * (k - ITEMS) + 1;
}

static uint32_t rng = 1;

static int at_random(int k) {
    (void)k;
    rng = rng * 1664525u + 1013904223u;
    return (int)((rng >> 16) % (2 * ITEMS));
}

static taskiter_answer result(uint64_t region) {
    return taskiter_result(plan, TASKITER_PLAN_WORDS, counts, TASKITER_COUNTS, values,
                           TASKITER_VALUES, region);
}

/* Plays one order to the end: tries steps in turn until one is accepted, then begins anew. */
static bool play(const char *name, int (*order)(int)) {
    if (taskiter_open(plan, TASKITER_PLAN_WORDS, counts, TASKITER_COUNTS, values,
                      TASKITER_VALUES) != 0)
        return false;
    int steps = 0, refused = 0, k = 0;
    printf("%-8s", name);
    while (result(0).refusal != 0) {
        int step = order(k);
        if (take(step).refusal != 0) {
            refused++;
            k = (k + 1) % (2 * ITEMS);
            continue;
        }
        printf(" %c%d", step % 2 == 0 ? 's' : 'f', step / 2);
        steps++;
        k = 0;
    }
    printf("\n         %d steps, %d refused;", steps, refused);
    bool same = steps == STEPS;
    for (uint64_t g = 0; g < REGIONS; g++) {
        taskiter_answer answer = result(g);
        printf(" value %" PRIu64 " %" PRIu64, g, answer.word);
        same = same && answer.refusal == 0 && answer.word == expected[g];
    }
    printf("\n");
    return same;
}

/* Shows the items with their ranks, how many edges there are, and the total of steps. */
static bool show_graph(void) {
    static const char *const kinds[] = {"task", "send", "receive"};
    taskiter_number n = taskiter_items(plan, TASKITER_PLAN_WORDS, items, TASKITER_MAX_ITEMS);
    taskiter_number m = taskiter_edges(plan, TASKITER_PLAN_WORDS, edges, TASKITER_EDGE_NUMBERS);
    taskiter_number total = taskiter_total(plan, TASKITER_PLAN_WORDS);
    for (uint64_t a = 0; a < n.number; a++)
        printf("item %" PRIu64 " %s %d\n", a, kinds[TASKITER_ITEM_KIND(items[a])],
               TASKITER_ITEM_RANK(items[a]));
    printf("%" PRIu64 " edges, %" PRIu64 " steps\n", m.number, total.number);
    return n.refusal == 0 && n.number == ITEMS && m.refusal == 0 && m.number == EDGES &&
           total.refusal == 0 && total.number == STEPS;
}

int main(void) {
    taskiter_reading reading =
        taskiter_read((const uint8_t *)text, strlen(text), plan, TASKITER_PLAN_WORDS);
    if (reading.refusal != 0) {
        printf("refused %" PRIu64 " %" PRIu64 "\n", reading.refusal, reading.line);
        return 1;
    }
    bool graph = show_graph(), low = play("lowest", lowest), side = play("starts", starts_first),
         drawn = play("random", at_random);
    return graph && low && side && drawn ? 0 : 1;
}
