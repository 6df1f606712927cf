/* Checks the journal of a plan of bench/plans.h with so many passes, for an instruction count:
   journal PLAN PASSES. The steps are taken by prepared calls, from the list of ready items, its
   last first; a started item is finished after two others were started, or where none is ready. The
   journal is made before the measured call. Prints its lines and bytes. Exit status 0 where it is
   complete. */
#include <stdlib.h>

#include "../include/taskiter.h"
#include "plans.h"

enum { JOURNAL_ROOM = 1 << 24, BEHIND = 2 };

static char text[TEXT_ROOM];
static uint64_t plan[TASKITER_PLAN_WORDS];
static TASKITER_COUNT_TYPE counts[TASKITER_COUNTS];
static uint64_t values[TASKITER_VALUES];
static uint16_t tables[TASKITER_PREPARED], ready[TASKITER_MAX_ITEMS], freed[TASKITER_FREED];
static char journal[JOURNAL_ROOM];
static int length;
static uint64_t readies, lines;

static void start_item(uint64_t item) {
    uint64_t word = taskiter_start_prepared(plan, TASKITER_PLAN_WORDS, tables, TASKITER_PREPARED,
                                            counts, TASKITER_COUNTS, values, TASKITER_VALUES, item)
                        .word;
    length += sprintf(journal + length, "start\t%" PRIu64 "\t%" PRIu64 "\n", item, word);
    lines++;
}

static void finish_item(uint64_t item) {
    taskiter_finish_freeing(plan, TASKITER_PLAN_WORDS, tables, TASKITER_PREPARED, counts,
                            TASKITER_COUNTS, values, TASKITER_VALUES, freed, TASKITER_FREED, item);
    for (uint64_t k = 1; k <= freed[0]; k++)
        ready[readies++] = freed[k];
    length += sprintf(journal + length, "finish\t%" PRIu64 "\n", item);
    lines++;
}

/* Takes all steps of the plan and writes its journal. */
static void write_journal(void) {
    uint64_t running[BEHIND + 1];
    int number = 0;
    taskiter_open(plan, TASKITER_PLAN_WORDS, counts, TASKITER_COUNTS, values, TASKITER_VALUES);
    taskiter_prepare(plan, TASKITER_PLAN_WORDS, tables, TASKITER_PREPARED);
    readies = taskiter_ready(plan, TASKITER_PLAN_WORDS, counts, TASKITER_COUNTS, values,
                             TASKITER_VALUES, ready, TASKITER_MAX_ITEMS)
                  .number;
    while ((readies > 0 || number > 0) && length < JOURNAL_ROOM - 128) {
        if (readies > 0) {
            running[number++] = ready[--readies];
            start_item(running[number - 1]);
        }
        if (number > BEHIND || readies == 0) {
            finish_item(running[0]);
            memmove(running, running + 1, (size_t)--number * sizeof *running);
        }
    }
}

int main(int argc, char **argv) {
    int size = argc == 3 ? named_plan(text, argv[1]) : 0;
    if (size == 0)
        return 2;
    size = with_passes(text, size, strtoull(argv[2], NULL, 10));
    if (taskiter_read((const uint8_t *)text, (size_t)size, plan, TASKITER_PLAN_WORDS).refusal != 0)
        return 2;
    write_journal();
    taskiter_number answer =
        taskiter_check(plan, TASKITER_PLAN_WORDS, counts, TASKITER_COUNTS, values, TASKITER_VALUES,
                       (const uint8_t *)journal, (size_t)length);
    printf("%" PRIu64 " %d\n", lines, length);
    return answer.refusal == 0 && answer.number == 1 ? 0 : 1;
}
