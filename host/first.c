/* first FILE: a whole host to start from. It reads a plan, runs it to its end by trying every start
   and every finish in turn, and prints each region's number. Exit status 0, 1 where the text is
   refused, 2 where it cannot be read. */
#include <inttypes.h>
#include <stdio.h>

#include "../include/taskiter.h"

static uint8_t text[TASKITER_MAX_BYTES + 1]; /* one more, so that a text too long is seen as such */
static uint64_t plan[TASKITER_PLAN_WORDS];
static TASKITER_COUNT_TYPE counts[TASKITER_COUNTS];
static uint64_t values[TASKITER_VALUES];
static uint16_t items[TASKITER_MAX_ITEMS];

/* Tries a start, and a finish: 1 where it is accepted, else 0. */
static uint64_t start(uint64_t item) {
    taskiter_answer answer = taskiter_start(plan, TASKITER_PLAN_WORDS, counts, TASKITER_COUNTS,
                                            values, TASKITER_VALUES, item);
    return answer.refusal == 0;
}

static uint64_t finish(uint64_t item) {
    taskiter_answer answer = taskiter_finish(plan, TASKITER_PLAN_WORDS, counts, TASKITER_COUNTS,
                                             values, TASKITER_VALUES, item);
    return answer.refusal == 0;
}

int main(int argc, char **argv) {
    FILE *file = argc == 2 ? fopen(argv[1], "rb") : NULL;
    if (file == NULL) {
        fprintf(stderr, "usage: first FILE\n");
        return 2;
    }
    size_t length = fread(text, 1, sizeof text, file);
    if (ferror(file)) {
        fprintf(stderr, "first: cannot read %s\n", argv[1]);
        return 2;
    }
    fclose(file);

    taskiter_reading reading = taskiter_read(text, length, plan, TASKITER_PLAN_WORDS);
    if (reading.refusal != 0) {
        printf("refused %" PRIu64 " %" PRIu64 "\n", reading.refusal, reading.line);
        return 1;
    }
    uint64_t regions = plan[2];
    uint64_t number = taskiter_items(plan, TASKITER_PLAN_WORDS, items, TASKITER_MAX_ITEMS).number;
    uint64_t left = taskiter_total(plan, TASKITER_PLAN_WORDS).number;

    taskiter_open(plan, TASKITER_PLAN_WORDS, counts, TASKITER_COUNTS, values, TASKITER_VALUES);
    while (left > 0) {
        for (uint64_t item = 0; item < number; item++) {
            left -= start(item);
            left -= finish(item);
        }
    }
    for (uint64_t region = 0; region < regions; region++) {
        taskiter_answer answer = taskiter_result(plan, TASKITER_PLAN_WORDS, counts, TASKITER_COUNTS,
                                                 values, TASKITER_VALUES, region);
        if (answer.refusal == 0)
            printf("value %" PRIu64 " %" PRIu64 "\n", region, answer.word);
    }
    return 0;
}
