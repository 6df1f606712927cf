#include "play.h"

#include <inttypes.h>
#include <stdio.h>
#include <string.h>

#include "reading.h"

/* A random text of a plan that can be played in a moment. */
static size_t random_text(struct play *play, struct rng *rng, char *text) {
    do
        draw_plan(rng, MIDDLE, &play->plan);
    while (play->plan.passes == 0 || play->plan.passes > FEW_PASSES);
    return (size_t)draw_text(rng, &play->plan, text);
}

/* The text in the file; longer ones are cut where the reader refuses them all the same. */
static bool text_of_file(const char *file, char *text, size_t *length) {
    FILE *from = fopen(file, "rb");
    if (from == NULL) {
        perror(file);
        return false;
    }
    *length = fread(text, 1, TEXT_LIMIT + 1, from);
    fclose(from);
    return true;
}

/* Asks for the items and the total, and finds whose word each item has: a send and its receive
   follow their writer. */
static bool take_items(struct play *play) {
    taskiter_number n =
        taskiter_items(play->words, TASKITER_PLAN_WORDS, play->item, TASKITER_MAX_ITEMS);
    taskiter_number total = taskiter_total(play->words, TASKITER_PLAN_WORDS);
    play->items = (int)n.number;
    play->total = total.number;
    for (int a = 0, task = -1; a < play->items; a++)
        play->task[a] = task += TASKITER_ITEM_KIND(play->item[a]) == 0;
    return n.refusal == 0 && total.refusal == 0;
}

bool play_begin(struct play *play, const char *file, struct rng *rng) {
    static char text[TEXT_ROOM];
    size_t length;
    if (file == NULL || strcmp(file, "-") == 0)
        length = random_text(play, rng, text);
    else if (!text_of_file(file, text, &length))
        return false;
    return play_text(play, text, length);
}

bool play_text(struct play *play, const char *text, size_t length) {
    memset(play, 0, sizeof *play);
    taskiter_reading reading =
        taskiter_read((const uint8_t *)text, length, play->words, TASKITER_PLAN_WORDS);
    struct reading expected = read_text((const uint8_t *)text, length, &play->plan);
    if (reading.refusal != (uint64_t)expected.refusal || reading.line != (uint64_t)expected.line)
        printf("expected refusal %d, line %d\n", expected.refusal, expected.line);
    if (reading.refusal != 0 || expected.refusal != 0) {
        printf("refused %" PRIu64 " %" PRIu64 "\n", reading.refusal, reading.line);
        return false;
    }
    loop_begin(&play->loop, &play->plan);
    return taskiter_open(play->words, TASKITER_PLAN_WORDS, play->counts, TASKITER_COUNTS,
                         play->values, TASKITER_VALUES) == 0 &&
           take_items(play);
}

int play_rank(const struct play *play, int item) {
    return TASKITER_ITEM_RANK(play->item[item]);
}

/* Counts a step; one that is accepted has the word of its pass in the unrolled loop. */
static uint64_t count_step(struct play *play, int item, uint64_t *passes, taskiter_answer answer) {
    if (answer.refusal != 0) {
        play->refused++;
        return answer.refusal;
    }
    play->steps++;
    play->differ += answer.word != loop_word(&play->loop, (*passes)++, play->task[item]);
    return 0;
}

uint64_t play_start(struct play *play, int item) {
    taskiter_answer answer =
        taskiter_start(play->words, TASKITER_PLAN_WORDS, play->counts, TASKITER_COUNTS,
                       play->values, TASKITER_VALUES, (uint64_t)item);
    return count_step(play, item, &play->started[item], answer);
}

uint64_t play_finish(struct play *play, int item) {
    taskiter_answer answer =
        taskiter_finish(play->words, TASKITER_PLAN_WORDS, play->counts, TASKITER_COUNTS,
                        play->values, TASKITER_VALUES, (uint64_t)item);
    return count_step(play, item, &play->finished[item], answer);
}

bool play_prepare(struct play *play) {
    taskiter_number prepared = taskiter_prepare(play->words, TASKITER_PLAN_WORDS, play->tables,
                                                TASKITER_PREPARED);
    taskiter_number ready = taskiter_ready(play->words, TASKITER_PLAN_WORDS, play->counts,
                                           TASKITER_COUNTS, play->values, TASKITER_VALUES,
                                           play->ready, TASKITER_MAX_ITEMS);
    play->readies = (int)ready.number;
    return prepared.refusal == 0 && ready.refusal == 0;
}

uint64_t play_start_prepared(struct play *play, int item) {
    taskiter_answer answer = taskiter_start_prepared(
        play->words, TASKITER_PLAN_WORDS, play->tables, TASKITER_PREPARED, play->counts,
        TASKITER_COUNTS, play->values, TASKITER_VALUES, (uint64_t)item);
    return count_step(play, item, &play->started[item], answer);
}

uint64_t play_finish_prepared(struct play *play, int item) {
    uint16_t freed[TASKITER_FREED] = {0};
    taskiter_answer answer = taskiter_finish_freeing(
        play->words, TASKITER_PLAN_WORDS, play->tables, TASKITER_PREPARED, play->counts,
        TASKITER_COUNTS, play->values, TASKITER_VALUES, freed, TASKITER_FREED, (uint64_t)item);
    for (int k = 1; k <= freed[0] && play->readies < TASKITER_MAX_ITEMS; k++)
        play->ready[play->readies++] = freed[k];
    return count_step(play, item, &play->finished[item], answer);
}

/* Two steps for each pass of each item, by the items' numbers. */
static uint64_t own_steps(const struct play *play) {
    uint64_t steps = 0, passes = play->plan.passes;
    for (int a = 0; a < play->items; a++) {
        uint64_t fewer = TASKITER_ITEM_FEWER(play->item[a]);
        steps += passes > fewer ? 2 * (passes - fewer) : 0;
    }
    return steps;
}

int play_end(struct play *play) {
    for (int g = 0; g < play->plan.regions; g++) {
        taskiter_answer answer =
            taskiter_result(play->words, TASKITER_PLAN_WORDS, play->counts, TASKITER_COUNTS,
                            play->values, TASKITER_VALUES, (uint64_t)g);
        play->differ += answer.refusal != 0 || answer.word != loop_final(&play->loop, g);
        printf("value %d %" PRIu64 "\n", g, answer.word);
    }
    loop_end(&play->loop);
    play->differ += play->steps != play->total || play->total != own_steps(play);
    printf("%" PRIu64 " differ from the unrolled loop\n", play->differ);
    return play->differ == 0 ? 0 : 1;
}
