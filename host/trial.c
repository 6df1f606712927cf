#include "trial.h"

#include <inttypes.h>
#include <stdarg.h>
#include <stdio.h>
#include <stdlib.h>
#include <string.h>

_Static_assert(PLAN_WORDS == TASKITER_PLAN_WORDS && COUNTS == TASKITER_COUNTS &&
                   VALUES == TASKITER_VALUES,
               "sizes of docs/LAYOUT.md");
_Static_assert(MAX_ITEMS == TASKITER_FIRST_FINISHED && FIRST_UNMET == TASKITER_FIRST_UNMET,
               "places of docs/LAYOUT.md");
_Static_assert(ITEM_ROOM == TASKITER_MAX_ITEMS && EDGE_ROOM == TASKITER_EDGE_NUMBERS &&
                   TEXT_BYTES == TASKITER_TEXT_BYTES,
               "sizes of docs/LAYOUT.md");
_Static_assert(TABLES == TASKITER_PREPARED && FREED == TASKITER_FREED, "sizes of docs/LAYOUT.md");

const struct lengths least = {PLAN_WORDS, COUNTS, VALUES};

static const char *const call_names[ALL_CALLS] = {
    "open", "start", "finish", "result", "prepared start", "prepared finish", "freeing finish"};

static const char *const change_names[CHANGES] = {"nothing", "an answer", "a word", "an edge",
                                                  "a line",  "a reply",   "a byte", "a total",
                                                  "an item", "a mean",    "a count",
                                                  "a ready item", "a number of waits",
                                                  "a number of tables", "a freed item",
                                                  "the number of a check"};

void differ(const struct trial *trial, const char *form, ...) {
    va_list rest;
    printf("%s: differs at seed %" PRIu64 ", plan %ld, call %ld: ", trial->group, trial->seed,
           trial->number, trial->calls);
    va_start(rest, form);
    vprintf(form, rest);
    va_end(rest);
    printf("\n");
    exit(1);
}

void *room(size_t size) {
    void *block = malloc(size > 0 ? size : 1);
    if (block == NULL)
        exit(2);
    return block;
}

/* Whether the control makes its change here, where there is a chance for it. */
static bool makes_change(struct trial *trial, enum change change) {
    struct control *control = trial->control;
    if (control->change != change || control->made || control->chances-- > 0)
        return false;
    printf("%s: control changes %s at plan %ld, call %ld\n", trial->group, change_names[change],
           trial->number, trial->calls);
    return control->made = true;
}

/* A number with one bit of it changed. */
static uint64_t flipped(struct control *control, uint64_t number, int bits) {
    return number ^ UINT64_C(1) << draw_below(&control->rng, bits);
}

/* The answer to compare: as it is, or with a bit of its refusal or word changed. */
static struct answer with_change(struct trial *trial, struct answer answer) {
    struct control *control = trial->control;
    if (!makes_change(trial, CHANGED_ANSWER))
        return answer;
    if (draw_below(&control->rng, 2) == 0)
        answer.refusal = flipped(control, answer.refusal, 64);
    else
        answer.word = flipped(control, answer.word, 64);
    return answer;
}

/* Changes a bit of one count or of one value. */
static void change_state(struct trial *trial) {
    struct control *control = trial->control;
    if (!makes_change(trial, CHANGED_WORD))
        return;
    int at = draw_below(&control->rng, COUNTS + VALUES);
    if (at < COUNTS)
        trial->lent.counts[at] = flipped(control, trial->lent.counts[at], 64);
    else
        trial->lent.values[at - COUNTS] = flipped(control, trial->lent.values[at - COUNTS], 64);
}

/* Changes a bit of one of the three numbers of an edge, where there are edges. */
static void change_edge(struct trial *trial, uint32_t *edges, uint64_t number) {
    struct control *control = trial->control;
    if (number == 0 || !makes_change(trial, CHANGED_EDGE))
        return;
    uint32_t *at = &edges[draw_below(&control->rng, 3 * (int)number)];
    *at = (uint32_t)flipped(control, *at, 32);
}

void change_listed(struct trial *trial, enum change change, uint16_t *numbers, uint64_t count) {
    struct control *control = trial->control;
    if (count == 0 || !makes_change(trial, change))
        return;
    uint16_t *at = &numbers[draw_below(&control->rng, (int)count)];
    *at = (uint16_t)flipped(control, *at, 16);
}

/* Changes a bit of one answer of a list, where it has calls. */
static void change_reply(struct trial *trial, uint64_t *answers, size_t number) {
    struct control *control = trial->control;
    if (number == 0 || !makes_change(trial, CHANGED_REPLY))
        return;
    uint64_t *at = &answers[draw_below(&control->rng, 2 * (int)number)];
    *at = flipped(control, *at, 64);
}

/* Changes a bit of one byte of a written text, where there is one. */
static void change_byte(struct trial *trial, uint8_t *text, uint64_t length) {
    struct control *control = trial->control;
    if (length == 0 || !makes_change(trial, CHANGED_BYTE))
        return;
    uint8_t *at = &text[draw_below(&control->rng, (int)length)];
    *at = (uint8_t)flipped(control, *at, 8);
}

uint64_t with_changed_mean(struct trial *trial, uint64_t mean) {
    return makes_change(trial, CHANGED_MEAN) ? flipped(trial->control, mean, 64) : mean;
}

uint64_t with_cut_count(struct trial *trial, uint64_t count) {
    return count > UINT32_MAX && makes_change(trial, CHANGED_COUNT) ? (uint32_t)count : count;
}

uint64_t own_of(const struct trial *trial, int item) {
    return own_passes(&trial->shape.plan, &trial->shape.graph.item[item]);
}

void put_number(struct trial *trial, int item, uint64_t number) {
    int at = FIRST_UNMET + item;
    trial->lent.counts[at] = trial->expected.counts[at] = number;
}

/* Counts the unmet waits of each item over all edges. The source of an edge is an instance that is
   made and has not finished. Pass −1, before an item's first, is none. */
static void count_waits(const struct shape *shape, const uint64_t *counts, uint64_t *numbers) {
    const struct graph *graph = &shape->graph;
    int64_t made[MAX_ITEMS], done[MAX_ITEMS];
    for (int a = 0; a < graph->items; a++) {
        numbers[a] = 0;
        made[a] = (int64_t)own_passes(&shape->plan, &graph->item[a]);
        done[a] = (int64_t)counts[MAX_ITEMS + a];
    }
    for (int e = 0; e < graph->edges; e++) {
        int from = graph->edge[e].from, to = graph->edge[e].to;
        int64_t source = done[to] - graph->edge[e].distance;
        numbers[to] += done[to] < made[to] && done[from] <= source && source < made[from];
    }
}

void put_fresh_numbers(struct trial *trial) {
    uint64_t numbers[MAX_ITEMS];
    count_waits(&trial->shape, trial->lent.counts, numbers);
    for (int a = 0; a < trial->shape.graph.items; a++)
        put_number(trial, a, numbers[a]);
}

/* The lent number of an item, as it is or, in a control run, with a bit changed. */
static uint64_t number_of(struct trial *trial, int item) {
    uint64_t number = trial->lent.counts[FIRST_UNMET + item];
    return makes_change(trial, CHANGED_WAITS) ? flipped(trial->control, number, 64) : number;
}

void try_fresh(struct trial *trial) {
    uint64_t fresh[MAX_ITEMS];
    count_waits(&trial->shape, trial->lent.counts, fresh);
    for (int a = 0; a < trial->shape.graph.items; a++) {
        uint64_t number = number_of(trial, a);
        if (number != fresh[a])
            differ(trial, "item %d has the number %" PRIu64 ", a fresh count is %" PRIu64, a,
                   number, fresh[a]);
    }
}

void count_answer(struct trial *trial, uint64_t refusal) {
    trial->calls++;
    if (refusal > LAST_REFUSAL)
        differ(trial, "there is no refusal %" PRIu64, refusal);
    trial->answered[refusal]++;
}

void fill_memory(struct trial *trial, struct rng *rng) {
    uint64_t *word = (uint64_t *)&trial->lent;
    _Static_assert(sizeof trial->lent % sizeof *word == 0, "no word is left over");
    for (size_t k = 0; k < sizeof trial->lent / sizeof *word; k++)
        word[k] = draw(rng);
    trial->expected = trial->lent;
}

void put_plan(struct trial *trial, const struct plan *plan) {
    plan_words(plan, trial->lent.plan);
    memcpy(trial->expected.plan, trial->lent.plan, sizeof trial->lent.plan);
    make_shape(trial->lent.plan, &trial->shape);
}

void put_word(struct trial *trial, int word, uint64_t value) {
    trial->lent.plan[word] = trial->expected.plan[word] = value;
    make_shape(trial->lent.plan, &trial->shape);
}

void compare_bytes(const struct trial *trial, const char *what, const void *expected,
                   const void *got, size_t length) {
    const uint8_t *e = expected, *g = got;
    if (memcmp(e, g, length) == 0)
        return;
    size_t k = 0;
    while (e[k] == g[k])
        k++;
    differ(trial, "byte %zu of %s is %d, expected %d", k, what, g[k], e[k]);
}

void compare_memory(struct trial *trial, const char *call) {
    char what[64];
    change_state(trial);
    snprintf(what, sizeof what, "the memory after %s", call);
    compare_bytes(trial, what, &trial->expected, &trial->lent, sizeof trial->lent);
}

struct answer runtime_call(enum call call, struct slices s, struct lengths l, uint64_t number) {
    taskiter_answer answer = {0, 0};
    switch (call) {
    case START_CALL:
        answer = taskiter_start(s.plan, l.plan, s.counts, l.counts, s.values, l.values, number);
        break;
    case FINISH_CALL:
        answer = taskiter_finish(s.plan, l.plan, s.counts, l.counts, s.values, l.values, number);
        break;
    case RESULT_CALL:
        answer = taskiter_result(s.plan, l.plan, s.counts, l.counts, s.values, l.values, number);
        break;
    default:
        answer.refusal = taskiter_open(s.plan, l.plan, s.counts, l.counts, s.values, l.values);
    }
    return (struct answer){answer.refusal, answer.word};
}

void compare_answer(struct trial *trial, enum call call, uint64_t number, struct answer expected,
                    struct answer got) {
    count_answer(trial, expected.refusal);
    got = with_change(trial, got);
    if (got.refusal != expected.refusal || got.word != expected.word)
        differ(trial,
               "%s %" PRIu64 " answers refusal %" PRIu64 ", word %" PRIu64 ", expected %" PRIu64
               " and %" PRIu64,
               call_names[call], number, got.refusal, got.word, expected.refusal, expected.word);
}

struct answer try_call(struct trial *trial, enum call call, struct lengths lengths,
                       uint64_t number) {
    struct slices slices = {trial->lent.plan, trial->lent.counts, trial->lent.values};
    struct answer expected = model_call(call, &trial->shape, &trial->expected, lengths, number);
    struct answer got = runtime_call(call, slices, lengths, number);
    compare_answer(trial, call, number, expected, got);
    compare_memory(trial, call_names[call]);
    if (call == OPEN_CALL && expected.refusal == 0)
        try_fresh(trial);
    return expected;
}

uint64_t try_play(struct trial *trial, struct lengths l, const uint64_t *calls, size_t number,
                  size_t answers_length) {
    static uint64_t lent[GUARD + 2 * LIST_ROOM + GUARD], expected[GUARD + 2 * LIST_ROOM + GUARD];
    uint64_t kept[LIST_ROOM];
    memcpy(kept, calls, number * sizeof *calls);
    memset(lent, (int)trial->calls, sizeof lent);
    memcpy(expected, lent, sizeof lent);
    uint64_t refusal = model_play(&trial->shape, &trial->expected, l, calls, number,
                                  expected + GUARD, answers_length);
    uint64_t got = taskiter_play(trial->lent.plan, l.plan, trial->lent.counts, l.counts,
                                 trial->lent.values, l.values, number > 0 ? calls : NULL, number,
                                 answers_length > 0 ? lent + GUARD : NULL, answers_length);
    count_answer(trial, refusal);
    if (got != refusal)
        differ(trial, "play answers %" PRIu64 ", expected %" PRIu64, got, refusal);
    for (size_t k = 0; refusal == 0 && k < number; k++)
        count_answer(trial, expected[GUARD + 2 * k]);
    change_reply(trial, lent + GUARD, refusal == 0 ? number : 0);
    compare_bytes(trial, "the answers of a list", expected, lent, sizeof lent);
    compare_bytes(trial, "the calls", kept, calls, number * sizeof *calls);
    compare_memory(trial, "play");
    return refusal;
}

struct reading try_read(struct trial *trial, const uint8_t *text, size_t length,
                        size_t plan_length) {
    static struct plan plan;
    static uint8_t kept[2 * TEXT_ROOM];
    memcpy(kept, text, length);
    struct reading expected =
        plan_length < PLAN_WORDS ? (struct reading){11, 0} : read_text(text, length, &plan);
    if (expected.refusal == 0)
        plan_words(&plan, trial->expected.plan);
    else if (expected.refusal != 11)
        memset(trial->expected.plan, 0, sizeof trial->expected.plan);
    /* every other empty text is no pointer at all */
    const uint8_t *lent = length > 0 || trial->texts % 2 == 0 ? text : NULL;
    taskiter_reading got = taskiter_read(lent, length, trial->lent.plan, plan_length);
    count_answer(trial, (uint64_t)expected.refusal);
    trial->texts++;
    if (makes_change(trial, CHANGED_LINE))
        got.line = flipped(trial->control, got.line, 64);
    if (got.refusal != (uint64_t)expected.refusal || got.line != (uint64_t)expected.line)
        differ(trial, "reading answers refusal %" PRIu64 ", line %" PRIu64 ", expected %d and %d",
               got.refusal, got.line, expected.refusal, expected.line);
    compare_memory(trial, "reading");
    compare_bytes(trial, "the text", kept, text, length);
    if (expected.refusal == 0)
        make_shape(trial->lent.plan, &trial->shape);
    return expected;
}

void compare_number(struct trial *trial, const char *call, struct answer expected,
                    taskiter_number got) {
    count_answer(trial, expected.refusal);
    if (got.refusal != expected.refusal || got.number != expected.word)
        differ(trial,
               "%s: the answer is refusal %" PRIu64 ", number %" PRIu64 ", expected %" PRIu64
               " and %" PRIu64,
               call, got.refusal, got.number, expected.refusal, expected.word);
    compare_memory(trial, call);
}

static taskiter_number check_call(struct slices s, struct lengths l, const uint8_t *journal,
                                  size_t length, bool more) {
    return more ? taskiter_check_more(s.plan, l.plan, s.counts, l.counts, s.values, l.values,
                                      journal, length)
                : taskiter_check(s.plan, l.plan, s.counts, l.counts, s.values, l.values, journal,
                                 length);
}

struct answer try_check(struct trial *trial, struct lengths lengths, const uint8_t *journal,
                        size_t length, bool more) {
    struct slices slices = {trial->lent.plan, trial->lent.counts, trial->lent.values};
    uint8_t *lent = room(length);
    memcpy(lent, journal, length);
    struct answer answer =
        model_check(&trial->shape, &trial->expected, lengths, journal, length, more);
    /* every other empty journal is no pointer at all */
    taskiter_number got = check_call(
        slices, lengths, length > 0 || trial->calls % 2 == 0 ? lent : NULL, length, more);
    if (makes_change(trial, CHANGED_JOURNAL))
        got.number = flipped(trial->control, got.number, 64);
    compare_number(trial, "a check", answer, got);
    compare_bytes(trial, "the journal", journal, lent, length);
    free(lent);
    return answer;
}

struct written try_write(struct trial *trial, size_t plan_length, size_t text_length) {
    enum { ROOM = TEXT_BYTES + GUARD };
    static uint8_t lent[GUARD + ROOM + GUARD], expected[GUARD + ROOM + GUARD];
    size_t from = GUARD + (size_t)(trial->calls % 8); /* at any place in a word */
    memset(lent, (int)trial->calls, sizeof lent);
    memcpy(expected, lent, sizeof lent);
    struct answer answer = model_write(&trial->shape, plan_length, expected + from, text_length);
    /* every other empty slice is no pointer at all */
    uint8_t *text = text_length > 0 || trial->calls % 2 == 0 ? lent + from : NULL;
    taskiter_number got = taskiter_write(trial->lent.plan, plan_length, text, text_length);
    change_byte(trial, lent + from, got.number);
    compare_number(trial, "writing", answer, got);
    compare_bytes(trial, "the written text", expected, lent, sizeof lent);
    return (struct written){answer.refusal, (size_t)answer.word, lent + from};
}

/* The answer of a call that lists so many things of the plan in a slice with this room. */
static struct answer graph_answer(const struct trial *trial, size_t plan_length, size_t length,
                                  size_t room, int number) {
    if (plan_length < PLAN_WORDS || length < room)
        return (struct answer){11, 0};
    return trial->shape.formed ? (struct answer){0, (uint64_t)number} : (struct answer){12, 0};
}

void try_items(struct trial *trial, size_t plan_length, size_t items_length) {
    static uint16_t lent[GUARD + ITEM_ROOM + GUARD], expected[GUARD + ITEM_ROOM + GUARD];
    const struct graph *graph = &trial->shape.graph;
    struct answer answer =
        graph_answer(trial, plan_length, items_length, ITEM_ROOM, graph->items);
    memset(lent, (int)trial->calls, sizeof lent);
    memcpy(expected, lent, sizeof lent);
    for (int a = 0; answer.refusal == 0 && a < graph->items; a++)
        expected[GUARD + a] = item_number(&graph->item[a]);
    taskiter_number got = taskiter_items(trial->lent.plan, plan_length, lent + GUARD, items_length);
    change_listed(trial, CHANGED_ITEM, lent + GUARD, got.number);
    compare_number(trial, "items", answer, got);
    compare_bytes(trial, "the items", expected, lent, sizeof lent);
}

struct answer try_ready(struct trial *trial, struct lengths l, size_t items_length,
                        uint16_t *listed) {
    static uint16_t lent[GUARD + ITEM_ROOM + GUARD], expected[GUARD + ITEM_ROOM + GUARD];
    memset(lent, (int)trial->calls, sizeof lent);
    memcpy(expected, lent, sizeof lent);
    struct answer answer =
        model_ready(&trial->shape, &trial->expected, l, expected + GUARD, items_length);
    taskiter_number got =
        taskiter_ready(trial->lent.plan, l.plan, trial->lent.counts, l.counts, trial->lent.values,
                       l.values, items_length > 0 ? lent + GUARD : NULL, items_length);
    change_listed(trial, CHANGED_READY, lent + GUARD, got.number);
    compare_number(trial, "ready", answer, got);
    compare_bytes(trial, "the ready items", expected, lent, sizeof lent);
    if (listed != NULL)
        memcpy(listed, lent + GUARD, (size_t)answer.word * sizeof *listed);
    return answer;
}

void try_edges(struct trial *trial, size_t plan_length, size_t edges_length) {
    static uint32_t lent[GUARD + EDGE_ROOM + GUARD], expected[GUARD + EDGE_ROOM + GUARD];
    const struct graph *graph = &trial->shape.graph;
    struct answer answer =
        graph_answer(trial, plan_length, edges_length, EDGE_ROOM, graph->edges);
    memset(lent, (int)trial->calls, sizeof lent);
    memcpy(expected, lent, sizeof lent);
    for (int e = 0; answer.refusal == 0 && e < graph->edges; e++) {
        expected[GUARD + 3 * e] = (uint32_t)graph->edge[e].from;
        expected[GUARD + 3 * e + 1] = (uint32_t)graph->edge[e].to;
        expected[GUARD + 3 * e + 2] = (uint32_t)graph->edge[e].distance;
    }
    taskiter_number got = taskiter_edges(trial->lent.plan, plan_length, lent + GUARD, edges_length);
    change_edge(trial, lent + GUARD, got.number);
    compare_number(trial, "edges", answer, got);
    compare_bytes(trial, "the edges", expected, lent, sizeof lent);
}

void try_total(struct trial *trial, size_t plan_length) {
    struct answer answer = model_total(&trial->shape, plan_length);
    taskiter_number got = taskiter_total(trial->lent.plan, plan_length);
    if (got.refusal == 0 && makes_change(trial, CHANGED_TOTAL))
        got.number = flipped(trial->control, got.number, 64);
    compare_number(trial, "total", answer, got);
}
