/* The groups of stress that play plans, and what the groups share. */
#include <inttypes.h>
#include <stdlib.h>
#include <string.h>

#include "../include/taskiter.h"
#include "groups.h"
#include "loop.h"

enum { FEW_STEPS = 400 };

enum size size_of(long number) {
    switch (number % 32) {
    case 31:
        return LARGEST;
    case 15:
        return RING;
    case 7:
    case 23:
        return LARGE;
    default:
        return number % 4 == 2 ? MIDDLE : SMALL;
    }
}

/* The traits that one word of a task gives a plan, a bit a trait. */
static unsigned word_traits(const struct plan *plan, enum mode mode, int before, int behind) {
    bool wrapped = (before & ~behind) != 0, inout = mode == INOUT;
    return (unsigned)wrapped << WRAPPED | (unsigned)(wrapped && inout) << WRAPPED_INOUT |
           (unsigned)(behind != 0 && inout) << FORWARD_INOUT |
           (unsigned)((before & behind) != 0) << BOTH_SIDES |
           (unsigned)(wrapped && plan->passes == 1) << WRAPPED_ONE_PASS |
           (unsigned)(wrapped && plan->passes == 0) << WRAPPED_NO_PASS;
}

/* Counts the plan and the traits that it has. */
static void count_traits(struct trial *trial, const struct plan *plan) {
    static struct wants wants;
    unsigned traits = 0;
    find_wants(plan, &wants);
    for (int i = 0; i < plan->tasks; i++)
        for (int a = 0; a < plan->task[i].accesses; a++) {
            struct access access = plan->task[i].access[a];
            if (writes(access))
                traits |= word_traits(plan, access.mode, wants.before[i][access.region],
                                      wants.behind[i][access.region]);
        }
    trial->drawn++;
    for (int t = 0; t < TRAITS; t++)
        trial->with[t] += traits >> t & 1;
}

void put_drawn_plan(struct trial *trial, struct rng *rng) {
    static struct plan plan;
    draw_plan(rng, size_of(trial->number), &plan);
    count_traits(trial, &plan);
    fill_memory(trial, rng);
    put_plan(trial, &plan);
}

uint64_t draw_asked(struct rng *rng, int n) {
    switch (draw_below(rng, 24)) {
    case 0:
        return (uint64_t)n;
    case 1:
        return (uint64_t)(n + draw_below(rng, 3 * MAX_ITEMS));
    case 2:
        return draw_word(rng);
    case 3:
        return UINT64_MAX;
    case 4:
        return (UINT64_C(1) << (8 + draw_below(rng, 56))) + (uint64_t)draw_below(rng, n);
    default:
        return (uint64_t)draw_below(rng, n);
    }
}

struct lengths draw_enough(struct rng *rng) {
    struct lengths lengths = least;
    if (draw_below(rng, 4) == 0) {
        lengths.plan += (size_t)draw_below(rng, GUARD);
        lengths.counts += (size_t)draw_below(rng, GUARD);
        lengths.values += (size_t)draw_below(rng, GUARD);
    }
    return lengths;
}

/* One play of a plan from a fresh opening: how it chooses, and how far it is. */
struct order {
    struct loop loop;
    int blind, starts, pick;
    uint64_t steps;
};

/* An accepted step has the word of the unrolled loop. */
static void compare_word(struct trial *trial, struct order *order, enum call call, int item,
                         uint64_t word) {
    uint64_t pass = trial->expected.counts[call == START_CALL ? item : MAX_ITEMS + item] - 1;
    uint64_t expected = loop_word(&order->loop, pass, trial->shape.graph.item[item].task);
    order->steps++;
    if (word != expected)
        differ(trial, "item %d has %" PRIu64 " in pass %" PRIu64 ", the unrolled loop %" PRIu64,
               item, word, pass, expected);
}

int find_free(struct trial *trial, struct rng *rng, int pick, enum call call) {
    int n = trial->shape.graph.items, from = pick < 2 ? 0 : draw_below(rng, n);
    for (int k = 0; k < n; k++) {
        int item = pick == 1 ? n - 1 - k : (from + k) % n;
        if (is_free(call, &trial->shape, &trial->expected, item))
            return item;
    }
    return -1;
}

/* Takes a step that is free. While an item has a pass left there is one. */
static void take_free(struct trial *trial, struct rng *rng, struct order *order) {
    enum call call = draw_below(rng, 100) < order->starts ? START_CALL : FINISH_CALL;
    int item = find_free(trial, rng, order->pick, call);
    if (item < 0) {
        call = call == START_CALL ? FINISH_CALL : START_CALL;
        item = find_free(trial, rng, order->pick, call);
    }
    if (item < 0)
        differ(trial, "no step is free, and the loop is not complete");
    struct answer answer = try_call(trial, call, draw_enough(rng), (uint64_t)item);
    compare_word(trial, order, call, item, answer.word);
}

/* A call that may well be refused, and the number that it asks for. */
static enum call draw_blind(struct trial *trial, struct rng *rng, uint64_t *asked) {
    static const enum call calls[] = {START_CALL,  START_CALL,  START_CALL,
                                      FINISH_CALL, FINISH_CALL, RESULT_CALL};
    enum call call = calls[draw_below(rng, 6)];
    int n = call == RESULT_CALL ? trial->shape.plan.regions : trial->shape.graph.items;
    *asked = draw_asked(rng, trial->shape.formed ? n : MAX_ITEMS);
    return call;
}

/* Makes a call that may well be refused. */
static void take_blind(struct trial *trial, struct rng *rng, struct order *order) {
    uint64_t asked;
    enum call call = draw_blind(trial, rng, &asked);
    struct answer answer = try_call(trial, call, draw_enough(rng), asked);
    if (answer.refusal == 0 && call != RESULT_CALL)
        compare_word(trial, order, call, (int)asked, answer.word);
}

/* At the end the steps are as many as the total says, and the results are the final numbers. */
static void compare_end(struct trial *trial, struct order *order) {
    const struct plan *plan = &trial->shape.plan;
    uint64_t expected = model_total(&trial->shape, PLAN_WORDS).word;
    if (order->steps != expected)
        differ(trial, "%" PRIu64 " steps were accepted, expected %" PRIu64, order->steps, expected);
    for (int g = 0; g < plan->regions; g++) {
        uint64_t word = try_call(trial, RESULT_CALL, least, (uint64_t)g).word;
        if (word != loop_final(&order->loop, g))
            differ(trial, "region %d has %" PRIu64 ", the unrolled loop %" PRIu64, g, word,
                   loop_final(&order->loop, g));
    }
}

/* Plays the plan in the memory from its opening to the end, or so many steps of it. Calls on
   damaged plans and counts, and with slices too short, come before the opening and between the
   steps. */
static void play_plan(struct trial *trial, struct rng *rng, uint64_t most) {
    static const int parts[] = {5, 50, 95};
    struct order order = {.blind = parts[draw_below(rng, 3)] / 2,
                          .starts = parts[draw_below(rng, 3)],
                          .pick = draw_below(rng, 4)};
    loop_begin(&order.loop, &trial->shape.plan);
    try_damage(trial, rng);
    try_call(trial, OPEN_CALL, draw_enough(rng), 0);
    try_total(trial, draw_enough(rng).plan);
    while (!complete(&trial->shape, &trial->expected) && order.steps < most) {
        if (draw_below(rng, 100) < order.blind)
            take_blind(trial, rng, &order);
        else
            take_free(trial, rng, &order);
        try_fresh(trial);
        if (draw_below(rng, 64) == 0)
            try_damage(trial, rng);
    }
    if (complete(&trial->shape, &trial->expected)) {
        compare_end(trial, &order);
        for (int k = 0; k < 10; k++)
            take_blind(trial, rng, &order);
    }
    loop_end(&order.loop);
}

/* Some plans are opened again in the midst of a play. Of many passes only some steps are played. */
void steps_group(struct trial *trial, struct rng *rng) {
    put_drawn_plan(trial, rng);
    if (draw_below(rng, 4) == 0)
        play_plan(trial, rng, (uint64_t)draw_below(rng, FEW_STEPS));
    play_plan(trial, rng, trial->shape.plan.passes <= FEW_PASSES ? UINT64_MAX : FEW_STEPS);
}

/* A call as a word. A number that no such word has becomes a smaller one. */
static uint64_t call_word(enum call call, uint64_t number) {
    uint64_t fits = number % (UINT64_MAX / 3);
    return call == START_CALL    ? TASKITER_CALL_START(fits)
           : call == FINISH_CALL ? TASKITER_CALL_FINISH(fits)
                                 : TASKITER_CALL_RESULT(fits);
}

uint64_t draw_call(struct trial *trial, struct rng *rng) {
    uint64_t asked;
    enum call call = draw_blind(trial, rng, &asked);
    return call_word(call, asked);
}

/* A list of calls from the state as it stands: steps that are free then, and any calls between. */
static size_t draw_list(struct trial *trial, struct rng *rng, uint64_t *calls) {
    static struct memory kept;
    size_t number = (size_t)draw_below(rng, LIST_ROOM + 1);
    uint64_t answers[2];
    kept = trial->expected;
    for (size_t k = 0; k < number; k++) {
        enum call call = draw_below(rng, 2) == 0 ? START_CALL : FINISH_CALL;
        int item = draw_below(rng, 4) == 0 ? -1 : find_free(trial, rng, 2, call);
        calls[k] = item < 0 ? draw_call(trial, rng) : call_word(call, (uint64_t)item);
        model_play(&trial->shape, &trial->expected, least, &calls[k], 1, answers, 2);
    }
    trial->expected = kept;
    return number;
}

/* The answers have room for the list, or for more, or for one word less than it needs. */
static void play_list(struct trial *trial, struct rng *rng) {
    uint64_t calls[LIST_ROOM];
    size_t number = draw_list(trial, rng, calls);
    if (number > 0)
        try_play(trial, least, calls, number, 2 * number - 1);
    try_play(trial, draw_enough(rng), calls, number, 2 * number + (size_t)draw_below(rng, GUARD));
    try_fresh(trial);
}

void lists_group(struct trial *trial, struct rng *rng) {
    struct loop loop;
    put_drawn_plan(trial, rng);
    try_call(trial, OPEN_CALL, least, 0);
    for (int k = 0; k < FEW_STEPS && !complete(&trial->shape, &trial->expected); k++)
        play_list(trial, rng);
    if (!complete(&trial->shape, &trial->expected))
        return;
    loop_begin(&loop, &trial->shape.plan);
    for (int g = 0; g < trial->shape.plan.regions; g++) {
        uint64_t call = TASKITER_CALL_RESULT(g), answer[2] = {1, 0};
        taskiter_play(trial->lent.plan, PLAN_WORDS, trial->lent.counts, COUNTS, trial->lent.values,
                      VALUES, &call, 1, answer, 2);
        if (answer[0] != 0 || answer[1] != loop_final(&loop, g))
            differ(trial, "region %d has %" PRIu64 ", the unrolled loop %" PRIu64, g, answer[1],
                   loop_final(&loop, g));
    }
    loop_end(&loop);
}

/* The edges are those of the rule, tried on all pairs. */
static void try_rule(struct trial *trial) {
    const struct graph *graph = &trial->shape.graph;
    int e = 0;
    for (int a = 0; a < graph->items; a++)
        for (int b = 0; b < graph->items; b++)
            for (int d = 0; d < 3; d++) {
                bool listed = e < graph->edges && graph->edge[e].from == a &&
                              graph->edge[e].to == b && graph->edge[e].distance == d;
                if (listed != rule_holds(graph, a, b, d))
                    differ(trial, "the rule and the walk do not agree on the edge %d %d %d", a, b,
                           d);
                e += listed;
            }
}

/* No item waits, in a pass that it has, for an instance that is not made. At distance 1 that cannot
   be, since no item has two passes fewer than another. */
static void try_made(struct trial *trial) {
    const struct graph *graph = &trial->shape.graph;
    for (int e = 0; e < graph->edges; e++) {
        int from = graph->edge[e].from, to = graph->edge[e].to;
        if (graph->edge[e].distance == 0 && graph->item[from].fewer > graph->item[to].fewer)
            differ(trial, "item %d waits for %d, which has fewer passes", to, from);
    }
}

/* A transfer is wrapped exactly if nobody reads its word in the pass that it is sent in. The total
   is two steps for each pass of each item. */
static void try_passes(struct trial *trial) {
    const struct graph *graph = &trial->shape.graph;
    uint64_t steps = 0, total = model_total(&trial->shape, PLAN_WORDS).word;
    for (int a = 0; a < graph->items; a++) {
        const struct item *item = &graph->item[a];
        steps += 2 * own_passes(&trial->shape.plan, item);
        int receive = item->kind == SEND ? a + 1 : a;
        bool wrapped = item->kind != TASK && !read_in_pass(graph, receive);
        if (item->fewer != wrapped)
            differ(trial, "item %d has %d passes fewer, by the places %d", a, item->fewer, wrapped);
    }
    if (steps != total)
        differ(trial, "the items have %" PRIu64 " steps, the total is %" PRIu64, steps, total);
}

void graph_group(struct trial *trial, struct rng *rng) {
    put_drawn_plan(trial, rng);
    try_rule(trial);
    try_passes(trial);
    try_made(trial);
    if (size_of(trial->number) >= LARGEST && trial->shape.graph.items != MAX_ITEMS)
        differ(trial, "a largest plan has %d items", trial->shape.graph.items);
    try_items(trial, PLAN_WORDS + (size_t)draw_below(rng, GUARD),
              ITEM_ROOM + (size_t)draw_below(rng, GUARD));
    try_edges(trial, PLAN_WORDS + (size_t)draw_below(rng, GUARD),
              EDGE_ROOM + (size_t)draw_below(rng, GUARD));
    try_total(trial, PLAN_WORDS + (size_t)draw_below(rng, GUARD));
}

struct slices bare_slices(struct lengths lengths) {
    return (struct slices){room(lengths.plan * sizeof(uint64_t)),
                           room(lengths.counts * sizeof(uint64_t)),
                           room(lengths.values * sizeof(uint64_t))};
}

void free_slices(struct slices slices) {
    free(slices.plan);
    free(slices.counts);
    free(slices.values);
}

static struct answer try_bare(struct trial *trial, struct slices slices, enum call call,
                              uint64_t number) {
    struct answer expected = model_call(call, &trial->shape, &trial->expected, least, number);
    compare_answer(trial, call, number, expected, runtime_call(call, slices, least, number));
    return expected;
}

/* Asks which items are ready, into a block of the least length. */
static void ready_bare(struct trial *trial, struct slices s) {
    uint16_t expected[ITEM_ROOM], *items = room(ITEM_ROOM * sizeof *items);
    struct answer answer =
        model_ready(&trial->shape, &trial->expected, least, expected, ITEM_ROOM);
    taskiter_number got = taskiter_ready(s.plan, PLAN_WORDS, s.counts, COUNTS, s.values, VALUES,
                                         items, ITEM_ROOM);
    count_answer(trial, got.refusal);
    if (got.refusal != answer.refusal || got.number != answer.word ||
        memcmp(items, expected, (size_t)answer.word * sizeof *items) != 0)
        differ(trial, "other items are ready: refusal %" PRIu64 ", number %" PRIu64, got.refusal,
               got.number);
    free(items);
}

/* Random steps to the end, or some hundreds. */
static void play_bare(struct trial *trial, struct rng *rng, struct slices slices) {
    int n = trial->shape.graph.items;
    try_bare(trial, slices, OPEN_CALL, 0);
    for (int k = 0; k < FEW_STEPS && !complete(&trial->shape, &trial->expected); k++) {
        enum call call = draw_below(rng, 2) == 0 ? START_CALL : FINISH_CALL;
        int item = find_free(trial, rng, 2, call);
        try_bare(trial, slices, call, (uint64_t)(item < 0 ? draw_below(rng, n) : item));
        ready_bare(trial, slices);
    }
    for (int g = 0; g < trial->shape.plan.regions; g++)
        try_bare(trial, slices, RESULT_CALL, (uint64_t)g);
}

/* Reads a text of the plan that ends where its block ends. */
static void read_bare(struct trial *trial, struct rng *rng, struct slices slices) {
    static char text[TEXT_ROOM];
    size_t length = (size_t)draw_text(rng, &trial->shape.plan, text);
    uint8_t *block = room(length);
    memcpy(block, text, length);
    taskiter_reading reading = taskiter_read(block, length, slices.plan, PLAN_WORDS);
    count_answer(trial, reading.refusal);
    if (reading.refusal != 0 ||
        memcmp(slices.plan, trial->expected.plan, sizeof trial->expected.plan) != 0)
        differ(trial, "reading gives another plan");
    free(block);
}

/* Asks for the total, and for items and edges in blocks of the least lengths. */
static void graph_bare(struct trial *trial, struct slices slices) {
    uint16_t *items = room(ITEM_ROOM * sizeof *items);
    uint32_t *edges = room(EDGE_ROOM * sizeof *edges);
    taskiter_number n = taskiter_items(slices.plan, PLAN_WORDS, items, ITEM_ROOM),
                    m = taskiter_edges(slices.plan, PLAN_WORDS, edges, EDGE_ROOM),
                    total = taskiter_total(slices.plan, PLAN_WORDS);
    count_answer(trial, n.refusal);
    count_answer(trial, m.refusal);
    count_answer(trial, total.refusal);
    if (total.number != model_total(&trial->shape, PLAN_WORDS).word)
        differ(trial, "the total is %" PRIu64, total.number);
    if (n.number != (uint64_t)trial->shape.graph.items ||
        m.number != (uint64_t)trial->shape.graph.edges)
        differ(trial, "there are %" PRIu64 " items and %" PRIu64 " edges", n.number, m.number);
    free(items);
    free(edges);
}

/* Writes the plan into a block that its text just fills, and into one that is a byte too short. */
static void write_bare(struct trial *trial, struct slices slices) {
    static char text[TEXT_BYTES + 1];
    size_t length = (size_t)write_text(&trial->shape.plan, text);
    uint8_t *whole = room(length), *less = room(length - 1);
    taskiter_number n = taskiter_write(slices.plan, PLAN_WORDS, whole, length),
                    m = taskiter_write(slices.plan, PLAN_WORDS, less, length - 1);
    count_answer(trial, n.refusal);
    count_answer(trial, m.refusal);
    if (n.refusal != 0 || n.number != length || memcmp(whole, text, length) != 0 ||
        m.refusal != 19 || m.number != 0)
        differ(trial, "writing gives another text, or a short slice is accepted");
    free(whole);
    free(less);
}

/* The refusal of asking which items are ready, with room for them. */
static uint64_t ready_refusal(struct slices s, struct lengths l) {
    uint16_t items[ITEM_ROOM];
    return taskiter_ready(s.plan, l.plan, s.counts, l.counts, s.values, l.values, items, ITEM_ROOM)
        .refusal;
}

/* Slices too short, with nothing in them and nothing behind them. */
static void try_short_bare(struct trial *trial, struct lengths lengths) {
    struct slices slices = bare_slices(lengths);
    for (int call = 0; call < CALLS; call++)
        compare_answer(trial, (enum call)call, 0, (struct answer){11, 0},
                       runtime_call((enum call)call, slices, lengths, 0));
    if (lengths.plan < PLAN_WORDS && taskiter_total(slices.plan, lengths.plan).refusal != 11)
        differ(trial, "a total is answered for a plan that is too short");
    if (ready_refusal(slices, lengths) != 11)
        differ(trial, "ready items are answered for a slice that is too short");
    free_slices(slices);
}

/* A text, a list or answers that are NULL, and are said to have elements: 11. */
static void try_null_long(struct trial *trial, struct slices s) {
    static const uint64_t calls[1] = {TASKITER_CALL_RESULT(0)};
    uint64_t answers[2] = {0, 0};
    if (taskiter_read(NULL, 1, s.plan, PLAN_WORDS).refusal != 11 ||
        taskiter_write(s.plan, PLAN_WORDS, NULL, 1).refusal != 11)
        differ(trial, "a text that is NULL and has a byte is not refused with 11");
    if (taskiter_play(s.plan, PLAN_WORDS, s.counts, COUNTS, s.values, VALUES, NULL, 1, answers,
                      2) != 11 ||
        taskiter_play(s.plan, PLAN_WORDS, s.counts, COUNTS, s.values, VALUES, calls, 1, NULL, 2) !=
            11)
        differ(trial, "a list or answers that are NULL and have elements are not refused with 11");
}

/* The total of a plan that is NULL, of no words or of words that it is said to have: 11. */
static void try_null_total(struct trial *trial) {
    taskiter_number n = taskiter_total(NULL, 0), m = taskiter_total(NULL, PLAN_WORDS);
    if (n.refusal != 11 || n.number != 0 || m.refusal != 11 || m.number != 0)
        differ(trial, "a total is answered for a plan that is NULL");
}

/* Slices that are NULL, each alone and all: 11. */
static void try_null(struct trial *trial, struct slices all) {
    struct slices some[] = {all, all, all, {NULL, NULL, NULL}};
    some[0].plan = NULL;
    some[1].counts = NULL;
    some[2].values = NULL;
    for (int k = 0; k < 4; k++) {
        struct slices s = some[k];
        struct lengths l = {s.plan == NULL ? 0 : PLAN_WORDS, s.counts == NULL ? 0 : COUNTS,
                            s.values == NULL ? 0 : VALUES};
        for (int call = 0; call < CALLS; call++)
            compare_answer(trial, (enum call)call, 0, (struct answer){11, 0},
                           runtime_call((enum call)call, s, l, 0));
        if (taskiter_play(s.plan, l.plan, s.counts, l.counts, s.values, l.values, NULL, 0, NULL,
                          0) != 11)
            differ(trial, "a list of no calls is accepted with a slice that is NULL");
        if (ready_refusal(s, l) != 11 || ready_refusal(s, least) != 11)
            differ(trial, "ready items are answered with a slice that is NULL");
    }
    taskiter_number n = taskiter_items(all.plan, PLAN_WORDS, NULL, 0),
                    m = taskiter_edges(all.plan, PLAN_WORDS, NULL, 0),
                    ready = taskiter_ready(all.plan, PLAN_WORDS, all.counts, COUNTS, all.values,
                                           VALUES, NULL, ITEM_ROOM);
    if (n.refusal != 11 || m.refusal != 11 || ready.refusal != 11 ||
        taskiter_read(NULL, 0, NULL, 0).refusal != 11)
        differ(trial, "items, edges, ready items or reading is accepted with a slice that is NULL");
    if (taskiter_write(NULL, 0, NULL, 0).refusal != 11 ||
        taskiter_write(all.plan, PLAN_WORDS - 1, NULL, 0).refusal != 11 ||
        taskiter_write(all.plan, PLAN_WORDS, NULL, 0).refusal != 19)
        differ(trial, "writing is accepted or refused otherwise with a slice that is NULL");
    try_null_total(trial);
    try_null_long(trial, all);
}

void bare_group(struct trial *trial, struct rng *rng) {
    put_drawn_plan(trial, rng);
    struct slices slices = bare_slices(least);
    read_bare(trial, rng, slices);
    graph_bare(trial, slices);
    write_bare(trial, slices);
    play_bare(trial, rng, slices);
    try_null(trial, slices);
    free_slices(slices);
    try_short_bare(trial, (struct lengths){PLAN_WORDS - 1, COUNTS, VALUES});
    try_short_bare(trial, (struct lengths){PLAN_WORDS, COUNTS - 1, VALUES});
    try_short_bare(trial, (struct lengths){PLAN_WORDS, COUNTS, VALUES - 1});
    try_short_bare(trial, (struct lengths){0, 0, 0});
}
