/* The groups of stress that damage plans, counts and lengths. */
#include <string.h>

#include "groups.h"

/* Any call with any number. */
static struct answer try_any(struct trial *trial, struct rng *rng, enum call call,
                             struct lengths lengths) {
    int n = call == RESULT_CALL ? trial->shape.plan.regions : trial->shape.graph.items;
    return try_call(trial, call, lengths, draw_asked(rng, trial->shape.formed ? n : MAX_ITEMS));
}

uint64_t draw_instead(struct rng *rng, uint64_t word) {
    switch (draw_below(rng, 7)) {
    case 0:
        return word + 1;
    case 1:
        return word - 1;
    case 2:
        return word ^ UINT64_C(1) << draw_below(rng, 64);
    case 3:
        return word + MAX_REGIONS;
    case 4:
        return (uint64_t)draw_below(rng, 3 * MAX_REGIONS);
    case 5:
        return (uint64_t)draw_below(rng, 9);
    default:
        return draw_word(rng);
    }
}

int draw_place(struct rng *rng, int tasks) {
    switch (draw_below(rng, 6)) {
    case 0:
        return draw_below(rng, START_WORDS);
    case 1:
        return START_WORDS + draw_below(rng, MAX_REGIONS);
    case 2:
        return draw_below(rng, PLAN_WORDS);
    default:
        return TASK_WORDS + draw_below(rng, WORDS_A_TASK * tasks);
    }
}

void put_item_counts(struct trial *trial, int item, uint64_t started, uint64_t finished) {
    trial->lent.counts[item] = trial->expected.counts[item] = started;
    trial->lent.counts[MAX_ITEMS + item] = trial->expected.counts[MAX_ITEMS + item] = finished;
}

void put_counts_near(struct trial *trial, struct rng *rng, uint64_t passes, uint64_t fewer) {
    for (int a = 0; a < trial->shape.graph.items; a++) {
        uint64_t own = own_of(trial, a),
                 f = passes - draw_word_below(rng, (fewer < passes ? fewer : passes) + 1);
        f = f < own ? f : own;
        put_item_counts(trial, a, f + (f < own && draw_below(rng, 3) == 0), f);
    }
    put_fresh_numbers(trial);
}

/* Random counts in form; now and then all passes are finished. */
static void put_counts(struct trial *trial, struct rng *rng) {
    uint64_t passes = trial->shape.plan.passes;
    if (draw_below(rng, 4) == 0)
        put_counts_near(trial, rng, passes, 0);
    else if (draw_below(rng, 3) == 0)
        put_counts_near(trial, rng, passes, 2);
    else
        put_counts_near(trial, rng, draw_word_below(rng, passes + 1), 2);
}

bool refused_with(struct trial *trial, int item, uint64_t started, uint64_t finished,
                  uint64_t refusal) {
    static struct memory kept;
    kept = trial->lent;
    put_item_counts(trial, item, started, finished);
    bool same = try_call(trial, START_CALL, least, (uint64_t)item).refusal == refusal;
    trial->lent = trial->expected = kept;
    return same;
}

int draw_wrapped(struct trial *trial, struct rng *rng) {
    const struct graph *graph = &trial->shape.graph;
    int from = draw_below(rng, graph->items);
    for (int k = 0; k < graph->items; k++)
        if (graph->item[(from + k) % graph->items].fewer > 0)
            return (from + k) % graph->items;
    return -1;
}

/* The counts of an item of a wrapped transfer about its own last pass, those of the others being in
   form. Finished, it gives 14. A pass more, started or finished, is 12, though the plan has it; a
   pass less is not. */
static void try_last_pass(struct trial *trial, struct rng *rng) {
    int item = draw_wrapped(trial, rng);
    uint64_t last = trial->shape.plan.passes, own = last - 1;
    if (item < 0 || last == 0)
        return;
    if (!refused_with(trial, item, own, own, 14))
        differ(trial, "item %d has finished its own last pass, and 14 is not given", item);
    if (!refused_with(trial, item, last, own, 12) || !refused_with(trial, item, last, last, 12) ||
        !refused_with(trial, item, own, last, 12))
        differ(trial, "item %d has the last pass of the plan, and 12 is not given", item);
    if (own > 0 && (!refused_with(trial, item, own, own - 1, 15) ||
                    refused_with(trial, item, own - 1, own - 1, 12)))
        differ(trial, "item %d has a pass left, and is refused for its counts", item);
}

void try_all(struct trial *trial, struct rng *rng, struct lengths lengths) {
    static struct memory kept;
    kept = trial->lent;
    uint64_t calls[] = {draw_call(trial, rng), draw_call(trial, rng), draw_call(trial, rng)};
    try_play(trial, lengths, calls, 3, 6);
    trial->lent = trial->expected = kept;
    for (int call = 0; call < CALLS; call++) {
        try_any(trial, rng, (enum call)call, lengths);
        trial->lent = trial->expected = kept;
    }
    try_ready(trial, lengths, ITEM_ROOM, NULL);
}

/* Calls in a random state, whose words are those of no loop: they are answered by the counts and
   values that stand there. */
static void try_state(struct trial *trial, struct rng *rng) {
    put_counts(trial, rng);
    for (int k = 0; k < 12; k++)
        try_any(trial, rng, (enum call)(1 + draw_below(rng, CALLS - 1)), draw_enough(rng));
}

/* One count changed, or one number of unmet waits: 12, or the state is still in form. */
static void try_damaged_count(struct trial *trial, struct rng *rng) {
    int item = draw_below(rng, trial->shape.graph.items + (draw_below(rng, 4) == 0));
    int at = item % MAX_ITEMS + MAX_ITEMS * draw_below(rng, 3);
    uint64_t kept = trial->lent.counts[at];
    trial->lent.counts[at] = trial->expected.counts[at] = draw_instead(rng, kept);
    try_all(trial, rng, draw_enough(rng));
    trial->lent.counts[at] = trial->expected.counts[at] = kept;
}

/* One word of the plan changed: 12, or it is another plan, and each call is answered as that
   one's. */
static void try_damaged_word(struct trial *trial, struct rng *rng) {
    static struct shape shape;
    int at = draw_place(rng, trial->shape.plan.tasks);
    uint64_t kept = trial->lent.plan[at];
    shape = trial->shape;
    put_word(trial, at, draw_instead(rng, kept));
    try_all(trial, rng, draw_enough(rng));
    try_items(trial, PLAN_WORDS, ITEM_ROOM);
    try_edges(trial, PLAN_WORDS, EDGE_ROOM);
    try_total(trial, PLAN_WORDS);
    try_write(trial, PLAN_WORDS, TEXT_BYTES);
    trial->lent.plan[at] = trial->expected.plan[at] = kept;
    trial->shape = shape;
}

/* Words that are no plan's: zeros, any words, and those of a body that may have too many
   transfers. */
static void try_no_plan(struct trial *trial, struct rng *rng) {
    static struct plan plan;
    draw_body(rng, size_of(trial->number), &plan);
    put_plan(trial, &plan);
    try_all(trial, rng, least);
    try_total(trial, PLAN_WORDS);
    try_write(trial, PLAN_WORDS, TEXT_BYTES);
    fill_memory(trial, rng);
    put_word(trial, 0, 1);
    try_all(trial, rng, least);
    try_total(trial, PLAN_WORDS);
    try_write(trial, PLAN_WORDS, TEXT_BYTES);
    memset(trial->lent.plan, 0, sizeof trial->lent.plan);
    memset(trial->expected.plan, 0, sizeof trial->expected.plan);
    put_word(trial, 0, 0);
    try_all(trial, rng, least);
    try_total(trial, PLAN_WORDS);
    try_write(trial, PLAN_WORDS, 0);
}

void damage_group(struct trial *trial, struct rng *rng) {
    put_drawn_plan(trial, rng);
    try_state(trial, rng);
    put_counts(trial, rng);
    try_last_pass(trial, rng);
    for (int k = 0; k < 8; k++)
        try_damaged_count(trial, rng);
    for (int k = 0; k < 16; k++)
        try_damaged_word(trial, rng);
    try_no_plan(trial, rng);
}

size_t draw_length(struct rng *rng, size_t enough) {
    const size_t lengths[] = {0, 1, enough / 2, enough - 1, enough, enough, enough, enough + 1};
    return lengths[draw_below(rng, 8)];
}

struct lengths draw_lengths(struct rng *rng) {
    return (struct lengths){draw_length(rng, PLAN_WORDS), draw_length(rng, COUNTS),
                            draw_length(rng, VALUES)};
}

void try_damage(struct trial *trial, struct rng *rng) {
    switch (draw_below(rng, 3)) {
    case 0:
        try_damaged_count(trial, rng);
        break;
    case 1:
        try_damaged_word(trial, rng);
        break;
    default:
        try_all(trial, rng, draw_lengths(rng));
    }
}

/* Each slice too short by one, none at all, and random lengths: 11 whatever the slices hold, before
   12 and 13. */
void short_group(struct trial *trial, struct rng *rng) {
    static const uint8_t text[] = "loop\t1\t1\t1\n";
    put_drawn_plan(trial, rng);
    if (draw_below(rng, 2) == 0)
        put_word(trial, draw_below(rng, PLAN_WORDS), draw_word(rng));
    else
        try_call(trial, OPEN_CALL, least, 0);
    try_all(trial, rng, (struct lengths){PLAN_WORDS - 1, COUNTS, VALUES});
    try_all(trial, rng, (struct lengths){PLAN_WORDS, COUNTS - 1, VALUES});
    try_all(trial, rng, (struct lengths){PLAN_WORDS, FIRST_UNMET, VALUES}); /* as of version 4 */
    try_all(trial, rng, (struct lengths){PLAN_WORDS, COUNTS, VALUES - 1});
    try_all(trial, rng, (struct lengths){0, 0, 0});
    for (int k = 0; k < 4; k++)
        try_all(trial, rng, draw_lengths(rng));
    try_items(trial, PLAN_WORDS, ITEM_ROOM - 1);
    try_ready(trial, least, ITEM_ROOM - 1, NULL);
    try_edges(trial, PLAN_WORDS, EDGE_ROOM - 1);
    try_total(trial, PLAN_WORDS - 1);
    try_total(trial, 0);
    for (int k = 0; k < 4; k++) {
        try_items(trial, draw_length(rng, PLAN_WORDS), draw_length(rng, ITEM_ROOM));
        try_edges(trial, draw_length(rng, PLAN_WORDS), draw_length(rng, EDGE_ROOM));
        try_total(trial, draw_length(rng, PLAN_WORDS));
        try_write(trial, draw_length(rng, PLAN_WORDS), draw_length(rng, TEXT_BYTES));
    }
    try_read(trial, text, (size_t)draw_below(rng, sizeof text), PLAN_WORDS - 1);
    try_read(trial, text, (size_t)draw_below(rng, sizeof text), draw_length(rng, PLAN_WORDS));
}
