/* The group of stress whose plans have many passes. A play of so many would take years: counts are
   put by hand, near the last pass and near 2^32, and the play goes on from there. */
#include <inttypes.h>

#include "groups.h"
#include "loop.h"

/* The limit, by the paper and not by the model; and the first count that needs a 33rd bit. */
static const uint64_t limit = 1000000000000, beyond = UINT64_C(1) << 32;

/* A step that was taken, and the word that it answered. */
struct step {
    enum call call;
    int item;
    uint64_t word;
};

/* A plan of 10^12 passes is in form, and one of a pass more is not. */
static void try_limit(struct trial *trial, struct rng *rng) {
    put_word(trial, 0, limit);
    try_total(trial, PLAN_WORDS);
    if (try_call(trial, OPEN_CALL, draw_enough(rng), 0).refusal != 0)
        differ(trial, "a plan of %" PRIu64 " passes is refused", limit);
    put_word(trial, 0, limit + 1);
    try_total(trial, PLAN_WORDS);
    try_write(trial, PLAN_WORDS, TEXT_BYTES);
    if (try_call(trial, OPEN_CALL, draw_enough(rng), 0).refusal != 12 ||
        try_call(trial, START_CALL, draw_enough(rng), 0).refusal != 12)
        differ(trial, "a plan of %" PRIu64 " passes is not refused with 12", limit + 1);
}

/* The steps until every item has finished so many passes, or all that it has. */
static uint64_t steps_to(const struct trial *trial, uint64_t passes) {
    const uint64_t *started = trial->lent.counts, *finished = started + MAX_ITEMS;
    uint64_t steps = 0;
    for (int a = 0; a < trial->shape.graph.items; a++) {
        uint64_t own = own_of(trial, a), to = passes < own ? passes : own;
        steps += started[a] < to ? to - started[a] : 0;
        steps += finished[a] < to ? to - finished[a] : 0;
    }
    return steps;
}

/* A random item that has not finished so many passes and whose step is free; -1 if there is
   none. */
static int find_behind(struct trial *trial, struct rng *rng, enum call call, uint64_t passes) {
    int n = trial->shape.graph.items, from = draw_below(rng, n);
    for (int k = 0; k < n; k++) {
        int item = (from + k) % n;
        if (trial->lent.counts[MAX_ITEMS + item] < passes &&
            is_free(call, &trial->shape, &trial->expected, item))
            return item;
    }
    return -1;
}

/* Makes a step that is free. It adds 1 to the item's count, and leaves fresh numbers of unmet
   waits. */
static struct step take_step(struct trial *trial, struct rng *rng, enum call call, int item) {
    const uint64_t *at = &trial->lent.counts[call == START_CALL ? item : MAX_ITEMS + item];
    uint64_t expected = *at + 1;
    struct answer answer = try_call(trial, call, draw_enough(rng), (uint64_t)item);
    uint64_t count = with_cut_count(trial, *at);
    try_fresh(trial);
    if (answer.refusal != 0 || count != expected)
        differ(trial, "item %d: refusal %" PRIu64 ", the count is %" PRIu64 ", expected %" PRIu64,
               item, answer.refusal, count, expected);
    return (struct step){call, item, answer.word};
}

/* Takes a step of an item that has not finished so many passes. While there is such an item, one of
   them has a step that is free. */
static struct step take_behind(struct trial *trial, struct rng *rng, uint64_t passes) {
    enum call call = draw_below(rng, 2) == 0 ? START_CALL : FINISH_CALL;
    int item = find_behind(trial, rng, call, passes);
    if (item < 0) {
        call = call == START_CALL ? FINISH_CALL : START_CALL;
        item = find_behind(trial, rng, call, passes);
    }
    if (item < 0)
        differ(trial, "no step is free, and an item has not finished %" PRIu64 " passes", passes);
    return take_step(trial, rng, call, item);
}

/* At the end no item has a pass left, and every region has a result: one of each is tried. */
static void try_end(struct trial *trial, struct rng *rng) {
    int item = draw_below(rng, trial->shape.graph.items),
        region = draw_below(rng, trial->shape.plan.regions);
    if (try_call(trial, START_CALL, least, (uint64_t)item).refusal != 14)
        differ(trial, "item %d has finished its passes, and 14 is not given", item);
    if (try_call(trial, RESULT_CALL, least, (uint64_t)region).refusal != 0)
        differ(trial, "the loop is complete, and region %d has no result", region);
}

/* Plays to the end from counts about the last pass, which may be those of no play. One step before
   the end there is no result. */
static void play_last(struct trial *trial, struct rng *rng) {
    uint64_t passes = trial->shape.plan.passes;
    put_counts_near(trial, rng, passes, 2);
    for (uint64_t left = steps_to(trial, passes); left > 0; left--) {
        if (left == 1 && try_call(trial, RESULT_CALL, least, 0).refusal != 18)
            differ(trial, "a step is left, and 18 is not given");
        take_behind(trial, rng, passes);
    }
    try_end(trial, rng);
}

/* Opens the plan, and puts so many passes as finished. Every copy has its starting value. So the
   passes that follow are those of a loop which begins here. */
static void open_at(struct trial *trial, uint64_t passes) {
    try_call(trial, OPEN_CALL, least, 0);
    for (int a = 0; a < trial->shape.graph.items; a++)
        put_item_counts(trial, a, passes, passes);
    put_fresh_numbers(trial);
}

/* A step has the word of the loop that begins after so many passes. */
static void compare_step(struct trial *trial, struct loop *loop, uint64_t from, struct step step) {
    int at = step.call == START_CALL ? step.item : MAX_ITEMS + step.item;
    uint64_t pass = trial->lent.counts[at] - 1;
    uint64_t expected = loop_word(loop, pass - from, trial->shape.graph.item[step.item].task);
    if (step.word != expected)
        differ(trial, "item %d has %" PRIu64 " in pass %" PRIu64 ", the unrolled loop %" PRIu64,
               step.item, step.word, pass, expected);
}

/* The results of a complete loop are the final numbers of the one that was played. The total is
   that of its steps and of those that were put as taken. */
static void compare_results(struct trial *trial, struct loop *loop, uint64_t steps) {
    uint64_t total = model_total(&trial->shape, PLAN_WORDS).word;
    if (steps != total)
        differ(trial, "there are %" PRIu64 " steps, the total is %" PRIu64, steps, total);
    for (int g = 0; g < trial->shape.plan.regions; g++) {
        struct answer answer = try_call(trial, RESULT_CALL, least, (uint64_t)g);
        uint64_t expected = loop_final(loop, g);
        if (answer.refusal != 0 || answer.word != expected)
            differ(trial, "region %d: refusal %" PRIu64 ", word %" PRIu64 ", expected %" PRIu64, g,
                   answer.refusal, answer.word, expected);
    }
}

/* Plays on where every item has finished `from` passes, until every item has finished `to`, or all
   that it has. */
static void play_passes(struct trial *trial, struct rng *rng, uint64_t from, uint64_t to) {
    static struct plan plan;
    struct loop loop;
    uint64_t steps = 2 * from * (uint64_t)trial->shape.graph.items;
    plan = trial->shape.plan;
    plan.passes = to - from;
    loop_begin(&loop, &plan);
    open_at(trial, from);
    for (uint64_t left = steps_to(trial, to); left > 0; left--, steps++)
        compare_step(trial, &loop, from, take_behind(trial, rng, to));
    if (to == trial->shape.plan.passes)
        compare_results(trial, &loop, steps);
    loop_end(&loop);
}

/* Any call in a state whose counts are out of form. */
static void try_off(struct trial *trial, struct rng *rng, int item, uint64_t started,
                    uint64_t finished) {
    static const enum call calls[] = {START_CALL, FINISH_CALL, RESULT_CALL};
    enum call call = calls[draw_below(rng, 3)];
    uint64_t number = call == START_CALL ? (uint64_t)item : 0;
    put_item_counts(trial, item, started, finished);
    if (try_call(trial, call, draw_enough(rng), number).refusal != 12)
        differ(trial,
               "item %d has started %" PRIu64 " and finished %" PRIu64 " of %" PRIu64
               " passes, and 12 is not given",
               item, started, finished, own_of(trial, item));
}

/* Counts of an item that are out of form, those of the others being in form: a pass too many, two
   at once, a finish without its start, and some that are in form modulo 2^32 or 2^63. The table has
   what they are above the item's own passes, modulo 2^64. Leaves the counts as they were. */
static void try_all_off(struct trial *trial, struct rng *rng, int item) {
    const uint64_t one = 1, two = 2, half = one << 63;
    const struct {
        uint64_t started, finished;
    } above[] = {{1, 0},       {0, 1},       {1, 1},           {2, 0},
                 {0, -two},    {-one, 0},    {beyond, 0},      {0, beyond},
                 {-beyond, 0}, {0, -beyond}, {0, -beyond - 1}, {beyond, beyond},
                 {half, 0},    {0, half},    {half, half},     {half, half - 1}};
    uint64_t own = own_of(trial, item), started = trial->lent.counts[item],
             finished = trial->lent.counts[MAX_ITEMS + item];
    for (size_t k = 0; k < sizeof above / sizeof *above; k++)
        try_off(trial, rng, item, own + above[k].started, own + above[k].finished);
    try_off(trial, rng, item, 0, UINT64_MAX);
    try_off(trial, rng, item, UINT64_MAX, UINT64_MAX);
    put_item_counts(trial, item, started, finished);
}

/* Counts of an item about its own last pass that are in form, as those of the others are. */
static void try_own_last(struct trial *trial, int item) {
    uint64_t own = own_of(trial, item);
    if (!refused_with(trial, item, own, own, 14))
        differ(trial, "item %d has finished its %" PRIu64 " passes, and 14 is not given", item,
               own);
    if (own > 0 && (!refused_with(trial, item, own, own - 1, 15) ||
                    refused_with(trial, item, own - 1, own - 1, 12)))
        differ(trial, "item %d has one of its %" PRIu64 " passes left, and is refused for it", item,
               own);
}

/* Calls in states whose counts are near so many passes, then with those of one item changed. */
static void try_near(struct trial *trial, struct rng *rng, uint64_t passes) {
    int item = draw_below(rng, 2) == 0 ? draw_wrapped(trial, rng) : -1;
    if (item < 0)
        item = draw_below(rng, trial->shape.graph.items);
    put_counts_near(trial, rng, passes, 2);
    try_all(trial, rng, draw_enough(rng));
    try_own_last(trial, item);
    try_all_off(trial, rng, item);
}

/* The passes up to the last one. Plays of a large plan take long: it gets one of the two. */
static void try_last(struct trial *trial, struct rng *rng) {
    bool large = size_of(trial->number) >= LARGE, first = draw_below(rng, 2) == 0;
    uint64_t passes = trial->shape.plan.passes, few = large ? 1 : 1 + draw_word_below(rng, 3);
    try_total(trial, draw_enough(rng).plan);
    try_near(trial, rng, passes);
    if (!large || first)
        play_last(trial, rng);
    if (!large || !first)
        play_passes(trial, rng, few < passes ? passes - few : 0, passes);
}

/* The passes about 2^32 of a plan that has them. */
static void try_across(struct trial *trial, struct rng *rng) {
    try_total(trial, draw_enough(rng).plan);
    try_near(trial, rng, beyond + draw_word_below(rng, 3));
    play_passes(trial, rng, beyond - 1, beyond + 1);
}

void passes_group(struct trial *trial, struct rng *rng) {
    put_drawn_plan(trial, rng);
    try_limit(trial, rng);
    put_word(trial, 0, draw_many_passes(rng));
    try_back(trial, rng);
    try_last(trial, rng);
    put_word(trial, 0, limit - draw_word_below(rng, limit - beyond));
    try_across(trial, rng);
}
