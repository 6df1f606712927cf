/* The group of stress that goes by the numbers of unmet waits: plays by the items that are ready,
   and numbers that are put by hand. */
#include <inttypes.h>
#include <string.h>

#include "groups.h"
#include "recount.h"

/* A play with fresh numbers has at most MOST_STEPS steps, one from numbers put by hand FEW_STEPS.
   Before each step all starts are tried where the plan has at most FEW_ITEMS items; else before
   some, by chance. */
enum { MOST_STEPS = 240, FEW_STEPS = 48, FEW_ITEMS = 16, TRIED_STARTS = 2 };

/* Tries a start of every item on a copy of the lent memory: those that are accepted are the ones
   listed, in their order. */
static void try_starts(struct trial *trial, const uint16_t *listed, uint64_t number) {
    static struct memory copy;
    struct slices slices = {copy.plan, copy.counts, copy.values};
    bool started = true;
    uint64_t k = 0;
    for (int a = 0; a < trial->shape.graph.items; a++) {
        bool ready = k < number && listed[k] == a;
        if (started)
            copy = trial->lent;
        started = runtime_call(START_CALL, slices, least, (uint64_t)a).refusal == 0;
        if (started != ready)
            differ(trial, "a start of item %d is %s, and it is %slisted as ready", a,
                   started ? "accepted" : "refused", ready ? "" : "not ");
        k += ready;
    }
}

/* Asks which items are ready, and tries the starts. Gives how many are ready. */
static uint64_t list_ready(struct trial *trial, struct rng *rng, uint16_t *listed) {
    size_t length = ITEM_ROOM + (size_t)draw_below(rng, GUARD);
    struct answer answer = try_ready(trial, draw_enough(rng), length, listed);
    int n = trial->shape.graph.items;
    if (n <= FEW_ITEMS || draw_below(rng, n) < TRIED_STARTS)
        try_starts(trial, listed, answer.word);
    return answer.word;
}

/* Takes one off the numbers that a finish of the item in its pass lowers, by the edges: those of
   other items that wait for this instance in the first pass that they have not finished. */
static void lower(const struct trial *trial, int item, uint64_t numbers[MAX_ITEMS]) {
    const struct graph *graph = &trial->shape.graph;
    const uint64_t *finished = trial->lent.counts + MAX_ITEMS;
    for (int e = 0; e < graph->edges; e++) {
        int from = graph->edge[e].from, to = graph->edge[e].to;
        uint64_t pass = finished[item] + (uint64_t)graph->edge[e].distance;
        if (from == item && to != item && finished[to] == pass && pass != own_of(trial, to))
            numbers[to] -= numbers[to] > 0;
    }
}

/* Finishes an item that runs. The numbers of the others are those that the edges say. */
static void take_finish(struct trial *trial, struct rng *rng, int item) {
    uint64_t numbers[MAX_ITEMS];
    memcpy(numbers, trial->lent.counts + FIRST_UNMET, sizeof numbers);
    lower(trial, item, numbers);
    try_call(trial, FINISH_CALL, draw_enough(rng), (uint64_t)item);
    for (int a = 0; a < trial->shape.graph.items; a++) {
        uint64_t number = trial->lent.counts[FIRST_UNMET + a];
        if (a != item && number != numbers[a])
            differ(trial,
                   "a finish of item %d leaves item %d the number %" PRIu64 ", expected %" PRIu64,
                   item, a, number, numbers[a]);
    }
}

/* Takes a step: a start of an item that is listed as ready, or a finish. Answers false where there
   is none. */
static bool take_ready(struct trial *trial, struct rng *rng) {
    uint16_t listed[MAX_ITEMS];
    uint64_t number = list_ready(trial, rng, listed);
    int running = find_free(trial, rng, 2, FINISH_CALL);
    if (number == 0 && running < 0)
        return false;
    if (running >= 0 && (number == 0 || draw_below(rng, 2) == 0)) {
        take_finish(trial, rng, running);
        return true;
    }
    uint64_t item = listed[draw_below(rng, (int)number)];
    if (try_call(trial, START_CALL, draw_enough(rng), item).refusal != 0)
        differ(trial, "item %" PRIu64 " is listed as ready, and its start is refused", item);
    return true;
}

/* In a complete loop no item is ready. */
static void try_none(struct trial *trial) {
    if (try_ready(trial, least, ITEM_ROOM, NULL).word != 0)
        differ(trial, "the loop is complete, and an item is ready");
}

/* Plays on from a state whose numbers are fresh, to the end or for so many steps. */
static void play_fresh(struct trial *trial, struct rng *rng) {
    int steps = 0;
    while (steps < MOST_STEPS && take_ready(trial, rng)) {
        try_fresh(trial);
        steps++;
    }
    if (complete(&trial->shape, &trial->expected))
        try_none(trial);
    else if (steps < MOST_STEPS)
        differ(trial, "no item is ready, none runs, and the loop is not complete");
}

/* A number to put where there are n items: in form, just above, in form modulo 2^32, or any. */
static uint64_t draw_unmet(struct rng *rng, int n) {
    const uint64_t some = (uint64_t)draw_below(rng, n + 1), items = (uint64_t)n;
    const uint64_t numbers[] = {0,
                                1,
                                some,
                                items,
                                items + 1,
                                items + 1 + some,
                                (UINT64_C(1) << 32) + some,
                                (UINT64_C(1) << 63) + some,
                                UINT64_MAX - some,
                                UINT64_MAX,
                                draw_word(rng)};
    return numbers[draw_below(rng, (int)(sizeof numbers / sizeof *numbers))];
}

/* What a start of the item has to answer where its number is this one and all else is in form. */
static uint64_t judged(const struct trial *trial, int item, uint64_t number) {
    uint64_t started = trial->lent.counts[item], finished = trial->lent.counts[MAX_ITEMS + item];
    return number > (uint64_t)trial->shape.graph.items ? 12
           : finished == own_of(trial, item)           ? 14
           : started != finished                       ? 15
           : number > 0                                ? 16
                                                       : 0;
}

/* Every call with one number changed. A start of its item goes by it; above the number of items the
   others give 12 too, but for an opening. Leaves the memory as it was. */
static void try_number(struct trial *trial, struct rng *rng) {
    static struct memory kept;
    int n = trial->shape.graph.items, item = draw_below(rng, n);
    uint64_t number = draw_unmet(rng, n), expected = judged(trial, item, number);
    kept = trial->lent;
    put_number(trial, item, number);
    try_all(trial, rng, draw_enough(rng));
    uint64_t got = try_call(trial, START_CALL, least, (uint64_t)item).refusal;
    if (got != expected)
        differ(trial, "a start of item %d with the number %" PRIu64 " gives %" PRIu64
                      ", expected %" PRIu64,
               item, number, got, expected);
    if (expected == 12 && (try_ready(trial, least, ITEM_ROOM, NULL).refusal != 12 ||
                           try_call(trial, FINISH_CALL, least, 0).refusal != 12 ||
                           try_call(trial, RESULT_CALL, least, 0).refusal != 12 ||
                           try_call(trial, OPEN_CALL, least, 0).refusal != 0))
        differ(trial,
               "item %d has the number %" PRIu64 ": 12 is not given, or is given to an opening",
               item, number);
    trial->lent = trial->expected = kept;
}

/* Puts a number for each item, whatever it waits for: 0, as many as there are items, a few, any in
   form, or any word at all, as in a state that an earlier version left. */
static void put_numbers(struct trial *trial, struct rng *rng, int kind) {
    int n = trial->shape.graph.items;
    for (int a = 0; a < MAX_ITEMS; a++)
        if (a < n || kind == 4)
            put_number(trial, a,
                       kind == 0   ? 0
                       : kind == 1 ? (uint64_t)n
                       : kind == 2 ? (uint64_t)draw_below(rng, n < 3 ? n : 3)
                       : kind == 3 ? (uint64_t)draw_below(rng, n + 1)
                                   : draw(rng));
}

/* A play from numbers that are not fresh: it goes by what is stored, and may come to a state in
   which no step is accepted. Numbers behind those of the plan's items are not looked at. */
static void play_stored(struct trial *trial, struct rng *rng, int kind) {
    put_counts_near(trial, rng, trial->shape.plan.passes, 2);
    put_numbers(trial, rng, kind);
    try_all(trial, rng, draw_enough(rng));
    for (int steps = 0; kind < 4 && steps < FEW_STEPS && take_ready(trial, rng);)
        steps++;
    if (kind == 4 && try_ready(trial, least, ITEM_ROOM, NULL).refusal != 12)
        differ(trial, "numbers of any size are taken");
}

/* Each slice too short by one, and no room for the items: 11, with nothing changed. */
static void try_short_ready(struct trial *trial) {
    const struct lengths some[] = {{PLAN_WORDS - 1, COUNTS, VALUES},
                                   {PLAN_WORDS, COUNTS - 1, VALUES},
                                   {PLAN_WORDS, COUNTS, VALUES - 1}};
    bool short_given = try_ready(trial, least, ITEM_ROOM - 1, NULL).refusal == 11 &&
                       try_ready(trial, least, 0, NULL).refusal == 11;
    for (int k = 0; k < 3; k++)
        short_given = short_given && try_ready(trial, some[k], ITEM_ROOM, NULL).refusal == 11;
    if (!short_given)
        differ(trial, "ready items are answered with a slice that is too short");
}

/* recount_waits puts the numbers that stand there, which are fresh, in place of any others, and
   changes nothing else. */
static void try_recount(struct trial *trial) {
    static struct memory copy;
    copy = trial->lent;
    memset(copy.counts + FIRST_UNMET, 0x5a, (size_t)trial->shape.graph.items * sizeof *copy.counts);
    recount_waits(copy.plan, copy.counts);
    if (memcmp(&copy, &trial->lent, sizeof copy) != 0)
        differ(trial, "the numbers of a state, counted over the edges, are others");
}

/* From an opening; in states about the last pass, which wrapped transfers do not have; with numbers
   put by hand; in a complete loop; and with no pass. */
void waits_group(struct trial *trial, struct rng *rng) {
    put_drawn_plan(trial, rng);
    try_short_ready(trial);
    try_call(trial, OPEN_CALL, draw_enough(rng), 0);
    play_fresh(trial, rng);
    try_short_ready(trial);
    put_counts_near(trial, rng, trial->shape.plan.passes, 2);
    try_recount(trial);
    for (int k = 0; k < 12; k++)
        try_number(trial, rng);
    play_fresh(trial, rng);
    for (int kind = 0; kind < 5; kind++)
        play_stored(trial, rng, kind);
    put_counts_near(trial, rng, trial->shape.plan.passes, 0);
    try_none(trial);
    put_word(trial, 0, 0);
    try_call(trial, OPEN_CALL, least, 0);
    try_none(trial);
}
