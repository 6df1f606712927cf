/* The group of stress that goes by prepared tables: the tables themselves; plays by tables and by
   ordinary calls, mixed; and tables, plans, states and lengths that are damaged or put by hand. */
#include <inttypes.h>
#include <stdlib.h>
#include <string.h>

#include "groups.h"

/* So many calls are made of each plan in plays from an opening, and with tables put by hand. Freed
   items are compared with the ready ones after each finish where the plan has at most FEW_ITEMS
   items, else after some, by chance. */
enum { PLAYED_CALLS = 1200, DRAWN_CALLS = 60, BARE_CALLS = 24, FEW_ITEMS = 16, COMPARED_LISTS = 2 };

/* The tables and the list of freed items, lent beside the memory of the trial, and as expected. */
static struct prepared lent, expected;

static const struct all_lengths all_least = {{PLAN_WORDS, COUNTS, VALUES}, TABLES, FREED};

static const enum call prepared_calls[] = {START_PREPARED, FINISH_PREPARED, FINISH_FREEING};

enum { PREPARED_CALLS = sizeof prepared_calls / sizeof *prepared_calls };

static struct all_lengths draw_all_enough(struct rng *rng) {
    struct all_lengths lengths = {draw_enough(rng), TABLES, FREED};
    if (draw_below(rng, 4) == 0) {
        lengths.tables += (size_t)draw_below(rng, GUARD);
        lengths.freed += (size_t)draw_below(rng, GUARD);
    }
    return lengths;
}

/* Fills tables and list at random. */
static void fill_prepared(struct rng *rng) {
    uint16_t *number = (uint16_t *)&lent;
    for (size_t k = 0; k < sizeof lent / sizeof *number; k++)
        number[k] = (uint16_t)draw(rng);
    expected = lent;
}

static void put_in_tables(int at, int number) {
    lent.tables[at] = expected.tables[at] = (uint16_t)number;
}

/* Prepares the memory's plan and compares the tables. */
static struct answer try_prepare(struct trial *trial, size_t plan_length, size_t tables_length) {
    struct answer answer =
        model_prepare(&trial->shape, plan_length, expected.tables, tables_length);
    taskiter_number got = taskiter_prepare(trial->lent.plan, plan_length,
                                           tables_length > 0 ? lent.tables : NULL, tables_length);
    change_listed(trial, CHANGED_PREPARED, lent.tables, got.refusal == 0 ? TABLES : 0);
    compare_number(trial, "prepare", answer, got);
    compare_bytes(trial, "the tables", &expected, &lent, sizeof lent);
    return answer;
}

static struct answer prepared_call(enum call call, struct slices s, const uint16_t *tables,
                                   uint16_t *freed, struct all_lengths l, uint64_t item) {
    taskiter_answer answer = {0, 0};
    switch (call) {
    case START_PREPARED:
        answer = taskiter_start_prepared(s.plan, l.state.plan, tables, l.tables, s.counts,
                                         l.state.counts, s.values, l.state.values, item);
        break;
    case FINISH_PREPARED:
        answer = taskiter_finish_prepared(s.plan, l.state.plan, tables, l.tables, s.counts,
                                          l.state.counts, s.values, l.state.values, item);
        break;
    default:
        answer = taskiter_finish_freeing(s.plan, l.state.plan, tables, l.tables, s.counts,
                                         l.state.counts, s.values, l.state.values, freed, l.freed,
                                         item);
    }
    return (struct answer){answer.refusal, answer.word};
}

/* Makes a call by tables and compares answer, memory, tables and list. */
static struct answer try_prepared(struct trial *trial, enum call call, struct all_lengths lengths,
                                  uint64_t item) {
    struct slices slices = {trial->lent.plan, trial->lent.counts, trial->lent.values};
    memset(lent.freed, (int)trial->calls, sizeof lent.freed);
    memcpy(expected.freed, lent.freed, sizeof lent.freed);
    struct answer answer = model_prepared(call, &trial->expected, &expected, lengths, item);
    struct answer got = prepared_call(call, slices, lent.tables, lent.freed, lengths, item);
    size_t tables_size = offsetof(struct prepared, freed_front);
    if (call == FINISH_FREEING && answer.refusal == 0)
        change_listed(trial, CHANGED_FREED, lent.freed, 1 + (uint64_t)expected.freed[0]);
    compare_answer(trial, call, item, answer, got);
    compare_memory(trial, "a call by tables");
    compare_bytes(trial, "the freed items", expected.freed_front, lent.freed_front,
                  sizeof lent - tables_size);
    compare_bytes(trial, "the tables after a call", &expected, &lent, tables_size);
    return answer;
}

/* Puts the places of an item, by its number and the accesses of its task. */
static void put_places(const struct plan *plan, uint16_t *tables, int a) {
    int code = tables[FIRST_CODE + a], number = TASKITER_ITEM_NUMBER(code);
    int first_copy = TASKITER_ITEM_RANK(code) * plan->regions;
    uint16_t *read = tables + FIRST_READ + ROW * a, *written = tables + FIRST_WRITTEN + ROW * a;
    if (TASKITER_ITEM_KIND(code) == 0) {
        const struct task *task = &plan->task[number];
        for (int k = 0; k < task->accesses; k++) {
            uint16_t copy = (uint16_t)(first_copy + task->access[k].region);
            if (reads(task->access[k]))
                read[read[MAX_ACCESSES]++] = copy;
            if (writes(task->access[k]))
                written[written[MAX_ACCESSES]++] = copy;
        }
        return;
    }
    int sends = TASKITER_ITEM_KIND(code) == 1;
    uint16_t slot = (uint16_t)(FIRST_SLOT + a - !sends), copy = (uint16_t)(first_copy + number);
    read[0] = sends ? copy : slot;
    written[0] = slot;
    written[1] = sends ? 0 : copy;
    read[MAX_ACCESSES] = 1;
    written[MAX_ACCESSES] = sends ? 1 : 2;
}

/* The tables are those that the items and edges which the runtime lists give. */
static void try_listed(struct trial *trial) {
    static uint16_t tables[TABLES];
    static uint32_t edges[EDGE_ROOM];
    const uint64_t *plan = trial->lent.plan;
    memset(tables, 0, sizeof tables);
    int items = (int)taskiter_items(plan, PLAN_WORDS, tables + FIRST_CODE, ITEM_ROOM).number;
    int number = (int)taskiter_edges(plan, PLAN_WORDS, edges, EDGE_ROOM).number, targets = 0;
    tables[0] = (uint16_t)items;
    for (int e = 0; e < number; e++) {
        uint32_t from = edges[3 * e], to = edges[3 * e + 1];
        if (from == to)
            continue;
        tables[FIRST_SOURCE + to]++;
        tables[FIRST_START + from + 1]++;
        tables[FIRST_TARGET + targets++] = (uint16_t)to;
    }
    for (int a = 0; a < items; a++) {
        tables[FIRST_START + a + 1] += tables[FIRST_START + a];
        put_places(&trial->shape.plan, tables, a);
    }
    compare_bytes(trial, "the tables, by items and edges,", tables, lent.tables, sizeof tables);
}

/* The items that are ready now; gives how many they are. */
static uint64_t list_ready(const struct trial *trial, uint16_t *items) {
    const struct memory *m = &trial->lent;
    return taskiter_ready(m->plan, PLAN_WORDS, m->counts, COUNTS, m->values, VALUES, items,
                          ITEM_ROOM)
        .number;
}

/* The items ready after a finish are those ready before it and, each once, those that it lists. */
static void compare_ready(struct trial *trial, const uint16_t *before, uint64_t number) {
    uint16_t after[ITEM_ROOM];
    uint8_t times[MAX_ITEMS] = {0};
    uint64_t ready = list_ready(trial, after);
    for (uint64_t k = 0; k < number; k++)
        times[before[k]]++;
    for (int k = 1; k <= lent.freed[0]; k++)
        times[lent.freed[k]]++;
    for (uint64_t k = 0; k < ready; k++)
        if (times[after[k]] != 1)
            differ(trial, "item %d is ready after a finish: %d times listed", after[k],
                   times[after[k]]);
    if (ready != number + lent.freed[0])
        differ(trial, "%" PRIu64 " items are ready before a finish, %d freed, %" PRIu64 " after it",
               number, lent.freed[0], ready);
}

/* A finish that lists what it frees, from an opening on. */
static struct answer try_freeing(struct trial *trial, struct rng *rng, uint64_t item) {
    int n = trial->shape.graph.items;
    uint16_t before[ITEM_ROOM];
    bool compared = n <= FEW_ITEMS || draw_below(rng, n) < COMPARED_LISTS;
    uint64_t number = compared ? list_ready(trial, before) : 0;
    struct answer answer = try_prepared(trial, FINISH_FREEING, draw_all_enough(rng), item);
    if (compared && answer.refusal == 0)
        compare_ready(trial, before, number);
    return answer;
}

/* A start or finish, mostly by tables. */
static struct answer try_either(struct trial *trial, struct rng *rng, enum call call,
                                uint64_t item) {
    if (draw_below(rng, 8) == 0)
        return try_call(trial, call, draw_enough(rng), item);
    if (call == FINISH_CALL && draw_below(rng, 2) == 0)
        return try_freeing(trial, rng, item);
    return try_prepared(trial, call == START_CALL ? START_PREPARED : FINISH_PREPARED,
                        draw_all_enough(rng), item);
}

/* A step that is free, or now and then any. The same call, ordinary, on a copy answers and leaves
   the same. */
static void take_either(struct trial *trial, struct rng *rng, struct memory *copy) {
    struct slices slices = {copy->plan, copy->counts, copy->values};
    enum call call = draw_below(rng, 2) == 0 ? START_CALL : FINISH_CALL;
    int item = find_free(trial, rng, 2, call);
    if (item < 0) {
        call = call == START_CALL ? FINISH_CALL : START_CALL;
        item = find_free(trial, rng, 2, call);
    }
    uint64_t asked = item < 0 || draw_below(rng, 8) == 0
                         ? draw_asked(rng, trial->shape.graph.items)
                         : (uint64_t)item;
    struct answer got = try_either(trial, rng, call, asked);
    struct answer ordinary = runtime_call(call, slices, least, asked);
    if (got.refusal != ordinary.refusal || got.word != ordinary.word)
        differ(trial, "by tables refusal %" PRIu64 ", word %" PRIu64 " are answered, else %" PRIu64
                      " and %" PRIu64,
               got.refusal, got.word, ordinary.refusal, ordinary.word);
    compare_bytes(trial, "the memory by tables", copy, &trial->lent, sizeof *copy);
}

/* Plays from openings, each to the end or as far as so many calls go. After the last pass of an
   item its start gives 14 by tables too. */
static void play_mixed(struct trial *trial, struct rng *rng) {
    static struct memory copy;
    for (int calls = 0; calls < PLAYED_CALLS;) {
        try_call(trial, OPEN_CALL, draw_enough(rng), 0);
        copy = trial->lent;
        for (bool ended = false; !ended && calls < PLAYED_CALLS; calls++) {
            take_either(trial, rng, &copy);
            ended = complete(&trial->shape, &trial->expected);
        }
    }
    try_fresh(trial);
}

/* Whether the call is refused with this number. Leaves the memory as it was. */
static bool gives(struct trial *trial, enum call call, struct all_lengths lengths, uint64_t item,
                  uint64_t refusal) {
    static struct memory kept;
    kept = trial->lent;
    bool given = try_prepared(trial, call, lengths, item).refusal == refusal;
    trial->lent = trial->expected = kept;
    return given;
}

/* Each slice too short by one: 11, whatever the others hold. */
static void try_short_prepared(struct trial *trial) {
    bool given = try_prepare(trial, PLAN_WORDS - 1, TABLES).refusal == 11 &&
                 try_prepare(trial, PLAN_WORDS, TABLES - 1).refusal == 11 &&
                 try_prepare(trial, PLAN_WORDS, 0).refusal == 11;
    for (int k = 0; k < PREPARED_CALLS; k++) {
        enum call call = prepared_calls[k];
        struct all_lengths some[5] = {all_least, all_least, all_least, all_least, all_least};
        some[0].state.plan--;
        some[1].state.counts--;
        some[2].state.values--;
        some[3].tables--;
        some[4].freed--;
        for (int s = 0; s < (call == FINISH_FREEING ? 5 : 4); s++)
            given = given && gives(trial, call, some[s], 0, 11);
    }
    if (!given)
        differ(trial, "a slice too short is not refused with 11 by tables");
}

/* The refusals behind 12, of a state just opened: 13 where there is no such item; 17; 14 where an
   item has no pass; 16 of one that waits, 15 of one that was started. */
static void try_refusals(struct trial *trial, struct rng *rng) {
    int n = trial->shape.graph.items, item = draw_below(rng, n);
    uint64_t asked = (uint64_t)item;
    try_call(trial, OPEN_CALL, least, 0);
    bool waits = trial->lent.counts[FIRST_UNMET + item] > 0, none = own_of(trial, item) == 0;
    bool given = gives(trial, START_PREPARED, all_least, asked, none ? 14 : waits ? 16 : 0);
    for (int k = 0; k < PREPARED_CALLS; k++)
        given = given && gives(trial, prepared_calls[k], all_least, (uint64_t)n, 13) &&
                gives(trial, prepared_calls[k], all_least, UINT64_MAX - asked, 13) &&
                (prepared_calls[k] == START_PREPARED ||
                 gives(trial, prepared_calls[k], all_least, asked, 17));
    if (!none) {
        put_number(trial, item, 0);
        try_prepared(trial, START_PREPARED, all_least, asked);
        given = given && gives(trial, START_PREPARED, all_least, asked, 15) &&
                gives(trial, FINISH_PREPARED, all_least, asked, 0) &&
                gives(trial, FINISH_FREEING, all_least, asked, 0);
    }
    if (!given)
        differ(trial, "a step of item %d by tables is refused otherwise", item);
}

/* A start of the item gives 12, or does not; so does a finish of either kind. */
static void try_twelve(struct trial *trial, int item, bool starts, bool finishes,
                       const char *what) {
    for (int k = 0; k < PREPARED_CALLS; k++) {
        bool given = prepared_calls[k] == START_PREPARED ? starts : finishes;
        if (gives(trial, prepared_calls[k], all_least, (uint64_t)item, 12) != given)
            differ(trial, "%s, item %d: 12 is %s", what, item, given ? "not given" : "given");
    }
}

/* With a number of the tables out of its range a step that uses it gives 12, and no other does.
   Puts the number back. */
static void try_outside(struct trial *trial, int item, int at, int number, bool starts,
                        bool finishes) {
    uint16_t kept = lent.tables[at];
    put_in_tables(at, number);
    try_twelve(trial, item, starts, finishes, "a number of the tables out of its range");
    put_in_tables(at, kept);
}

/* Passes at their limit and one above it; no targets, where their part ends and one behind it. */
static void try_limits(struct trial *trial, int item) {
    uint64_t passes = trial->lent.plan[0];
    int start = FIRST_START + item, from = lent.tables[start], to = lent.tables[start + 1];
    for (int above = 0; above < 2; above++) {
        trial->lent.plan[0] = trial->expected.plan[0] = MAX_PASSES + (uint64_t)above;
        try_twelve(trial, item, above > 0, above > 0, "passes at their limit");
        trial->lent.plan[0] = trial->expected.plan[0] = passes;
        put_in_tables(start, MAX_EDGES + above);
        put_in_tables(start + 1, MAX_EDGES + above);
        try_twelve(trial, item, false, above > 0, "targets at the end of their part");
        put_in_tables(start, from);
        put_in_tables(start + 1, to);
    }
}

/* Each number that a step of an item uses, just out of its range. The state is in form. */
static void try_ranges(struct trial *trial, struct rng *rng) {
    int n = trial->shape.graph.items, a = draw_below(rng, n);
    int read = FIRST_READ + ROW * a, written = FIRST_WRITTEN + ROW * a;
    int start = lent.tables[FIRST_START + a], end = lent.tables[FIRST_START + a + 1];
    try_limits(trial, a);
    try_outside(trial, a, 0, MAX_ITEMS + 1, true, true);
    try_outside(trial, a, 0, 1 << draw_below(rng, 6) << 10, true, true);
    try_outside(trial, a, read + MAX_ACCESSES, MAX_ACCESSES + 1, true, false);
    try_outside(trial, a, written + MAX_ACCESSES, MAX_ACCESSES + 1, false, true);
    try_outside(trial, a, FIRST_SOURCE + a, n, false, true);
    try_outside(trial, a, FIRST_START + a + 1, MAX_EDGES + 1, false, true);
    try_outside(trial, a, FIRST_START + a + 1, start + n, false, true);
    if (lent.tables[read + MAX_ACCESSES] > 0)
        try_outside(trial, a, read, PLACES, true, false);
    if (lent.tables[written + MAX_ACCESSES] > 0)
        try_outside(trial, a, written, PLACES, false, true);
    if (end > start)
        try_outside(trial, a, FIRST_TARGET + draw_below(rng, end - start) + start, n, false, true);
}

/* Every call by tables with the memory as it is, of an item or of any number. Leaves the memory as
   it was. */
static void try_all_prepared(struct trial *trial, struct rng *rng, struct all_lengths lengths,
                             int item) {
    static struct memory kept;
    kept = trial->lent;
    for (int k = 0; k < PREPARED_CALLS; k++) {
        uint64_t asked = draw_below(rng, 4) > 0 ? (uint64_t)item : draw_asked(rng, MAX_ITEMS);
        try_prepared(trial, prepared_calls[k], lengths, asked);
        trial->lent = trial->expected = kept;
    }
}

/* A number of the tables that a step of the item uses, or now and then any. */
static int draw_used(struct rng *rng, int item) {
    int start = lent.tables[FIRST_START + item];
    int count = lent.tables[FIRST_START + item + 1] - start;
    const int used[] = {0,
                        FIRST_CODE + item,
                        FIRST_SOURCE + item,
                        FIRST_START + item,
                        FIRST_START + item + 1,
                        FIRST_TARGET + start + (count > 0 ? draw_below(rng, count) : 0),
                        FIRST_READ + ROW * item + draw_below(rng, ROW),
                        FIRST_WRITTEN + ROW * item + draw_below(rng, ROW),
                        draw_below(rng, TABLES)};
    return used[draw_below(rng, (int)(sizeof used / sizeof *used))];
}

/* One number of the tables changed. */
static void try_damaged_table(struct trial *trial, struct rng *rng) {
    int item = draw_below(rng, trial->shape.graph.items), at = draw_used(rng, item);
    uint16_t kept = lent.tables[at];
    put_in_tables(at, (int)(uint16_t)draw_instead(rng, kept));
    try_all_prepared(trial, rng, draw_all_enough(rng), item);
    put_in_tables(at, kept);
}

/* A word of the memory, by its place there: the plan's passes or any word of it, a count or number
   of the item, or a value. */
static size_t draw_in_memory(const struct trial *trial, struct rng *rng, int item) {
    size_t plan = offsetof(struct memory, plan), counts = offsetof(struct memory, counts);
    switch (draw_below(rng, 4)) {
    case 0:
        return plan / sizeof(uint64_t);
    case 1:
        return plan / sizeof(uint64_t) + (size_t)draw_place(rng, trial->shape.plan.tasks);
    case 2:
        return counts / sizeof(uint64_t) + (size_t)(item + MAX_ITEMS * draw_below(rng, 3));
    default:
        return offsetof(struct memory, values) / sizeof(uint64_t) + (size_t)draw_below(rng, VALUES);
    }
}

/* One word of plan or state changed. The tables stay those of the plan before. */
static void try_damaged_word(struct trial *trial, struct rng *rng) {
    int item = draw_below(rng, trial->shape.graph.items);
    size_t at = draw_in_memory(trial, rng, item);
    uint64_t *word = (uint64_t *)&trial->lent + at, *other = (uint64_t *)&trial->expected + at;
    uint64_t kept = *word;
    *word = *other = draw_instead(rng, kept);
    try_all_prepared(trial, rng, draw_all_enough(rng), item);
    *word = *other = kept;
}

/* Tables that are no plan's, each number in its range or almost: an item may be its own target, or
   a target twice; the rows name any places. */
static void draw_tables(struct rng *rng, int n) {
    int from = draw_below(rng, ROW);
    put_in_tables(0, n);
    for (int a = 0; a < n; a++) {
        put_in_tables(FIRST_CODE + a, draw_below(rng, 1 << (10 + draw_below(rng, 7))));
        put_in_tables(FIRST_SOURCE + a, draw_below(rng, 4) == 0 ? 0 : draw_below(rng, n));
        put_in_tables(FIRST_START + a, from);
        from = draw_below(rng, 64) == 0 ? draw_below(rng, MAX_EDGES + ROW)
                                        : from + draw_below(rng, n < ROW ? n + 1 : ROW);
    }
    put_in_tables(FIRST_START + n, from);
    for (int k = 0; k < MAX_EDGES; k++)
        put_in_tables(FIRST_TARGET + k, draw_below(rng, n + (draw_below(rng, 64) == 0)));
    for (int k = FIRST_READ; k < TABLES; k++) {
        bool last = (k - FIRST_READ) % ROW == MAX_ACCESSES;
        put_in_tables(k, draw_below(rng, last ? MAX_ACCESSES + 1 : PLACES) +
                             (draw_below(rng, 512) == 0));
    }
}

/* Puts counts of the first n items that suit any number of passes from 8 on, and numbers of unmet
   waits in form, mostly small. */
static void draw_counts(struct trial *trial, struct rng *rng, int n) {
    for (int a = 0; a < n; a++) {
        uint64_t f = (uint64_t)draw_below(rng, 3);
        put_item_counts(trial, a, f + (uint64_t)draw_below(rng, 2), f);
        put_number(trial, a, (uint64_t)draw_below(rng, draw_below(rng, 2) == 0 ? n + 1 : 3));
    }
}

/* Puts a plan of any words but for its passes and for its kernels, which may be none. */
static void draw_words(struct trial *trial, struct rng *rng) {
    fill_memory(trial, rng);
    for (int i = 0; i < MAX_TASKS; i++)
        put_word(trial, TASK_WORDS + WORDS_A_TASK * i + 1, (uint64_t)draw_below(rng, 7));
    put_word(trial, 0, 1 + (uint64_t)draw_below(rng, 12));
}

/* Steps with tables, plan and state that are put by hand: they go by what stands there. */
static void play_drawn(struct trial *trial, struct rng *rng) {
    int n = 1 + draw_below(rng, draw_below(rng, 2) == 0 ? 8 : MAX_ITEMS);
    draw_words(trial, rng);
    fill_prepared(rng);
    if (try_prepare(trial, PLAN_WORDS, TABLES).refusal != 12 ||
        try_prepare(trial, PLAN_WORDS, TABLES - 1).refusal != 11)
        differ(trial, "words of no plan are prepared, or refused otherwise");
    draw_tables(rng, n);
    draw_counts(trial, rng, n);
    for (int k = 0; k < DRAWN_CALLS; k++)
        try_prepared(trial, prepared_calls[draw_below(rng, PREPARED_CALLS)], draw_all_enough(rng),
                     draw_asked(rng, n));
    fill_prepared(rng);
    put_in_tables(0, draw_below(rng, MAX_ITEMS + 2));
    try_all_prepared(trial, rng, all_least, draw_below(rng, MAX_ITEMS));
}

/* A call in blocks that end where the slices end: the answers, and what it lists, are the same. */
static void call_bare(struct trial *trial, struct slices slices, const uint16_t *tables,
                      enum call call, uint64_t item) {
    uint16_t *freed = room(FREED * sizeof *freed);
    struct answer answer = model_prepared(call, &trial->expected, &expected, all_least, item);
    compare_answer(trial, call, item, answer,
                   prepared_call(call, slices, tables, freed, all_least, item));
    if (call == FINISH_FREEING && answer.refusal == 0)
        compare_bytes(trial, "the freed items of a block", expected.freed, freed,
                      (1 + (size_t)expected.freed[0]) * sizeof *freed);
    free(freed);
}

/* Preparing and steps in blocks that end where the slices end and were never set. */
static void play_bare(struct trial *trial, struct rng *rng) {
    struct slices slices = bare_slices(least);
    uint16_t *tables = room(TABLES * sizeof *tables);
    int n = trial->shape.graph.items;
    memcpy(slices.plan, trial->lent.plan, sizeof trial->lent.plan);
    taskiter_number got = taskiter_prepare(slices.plan, PLAN_WORDS, tables, TABLES);
    count_answer(trial, got.refusal);
    compare_bytes(trial, "the tables of a block", expected.tables, tables, sizeof expected.tables);
    model_call(OPEN_CALL, &trial->shape, &trial->expected, least, 0);
    runtime_call(OPEN_CALL, slices, least, 0);
    for (int k = 0; k < BARE_CALLS; k++) {
        enum call call = prepared_calls[draw_below(rng, PREPARED_CALLS)];
        int item = find_free(trial, rng, 2, call == START_PREPARED ? START_CALL : FINISH_CALL);
        call_bare(trial, slices, tables, call, (uint64_t)(item < 0 ? draw_below(rng, n) : item));
    }
    free(tables);
    free_slices(slices);
}

/* Slices that are NULL, each alone, of no elements or of those that it is said to have: 11. */
static void try_null_prepared(struct trial *trial) {
    struct slices all = {trial->lent.plan, trial->lent.counts, trial->lent.values};
    for (int k = 0; k < 5 * PREPARED_CALLS * 2; k++) {
        enum call call = prepared_calls[k % PREPARED_CALLS];
        int slice = k / PREPARED_CALLS % 5;
        size_t length = k < 5 * PREPARED_CALLS ? 0 : TABLES;
        struct slices s = {slice == 0 ? NULL : all.plan, slice == 1 ? NULL : all.counts,
                           slice == 2 ? NULL : all.values};
        struct all_lengths l = {{slice == 0 ? length : PLAN_WORDS, slice == 1 ? length : COUNTS,
                                 slice == 2 ? length : VALUES},
                                slice == 3 ? length : TABLES,
                                slice == 4 ? length : FREED};
        if (slice < 4 || call == FINISH_FREEING)
            compare_answer(trial, call, 0, (struct answer){11, 0},
                           prepared_call(call, s, slice == 3 ? NULL : lent.tables,
                                         slice == 4 ? NULL : lent.freed, l, 0));
    }
    if (taskiter_prepare(NULL, PLAN_WORDS, lent.tables, TABLES).refusal != 11 ||
        taskiter_prepare(all.plan, PLAN_WORDS, NULL, TABLES).refusal != 11 ||
        taskiter_prepare(NULL, 0, NULL, 0).refusal != 11)
        differ(trial, "a plan is prepared with a slice that is NULL");
}

/* Damaged tables, plans and states, and random lengths, in the state that stands there. */
static void try_damaged(struct trial *trial, struct rng *rng) {
    int n = trial->shape.graph.items;
    for (int k = 0; k < 12; k++) {
        try_damaged_table(trial, rng);
        try_damaged_word(trial, rng);
    }
    for (int k = 0; k < 4; k++) {
        struct all_lengths lengths = {draw_lengths(rng), draw_length(rng, TABLES),
                                      draw_length(rng, FREED)};
        try_all_prepared(trial, rng, lengths, draw_below(rng, n));
        try_prepare(trial, lengths.state.plan, draw_length(rng, TABLES));
    }
}

void prepared_group(struct trial *trial, struct rng *rng) {
    put_drawn_plan(trial, rng);
    fill_prepared(rng);
    try_short_prepared(trial);
    try_prepare(trial, PLAN_WORDS + (size_t)draw_below(rng, GUARD),
                TABLES + (size_t)draw_below(rng, GUARD));
    try_listed(trial);
    try_refusals(trial, rng);
    try_ranges(trial, rng);
    play_mixed(trial, rng);
    try_damaged(trial, rng);
    put_counts_near(trial, rng, trial->shape.plan.passes, 2);
    try_damaged(trial, rng);
    try_short_prepared(trial);
    try_prepare(trial, PLAN_WORDS, TABLES);
    try_null_prepared(trial);
    play_bare(trial, rng);
    play_drawn(trial, rng);
}
