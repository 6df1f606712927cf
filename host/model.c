#include "model.h"

#include <string.h>

#include "loop.h"
#include "writing.h"

void make_shape(const uint64_t *words, struct shape *shape) {
    shape->formed = plan_of_words(words, &shape->plan);
    if (shape->formed)
        make_graph(&shape->plan, &shape->graph);
}

/* The passes that an item has. */
static uint64_t passes_of(const struct shape *shape, int item) {
    return own_passes(&shape->plan, &shape->graph.item[item]);
}

static uint64_t started(const struct memory *memory, int item) {
    return memory->counts[item];
}

static uint64_t finished(const struct memory *memory, int item) {
    return memory->counts[MAX_ITEMS + item];
}

/* The number of unmet waits that is stored for an item. */
static uint64_t unmet(const struct memory *memory, int item) {
    return memory->counts[FIRST_UNMET + item];
}

/* Whether the counts of an item that has so many passes can stand: as many passes started as
   finished, or one more with a pass left; and no more unmet waits than there are items. */
static bool item_formed(const struct memory *memory, int item, uint64_t passes, int items) {
    uint64_t s = started(memory, item), f = finished(memory, item);
    return f <= passes && (s == f || (s == f + 1 && f < passes)) &&
           unmet(memory, item) <= (uint64_t)items;
}

static bool counts_formed(const struct shape *shape, const struct memory *memory) {
    for (int a = 0; a < shape->graph.items; a++)
        if (!item_formed(memory, a, passes_of(shape, a), shape->graph.items))
            return false;
    return true;
}

bool complete(const struct shape *shape, const struct memory *memory) {
    for (int a = 0; a < shape->graph.items; a++)
        if (finished(memory, a) != passes_of(shape, a))
            return false;
    return true;
}

/* Whether the source of an edge has finished for this pass of the item that the edge leads into. An
   instance that is not made counts as met. */
static bool wait_met(const struct shape *shape, const struct memory *memory,
                     const struct edge *edge, uint64_t pass) {
    uint64_t distance = (uint64_t)edge->distance;
    if (pass < distance)
        return true;
    uint64_t instance = pass - distance;
    return instance >= passes_of(shape, edge->from) || finished(memory, edge->from) > instance;
}

/* How many waits of the item for the first pass that it has not finished are unmet; 0 where it has
   no such pass. */
static uint64_t unmet_waits(const struct shape *shape, const struct memory *memory, int item) {
    const struct graph *graph = &shape->graph;
    uint64_t pass = finished(memory, item), count = 0;
    if (pass >= passes_of(shape, item))
        return 0;
    for (int e = graph->first_into[item]; e < graph->first_into[item + 1]; e++)
        count += !wait_met(shape, memory, &graph->into[e], pass);
    return count;
}

/* The item has so many passes. */
static uint64_t start_refusal(const struct memory *memory, int item, uint64_t passes) {
    if (finished(memory, item) == passes)
        return 14;
    if (started(memory, item) != finished(memory, item))
        return 15;
    return unmet(memory, item) == 0 ? 0 : 16;
}

static uint64_t finish_refusal(const struct memory *memory, int item) {
    return started(memory, item) == finished(memory, item) ? 17 : 0;
}

bool is_free(enum call call, const struct shape *shape, const struct memory *memory, int item) {
    return (call == START_CALL ? start_refusal(memory, item, passes_of(shape, item))
                               : finish_refusal(memory, item)) == 0;
}

static void open_state(const struct shape *shape, struct memory *memory) {
    const struct plan *plan = &shape->plan;
    for (int q = 0; q < plan->ranks; q++)
        for (int g = 0; g < plan->regions; g++)
            memory->values[q * plan->regions + g] = plan->start[g];
    for (int a = 0; a < shape->graph.items; a++) {
        memory->counts[a] = memory->counts[MAX_ITEMS + a] = 0;
        memory->values[FIRST_HELD + a] = 0;
        if (shape->graph.item[a].kind == SEND)
            memory->values[FIRST_SLOT + a] = 0;
    }
    for (int a = 0; a < shape->graph.items; a++)
        memory->counts[FIRST_UNMET + a] = unmet_waits(shape, memory, a);
}

/* The word of an item: what a task computes from its reads, or the one that a send or receive
   reads. */
static uint64_t item_word(const struct shape *shape, const struct memory *memory,
                          const struct item *item) {
    uint64_t read[MAX_PLACES];
    int count = 0;
    for (int t = 0; t < item->touches; t++)
        if (item->touch[t].read)
            read[count++] = memory->values[item->touch[t].place];
    return item->kind == TASK ? kernel_word(&shape->plan.task[item->task], read) : read[0];
}

static uint64_t start_item(const struct shape *shape, struct memory *memory, int item) {
    memory->counts[item]++;
    return memory->values[FIRST_HELD + item] = item_word(shape, memory, &shape->graph.item[item]);
}

/* Takes one off the number of each other item whose wait the finish of item b in its pass meets; a
   0 stays 0. */
static void lower_numbers(const struct shape *shape, struct memory *memory, int b, uint64_t pass) {
    const struct graph *graph = &shape->graph;
    for (int e = graph->first_from[b]; e < graph->first_from[b + 1]; e++) {
        int a = graph->edge[e].to;
        uint64_t waiting = pass + (uint64_t)graph->edge[e].distance;
        if (a != b && finished(memory, a) == waiting && waiting < passes_of(shape, a) &&
            unmet(memory, a) > 0)
            memory->counts[FIRST_UNMET + a]--;
    }
}

static uint64_t finish_item(const struct shape *shape, struct memory *memory, int a) {
    const struct item *item = &shape->graph.item[a];
    uint64_t word = memory->values[FIRST_HELD + a];
    lower_numbers(shape, memory, a, finished(memory, a));
    memory->counts[MAX_ITEMS + a]++;
    memory->counts[FIRST_UNMET + a] = unmet_waits(shape, memory, a);
    for (int t = 0; t < item->touches; t++)
        if (item->touch[t].written)
            memory->values[item->touch[t].place] = word;
    return word;
}

static uint64_t region_word(const struct plan *plan, const struct memory *memory, int region) {
    int writer = last_writer(plan, region);
    return writer < 0 || plan->passes == 0
               ? plan->start[region]
               : memory->values[plan->task[writer].rank * plan->regions + region];
}

static bool too_short(struct lengths lengths) {
    return lengths.plan < PLAN_WORDS || lengths.counts < COUNTS || lengths.values < VALUES;
}

static uint64_t refusal_of(enum call call, const struct shape *shape, const struct memory *memory,
                           struct lengths lengths, uint64_t number) {
    if (too_short(lengths))
        return 11;
    if (!shape->formed || (call != OPEN_CALL && !counts_formed(shape, memory)))
        return 12;
    if (call == OPEN_CALL)
        return 0;
    if (number >= (uint64_t)(call == RESULT_CALL ? shape->plan.regions : shape->graph.items))
        return 13;
    if (call == START_CALL)
        return start_refusal(memory, (int)number, passes_of(shape, (int)number));
    if (call == FINISH_CALL)
        return finish_refusal(memory, (int)number);
    return complete(shape, memory) ? 0 : 18;
}

struct answer model_call(enum call call, const struct shape *shape, struct memory *memory,
                         struct lengths lengths, uint64_t number) {
    uint64_t refusal = refusal_of(call, shape, memory, lengths, number);
    if (refusal != 0)
        return (struct answer){refusal, 0};
    switch (call) {
    case START_CALL:
        return (struct answer){0, start_item(shape, memory, (int)number)};
    case FINISH_CALL:
        return (struct answer){0, finish_item(shape, memory, (int)number)};
    case RESULT_CALL:
        return (struct answer){0, region_word(&shape->plan, memory, (int)number)};
    default:
        open_state(shape, memory);
        return (struct answer){0, 0};
    }
}

uint64_t model_play(const struct shape *shape, struct memory *memory, struct lengths lengths,
                    const uint64_t *calls, size_t number, uint64_t *answers,
                    size_t answers_length) {
    static const enum call kinds[] = {START_CALL, FINISH_CALL, RESULT_CALL};
    if (too_short(lengths) || answers_length < 2 * number)
        return 11;
    for (size_t k = 0; k < number; k++) {
        struct answer answer =
            model_call(kinds[calls[k] % 3], shape, memory, lengths, calls[k] / 3);
        answers[2 * k] = answer.refusal;
        answers[2 * k + 1] = answer.word;
    }
    return 0;
}

/* Adds a place to a row. */
static void add_place(uint16_t *row, int place) {
    row[row[MAX_ACCESSES]++] = (uint16_t)place;
}

/* Puts an item's number, its targets, which start where those of the item before end, and its
   places; counts it as a source of each target. */
static void put_tables(const struct graph *graph, uint16_t *tables, int a) {
    const struct item *item = &graph->item[a];
    int end = tables[FIRST_START + a];
    tables[FIRST_CODE + a] = item_number(item);
    for (int e = graph->first_from[a]; e < graph->first_from[a + 1]; e++) {
        int to = graph->edge[e].to;
        if (to != a) {
            tables[FIRST_SOURCE + to]++;
            tables[FIRST_TARGET + end++] = (uint16_t)to;
        }
    }
    tables[FIRST_START + a + 1] = (uint16_t)end;
    for (int t = 0; t < item->touches; t++) {
        if (item->touch[t].read)
            add_place(tables + FIRST_READ + ROW * a, item->touch[t].place);
        if (item->touch[t].written)
            add_place(tables + FIRST_WRITTEN + ROW * a, item->touch[t].place);
    }
}

struct answer model_prepare(const struct shape *shape, size_t plan_length, uint16_t *tables,
                            size_t tables_length) {
    if (plan_length < PLAN_WORDS || tables_length < TABLES)
        return (struct answer){11, 0};
    if (!shape->formed)
        return (struct answer){12, 0};
    memset(tables, 0, TABLES * sizeof *tables);
    tables[0] = (uint16_t)shape->graph.items;
    for (int a = 0; a < shape->graph.items; a++)
        put_tables(&shape->graph, tables, a);
    return (struct answer){0, (uint64_t)shape->graph.items};
}

/* The passes of an item by its number in the tables. */
static uint64_t passes_in(const struct memory *memory, const uint16_t *tables, int a) {
    uint64_t passes = memory->plan[0], fewer = tables[FIRST_CODE + a] / 8192;
    return passes > fewer ? passes - fewer : 0;
}

/* How many targets the tables say that an item has, none where they end before they start; and one
   of them. */
static int target_count(const uint16_t *tables, int a) {
    int from = tables[FIRST_START + a], to = tables[FIRST_START + a + 1];
    return to > from ? to - from : 0;
}

static int target_in(const uint16_t *tables, int a, int k) {
    return tables[FIRST_TARGET + tables[FIRST_START + a] + k];
}

static bool row_formed(const uint16_t *row) {
    if (row[MAX_ACCESSES] > MAX_ACCESSES)
        return false;
    for (int k = 0; k < row[MAX_ACCESSES]; k++)
        if (row[k] >= PLACES)
            return false;
    return true;
}

/* Whether an item's sources and targets are fewer than the items, and its targets lie in their part
   and are items. */
static bool targets_formed(const uint16_t *tables, int a) {
    int items = tables[0], count = target_count(tables, a);
    if (tables[FIRST_SOURCE + a] >= items || count >= items ||
        tables[FIRST_START + a + 1] > MAX_EDGES)
        return false;
    for (int k = 0; k < count; k++)
        if (target_in(tables, a, k) >= items)
            return false;
    return true;
}

/* 12 and the refusals behind it, of an item that the tables have. */
static uint64_t item_refusal(enum call call, const struct memory *memory, const uint16_t *tables,
                             int a) {
    uint64_t passes = passes_in(memory, tables, a);
    if (memory->plan[0] > MAX_PASSES || !item_formed(memory, a, passes, tables[0]))
        return 12;
    if (call == START_PREPARED)
        return row_formed(tables + FIRST_READ + ROW * a) ? start_refusal(memory, a, passes) : 12;
    if (!row_formed(tables + FIRST_WRITTEN + ROW * a) || !targets_formed(tables, a))
        return 12;
    return finish_refusal(memory, a);
}

static uint64_t prepared_refusal(enum call call, const struct memory *memory,
                                 const uint16_t *tables, struct all_lengths lengths,
                                 uint64_t number) {
    if (too_short(lengths.state) || lengths.tables < TABLES)
        return 11;
    if (call == FINISH_FREEING && lengths.freed < FREED)
        return 11;
    if (tables[0] > MAX_ITEMS)
        return 12;
    return number < tables[0] ? item_refusal(call, memory, tables, (int)number) : 13;
}

static uint64_t start_prepared(struct memory *memory, const uint16_t *tables, int a) {
    const uint16_t *row = tables + FIRST_READ + ROW * a;
    int code = tables[FIRST_CODE + a], count = row[MAX_ACCESSES];
    const uint64_t *task = memory->plan + TASK_WORDS + WORDS_A_TASK * (code % 128);
    uint64_t read[MAX_ACCESSES] = {0};
    for (int k = 0; k < count; k++)
        read[k] = memory->values[row[k]];
    memory->counts[a]++;
    return memory->values[FIRST_HELD + a] =
               code / 128 % 4 == TASK ? word_by(task[1], task[2], read, count) : read[0];
}

/* Takes one off the number of each target, a 0 staying 0, and lists those that become 0. */
static void lower_targets(struct memory *memory, const uint16_t *tables, int a, uint16_t *freed) {
    for (int k = 0; k < target_count(tables, a); k++) {
        int b = target_in(tables, a, k);
        if (unmet(memory, b) == 1)
            freed[++freed[0]] = (uint16_t)b;
        if (unmet(memory, b) > 0)
            memory->counts[FIRST_UNMET + b]--;
    }
}

static uint64_t finish_prepared(struct memory *memory, const uint16_t *tables, int a,
                                uint16_t *freed) {
    const uint16_t *row = tables + FIRST_WRITTEN + ROW * a;
    uint64_t word = memory->values[FIRST_HELD + a], sources = tables[FIRST_SOURCE + a];
    bool again = finished(memory, a) + 1 < passes_in(memory, tables, a);
    freed[0] = 0;
    lower_targets(memory, tables, a, freed);
    if (again && sources == 0)
        freed[++freed[0]] = (uint16_t)a;
    memory->counts[FIRST_UNMET + a] = again ? sources : 0;
    memory->counts[MAX_ITEMS + a]++;
    for (int k = 0; k < row[MAX_ACCESSES]; k++)
        memory->values[row[k]] = word;
    return word;
}

struct answer model_prepared(enum call call, struct memory *memory, struct prepared *prepared,
                             struct all_lengths lengths, uint64_t number) {
    uint16_t unlisted[FREED];
    const uint16_t *tables = prepared->tables;
    uint64_t refusal = prepared_refusal(call, memory, tables, lengths, number);
    if (refusal != 0)
        return (struct answer){refusal, 0};
    if (call == START_PREPARED)
        return (struct answer){0, start_prepared(memory, tables, (int)number)};
    uint16_t *freed = call == FINISH_FREEING ? prepared->freed : unlisted;
    return (struct answer){0, finish_prepared(memory, tables, (int)number, freed)};
}

struct answer model_ready(const struct shape *shape, const struct memory *memory,
                          struct lengths lengths, uint16_t *items, size_t items_length) {
    uint64_t number = 0;
    if (too_short(lengths) || items_length < MAX_ITEMS)
        return (struct answer){11, 0};
    if (!shape->formed || !counts_formed(shape, memory))
        return (struct answer){12, 0};
    for (int a = 0; a < shape->graph.items; a++)
        if (is_free(START_CALL, shape, memory, a))
            items[number++] = (uint16_t)a;
    return (struct answer){0, number};
}

struct answer model_total(const struct shape *shape, size_t plan_length) {
    if (plan_length < PLAN_WORDS)
        return (struct answer){11, 0};
    if (!shape->formed)
        return (struct answer){12, 0};
    uint64_t passes = shape->plan.passes, items = (uint64_t)shape->graph.items,
             wrapped = (uint64_t)shape->graph.wrapped;
    return (struct answer){0, passes == 0 ? 0 : 2 * (passes * items - 2 * wrapped)};
}

struct answer model_write(const struct shape *shape, size_t plan_length, uint8_t *text,
                          size_t text_length) {
    static char written[TEXT_BYTES + 1];
    if (plan_length < PLAN_WORDS)
        return (struct answer){11, 0};
    if (!shape->formed)
        return (struct answer){12, 0};
    size_t length = (size_t)write_text(&shape->plan, written);
    if (text_length < length)
        return (struct answer){19, 0};
    memcpy(text, written, length);
    return (struct answer){0, length};
}
