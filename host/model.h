/* What a call of the runtime has to answer, and what it has to leave in the slices lent to it,
   straight from the paper. It uses nothing of the runtime. */
#ifndef HOST_MODEL_H
#define HOST_MODEL_H

#include <stddef.h>
#include <stdint.h>

#include "graph.h"
#include "plan.h"

enum {
    FIRST_UNMET = 2 * MAX_ITEMS,
    COUNTS = FIRST_UNMET + MAX_ITEMS,
    FIRST_HELD = PLACES,
    VALUES = FIRST_HELD + MAX_ITEMS,
    GUARD = 32
};

/* Where the parts of prepared tables start, behind the number of items: the items' numbers; how
   many others have an edge to each; where the targets of each start; the targets; a row of places
   for each item, first those that it reads, then those that it writes. The last number of a row is
   how many they are. */
enum {
    FIRST_CODE = 1,
    FIRST_SOURCE = FIRST_CODE + MAX_ITEMS,
    FIRST_START = FIRST_SOURCE + MAX_ITEMS,
    FIRST_TARGET = FIRST_START + MAX_ITEMS + 1,
    FIRST_READ = FIRST_TARGET + MAX_EDGES,
    ROW = MAX_ACCESSES + 1,
    FIRST_WRITTEN = FIRST_READ + ROW * MAX_ITEMS,
    TABLES = FIRST_WRITTEN + ROW * MAX_ITEMS,
    FREED = 1 + MAX_ITEMS
};

/* The slices of a call, each between guards that nobody may change. */
struct memory {
    uint64_t plan_front[GUARD], plan[PLAN_WORDS], plan_behind[GUARD];
    uint64_t counts_front[GUARD], counts[COUNTS], counts_behind[GUARD];
    uint64_t values_front[GUARD], values[VALUES], values_behind[GUARD];
};

/* What a call by tables is lent besides, in the same way. */
struct prepared {
    uint16_t tables_front[GUARD], tables[TABLES], tables_behind[GUARD];
    uint16_t freed_front[GUARD], freed[FREED], freed_behind[GUARD];
};

/* The lengths that a call says. */
struct lengths {
    size_t plan, counts, values;
};

/* The same of a call by tables. */
struct all_lengths {
    struct lengths state;
    size_t tables, freed;
};

/* What the words of a plan are: not in form, or a plan with its graph. */
struct shape {
    bool formed;
    struct plan plan;
    struct graph graph;
};

/* A refusal and word 0, or refusal 0 and the word. */
struct answer {
    uint64_t refusal, word;
};

/* The ordinary calls, and behind them those by tables. */
enum call {
    OPEN_CALL,
    START_CALL,
    FINISH_CALL,
    RESULT_CALL,
    CALLS,
    START_PREPARED = CALLS,
    FINISH_PREPARED,
    FINISH_FREEING,
    ALL_CALLS
};

/* Finds what the plan's words are. */
void make_shape(const uint64_t *words, struct shape *shape);

/* Makes a call on the memory, whose plan has this shape. The number is the item's or region's. */
struct answer model_call(enum call call, const struct shape *shape, struct memory *memory,
                         struct lengths lengths, uint64_t number);

/* Makes a list of calls on the memory, and fills the answers, two words a call. Gives the refusal
   of the whole. */
uint64_t model_play(const struct shape *shape, struct memory *memory, struct lengths lengths,
                    const uint64_t *calls, size_t number, uint64_t *answers,
                    size_t answers_length);

/* Puts the tables of a plan of this shape into the slice. The word is the number of items. */
struct answer model_prepare(const struct shape *shape, size_t plan_length, uint16_t *tables,
                            size_t tables_length);

/* Makes a call by tables on the memory, whatever plan, tables and state hold. */
struct answer model_prepared(enum call call, struct memory *memory, struct prepared *prepared,
                             struct all_lengths lengths, uint64_t number);

/* Puts the numbers of the items whose start is accepted into `items`, rising. The word is how many
   they are. */
struct answer model_ready(const struct shape *shape, const struct memory *memory,
                          struct lengths lengths, uint16_t *items, size_t items_length);

/* The total of steps of a plan of this shape. The word is the number. */
struct answer model_total(const struct shape *shape, size_t plan_length);

/* Writes a plan of this shape into the text. The word is the length. */
struct answer model_write(const struct shape *shape, size_t plan_length, uint8_t *text,
                          size_t text_length);

/* Checks a journal from an opening of the memory, or goes on from the memory as it is, by the
   tables of the plan. The word is 1 where every item has then finished its passes, else 0; with 20
   and 21 the line. */
struct answer model_check(const struct shape *shape, struct memory *memory, struct lengths lengths,
                          const uint8_t *journal, size_t length, bool more);

/* Whether every item has finished its passes. */
bool complete(const struct shape *shape, const struct memory *memory);

/* Whether a start or finish of the item is accepted, in a state whose counts are in form. */
bool is_free(enum call call, const struct shape *shape, const struct memory *memory, int item);

#endif
