/* Calls of the runtime on lent slices, each compared with what the model expects: the answer, and
   every byte of the slices and their guards. The first difference is printed, with the seed and the
   plan that it was found with, and ends the program with status 1. */
#ifndef HOST_TRIAL_H
#define HOST_TRIAL_H

#include "../include/taskiter.h"
#include "draw.h"
#include "model.h"
#include "reading.h"
#include "writing.h"

enum { LAST_REFUSAL = 21, ITEM_ROOM = MAX_ITEMS, EDGE_ROOM = 3 * MAX_EDGES, LIST_ROOM = 64 };

/* What a control run changes once, between the runtime and the comparison: an answer, a word of the
   lent state after a call, an edge, the line that reading answers, a word of a list's answers, a
   byte of a written text, a total of steps, an item's number, a mean that is known, a count above
   2^32, one of the items that are ready, a number of unmet waits, a number of prepared tables, one
   of a list of the items that a finish made ready, or the number that a check of a journal
   answers. */
enum change {
    NO_CHANGE,
    CHANGED_ANSWER,
    CHANGED_WORD,
    CHANGED_EDGE,
    CHANGED_LINE,
    CHANGED_REPLY,
    CHANGED_BYTE,
    CHANGED_TOTAL,
    CHANGED_ITEM,
    CHANGED_MEAN,
    CHANGED_COUNT,
    CHANGED_READY,
    CHANGED_WAITS,
    CHANGED_PREPARED,
    CHANGED_FREED,
    CHANGED_JOURNAL,
    CHANGES
};

/* What random plans must have often: a wrapped transfer; one of a task that reads the region that
   it writes; a forward transfer of such a task; a transfer that serves a read before its writer and
   one behind it; a wrapped transfer in a plan of one pass, and of none. */
enum trait {
    WRAPPED,
    WRAPPED_INOUT,
    FORWARD_INOUT,
    BOTH_SIDES,
    WRAPPED_ONE_PASS,
    WRAPPED_NO_PASS,
    TRAITS
};

/* The change is made when so many chances for it have passed. */
struct control {
    enum change change;
    long chances;
    struct rng rng;
    bool made;
};

/* One group of calls: where it stands, how its calls were answered, how many plans were drawn and
   how many have which trait, and the memory lent beside the memory expected. The shape is that of
   the plan's words, which are the same in both. */
struct trial {
    const char *group;
    struct control *control;
    uint64_t seed;
    long number, calls, texts, answered[LAST_REFUSAL + 1];
    long drawn, with[TRAITS];
    struct memory lent, expected;
    struct shape shape;
};

/* A block of this size, or of one byte where it is 0, which is not set. */
void *room(size_t size);

/* Slices to be lent. */
struct slices {
    uint64_t *plan;
    uint64_t *counts;
    uint64_t *values;
};

/* What writing answers, and the text where it is accepted: it stands until the next is written. */
struct written {
    uint64_t refusal;
    size_t length;
    const uint8_t *text;
};

extern const struct lengths least;

/* Prints a difference, in the form of printf, and ends the program. */
void differ(const struct trial *trial, const char *form, ...)
    __attribute__((noreturn, format(printf, 2, 3)));

/* Compares two stretches of memory. */
void compare_bytes(const struct trial *trial, const char *what, const void *expected,
                   const void *got, size_t length);

/* Compares the memories after a call; in a control run a word may be changed first. */
void compare_memory(struct trial *trial, const char *call);

/* Compares the answer of a call that gives a number, and the memories after it. */
void compare_number(struct trial *trial, const char *call, struct answer expected,
                    taskiter_number got);

/* In a control run that makes this change, changes a bit of one of so many numbers. */
void change_listed(struct trial *trial, enum change change, uint16_t *numbers, uint64_t count);

/* Fills all of the memory at random. */
void fill_memory(struct trial *trial, struct rng *rng);

/* Puts the plan's words into both memories, and finds their shape. */
void put_plan(struct trial *trial, const struct plan *plan);

/* Puts one word of the plan into both memories, and finds the shape. */
void put_word(struct trial *trial, int word, uint64_t value);

/* A mean that is known, as it is or, in a control run, with a bit changed. */
uint64_t with_changed_mean(struct trial *trial, uint64_t mean);

/* A count, as it is or, in a control run, without its upper half, which is not 0. */
uint64_t with_cut_count(struct trial *trial, uint64_t count);

/* The passes that an item has. */
uint64_t own_of(const struct trial *trial, int item);

/* Puts the number of unmet waits of one item into both memories, or those of all items, counted
   over the edges by the finished passes that stand there. */
void put_number(struct trial *trial, int item, uint64_t number);
void put_fresh_numbers(struct trial *trial);

/* Compares the lent numbers of unmet waits with a count over the edges, which does not go by the
   model. They are the same after every call from an opening on. */
void try_fresh(struct trial *trial);

/* Counts the answer of a call. */
void count_answer(struct trial *trial, uint64_t refusal);

/* Makes a call of the runtime and answers what it answers. */
struct answer runtime_call(enum call call, struct slices slices, struct lengths lengths,
                           uint64_t number);

/* Compares a runtime's answer with the model's. */
void compare_answer(struct trial *trial, enum call call, uint64_t number, struct answer expected,
                    struct answer got);

/* Makes a call on the memories and compares them; gives the answer of both. After an accepted
   opening the numbers of unmet waits are tried too. */
struct answer try_call(struct trial *trial, enum call call, struct lengths lengths,
                       uint64_t number);

/* Makes a list of at most LIST_ROOM calls on the memories by one call of the runtime, and compares
   them, with the answers in a slice of their own. Gives the refusal of the whole. */
uint64_t try_play(struct trial *trial, struct lengths lengths, const uint64_t *calls, size_t number,
                  size_t answers_length);

/* Asks which items are ready, into a slice of its own that is compared whole; gives the answer of
   both. `listed` gets the items where it is accepted, and may be NULL. */
struct answer try_ready(struct trial *trial, struct lengths lengths, size_t items_length,
                        uint16_t *listed);

/* Checks a journal on the memories, opening them first or going on from them as they are, and
   compares them. The journal is lent in a block that ends where it ends. */
struct answer try_check(struct trial *trial, struct lengths lengths, const uint8_t *journal,
                        size_t length, bool more);

/* Reads a text into the memories' plans and compares; the shape is that of the new words where the
   text is accepted. */
struct reading try_read(struct trial *trial, const uint8_t *text, size_t length,
                        size_t plan_length);

/* Writes the memories' plan into a slice of its own, of at most TEXT_BYTES + GUARD bytes, which is
   compared whole. */
struct written try_write(struct trial *trial, size_t plan_length, size_t text_length);

/* Asks for the items and for the edges, into slices of their own that are compared whole. */
void try_items(struct trial *trial, size_t plan_length, size_t items_length);
void try_edges(struct trial *trial, size_t plan_length, size_t edges_length);

/* Asks for the total of steps. */
void try_total(struct trial *trial, size_t plan_length);

#endif
