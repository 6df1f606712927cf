/* The groups of calls that stress makes, each with one random plan. In most of them a trial's
   number decides the size of its plan. */
#ifndef HOST_GROUPS_H
#define HOST_GROUPS_H

#include "trial.h"

/* The cases that the paper lists without a star, which need no random plan. */
void paper_group(struct trial *trial, struct rng *rng);

/* Texts in order and damaged: refusal, line and plan are those of the paper's list. */
void reading_group(struct trial *trial, struct rng *rng);

/* Items and edges are those of the paper's rule, which is tried on every pair of instances. The
   total is two steps for each pass that an item has. */
void graph_group(struct trial *trial, struct rng *rng);

/* A whole play in a random order, with calls between that may be refused: each word is the unrolled
   loop's, and the numbers of unmet waits are fresh after each call. */
void steps_group(struct trial *trial, struct rng *rng);

/* A whole play by lists of calls, refused ones among them, each list made by one call: the answers
   are those of its calls, the results the unrolled loop's. */
void lists_group(struct trial *trial, struct rng *rng);

/* Plans written as texts: the text is the paper's, and is read to the same plan; slices of any
   length, and plans with one word changed. */
void writing_group(struct trial *trial, struct rng *rng);

/* Plans and counts, numbers of unmet waits among them, with one word changed, states that belong to
   no loop, and counts about the last pass of a wrapped transfer's items. */
void damage_group(struct trial *trial, struct rng *rng);

/* Slices too short. */
void short_group(struct trial *trial, struct rng *rng);

/* The same calls in blocks that end where the slices end and were never set, for a tool that
   watches what is read. Answers alone are compared. */
void bare_group(struct trial *trial, struct rng *rng);

/* Kernel 3 on four random reads whose mean is known beforehand. */
void means_group(struct trial *trial, struct rng *rng);

/* Plans of up to 10^12 passes with counts put by hand: the last passes, and those about 2^32, are
   played with the words of a loop that begins there; counts one off, and counts in form only modulo
   2^32, are refused. */
void passes_group(struct trial *trial, struct rng *rng);

/* Texts whose numbers have any number of digits, with bytes about a tab or a line feed that a
   search could take for it, in blocks that end where the text ends. The plans are small. */
void search_group(struct trial *trial, struct rng *rng);

/* Plays by the items that are ready, which are those whose start is accepted; numbers of unmet
   waits put by hand, in form or not: calls go by what is stored. */
void waits_group(struct trial *trial, struct rng *rng);

/* Prepared tables: steps by them and ordinary ones, mixed, leave what ordinary ones do on a copy;
   the items that a finish lists are those that it made ready; any content of tables, plan and
   state is taken as it stands, or refused. */
void prepared_group(struct trial *trial, struct rng *rng);

/* Journals of random orders, whole and in pieces, and damaged ones: a line with another word or
   item, two lines swapped, one doubled or dropped, lines and numbers out of form; states and plans
   that are damaged or belong to no loop. */
void journals_group(struct trial *trial, struct rng *rng);

/* The size of a group's plan: of 32, two have as many items as there can be, and two are large. */
enum size size_of(long number);

/* Slices of exactly these lengths, which hold nothing yet. */
struct slices bare_slices(struct lengths lengths);
void free_slices(struct slices slices);

/* A random plan in memory that is otherwise filled at random. */
void put_drawn_plan(struct trial *trial, struct rng *rng);

/* A number to ask for, where those below n are right: mostly one of them, else any. */
uint64_t draw_asked(struct rng *rng, int n);

/* Lengths that are long enough, now and then longer. */
struct lengths draw_enough(struct rng *rng);

/* A length around the least one; such lengths for all slices of a call. */
size_t draw_length(struct rng *rng, size_t enough);
struct lengths draw_lengths(struct rng *rng);

/* An item whose step is free: the lowest (pick 0), the highest (1) or a random one; -1 if there is
   none. */
int find_free(struct trial *trial, struct rng *rng, int pick, enum call call);

/* The word of a call that may well be refused. */
uint64_t draw_call(struct trial *trial, struct rng *rng);

/* Writes the plan, which is in form, and reads the text into memory that is filled anew: the plan
   is the same. */
void try_back(struct trial *trial, struct rng *rng);

/* A word of a plan of so many tasks, by its place; those that the plan uses more often than
   others. */
int draw_place(struct rng *rng, int tasks);

/* A word in place of another: one near it, one with a bit or a field changed, or any. */
uint64_t draw_instead(struct rng *rng, uint64_t word);

/* Makes each call once, and a list of three, with the memory as it is, and puts it back; asks which
   items are ready. */
void try_all(struct trial *trial, struct rng *rng, struct lengths lengths);

/* Puts the counts of one item into both memories. */
void put_item_counts(struct trial *trial, int item, uint64_t started, uint64_t finished);

/* Puts random counts in form: each item has finished so many passes or up to so many fewer, but not
   more than it has, and some are running. The numbers of unmet waits are counted. */
void put_counts_near(struct trial *trial, struct rng *rng, uint64_t passes, uint64_t fewer);

/* A start of an item with these counts; whether it is refused with this number. Leaves the memory
   as it was. */
bool refused_with(struct trial *trial, int item, uint64_t started, uint64_t finished,
                  uint64_t refusal);

/* An item of a wrapped transfer, or -1 where there is none. */
int draw_wrapped(struct trial *trial, struct rng *rng);

/* Every call once, and a list of calls, with a count, a number of unmet waits or a word of the plan
   changed, or with slices that may be too short. Leaves the memory as it was. */
void try_damage(struct trial *trial, struct rng *rng);

#endif
