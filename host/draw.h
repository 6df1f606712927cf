/* Random numbers and plans. A seed gives the same ones in every run of one build. */
#ifndef HOST_DRAW_H
#define HOST_DRAW_H

#include <stdint.h>

#include "plan.h"

enum { TEXT_ROOM = 40000 };

/* A plan of at most so many passes is played to its end in a moment. */
enum { FEW_PASSES = 100 };

struct rng {
    uint64_t state;
};

/* SMALL plans are played to their end many times over. LARGEST and RING have as many items as a
   plan can have: 128 tasks and 256 transfers, 640 items. In a RING each transfer serves one read,
   more often before its writer than behind it. */
enum size { SMALL, MIDDLE, LARGE, LARGEST, RING, SIZES };

/* The random numbers that belong to a number under a seed. */
struct rng rng_of(uint64_t seed, uint64_t number);

/* Any word, all alike. */
uint64_t draw(struct rng *rng);

/* A number below n, which is not 0. */
int draw_below(struct rng *rng, int n);
uint64_t draw_word_below(struct rng *rng, uint64_t n);

/* Any word, the least and the greatest more often than others. */
uint64_t draw_word(struct rng *rng);

/* Passes that are not played to their end: at the limit and about it, about 2^32 and a million, or
   any. */
uint64_t draw_many_passes(struct rng *rng);

/* A plan of some size within every limit but that of transfers. */
void draw_body(struct rng *rng, enum size size, struct plan *plan);

/* Drops reads until there are at most 256 transfers: exactly 256 where there were more. */
void drop_reads(struct rng *rng, struct plan *plan);

/* A plan within every limit. */
void draw_plan(struct rng *rng, enum size size, struct plan *plan);

/* A plan whose text is as long as a written one can be. */
void draw_longest(struct rng *rng, struct plan *plan);

/* A text of the plan, with its `start` lines in any order and some of value 0 among them, and
   answers its length. */
int draw_text(struct rng *rng, const struct plan *plan, char *text);

#endif
