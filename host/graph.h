/* The items and edges of a plan by the paper's rule, tried on places over the unrolled item list.
   It uses nothing of the runtime. */
#ifndef HOST_GRAPH_H
#define HOST_GRAPH_H

#include <stdint.h>

#include "plan.h"

enum {
    MAX_ITEMS = 640,
    MAX_EDGES = 4224,
    MAX_PLACES = MAX_ACCESSES + 2,
    FIRST_SLOT = 2048,
    PLACES = FIRST_SLOT + MAX_ITEMS
};

enum kind { TASK, SEND, RECEIVE };

/* A place that an item accesses: rank × regions + region for a copy, FIRST_SLOT + the number of the
   send for a slot. */
struct touch {
    int place;
    bool read, written;
};

/* `task` is the item's task, or the writer of its transfer. `fewer` is how many passes fewer than
   the plan the item has: 1 where its transfer is wrapped, else 0. */
struct item {
    enum kind kind;
    int rank, task, region, fewer, touches;
    struct touch touch[MAX_PLACES];
};

struct edge {
    int from, to, distance;
};

/* Edges stand in the order from, to, distance: those from item b at first_from[b] and on, as far as
   first_from[b + 1]. Those into item b are `into` from first_into[b] on, as far as
   first_into[b + 1]. `wrapped` is the number of wrapped transfers: those of which every read that
   they serve stands at or before their writer in the body. */
struct graph {
    int items, edges, wrapped;
    struct item item[MAX_ITEMS];
    struct edge edge[MAX_EDGES], into[MAX_EDGES];
    int first_from[MAX_ITEMS + 1], first_into[MAX_ITEMS + 1];
};

/* Makes the graph of a plan within its limits. The edges of each place are found by walking from
   every access to the next writer. */
void make_graph(const struct plan *plan, struct graph *graph);

/* Whether the rule puts an edge from a to b at the distance, tried as it is written: some place
   that both access and one writes, b after a, and no item between that writes it; or an item and
   itself in the next pass. */
bool rule_holds(const struct graph *graph, int a, int b, int distance);

/* An item's number as the runtime lists it (docs/LAYOUT.md). */
uint16_t item_number(const struct item *item);

/* The passes that an item of the plan has: the plan's, less those that it has fewer, or 0. */
uint64_t own_passes(const struct plan *plan, const struct item *item);

/* Whether a task reads the copy that a receive writes in the same pass, behind the receive and
   before another item writes it: found by the places alone. */
bool read_in_pass(const struct graph *graph, int receive);

#endif
