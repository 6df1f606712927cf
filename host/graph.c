#include "graph.h"

#include <stdio.h>
#include <stdlib.h>
#include <string.h>

static struct item *add_item(struct graph *graph, enum kind kind, int rank, int task, int region) {
    struct item *item = &graph->item[graph->items++];
    *item = (struct item){.kind = kind, .rank = rank, .task = task, .region = region};
    return item;
}

static void add_touch(struct item *item, int place, bool read, bool written) {
    item->touch[item->touches++] = (struct touch){place, read, written};
}

static void add_task(const struct plan *plan, struct graph *graph, int i) {
    const struct task *task = &plan->task[i];
    struct item *item = add_item(graph, TASK, task->rank, i, -1);
    for (int a = 0; a < task->accesses; a++)
        add_touch(item, task->rank * plan->regions + task->access[a].region, reads(task->access[a]),
                  writes(task->access[a]));
}

static void add_transfer(const struct plan *plan, struct graph *graph, int i, int region, int rank,
                         bool wrapped) {
    int from = plan->task[i].rank, slot = FIRST_SLOT + graph->items;
    struct item *send = add_item(graph, SEND, from, i, region);
    add_touch(send, from * plan->regions + region, true, false);
    add_touch(send, slot, false, true);
    struct item *receive = add_item(graph, RECEIVE, rank, i, region);
    add_touch(receive, slot, true, true);
    add_touch(receive, rank * plan->regions + region, false, true);
    send->fewer = receive->fewer = wrapped;
    graph->wrapped += wrapped;
}

/* Adds the transfers of the word that task i writes to the region. */
static void add_transfers(const struct plan *plan, struct graph *graph, const struct wants *wants,
                          int i, int region) {
    int before = wants->before[i][region], behind = wants->behind[i][region];
    for (int q = 0; q < plan->ranks; q++)
        if (((before | behind) >> q & 1) != 0)
            add_transfer(plan, graph, i, region, q, (behind >> q & 1) == 0);
}

static void add_items(const struct plan *plan, struct graph *graph) {
    static struct wants wants;
    find_wants(plan, &wants);
    graph->items = graph->wrapped = 0;
    for (int i = 0; i < plan->tasks; i++) {
        const struct task *task = &plan->task[i];
        add_task(plan, graph, i);
        for (int a = 0; a < task->accesses; a++)
            if (writes(task->access[a]))
                add_transfers(plan, graph, &wants, i, task->access[a].region);
    }
}

/* The items that access one place, in their order. */
struct users {
    int count;
    struct {
        int item;
        bool written;
    } user[MAX_ITEMS];
};

static struct users *find_users(const struct graph *graph) {
    static struct users users[PLACES];
    for (int place = 0; place < PLACES; place++)
        users[place].count = 0;
    for (int a = 0; a < graph->items; a++)
        for (int t = 0; t < graph->item[a].touches; t++) {
            struct users *at = &users[graph->item[a].touch[t].place];
            at->user[at->count].item = a;
            at->user[at->count++].written = graph->item[a].touch[t].written;
        }
    return users;
}

/* Marks the edges that one place makes: from each user in pass 0 to those after it, as far as the
   first writer, where one of the two writes. */
static void mark_place(const struct users *users, uint8_t marks[MAX_ITEMS][MAX_ITEMS]) {
    for (int x = 0; x < users->count; x++)
        for (int y = x + 1; y < 3 * users->count; y++) {
            int to = y % users->count, distance = y / users->count;
            if (users->user[x].written || users->user[to].written)
                marks[users->user[x].item][users->user[to].item] |= (uint8_t)(1 << distance);
            if (users->user[to].written)
                break;
        }
}

static void add_edge(struct graph *graph, int from, int to, int distance) {
    if (distance > 1 || graph->edges == MAX_EDGES) {
        printf("the rule puts more edges than the paper and docs/LAYOUT.md say: item %d to %d, "
               "distance %d\n",
               from, to, distance);
        exit(1);
    }
    graph->edge[graph->edges++] = (struct edge){from, to, distance};
}

static void list_edges(struct graph *graph, uint8_t marks[MAX_ITEMS][MAX_ITEMS]) {
    graph->edges = 0;
    for (int a = 0; a < graph->items; a++) {
        graph->first_from[a] = graph->edges;
        for (int b = 0; b < graph->items; b++)
            for (int d = 0; marks[a][b] >> d != 0; d++)
                if ((marks[a][b] >> d & 1) != 0)
                    add_edge(graph, a, b, d);
    }
    graph->first_from[graph->items] = graph->edges;
}

/* Sorts the edges by the item that they lead into. */
static void sort_into(struct graph *graph) {
    int *first = graph->first_into, next[MAX_ITEMS + 1];
    memset(first, 0, sizeof graph->first_into);
    for (int e = 0; e < graph->edges; e++)
        first[graph->edge[e].to + 1]++;
    for (int b = 0; b < MAX_ITEMS; b++)
        first[b + 1] += first[b];
    memcpy(next, first, sizeof next);
    for (int e = 0; e < graph->edges; e++)
        graph->into[next[graph->edge[e].to]++] = graph->edge[e];
}

void make_graph(const struct plan *plan, struct graph *graph) {
    static uint8_t marks[MAX_ITEMS][MAX_ITEMS];
    add_items(plan, graph);
    for (int a = 0; a < graph->items; a++) {
        memset(marks[a], 0, (size_t)graph->items);
        marks[a][a] = 1 << 1;
    }
    const struct users *users = find_users(graph);
    for (int place = 0; place < PLACES; place++)
        mark_place(&users[place], marks);
    list_edges(graph, marks);
    sort_into(graph);
}

static const struct touch *touch_of(const struct item *item, int place) {
    for (int t = 0; t < item->touches; t++)
        if (item->touch[t].place == place)
            return &item->touch[t];
    return NULL;
}

/* Whether an instance strictly between two numbers of the unrolled list writes the place. */
static bool written_between(const struct graph *graph, int place, int after, int before) {
    for (int k = after + 1; k < before; k++) {
        const struct touch *touch = touch_of(&graph->item[k % graph->items], place);
        if (touch != NULL && touch->written)
            return true;
    }
    return false;
}

uint16_t item_number(const struct item *item) {
    return (uint16_t)(item->fewer * 8192 + item->rank * 512 + (int)item->kind * 128 +
                      (item->kind == TASK ? item->task : item->region));
}

uint64_t own_passes(const struct plan *plan, const struct item *item) {
    uint64_t fewer = (uint64_t)item->fewer;
    return plan->passes > fewer ? plan->passes - fewer : 0;
}

bool read_in_pass(const struct graph *graph, int receive) {
    int place = graph->item[receive].touch[1].place;
    for (int b = receive + 1; b < graph->items; b++) {
        const struct touch *touch = touch_of(&graph->item[b], place);
        if (touch != NULL && touch->read && graph->item[b].kind == TASK)
            return true;
        if (touch != NULL && touch->written)
            return false;
    }
    return false;
}

bool rule_holds(const struct graph *graph, int a, int b, int distance) {
    int later = distance * graph->items + b;
    if (a == b && distance == 1)
        return true;
    if (later <= a)
        return false;
    for (int t = 0; t < graph->item[a].touches; t++) {
        const struct touch *one = &graph->item[a].touch[t],
                           *other = touch_of(&graph->item[b], one->place);
        if (other != NULL && (one->written || other->written) &&
            !written_between(graph, one->place, a, later))
            return true;
    }
    return false;
}
