/* expected FILE: prints what the run program has to print for a plan text, by the second method
   alone: the reader of reading.c, the items of graph.c with their passes, the edge rule tried on
   every pair of instances, and the unrolled loop. It uses nothing of the runtime. Exit status 0, 1
   where the text is refused, 2 where it cannot be read. */
#include <inttypes.h>
#include <stdio.h>

#include "graph.h"
#include "loop.h"
#include "reading.h"

/* Distances tried. The paper says that none but 0 and 1 has an edge. */
enum { DISTANCES = 3 };

static void print_items(const struct graph *graph) {
    static const char *const kinds[] = {"task", "send", "receive"};
    for (int a = 0; a < graph->items; a++)
        printf("item %d %s %d\n", a, kinds[graph->item[a].kind], graph->item[a].rank);
}

static void print_edges(const struct graph *graph) {
    for (int a = 0; a < graph->items; a++)
        for (int b = 0; b < graph->items; b++)
            for (int distance = 0; distance < DISTANCES; distance++)
                if (rule_holds(graph, a, b, distance))
                    printf("edge %d %d %d\n", a, b, distance);
}

/* Two steps for each pass of each item. */
static void print_steps(const struct plan *plan, const struct graph *graph) {
    uint64_t steps = 0;
    for (int a = 0; a < graph->items; a++)
        steps += 2 * own_passes(plan, &graph->item[a]);
    printf("steps %" PRIu64 "\n", steps);
}

static void print_values(const struct plan *plan) {
    struct loop loop;
    loop_begin(&loop, plan);
    for (int g = 0; g < plan->regions; g++)
        printf("value %d %" PRIu64 "\n", g, loop_final(&loop, g));
    loop_end(&loop);
}

int main(int argc, char **argv) {
    static uint8_t text[TEXT_LIMIT + 1]; /* one more, so that a text too long is seen as such */
    static struct plan plan;
    static struct graph graph;
    FILE *file = argc == 2 ? fopen(argv[1], "rb") : NULL;
    if (file == NULL) {
        fprintf(stderr, "usage: expected FILE\n");
        return 2;
    }
    size_t length = fread(text, 1, sizeof text, file);
    fclose(file);
    struct reading reading = read_text(text, length, &plan);
    if (reading.refusal != 0) {
        printf("refused %d %d\n", reading.refusal, reading.line);
        return 1;
    }
    make_graph(&plan, &graph);
    print_items(&graph);
    print_edges(&graph);
    print_steps(&plan, &graph);
    print_values(&plan);
    return 0;
}
