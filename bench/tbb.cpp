/* The 40 blocks of bench/plans.h by the flow graph of oneTBB: tbb [PASSES]. A node is a task of the
   body. An edge stands where one of two tasks writes a cell that the other names, and nobody writes
   it between. The graph has the tasks of one pass, or of ten, so that passes overlap; it is made
   once, and started and waited for as often as the loop has such passes. Prints its threads and the
   nanoseconds an instance, one task in one pass, the least of some runs. Exit status 0 where the
   final numbers are the plain loop's. */
#include <cinttypes>
#include <cstdint>
#include <cstdio>
#include <cstdlib>
#include <cstring>
#include <ctime>
#include <memory>
#include <set>
#include <vector>

#include <tbb/flow_graph.h>
#include <tbb/task_arena.h>

extern "C" {
#include "body.h"
}

using tbb::flow::continue_msg;
using node = tbb::flow::continue_node<continue_msg>;

/* The tasks before each task, over passes one after another, that it has to wait for: of each cell
   the last writer, and for a writer those that have read it since. */
static std::vector<std::set<int>> waits_of(int number) {
    std::vector<std::set<int>> waits(number);
    std::vector<int> writer(MAX_REGIONS, -1);
    std::vector<std::vector<int>> readers(MAX_REGIONS);
    for (int j = 0; j < number; j++) {
        const struct task &task = plan.task[j % plan.tasks];
        for (int a = 0; a < task.accesses; a++) {
            int cell = task.access[a].region;
            if (writer[cell] >= 0)
                waits[j].insert(writer[cell]);
            if (writes(task.access[a])) {
                waits[j].insert(readers[cell].begin(), readers[cell].end());
                readers[cell].clear();
                writer[cell] = j;
            } else {
                readers[cell].push_back(j);
            }
        }
    }
    return waits;
}

static void run_tbb(uint64_t *cells, int at_once) {
    tbb::flow::graph graph;
    tbb::flow::broadcast_node<continue_msg> begin(graph);
    std::vector<std::unique_ptr<node>> nodes;
    int number = plan.tasks * at_once;
    for (int j = 0; j < number; j++) {
        const struct body_task *task = &body[j % plan.tasks];
        nodes.push_back(std::make_unique<node>(
            graph, [task, cells](const continue_msg &) { run_task(task, cells); }));
    }
    std::vector<std::set<int>> waits = waits_of(number);
    for (int j = 0; j < number; j++) {
        if (waits[j].empty())
            tbb::flow::make_edge(begin, *nodes[j]);
        for (int i : waits[j])
            tbb::flow::make_edge(*nodes[i], *nodes[j]);
    }
    for (uint64_t p = 0; p < plan.passes; p += (uint64_t)at_once) {
        begin.try_put(continue_msg());
        graph.wait_for_all();
    }
}

int main(int argc, char **argv) {
    if (!take_body(passes_given(argc, argv)) || plan.passes % PASSES_AT_ONCE != 0)
        return 2;
    printf("threads %d\n", tbb::this_task_arena::max_concurrency());
    bool same = print_measured("tbb", run_tbb, 1);
    same = print_measured("overlap", run_tbb, PASSES_AT_ONCE) && same;
    return same ? 0 : 1;
}
