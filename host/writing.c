#include "writing.h"

#include <inttypes.h>
#include <stdio.h>

int write_tasks(const struct plan *plan, char *text) {
    static const char *const modes[] = {"in", "out", "inout"};
    int at = 0;
    for (int i = 0; i < plan->tasks; i++) {
        const struct task *task = &plan->task[i];
        at += sprintf(text + at, "begin\t%d\t%d\t%" PRIu64 "\n", task->rank, task->kernel,
                      task->constant);
        for (int a = 0; a < task->accesses; a++)
            at +=
                sprintf(text + at, "%s\t%d\n", modes[task->access[a].mode], task->access[a].region);
        at += sprintf(text + at, "end\n");
    }
    return at;
}

int write_text(const struct plan *plan, char *text) {
    int at = sprintf(text, "loop\t%" PRIu64 "\t%d\t%d\n", plan->passes, plan->ranks, plan->regions);
    for (int g = 0; g < plan->regions; g++)
        if (plan->start[g] != 0)
            at += sprintf(text + at, "start\t%d\t%" PRIu64 "\n", g, plan->start[g]);
    return at + write_tasks(plan, text + at);
}
