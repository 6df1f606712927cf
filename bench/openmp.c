/* The 40 blocks of bench/plans.h with no runtime, and with OpenMP's: openmp [PASSES]. Prints the nanoseconds an instance, one task in one pass, of a
   plain loop over the body and of OpenMP tasks that name the cells they read and write in depend clauses, the least of some runs. Neither has
   ranks, sends or receives. OpenMP's tasks are waited for after each pass, or after ten, so that passes overlap; with all passes at once its cost
   for a task and its memory grow with the tasks that wait. openmp values PASSES prints the plain loop's final numbers instead, in the form of the
   run program. Exit status 0 where all loops have the same final numbers. */
#include <omp.h>

#include "body.h"

static void make_tasks(uint64_t *cells) {
    for (int i = 0; i < plan.tasks; i++) {
        const struct body_task *task = &body[i];
#pragma omp task firstprivate(task) depend(iterator(int r = 0 : task->only_reads), in : cells[task->only_read[r]]) \
    depend(iterator(int w = 0 : task->writes), inout : cells[task->written[w]])
        run_task(task, cells);
    }
}

/* One thread makes the tasks in the body's order, and all run them. */
static void run_openmp(uint64_t *cells, int at_once) {
#pragma omp parallel
#pragma omp single
    for (uint64_t p = 1; p <= plan.passes; p++) {
        make_tasks(cells);
        if (p % (uint64_t)at_once == 0) {
#pragma omp taskwait
        }
    }
}

static int print_values(void) {
    static uint64_t cells[MAX_REGIONS];
    memcpy(cells, plan.start, sizeof plan.start);
    run_plain(cells, 1);
    for (int g = 0; g < plan.regions; g++)
        printf("value %d %" PRIu64 "\n", g, cells[g]);
    return 0;
}

int main(int argc, char **argv) {
    static struct wants wants;
    if (!take_body(passes_given(argc, argv)))
        return 2;
    if (argc > 2 && strcmp(argv[1], "values") == 0)
        return print_values();
    printf("tasks %d\nitems %d\npasses %" PRIu64 "\nthreads %d\n", plan.tasks, plan.tasks + 2 * find_wants(&plan, &wants), plan.passes, omp_get_max_threads());
    bool same = print_measured("plain", run_plain, 1);
    same = print_measured("openmp", run_openmp, 1) && same;
    same = print_measured("overlap", run_openmp, PASSES_AT_ONCE) && same;
    return same ? 0 : 1;
}
