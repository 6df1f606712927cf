/* A host with workers: workers [NUMBER [FILE|- [SEED]]], 16 if no number is given. An item runs on
   a worker of its rank, one at a time, and finishes after a random number of ticks; so many run at
   once, and finishes come in any order. The plan is prepared, and steps go by the tables. A worker
   that is idle takes an item of its ranks from the list of those that are ready. The list is asked
   for once, after the opening; each finish adds the items that it makes ready. So no start is
   refused. The calls come one after another. Prints the items, the steps taken, the most items that
   ran at once, the ticks and the values. Exit status 0 where no step was refused, and each word and
   value is the unrolled loop's. */
#include <inttypes.h>
#include <stdio.h>
#include <stdlib.h>

#include "play.h"

enum { DEFAULT_WORKERS = 16, MOST_WORKERS = 1024, MOST_TICKS = 9, IDLE = -1 };

/* A worker runs an item for some ticks yet, or none. */
struct worker {
    int item, ticks;
};

static struct play play;
static struct rng rng;
static struct worker worker[MOST_WORKERS];
static int workers, running, most_running;

/* Whether a worker serves a rank: with fewer workers than ranks one serves several, with more
   several serve one. */
static bool serves(int w, int rank) {
    return rank % workers == w % play.plan.ranks;
}

/* Takes an item of the worker's ranks off the list of ready items; IDLE where it has none. */
static int take_item(int w) {
    for (int k = 0; k < play.readies; k++) {
        int item = play.ready[k];
        if (serves(w, play_rank(&play, item))) {
            play.ready[k] = play.ready[--play.readies];
            return item;
        }
    }
    return IDLE;
}

/* Lets a worker start an item that is ready, where there is one of its ranks. */
static void seek_item(int w) {
    int item = take_item(w);
    if (item == IDLE)
        return;
    play.differ += play_start_prepared(&play, item) != 0;
    worker[w] = (struct worker){item, 1 + draw_below(&rng, MOST_TICKS)};
    most_running = ++running > most_running ? running : most_running;
}

/* One tick of a worker: it seeks an item, or goes on with the one it has and finishes it in
   time. */
static void work(int w) {
    if (worker[w].item == IDLE) {
        seek_item(w);
    } else if (--worker[w].ticks == 0) {
        play.differ += play_finish_prepared(&play, worker[w].item) != 0;
        worker[w].item = IDLE;
        running--;
    }
}

/* Runs ticks until all steps are taken and answers their number. In each tick the workers come from
   a random one on. */
static long run_ticks(void) {
    long ticks = 0;
    uint64_t steps = UINT64_MAX;
    for (; play.steps < play.total; ticks++) {
        if (running == 0 && play.steps == steps) {
            printf("no item runs, and none can be started\n");
            exit(1);
        }
        steps = play.steps;
        int from = draw_below(&rng, workers);
        for (int k = 0; k < workers; k++)
            work((from + k) % workers);
    }
    return ticks;
}

int main(int argc, char **argv) {
    workers = argc > 1 ? atoi(argv[1]) : DEFAULT_WORKERS;
    rng = rng_of(argc > 3 ? strtoull(argv[3], NULL, 10) : 1, 0);
    if (workers < 1 || workers > MOST_WORKERS ||
        !play_begin(&play, argc > 2 ? argv[2] : NULL, &rng) || !play_prepare(&play))
        return 1;
    for (int w = 0; w < workers; w++)
        worker[w].item = IDLE;
    long ticks = run_ticks();
    printf("items %d\nsteps %" PRIu64 "\nat once %d\nticks %ld\n", play.items, play.steps,
           most_running, ticks);
    return play_end(&play);
}
