/* A host with threads and work of its own: threads [NUMBER [FILE|- [SEED]]], two threads if no
   number is given. It computes the heat in a bar. The bar is cut into blocks of CELLS cells, and a
   block is a region. The runtime gives the order of the items; the numbers of the cells are the
   host's, and the runtime knows nothing of them. Each rank has a copy of each block, and each send
   a slot, as the runtime has of the region's word: the work of a send or receive is to copy a
   block.

   A task that reads and writes a block makes a heat step of it. Its neighbours are the blocks that
   the lines before and behind name, if they are read; an end without one keeps its heat. A task
   that only writes a block puts the hottest of the cells that it reads. Without a FILE the body is
   BLOCKS blocks in a line on one rank, each with its neighbours; with `-` it is a random one.

   The plan is prepared. A thread holds the lock around its calls and none around its work, which
   lies between start and finish. Prints the items, the steps taken, the threads, the most items
   that ran at once and the values. Exit status 0 where no step was refused, each word and value is
   the unrolled loop's, and each cell is that of a plain loop over the body on one thread. */
#include <inttypes.h>
#include <pthread.h>
#include <stdio.h>
#include <stdlib.h>
#include <string.h>

#include "play.h"

enum { DEFAULT_THREADS = 2, MOST_THREADS = 64, BLOCKS = 32, PASSES = 50, CELLS = 4096 };

typedef double block[CELLS];

static struct play play;
static pthread_mutex_t lock = PTHREAD_MUTEX_INITIALIZER;
static pthread_cond_t finished = PTHREAD_COND_INITIALIZER;
static int running, most_running;

/* The copies, rank after rank; the slots, by the number of the send. */
static block *copies, *slots;

/* The text of BLOCKS blocks in a line; gives its length. */
static size_t line_text(char *text) {
    char *at = text + sprintf(text, "loop\t%d\t1\t%d\nstart\t0\t1000\n", PASSES, BLOCKS);
    for (int b = 0; b < BLOCKS; b++) {
        at += sprintf(at, "begin\t0\t1\t0\n");
        if (b > 0)
            at += sprintf(at, "in\t%d\n", b - 1);
        at += sprintf(at, "inout\t%d\n", b);
        if (b < BLOCKS - 1)
            at += sprintf(at, "in\t%d\n", b + 1);
        at += sprintf(at, "end\n");
    }
    return (size_t)(at - text);
}

static block *some_blocks(int number) {
    block *blocks = calloc((size_t)number, sizeof *blocks);
    if (blocks == NULL) {
        fprintf(stderr, "no memory for the blocks\n");
        exit(2);
    }
    return blocks;
}

/* Puts the cells of all regions, as warm as their starting values say, with a ripple. */
static void warm(block *blocks) {
    for (int g = 0; g < play.plan.regions; g++)
        for (int c = 0; c < CELLS; c++)
            blocks[g][c] = (double)play.plan.start[g] + (double)(c % 8);
}

/* A heat step of a block between two cells. */
static void spread_heat(double *cell, double left, double right) {
    for (int c = 0; c < CELLS; c++) {
        double here = cell[c], next = c + 1 < CELLS ? cell[c + 1] : right;
        cell[c] = here + 0.25 * (left - 2 * here + next);
        left = here;
    }
}

/* Puts the hottest of the cells that a task reads, 0 where it reads none. */
static void take_hottest(const struct task *task, block *blocks, double *cell) {
    memset(cell, 0, sizeof(block));
    for (int a = 0; a < task->accesses; a++) {
        const double *read = blocks[task->access[a].region];
        for (int c = 0; reads(task->access[a]) && c < CELLS; c++)
            cell[c] = read[c] > cell[c] ? read[c] : cell[c];
    }
}

/* The block that access a of a task names, where there is one and it is read; else its own. */
static const double *neighbour(const struct task *task, int a, block *blocks, const double *own) {
    bool read = a >= 0 && a < task->accesses && reads(task->access[a]);
    return read ? blocks[task->access[a].region] : own;
}

/* The work of a task on the blocks of its rank. */
static void run_task(const struct task *task, block *blocks) {
    for (int a = 0; a < task->accesses; a++) {
        double *cell = blocks[task->access[a].region];
        const double *left = neighbour(task, a - 1, blocks, cell),
                     *right = neighbour(task, a + 1, blocks, cell);
        if (task->access[a].mode == OUT)
            take_hottest(task, blocks, cell);
        else if (task->access[a].mode == INOUT)
            spread_heat(cell, left[left == cell ? 0 : CELLS - 1],
                        right[right == cell ? CELLS - 1 : 0]);
    }
}

/* The work of an item. A receive stands right behind its send. */
static void run_item(int item) {
    int number = TASKITER_ITEM_NUMBER(play.item[item]), kind = TASKITER_ITEM_KIND(play.item[item]);
    block *blocks = copies + play_rank(&play, item) * play.plan.regions;
    if (kind == 0)
        run_task(&play.plan.task[number], blocks);
    else if (kind == 1)
        memcpy(slots[item], blocks[number], sizeof(block));
    else
        memcpy(blocks[number], slots[item - 1], sizeof(block));
}

/* Takes a ready item, starts it, works on it without the lock, and finishes it. The lock is held
   before and after. */
static void take_item(void) {
    int item = play.ready[--play.readies];
    play.differ += play_start_prepared(&play, item) != 0;
    most_running = ++running > most_running ? running : most_running;
    pthread_mutex_unlock(&lock);
    run_item(item);
    pthread_mutex_lock(&lock);
    running--;
    play.differ += play_finish_prepared(&play, item) != 0;
    pthread_cond_broadcast(&finished);
}

/* A thread, until all steps are taken or one is refused. Where nothing is ready another thread's
   finish is waited for; where nothing runs either, something is wrong. */
static void *run_thread(void *unused) {
    (void)unused;
    pthread_mutex_lock(&lock);
    while (play.steps < play.total && play.differ == 0) {
        if (play.readies > 0) {
            take_item();
        } else if (running > 0) {
            pthread_cond_wait(&finished, &lock);
        } else {
            play.differ++;
            pthread_cond_broadcast(&finished);
        }
    }
    pthread_mutex_unlock(&lock);
    return NULL;
}

static bool run_threads(int number) {
    pthread_t thread[MOST_THREADS];
    int made = 0;
    while (made < number && pthread_create(&thread[made], NULL, run_thread, NULL) == 0)
        made++;
    for (int t = 0; t < made; t++)
        pthread_join(thread[t], NULL);
    return made == number;
}

/* Runs the body in order, pass after pass, on one set of blocks, and counts the regions whose cells
   are others on the rank of their last writer. */
static uint64_t compare_blocks(void) {
    const struct plan *plan = &play.plan;
    block *blocks = some_blocks(plan->regions);
    uint64_t others = 0;
    warm(blocks);
    for (uint64_t pass = 0; pass < plan->passes; pass++)
        for (int i = 0; i < plan->tasks; i++)
            run_task(&plan->task[i], blocks);
    for (int g = 0; g < plan->regions; g++) {
        int writer = last_writer(plan, g), rank = writer < 0 ? 0 : plan->task[writer].rank;
        others += memcmp(blocks[g], copies[rank * plan->regions + g], sizeof(block)) != 0;
    }
    free(blocks);
    return others;
}

int main(int argc, char **argv) {
    static char text[TEXT_ROOM];
    int threads = argc > 1 ? atoi(argv[1]) : DEFAULT_THREADS;
    struct rng rng = rng_of(argc > 3 ? strtoull(argv[3], NULL, 10) : 1, 0);
    if (threads < 1 || threads > MOST_THREADS ||
        !(argc > 2 ? play_begin(&play, argv[2], &rng)
                   : play_text(&play, text, line_text(text))) ||
        !play_prepare(&play))
        return 1;
    copies = some_blocks(play.plan.ranks * play.plan.regions);
    slots = some_blocks(play.items);
    for (int q = 0; q < play.plan.ranks; q++)
        warm(copies + q * play.plan.regions);
    if (!run_threads(threads))
        return 2;
    uint64_t others = compare_blocks();
    free(copies);
    free(slots);
    printf("items %d\nsteps %" PRIu64 "\nthreads %d\nat once %d\n", play.items, play.steps, threads,
           most_running);
    printf("%" PRIu64 " blocks differ from the plain loop\n", others);
    return play_end(&play) != 0 || others != 0;
}
