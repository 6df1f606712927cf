/* The test program that the paper asks for ("Tying down the contracts", item 4): plays random plans
   in random orders against the unrolled loop, runs the cases that the paper lists without a star,
   and compares every call with a model made from the paper alone: the answer, the items, the edges,
   the items that are ready, the total of steps, the written text, the prepared tables, the items
   that a finish made ready, the line of a journal, and every byte of the lent slices and of the
   guards around them.

   stress [SEED [PLANS]] prints a line a group, and one for all: its plans and calls, how many were
   accepted, and how often each refusal was given. The last line says how many of the random plans
   have wrapped transfers, and such as are almost wrapped. Exit status 0 where nothing differs, each
   refusal was met, and one random plan in 64 has transfers of each of these kinds; 1 where not, and
   where the runtime has another version than its header.

   stress --control
   answer|word|edge|line|reply|byte|total|item|mean|count|ready|waits|prepared|freed|journal
   [SEED [PLANS]] is a run in which one answer, one word of the lent state after a call, one edge,
   one line number, one word of a list's answers, one byte of a written text, one total of steps,
   one item's number, one mean that is known, one count above 2^32, which loses its upper half, one
   of the items that are ready, one number of unmet waits, one number of prepared tables, one of a
   list of items that a finish made ready or one number that a check of a journal answers is changed
   before it is compared. It has to end with the difference reported and status 1. The status is 2
   where it is not reported. */
#include <inttypes.h>
#include <stdio.h>
#include <stdlib.h>
#include <string.h>

#include "groups.h"

enum { DEFAULT_PLANS = 1000, MOST_PLANS = 1000000, RARE = 64 };

static const char *const trait_names[TRAITS] = {
    "wrapped",    "wrapped of an inout", "forward of an inout",
    "both sides", "wrapped in one pass", "wrapped in no pass"};

/* What the groups have in common: the seed, the number of plans of each and the control; and how
   many there were, how their calls were answered, and which traits the random plans have. */
struct count {
    uint64_t seed, groups;
    struct control control;
    long each, plans, calls, texts, answered[LAST_REFUSAL + 1];
    long drawn, with[TRAITS];
};

static void print_line(const char *name, long plans, long calls, long texts, const long *answered) {
    printf("%-8s %ld plans, %ld calls", name, plans, calls);
    if (texts > 0)
        printf(" (%ld texts)", texts);
    printf(", %ld accepted", answered[0]);
    for (int r = 1; r <= LAST_REFUSAL; r++)
        if (answered[r] > 0)
            printf(", %d: %ld", r, answered[r]);
    printf("; 0 differ\n");
    fflush(stdout);
}

/* Runs a group over so many plans, prints its line and adds its calls to those of all. */
static void run_group(const char *name, void (*group)(struct trial *, struct rng *), long plans,
                      struct count *all) {
    static struct trial trial;
    memset(&trial, 0, sizeof trial);
    trial.group = name;
    trial.control = &all->control;
    trial.seed = all->seed;
    for (; trial.number < plans; trial.number++) {
        struct rng rng = rng_of(all->seed, all->groups << 24 | (uint64_t)trial.number);
        group(&trial, &rng);
    }
    print_line(name, plans, trial.calls, trial.texts, trial.answered);
    all->groups++;
    all->plans += plans;
    all->calls += trial.calls;
    all->texts += trial.texts;
    for (int r = 0; r <= LAST_REFUSAL; r++)
        all->answered[r] += trial.answered[r];
    all->drawn += trial.drawn;
    for (int t = 0; t < TRAITS; t++)
        all->with[t] += trial.with[t];
}

static void print_traits(const struct count *all) {
    printf("%-8s %ld plans; with such transfers:", "random", all->drawn);
    for (int t = 0; t < TRAITS; t++)
        printf("%s %s: %ld", t > 0 ? "," : "", trait_names[t], all->with[t]);
    printf("\n");
}

static void run_groups(struct count *all) {
    run_group("paper", paper_group, 1, all);
    run_group("reading", reading_group, all->each, all);
    run_group("graph", graph_group, all->each, all);
    run_group("steps", steps_group, all->each, all);
    run_group("lists", lists_group, all->each, all);
    run_group("writing", writing_group, all->each, all);
    run_group("damage", damage_group, all->each, all);
    run_group("short", short_group, all->each, all);
    run_group("bare", bare_group, all->each, all);
    run_group("means", means_group, all->each, all);
    run_group("passes", passes_group, all->each, all);
    run_group("search", search_group, all->each, all);
    run_group("waits", waits_group, all->each, all);
    run_group("prepared", prepared_group, all->each, all);
    run_group("journals", journals_group, all->each, all);
    print_line("all", all->plans, all->calls, all->texts, all->answered);
    print_traits(all);
}

/* Prepares the control that an argument names. In each plan there are at least so many chances for
   the change; one of them is drawn. Answers false where it names none. */
static bool take_control(struct count *all, const char *name) {
    static const char *const names[CHANGES] = {"",      "answer", "word",  "edge",     "line",
                                               "reply", "byte",   "total", "item",     "mean",
                                               "count", "ready",  "waits", "prepared", "freed",
                                               "journal"};
    static const int chances[CHANGES] = {0, 150, 150, 1,  16, 16,   8, 2,
                                         1, 1,   4,   16, 1000, 1, 16, 16};
    struct control *control = &all->control;
    for (int change = NO_CHANGE + 1; change < CHANGES; change++)
        if (strcmp(name, names[change]) == 0) {
            control->change = (enum change)change;
            control->rng = rng_of(all->seed, UINT64_MAX);
            control->chances = draw_below(&control->rng, chances[change] * (int)all->each);
            return true;
        }
    return false;
}

/* Whether the runtime is of the header's version. */
static bool same_version(void) {
    uint64_t version = taskiter_version();
    if (version != TASKITER_VERSION)
        printf("the runtime has version %" PRIu64 ", its header %d\n", version, TASKITER_VERSION);
    return version == TASKITER_VERSION;
}

/* Whether each refusal was met, and each trait in one random plan of RARE. */
static bool all_met(const struct count *all) {
    bool met = true;
    for (int t = 0; t < TRAITS; t++)
        if (all->with[t] * RARE < all->drawn) {
            printf("too few random plans have transfers of this kind: %s\n", trait_names[t]);
            met = false;
        }
    for (int r = 1; r <= LAST_REFUSAL; r++)
        if (all->answered[r] == 0) {
            printf("refusal %d was not met\n", r);
            met = false;
        }
    return met;
}

int main(int argc, char **argv) {
    bool controlled = argc > 2 && strcmp(argv[1], "--control") == 0;
    int first = controlled ? 3 : 1;
    struct count all = {.seed = 1, .each = DEFAULT_PLANS};
    if (argc > first)
        all.seed = strtoull(argv[first], NULL, 10);
    if (argc > first + 1)
        all.each = strtol(argv[first + 1], NULL, 10);
    if (all.each < 1 || all.each > MOST_PLANS || (controlled && !take_control(&all, argv[2]))) {
        fprintf(stderr, "usage: stress [--control answer|word|edge|line|reply|byte|total|item|mean|"
                        "count|ready|waits|prepared|freed|journal] [SEED [PLANS]]\n");
        return 2;
    }
    if (!same_version())
        return 1;
    run_groups(&all);
    if (controlled) {
        printf("control: %s\n",
               all.control.made ? "the change was not reported" : "nothing was changed");
        return 2;
    }
    return all_met(&all) ? 0 : 1;
}
