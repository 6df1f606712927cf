/* The group of stress that checks journals: those of random orders, whole and in pieces; damaged
   ones; and journals on plans and states that are damaged or belong to no loop. */
#include <inttypes.h>
#include <stdarg.h>
#include <stdio.h>
#include <string.h>

#include "groups.h"
#include "loop.h"

/* A journal has at most MOST_STEPS steps, and LINE_ROOM bytes are enough for a line. DAMAGED
   journals are made of each, and of a state that belongs to no loop FEW_STEPS are taken. */
enum { MOST_STEPS = 200, FEW_STEPS = 24, LINE_ROOM = 64, DAMAGED = 24 };

struct step {
    bool starts;
    uint64_t item, word;
};

/* Steps, the text of their lines, and where each line starts; the last start is the end. */
struct journal {
    int steps;
    struct step step[MOST_STEPS];
    size_t start[MOST_STEPS + 1];
    size_t length;
    uint8_t text[(MOST_STEPS + 4) * LINE_ROOM];
};

/* Puts a line, in the form of printf, behind the text. */
__attribute__((format(printf, 2, 3))) static void put_line(struct journal *journal,
                                                           const char *form, ...) {
    char line[LINE_ROOM];
    va_list rest;
    va_start(rest, form);
    int length = vsnprintf(line, sizeof line, form, rest);
    va_end(rest);
    memcpy(journal->text + journal->length, line, (size_t)length);
    journal->length += (size_t)length;
}

static void put_step_line(struct journal *journal, struct step step) {
    if (step.starts)
        put_line(journal, "start\t%" PRIu64 "\t%" PRIu64 "\n", step.item, step.word);
    else
        put_line(journal, "finish\t%" PRIu64 "\n", step.item);
}

static void put_step(struct journal *journal, struct step step) {
    journal->step[journal->steps++] = step;
    put_step_line(journal, step);
    journal->start[journal->steps] = journal->length;
}

/* The lines of a journal from one to before another, behind the text. */
static void put_lines(struct journal *journal, const struct journal *from, int first, int end) {
    size_t length = from->start[end] - from->start[first];
    memcpy(journal->text + journal->length, from->text + from->start[first], length);
    journal->length += length;
}

/* Takes a step that is free, of the expected memory, by the tables where there are some. Answers
   false where none is free. */
static bool draw_step(struct trial *trial, struct rng *rng, struct prepared *prepared,
                      struct journal *journal) {
    static const struct all_lengths enough = {{PLAN_WORDS, COUNTS, VALUES}, TABLES, FREED};
    bool starts = draw_below(rng, 2) == 0;
    int item = find_free(trial, rng, 2, starts ? START_CALL : FINISH_CALL);
    if (item < 0) {
        starts = !starts;
        item = find_free(trial, rng, 2, starts ? START_CALL : FINISH_CALL);
    }
    if (item < 0)
        return false;
    struct answer answer =
        prepared == NULL
            ? model_call(starts ? START_CALL : FINISH_CALL, &trial->shape, &trial->expected, least,
                         (uint64_t)item)
            : model_prepared(starts ? START_PREPARED : FINISH_PREPARED, &trial->expected, prepared,
                             enough, (uint64_t)item);
    put_step(journal, (struct step){starts, (uint64_t)item, answer.word});
    return true;
}

static void empty_journal(struct journal *journal) {
    journal->steps = 0;
    journal->start[0] = journal->length = 0;
}

/* Writes the journal of a random order from an opening, to the end or of so many steps. */
static void draw_journal(struct trial *trial, struct rng *rng, int most, struct journal *journal) {
    static struct memory kept;
    kept = trial->expected;
    empty_journal(journal);
    model_call(OPEN_CALL, &trial->shape, &trial->expected, least, 0);
    while (journal->steps < most && draw_step(trial, rng, NULL, journal))
        ;
    trial->expected = kept;
}

/* The results are the final numbers of the unrolled loop. */
static void try_results(struct trial *trial) {
    struct loop loop;
    loop_begin(&loop, &trial->shape.plan);
    for (int g = 0; g < trial->shape.plan.regions; g++) {
        struct answer answer = try_call(trial, RESULT_CALL, least, (uint64_t)g);
        if (answer.refusal != 0 || answer.word != loop_final(&loop, g))
            differ(trial, "after a complete journal region %d has %" PRIu64
                          ", the unrolled loop %" PRIu64,
                   g, answer.word, loop_final(&loop, g));
    }
    loop_end(&loop);
}

/* A journal passes. It is complete exactly if it has all steps. */
static struct answer try_whole(struct trial *trial, struct rng *rng,
                               const struct journal *journal) {
    struct answer answer =
        try_check(trial, draw_enough(rng), journal->text, journal->length, false);
    bool all = (uint64_t)journal->steps == model_total(&trial->shape, PLAN_WORDS).word;
    if (answer.refusal != 0 || answer.word != all)
        differ(trial, "a journal of %d steps gets refusal %" PRIu64 ", number %" PRIu64,
               journal->steps, answer.refusal, answer.word);
    try_fresh(trial);
    if (all)
        try_results(trial);
    return answer;
}

/* How many bytes stand up to a line feed, with it, that is drawn of those in the text; all of them
   where there is none behind it. */
static size_t draw_piece(struct rng *rng, const uint8_t *text, size_t length) {
    size_t from = length > 0 ? (size_t)draw_word_below(rng, length) : 0;
    const uint8_t *feed = memchr(text + from, '\n', length - from);
    return feed == NULL ? length : (size_t)(feed - text) + 1;
}

static uint64_t count_lines(const uint8_t *text, size_t length) {
    uint64_t lines = 0;
    for (size_t k = 0; k < length; k++)
        lines += text[k] == '\n';
    return lines;
}

/* The same text in pieces, cut behind line feeds, some of them empty: the answer and the memory are
   those of the whole, the lines counted behind those of the pieces before. */
static void try_pieces(struct trial *trial, struct rng *rng, const struct journal *journal,
                       struct answer expected) {
    static struct memory whole;
    struct answer answer = {0, 0};
    uint64_t lines = 0;
    size_t from = 0, length = 0;
    whole = trial->lent;
    for (bool more = false; answer.refusal == 0 && (!more || from < journal->length); more = true) {
        const uint8_t *piece = journal->text + from;
        lines += count_lines(piece - length, length);
        length = draw_below(rng, 8) == 0 ? 0 : draw_piece(rng, piece, journal->length - from);
        answer = try_check(trial, draw_enough(rng), piece, length, more);
        from += length;
    }
    if (answer.refusal != 0)
        answer.word += lines;
    if (answer.refusal != expected.refusal || answer.word != expected.word)
        differ(trial, "in pieces a journal gets %" PRIu64 " and %" PRIu64 ", whole %" PRIu64
                      " and %" PRIu64,
               answer.refusal, answer.word, expected.refusal, expected.word);
    compare_bytes(trial, "the memory after pieces", &whole, &trial->lent, sizeof whole);
}

/* Lines that are not in form. */
static const char *const unreadable[] = {"",
                                         "\r",
                                         "start",
                                         "start\t",
                                         "start\t0",
                                         "start\t0\t",
                                         "start\t0\t0\t",
                                         "start\t0\t0\t0",
                                         "start\t\t0\t0",
                                         "start\t00\t0",
                                         "start\t0\t01",
                                         "start\t0\t0\r",
                                         "start\t0\t-1",
                                         "start\t0\t+1",
                                         "start\t0\t0x1",
                                         "start\t 0\t0",
                                         "start 0 0",
                                         " start\t0\t0",
                                         "Start\t0\t0",
                                         "starts\t0\t0",
                                         "star\t0\t0",
                                         "start\t0\t18446744073709551616",
                                         "start\t18446744073709551616\t0",
                                         "start\t0\t99999999999999999999",
                                         "start\t0\t100000000000000000000",
                                         "finish",
                                         "finish\t",
                                         "finish\t0\t",
                                         "finish\t0\t0",
                                         "finish\t00",
                                         "finish\t0 ",
                                         "finish\t0\r",
                                         "finish\t18446744073709551616",
                                         "Finish\t0",
                                         "end",
                                         "begin\t0\t1\t1",
                                         "result\t0"};

enum damage {
    OTHER_WORD,
    LARGE_ITEM,
    RETURNED,
    UNENDED,
    UNREADABLE,
    DOUBLED,
    OTHER_ITEM,
    SWAPPED,
    DROPPED,
    BYTE,
    DAMAGES
};

/* Puts a journal with line k damaged, and gives what its check has to answer; where that depends on
   the steps, refusal 0. A start with another word has one that is off by one, or by any bit. */
static struct answer put_damage(struct rng *rng, int items, const struct journal *whole, int k,
                                enum damage damage, struct journal *to) {
    struct step step = whole->step[k];
    struct answer untrue = {21, (uint64_t)k + 1}, unread = {20, (uint64_t)k + 1}, open = {0, 0};
    empty_journal(to);
    put_lines(to, whole, 0, k);
    switch (damage) {
    case OTHER_WORD:
        step.word = draw_below(rng, 2) == 0 ? step.word + 1 - 2 * (uint64_t)draw_below(rng, 2)
                                            : step.word ^ UINT64_C(1) << draw_below(rng, 64);
        put_step_line(to, step);
        return step.starts ? untrue : open;
    case LARGE_ITEM:
        step.item = (uint64_t)items + (draw_below(rng, 2) == 0 ? 0 : draw(rng) / 2);
        put_step_line(to, step);
        return untrue;
    case RETURNED:
        put_step_line(to, step);
        to->text[to->length - 1] = '\r';
        put_line(to, "\n");
        return unread;
    case UNENDED: /* the text ends within the line, or just before its line feed */
        put_step_line(to, step);
        to->length -= 1 + (size_t)draw_below(rng, (int)(to->length - whole->start[k]) - 1);
        return unread;
    case UNREADABLE:
        put_line(to, "%s\n",
                 unreadable[draw_below(rng, (int)(sizeof unreadable / sizeof *unreadable))]);
        return unread;
    case DOUBLED:
        put_step_line(to, step);
        put_step_line(to, step);
        return (struct answer){21, (uint64_t)k + 2};
    case OTHER_ITEM:
        step.item = (uint64_t)draw_below(rng, items);
        put_step_line(to, step);
        return open;
    case SWAPPED:
        if (k + 1 < whole->steps) {
            put_lines(to, whole, k + 1, k + 2);
            put_step_line(to, step);
        }
        return open;
    case BYTE:
        put_step_line(to, step);
        to->text[whole->start[k] + (size_t)draw_below(rng, (int)(to->length - whole->start[k]))] =
            (uint8_t)draw(rng);
        return open;
    default: /* dropped */
        return open;
    }
}

/* A damaged journal. Where it is refused, the numbers of unmet waits are fresh too. */
static void try_damaged_journal(struct trial *trial, struct rng *rng,
                                const struct journal *whole) {
    static struct journal damaged;
    int k = draw_below(rng, whole->steps);
    enum damage damage = (enum damage)draw_below(rng, DAMAGES);
    struct answer known =
        put_damage(rng, trial->shape.graph.items, whole, k, damage, &damaged);
    int behind = damage == SWAPPED ? k + 2 : k + 1;
    if (damage != UNENDED && behind <= whole->steps)
        put_lines(&damaged, whole, behind, whole->steps);
    struct answer answer =
        try_check(trial, draw_enough(rng), damaged.text, damaged.length, false);
    if (known.refusal != 0 && (answer.refusal != known.refusal || answer.word != known.word))
        differ(trial, "a journal with damage %d gets %" PRIu64 " at %" PRIu64 ", expected %" PRIu64
                      " at %" PRIu64,
               damage, answer.refusal, answer.word, known.refusal, known.word);
    try_fresh(trial);
    if (draw_below(rng, 4) == 0)
        try_pieces(trial, rng, &damaged, answer);
}

/* Steps by tables from a state that may belong to no loop; the last line may be damaged. */
static void try_from_here(struct trial *trial, struct rng *rng) {
    static struct journal journal;
    static struct prepared prepared;
    static struct memory kept;
    kept = trial->expected;
    empty_journal(&journal);
    model_prepare(&trial->shape, PLAN_WORDS, prepared.tables, TABLES);
    while (journal.steps < FEW_STEPS && draw_step(trial, rng, &prepared, &journal))
        ;
    trial->expected = kept;
    if (draw_below(rng, 2) == 0)
        put_step_line(&journal, (struct step){draw_below(rng, 2) == 0,
                                              draw_asked(rng, trial->shape.graph.items),
                                              draw_word(rng)});
    try_check(trial, draw_enough(rng), journal.text, journal.length, true);
}

/* Both checks, with the memory as it is and put back. */
static void try_both(struct trial *trial, struct lengths lengths, const struct journal *journal) {
    static struct memory kept;
    kept = trial->lent;
    for (int more = 0; more < 2; more++) {
        try_check(trial, lengths, journal->text, journal->length, more == 1);
        trial->lent = trial->expected = kept;
    }
}

/* A word of the plan changed, a count or number of an item changed, and lengths that may be too
   short. */
static void try_damaged_slices(struct trial *trial, struct rng *rng,
                               const struct journal *journal) {
    int place = draw_place(rng, trial->shape.plan.tasks);
    int count = draw_below(rng, trial->shape.graph.items) + MAX_ITEMS * draw_below(rng, 3);
    uint64_t word = trial->lent.plan[place], number = trial->lent.counts[count];
    put_word(trial, place, draw_instead(rng, word));
    try_both(trial, draw_enough(rng), journal);
    put_word(trial, place, word);
    trial->lent.counts[count] = trial->expected.counts[count] = draw_instead(rng, number);
    try_both(trial, draw_enough(rng), journal);
    trial->lent.counts[count] = trial->expected.counts[count] = number;
    try_both(trial, draw_lengths(rng), journal);
}

/* Slices that are NULL, each alone, of no elements or of those that it is said to have: 11. So is a
   journal that is NULL and has bytes; with none it is accepted (try_check). */
static void try_null_journal(struct trial *trial) {
    const struct memory *m = &trial->lent;
    struct slices all = {trial->lent.plan, trial->lent.counts, trial->lent.values};
    const uint8_t line[] = "finish\t0\n";
    bool refused = true;
    for (int slice = 0; slice < 4; slice++)
        for (size_t length = slice < 3 ? 0 : VALUES; length <= VALUES; length += VALUES) {
            uint64_t *plan = slice == 0 ? NULL : all.plan, *counts = slice == 1 ? NULL : all.counts,
                     *values = slice == 2 ? NULL : all.values;
            const uint8_t *journal = slice == 3 ? NULL : line;
            size_t p = slice == 0 ? length : PLAN_WORDS, c = slice == 1 ? length : COUNTS,
                   v = slice == 2 ? length : VALUES, j = slice == 3 ? length : sizeof line - 1;
            refused = refused &&
                      taskiter_check(plan, p, counts, c, values, v, journal, j).refusal == 11 &&
                      taskiter_check_more(plan, p, counts, c, values, v, journal, j).refusal == 11;
        }
    compare_bytes(trial, "the memory after a NULL slice", &trial->expected, m, sizeof *m);
    if (!refused)
        differ(trial, "a journal is checked with a slice that is NULL");
}

void journals_group(struct trial *trial, struct rng *rng) {
    static struct journal journal;
    put_drawn_plan(trial, rng);
    bool few = draw_below(rng, 4) == 0;
    draw_journal(trial, rng, few ? draw_below(rng, FEW_STEPS) : MOST_STEPS, &journal);
    try_check(trial, draw_enough(rng), journal.text, 0, false);
    struct answer whole = try_whole(trial, rng, &journal);
    try_pieces(trial, rng, &journal, whole);
    for (int k = 0; k < DAMAGED && journal.steps > 0; k++)
        try_damaged_journal(trial, rng, &journal);
    try_damaged_slices(trial, rng, &journal);
    try_null_journal(trial);
    put_counts_near(trial, rng, draw_word_below(rng, trial->shape.plan.passes + 1), 2);
    try_from_here(trial, rng);
    put_number(trial, draw_below(rng, trial->shape.graph.items), (uint64_t)draw_below(rng, 3));
    try_from_here(trial, rng);
    try_damaged_slices(trial, rng, &journal);
}
