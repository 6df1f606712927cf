/* The group of stress that writes plans as texts. */
#include <string.h>

#include "groups.h"

/* The words of a plan, and its text. */
struct copy {
    uint64_t words[PLAN_WORDS];
    uint8_t text[TEXT_BYTES];
    size_t length;
};

/* Writes the plan, which is in form, and keeps it. */
static void keep_written(struct trial *trial, struct copy *copy) {
    struct written written = try_write(trial, PLAN_WORDS, TEXT_BYTES);
    memcpy(copy->words, trial->lent.plan, sizeof copy->words);
    memcpy(copy->text, written.text, written.length);
    copy->length = written.length;
}

static bool same_words(const struct trial *trial, const struct copy *copy) {
    return memcmp(copy->words, trial->lent.plan, sizeof copy->words) == 0;
}

static bool same_text(struct written written, const struct copy *copy) {
    return written.refusal == 0 && written.length == copy->length &&
           memcmp(written.text, copy->text, copy->length) == 0;
}

void try_back(struct trial *trial, struct rng *rng) {
    static struct copy copy;
    keep_written(trial, &copy);
    fill_memory(trial, rng);
    if (try_read(trial, copy.text, copy.length, PLAN_WORDS).refusal != 0 ||
        !same_words(trial, &copy))
        differ(trial, "a written text is read to another plan");
}

/* Reads a text of a plan, whose `start` lines stand in any order. */
static void read_drawn(struct trial *trial, struct rng *rng, const struct plan *plan) {
    static char text[TEXT_ROOM];
    size_t length = (size_t)draw_text(rng, plan, text);
    fill_memory(trial, rng);
    if (try_read(trial, (const uint8_t *)text, length, PLAN_WORDS).refusal != 0)
        differ(trial, "a text of a plan is refused");
}

/* Two texts of one plan are read to the same words, and written the same. */
static void try_texts(struct trial *trial, struct rng *rng, const struct plan *plan,
                      struct copy *copy) {
    read_drawn(trial, rng, plan);
    try_back(trial, rng);
    keep_written(trial, copy);
    read_drawn(trial, rng, plan);
    if (!same_words(trial, copy) || !same_text(try_write(trial, PLAN_WORDS, TEXT_BYTES), copy))
        differ(trial, "two texts of a plan are read or written as two plans");
}

/* Text slices of lengths about the one that is needed, far below it and above that of any text. Of
   the two empty ones one is NULL. */
static void try_lengths(struct trial *trial, struct rng *rng, size_t needed) {
    size_t less = (size_t)draw_below(rng, (int)needed), more = 1 + (size_t)draw_below(rng, GUARD);
    const size_t lengths[] = {needed - 1, needed,     needed + 1, 0,    0,
                              1,          needed / 2, TEXT_BYTES, less, TEXT_BYTES + more};
    for (size_t k = 0; k < sizeof lengths / sizeof *lengths; k++)
        try_write(trial, PLAN_WORDS + (size_t)draw_below(rng, GUARD), lengths[k]);
}

/* Plan slices too short: 11, whatever the text slice. */
static void try_short_plans(struct trial *trial, struct rng *rng, size_t needed) {
    const size_t plans[] = {0, 1, (size_t)draw_below(rng, PLAN_WORDS), PLAN_WORDS - 1};
    for (size_t k = 0; k < sizeof plans / sizeof *plans; k++) {
        try_write(trial, plans[k], TEXT_BYTES);
        try_write(trial, plans[k], needed - 1);
        try_write(trial, plans[k], 0);
    }
}

/* One word of the plan changed: 12, whatever the text slice, or another plan, with another text. */
static void try_changed(struct trial *trial, struct rng *rng, const struct copy *copy) {
    static struct shape shape;
    int at = draw_place(rng, trial->shape.plan.tasks);
    shape = trial->shape;
    put_word(trial, at, draw_instead(rng, copy->words[at]));
    struct written written = try_write(trial, PLAN_WORDS, TEXT_BYTES);
    if (same_text(written, copy) && !same_words(trial, copy))
        differ(trial, "two plans are written the same");
    try_write(trial, PLAN_WORDS, (size_t)draw_below(rng, (int)copy->length));
    try_write(trial, PLAN_WORDS, 0);
    try_write(trial, PLAN_WORDS - 1, 0);
    trial->lent.plan[at] = trial->expected.plan[at] = copy->words[at];
    trial->shape = shape;
}

void writing_group(struct trial *trial, struct rng *rng) {
    static struct plan plan;
    static struct copy copy;
    bool longest = trial->number % 8 == 0;
    if (longest)
        draw_longest(rng, &plan);
    else
        draw_plan(rng, size_of(trial->number), &plan);
    try_texts(trial, rng, &plan, &copy);
    if (longest && copy.length != TEXT_BYTES)
        differ(trial, "the longest text has %zu bytes, expected %d", copy.length, TEXT_BYTES);
    try_lengths(trial, rng, copy.length);
    try_short_plans(trial, rng, copy.length);
    for (int k = 0; k < 8; k++)
        try_changed(trial, rng, &copy);
}
