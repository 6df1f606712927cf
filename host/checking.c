/* What checking a journal has to answer, and what it has to leave. */
#include <string.h>

#include "fields.h"
#include "model.h"

enum { START_LINE, FINISH_LINE, LINES };

static const struct record records[LINES] = {{"start", 2}, {"finish", 1}};

/* How the steps of a journal are made: by the tables, or by ordinary calls. */
struct stepper {
    const struct shape *shape;
    struct memory *memory;
    struct prepared *prepared;
};

static struct answer make_step(struct stepper *stepper, const struct line *line) {
    static const struct all_lengths enough = {{PLAN_WORDS, COUNTS, VALUES}, TABLES, FREED};
    bool starts = line->record == START_LINE;
    uint64_t item = line->number[0].value;
    if (stepper->prepared == NULL)
        return model_call(starts ? START_CALL : FINISH_CALL, stepper->shape, stepper->memory,
                          enough.state, item);
    return model_prepared(starts ? START_PREPARED : FINISH_PREPARED, stepper->memory,
                          stepper->prepared, enough, item);
}

/* Makes the step that a line says. Whether it is accepted, a start with the word that the line
   states; a start with another word is taken back. */
static bool take_line(struct stepper *stepper, const struct line *line) {
    uint64_t item = line->number[0].value;
    uint64_t *held = stepper->memory->values + FIRST_HELD;
    uint64_t kept = item < MAX_ITEMS ? held[item] : 0;
    struct answer answer = make_step(stepper, line);
    if (answer.refusal != 0)
        return false;
    if (line->record == FINISH_LINE || answer.word == line->number[1].value)
        return true;
    held[item] = kept;
    stepper->memory->counts[item]--;
    return false;
}

/* Whether the bytes, which end before a line feed, are a line of a journal. */
static bool is_line(const uint8_t *bytes, size_t length, struct line *line) {
    if (!line_of(records, LINES, bytes, length, line))
        return false;
    for (int k = 0; k < records[line->record].numbers; k++)
        if (line->number[k].beyond)
            return false;
    return true;
}

static struct answer check_lines(struct stepper *stepper, const uint8_t *journal, size_t length) {
    uint64_t lines = 0;
    for (size_t from = 0; from < length; lines++) {
        struct line line;
        const uint8_t *feed = memchr(journal + from, '\n', length - from);
        if (feed == NULL || !is_line(journal + from, (size_t)(feed - journal) - from, &line))
            return (struct answer){20, lines + 1};
        if (!take_line(stepper, &line))
            return (struct answer){21, lines + 1};
        from = (size_t)(feed - journal) + 1;
    }
    return (struct answer){0, complete(stepper->shape, stepper->memory)};
}

struct answer model_check(const struct shape *shape, struct memory *memory, struct lengths lengths,
                          const uint8_t *journal, size_t length, bool more) {
    static struct prepared prepared;
    uint16_t items[MAX_ITEMS];
    struct stepper stepper = {shape, memory, more ? &prepared : NULL};
    struct answer entered = more ? model_ready(shape, memory, lengths, items, MAX_ITEMS)
                                 : model_call(OPEN_CALL, shape, memory, lengths, 0);
    if (entered.refusal != 0)
        return (struct answer){entered.refusal, 0};
    if (more)
        model_prepare(shape, PLAN_WORDS, prepared.tables, TABLES);
    return check_lines(&stepper, journal, length);
}
