#include "reading.h"

#include <string.h>

#include "fields.h"

enum { LOOP, START, BEGIN, ACCESS_IN, ACCESS_OUT, ACCESS_INOUT, END, RECORDS };

static const struct record records[RECORDS] = {{"loop", 3}, {"start", 2}, {"begin", 3}, {"in", 1},
                                               {"out", 1},  {"inout", 1}, {"end", 0}};

/* What the lines before have left: the plan so far, whose last task may be open, and the regions
   that a `start` has named. */
struct reader {
    struct plan *plan;
    int lines;
    bool open;
    bool started[MAX_REGIONS];
};

static bool is_access(const struct line *line) {
    return line->record >= ACCESS_IN && line->record <= ACCESS_INOUT;
}

static bool lies(struct number number, uint64_t least, uint64_t most) {
    return !number.beyond && number.value >= least && number.value <= most;
}

/* Whether every number of the line lies within its limits. */
static bool within(const struct plan *plan, const struct line *line) {
    const struct number *n = line->number;
    switch (line->record) {
    case LOOP:
        return lies(n[0], 0, MAX_PASSES) && lies(n[1], 1, MAX_RANKS) && lies(n[2], 1, MAX_REGIONS);
    case START:
        return lies(n[0], 0, (uint64_t)plan->regions - 1) && lies(n[1], 0, UINT64_MAX);
    case BEGIN:
        return lies(n[0], 0, (uint64_t)plan->ranks - 1) && lies(n[1], 0, MAX_KERNEL) &&
               lies(n[2], 0, UINT64_MAX);
    case END:
        return true;
    default:
        return lies(n[0], 0, (uint64_t)plan->regions - 1);
    }
}

/* Whether the line is one task or one access too many. */
static bool too_many(const struct plan *plan, const struct line *line) {
    return line->record == BEGIN
               ? plan->tasks == MAX_TASKS
               : is_access(line) && plan->task[plan->tasks - 1].accesses == MAX_ACCESSES;
}

static bool named_before(const struct reader *reader, const struct line *line) {
    if (line->record == START)
        return reader->started[line->number[0].value];
    if (!is_access(line))
        return false;
    const struct task *task = &reader->plan->task[reader->plan->tasks - 1];
    for (int a = 0; a < task->accesses; a++)
        if ((uint64_t)task->access[a].region == line->number[0].value)
            return true;
    return false;
}

/* The first refusal that fits a line in form, or 0. */
static int line_refusal(const struct reader *reader, const struct line *line) {
    const struct plan *plan = reader->plan;
    if ((line->record == LOOP) != (reader->lines == 0) ||
        (line->record == START && plan->tasks > 0))
        return 2;
    if (line->record == BEGIN && reader->open)
        return 4;
    if ((is_access(line) || line->record == END) && !reader->open)
        return 5;
    if (!within(plan, line))
        return 3;
    if (too_many(plan, line))
        return 10;
    if (named_before(reader, line))
        return 6;
    const struct task *last = plan->tasks > 0 ? &plan->task[plan->tasks - 1] : NULL;
    return line->record == END && !permitted(last->kernel, read_count(last)) ? 9 : 0;
}

/* Takes in a line that nothing refuses. */
static void take(struct reader *reader, const struct line *line) {
    struct plan *plan = reader->plan;
    const struct number *n = line->number;
    struct task *last;
    switch (line->record) {
    case LOOP:
        *plan = (struct plan){
            .passes = n[0].value, .ranks = (int)n[1].value, .regions = (int)n[2].value};
        break;
    case START:
        plan->start[n[0].value] = n[1].value;
        reader->started[n[0].value] = true;
        break;
    case BEGIN:
        plan->task[plan->tasks++] = (struct task){
            .rank = (int)n[0].value, .kernel = (int)n[1].value, .constant = n[2].value};
        reader->open = true;
        break;
    case END:
        reader->open = false;
        break;
    default:
        last = &plan->task[plan->tasks - 1];
        last->access[last->accesses++] =
            (struct access){(int)n[0].value, (enum mode)(line->record - ACCESS_IN)};
    }
}

/* What is left to refuse once every line is taken in. */
static int last_refusal(const struct reader *reader) {
    static struct wants wants;
    if (reader->lines == 0)
        return 2;
    if (reader->open)
        return 7;
    if (reader->plan->tasks == 0)
        return 8;
    return find_wants(reader->plan, &wants) > MAX_TRANSFERS ? 10 : 0;
}

struct reading read_text(const uint8_t *text, size_t length, struct plan *plan) {
    struct reader reader = {.plan = plan};
    plan->tasks = 0;
    if (length > TEXT_LIMIT)
        return (struct reading){10, 0};
    for (size_t from = 0; from < length;) {
        struct line line;
        const uint8_t *feed = memchr(text + from, '\n', length - from);
        int refusal = 1;
        if (feed != NULL &&
            line_of(records, RECORDS, text + from, (size_t)(feed - text) - from, &line))
            refusal = line_refusal(&reader, &line);
        if (refusal != 0)
            return (struct reading){refusal, reader.lines + 1};
        take(&reader, &line);
        reader.lines++;
        from = (size_t)(feed - text) + 1;
    }
    int refusal = last_refusal(&reader);
    return (struct reading){refusal, refusal == 0 ? 0 : reader.lines + 1};
}
