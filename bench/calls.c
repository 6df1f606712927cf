/* Makes one call, for an instruction count of it: calls (read|form|items|edges|prepare|total)
   PLAN, or calls write PLAN [LENGTH], where the text slice has this length, else
   TASKITER_TEXT_BYTES, or calls read (name|number), where the text is a line with one long field.
   Prints what the count is set against: the text's length, or the number that the call answers;
   where writing is refused, the refusal. */
#include <stdbool.h>
#include <stddef.h>
#include <stdint.h>
#include <stdlib.h>

#include "../include/taskiter.h"
#include "plans.h"

enum { FIELD_BYTES = 32700 };

bool bench_in_form(const uint64_t *plan, size_t words);

static char text[TEXT_ROOM];
static uint64_t plan[TASKITER_PLAN_WORDS];
static uint16_t items[TASKITER_MAX_ITEMS];
static uint32_t list[TASKITER_EDGE_NUMBERS];
static uint16_t tables[TASKITER_PREPARED];
static uint8_t written[TASKITER_TEXT_BYTES];

/* Puts a line that is refused with 1 for its last field, which has FIELD_BYTES bytes; gives its
   length, and 0 where the name is another. */
static int put_field(const char *name) {
    bool letters = strcmp(name, "name") == 0;
    if (!letters && strcmp(name, "number") != 0)
        return 0;
    int at = put(text, 0, letters ? "" : "start\t0\t");
    memset(text + at, letters ? 'x' : '7', FIELD_BYTES);
    return put(text, at + FIELD_BYTES, "\n");
}

/* Writes the plan into the first bytes of `written`; gives the length of its text, or the
   refusal. */
static uint64_t write_plan(size_t length) {
    taskiter_number answer = taskiter_write(plan, TASKITER_PLAN_WORDS, written, length);
    return answer.refusal == 0 ? answer.number : answer.refusal;
}

int main(int argc, char **argv) {
    if (argc < 3)
        return 2;
    int field = put_field(argv[2]);
    int length = field > 0 ? field : named_plan(text, argv[2]);
    taskiter_reading answer =
        taskiter_read((const uint8_t *)text, (size_t)length, plan, TASKITER_PLAN_WORDS);
    if (answer.refusal != (field > 0 ? 1 : 0)) {
        fprintf(stderr, "refused %" PRIu64 " %" PRIu64 "\n", answer.refusal, answer.line);
        return 1;
    }
    uint64_t shown = (uint64_t)length;
    if (strcmp(argv[1], "form") == 0)
        shown = bench_in_form(plan, TASKITER_PLAN_WORDS);
    if (strcmp(argv[1], "items") == 0)
        shown = taskiter_items(plan, TASKITER_PLAN_WORDS, items, TASKITER_MAX_ITEMS).number;
    if (strcmp(argv[1], "edges") == 0)
        shown = taskiter_edges(plan, TASKITER_PLAN_WORDS, list, TASKITER_EDGE_NUMBERS).number;
    if (strcmp(argv[1], "prepare") == 0)
        shown = taskiter_prepare(plan, TASKITER_PLAN_WORDS, tables, TASKITER_PREPARED).number;
    if (strcmp(argv[1], "total") == 0)
        shown = taskiter_total(plan, TASKITER_PLAN_WORDS).number;
    if (strcmp(argv[1], "write") == 0)
        shown = write_plan(argc > 3 ? strtoull(argv[3], NULL, 10) : TASKITER_TEXT_BYTES);
    printf("%" PRIu64 "\n", shown);
    return 0;
}
