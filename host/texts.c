/* The groups of stress that read texts. */
#include <inttypes.h>
#include <stdio.h>
#include <stdlib.h>
#include <string.h>

#include "groups.h"

/* Bytes that stand in texts, for damage that is not refused at once. */
static uint8_t draw_byte(struct rng *rng) {
    static const char usual[] = "0123456789\t\n \r-loopstartbegininoutend";
    return draw_below(rng, 4) == 0 ? (uint8_t)draw(rng)
                                   : (uint8_t)usual[draw_below(rng, (int)sizeof usual - 1)];
}

/* Where the line begins that holds the byte, and where the next one does. */
static size_t line_start(const uint8_t *text, size_t at) {
    while (at > 0 && text[at - 1] != '\n')
        at--;
    return at;
}

static size_t line_end(const uint8_t *text, size_t length, size_t at) {
    while (at < length && text[at] != '\n')
        at++;
    return at < length ? at + 1 : length;
}

/* A byte of the text not far from another. */
static size_t draw_near(struct rng *rng, size_t length, size_t at) {
    size_t from = at > 30 ? at - 30 : 0, to = at + 30 < length ? at + 30 : length;
    return from + (size_t)draw_below(rng, (int)(to - from));
}

/* Puts some bytes, which may be some of the text, in place of those from `from` to `to`. */
static size_t replace(uint8_t *text, size_t length, size_t from, size_t to, const void *bytes,
                      size_t size) {
    static uint8_t kept[2 * TEXT_ROOM];
    memcpy(kept, bytes, size);
    memmove(text + from + size, text + to, length - to);
    memcpy(text + from, kept, size);
    return length - (to - from) + size;
}

static size_t drop_stretch(uint8_t *text, size_t length, size_t from, size_t to) {
    return replace(text, length, from, to, text, 0);
}

/* Puts a line once more, at the start of another that is not far. */
static size_t double_line(struct rng *rng, uint8_t *text, size_t length, size_t at) {
    size_t from = line_start(text, draw_near(rng, length, at)), to = line_start(text, at);
    return replace(text, length, to, to, text + from, line_end(text, length, from) - from);
}

/* Puts a line behind the next one. */
static size_t swap_lines(uint8_t *text, size_t length, size_t at) {
    static uint8_t line[2 * TEXT_ROOM];
    size_t from = line_start(text, at), to = line_end(text, length, at), size = to - from;
    size_t next = line_end(text, length, to) - size;
    memcpy(line, text + from, size);
    length = drop_stretch(text, length, from, to);
    return replace(text, length, next, next, line, size);
}

/* Where the next line stands that begins with a letter, or the end of the text. */
static size_t next_line(const uint8_t *text, size_t length, size_t at, char letter) {
    while (at < length && text[at] != (uint8_t)letter)
        at = line_end(text, length, at);
    return at;
}

/* Puts the next task once more: a task too many where there are 128. */
static size_t double_task(uint8_t *text, size_t length, size_t at) {
    size_t from = next_line(text, length, line_start(text, at), 'b');
    size_t to = line_end(text, length, next_line(text, length, from, 'e'));
    return replace(text, length, to, to, text + from, to - from);
}

static bool is_digit(uint8_t byte) {
    return byte >= '0' && byte <= '9';
}

/* Puts another number in place of the next one: a small one, one at a limit or above it, or one out
   of form. */
static size_t change_number(struct rng *rng, uint8_t *text, size_t length, size_t at) {
    static const char *const numbers[] = {"0",
                                          "1",
                                          "2",
                                          "3",
                                          "4",
                                          "5",
                                          "6",
                                          "15",
                                          "16",
                                          "17",
                                          "127",
                                          "128",
                                          "129",
                                          "1000001",
                                          "4294967295",
                                          "4294967296",
                                          "4294967297",
                                          "1000000000000",
                                          "1000000000001",
                                          "18446744073709551615",
                                          "18446744073709551616",
                                          "99999999999999999999",
                                          "100000000000000000000",
                                          "00",
                                          "07",
                                          ""};
    const char *number = numbers[draw_below(rng, (int)(sizeof numbers / sizeof *numbers))];
    while (at < length && !is_digit(text[at]))
        at++;
    while (at > 0 && is_digit(text[at - 1]))
        at--;
    size_t to = at;
    while (to < length && is_digit(text[to]))
        to++;
    return replace(text, length, at, to, number, strlen(number));
}

/* Puts another record's name, or none that there is, in place of a line's. */
static size_t change_name(struct rng *rng, uint8_t *text, size_t length, size_t at) {
    static const char *const names[] = {"loop", "start", "begin", "in",
                                        "out",  "inout", "end",   "task"};
    const char *name = names[draw_below(rng, (int)(sizeof names / sizeof *names))];
    size_t from = line_start(text, at), to = from;
    while (to < length && text[to] >= 'a' && text[to] <= 'z')
        to++;
    return replace(text, length, from, to, name, strlen(name));
}

/* Gives the next task another kernel. */
static void change_kernel(struct rng *rng, uint8_t *text, size_t length, size_t at) {
    at = next_line(text, length, line_start(text, at), 'b');
    for (int tabs = 0; tabs < 2 && at < length; at++)
        tabs += text[at] == '\t';
    if (at < length)
        text[at] = (uint8_t)('0' + draw_below(rng, MAX_KERNEL + 2));
}

/* Damages a text, which is not empty, in one way about a byte and answers its length. */
static size_t damage_text(struct rng *rng, uint8_t *text, size_t length, size_t at) {
    uint8_t byte = draw_byte(rng);
    switch (draw_below(rng, 16)) {
    case 0:
        text[at] ^= (uint8_t)(1 << draw_below(rng, 8));
        return length;
    case 1:
        return at;
    case 2:
        return line_start(text, at);
    case 3:
        return drop_stretch(text, length, at, at + 1);
    case 4:
        return drop_stretch(text, length, line_start(text, at), line_end(text, length, at));
    case 5:
        return double_line(rng, text, length, at);
    case 6:
        return replace(text, length, at, at + 1, &byte, 1);
    case 7:
        return replace(text, length, at, at, &byte, 1);
    case 8:
        return swap_lines(text, length, at);
    case 9:
        return double_task(text, length, at);
    case 10:
        return change_name(rng, text, length, at);
    case 11:
    case 12:
        change_kernel(rng, text, length, at);
        return length;
    default:
        return change_number(rng, text, length, at);
    }
}

/* Damages a text once, or up to three times in about the same place, and answers its length. */
static size_t damage_often(struct rng *rng, uint8_t *text, size_t length) {
    size_t at = (size_t)draw_below(rng, (int)length);
    length = damage_text(rng, text, length, at);
    for (int more = draw_below(rng, 3); more > 0 && at < length; more--) {
        at = draw_near(rng, length, at);
        length = damage_text(rng, text, length, at);
    }
    return length;
}

/* Reads a text into a slice that is long enough and holds anything. An accepted text's plan opens,
   and is written as a text that is read to it again. */
static struct reading try_text(struct trial *trial, struct rng *rng, const uint8_t *text,
                               size_t length) {
    size_t enough = PLAN_WORDS + (size_t)(trial->calls % GUARD);
    fill_memory(trial, rng);
    struct reading reading = try_read(trial, text, length, enough);
    if (reading.refusal == 0 && try_call(trial, OPEN_CALL, least, 0).refusal != 0)
        differ(trial, "a plan that was read does not open");
    if (reading.refusal == 0)
        try_back(trial, rng);
    return reading;
}

/* Texts of a length at the limit, one above it and about it: a line out of form follows a plan's,
   and the last text ends it. */
static void try_long_texts(struct trial *trial, struct rng *rng, uint8_t *text, size_t length) {
    size_t about = TEXT_LIMIT - 8 + (size_t)draw_below(rng, 16);
    memset(text + length, '7', TEXT_LIMIT + 16 - length);
    try_text(trial, rng, text, TEXT_LIMIT);
    try_text(trial, rng, text, TEXT_LIMIT + 1);
    text[about] = '\n';
    try_text(trial, rng, text, about + 1);
}

/* A ninth access: of a region named before, of another, or of none that there is. */
static int put_accesses(struct rng *rng, char *text) {
    int at = sprintf(text, "loop\t1\t1\t9\nbegin\t0\t1\t0\n");
    for (int g = 0; g < MAX_ACCESSES; g++)
        at += sprintf(text + at, "inout\t%d\n", g);
    return at + sprintf(text + at, "in\t%d\nend\n", draw_below(rng, 11));
}

/* A 129th `begin`, of a rank that there is or not, with a task open or not. */
static int put_tasks(struct rng *rng, char *text) {
    int at = sprintf(text, "loop\t1\t1\t1\n");
    for (int i = 0; i < MAX_TASKS; i++)
        at += sprintf(text + at, "begin\t0\t0\t0\n%s",
                      i < MAX_TASKS - 1 || draw_below(rng, 2) == 0 ? "end\n" : "");
    return at + sprintf(text + at, "begin\t%d\t0\t0\nend\n", draw_below(rng, 2));
}

/* A record out of place, with numbers within their limits or not. */
static int put_misplaced(struct rng *rng, char *text) {
    static const char *const records[] = {"loop\t1\t%d\t1\n", "start\t%d\t0\n", "begin\t%d\t0\t0\n",
                                          "in\t%d\n", "end\n"};
    int at = draw_below(rng, 4) == 0 ? 0 : sprintf(text, "loop\t1\t1\t1\n");
    for (int more = 1 + draw_below(rng, 4); more > 0; more--)
        at += sprintf(text + at, records[draw_below(rng, 5)], draw_below(rng, 2));
    return at;
}

/* Lines that more than one refusal fits: the order within a line decides. */
static void try_limits(struct trial *trial, struct rng *rng) {
    static char text[TEXT_ROOM];
    try_text(trial, rng, (const uint8_t *)text, (size_t)put_accesses(rng, text));
    try_text(trial, rng, (const uint8_t *)text, (size_t)put_misplaced(rng, text));
    if (trial->number % 8 == 0)
        try_text(trial, rng, (const uint8_t *)text, (size_t)put_tasks(rng, text));
}

/* The cases that the paper lists without a star, by the numbers that they turn on, with the answers
   that it gives; among them some more numbers of passes. The last task is open or not. */
static const struct {
    uint64_t passes;
    int ranks, accesses, tasks;
    bool open;
    struct reading reading;
} listed[] = {
    {1000000000000, 16, 0, 1, false, {0, 0}},
    {1000000000001, 16, 0, 1, false, {3, 1}},
    {1000000000000, 17, 0, 1, false, {3, 1}},
    {1000000, 1, 0, 1, false, {0, 0}},
    {1000001, 1, 0, 1, false, {0, 0}},
    {4294967295, 1, 0, 1, false, {0, 0}},
    {4294967296, 1, 0, 1, false, {0, 0}},
    {4294967297, 1, 0, 1, false, {0, 0}},
    {UINT64_MAX, 1, 0, 1, false, {3, 1}},
    {1, 1, 8, 1, false, {0, 0}},
    {1, 1, 9, 1, false, {10, 11}},
    {1, 1, 0, 128, false, {0, 0}},
    {1, 1, 0, 129, false, {10, 258}},
    {1, 1, 0, 1, true, {7, 3}},
};

/* The text of case k. */
static int put_listed(char *text, int k) {
    int at = sprintf(text, "loop\t%" PRIu64 "\t%d\t9\n", listed[k].passes, listed[k].ranks);
    for (int i = 0; i < listed[k].tasks; i++) {
        at += sprintf(text + at, "begin\t0\t1\t0\n");
        for (int g = 0; g < listed[k].accesses; g++)
            at += sprintf(text + at, "in\t%d\n", g);
        at += sprintf(text + at, "%s", listed[k].open ? "" : "end\n");
    }
    return at;
}

static void try_listed(struct trial *trial, struct rng *rng, const char *text, int length,
                       struct reading expected) {
    struct reading got = try_text(trial, rng, (const uint8_t *)text, (size_t)length);
    if (got.refusal != expected.refusal || got.line != expected.line)
        differ(trial, "a case of the paper is refused with %d, line %d, expected %d, line %d",
               got.refusal, got.line, expected.refusal, expected.line);
}

void paper_group(struct trial *trial, struct rng *rng) {
    static char text[TEXT_ROOM];
    for (int k = 0; k < (int)(sizeof listed / sizeof *listed); k++) {
        try_listed(trial, rng, text, put_listed(text, k), listed[k].reading);
        if (listed[k].reading.refusal == 0 && trial->lent.plan[0] != listed[k].passes)
            differ(trial, "the plan has %" PRIu64 " passes, its text %" PRIu64, trial->lent.plan[0],
                   listed[k].passes);
    }
    for (int k = 0; k < 2; k++)
        try_listed(trial, rng, text, 0, (struct reading){2, 1});
}

void reading_group(struct trial *trial, struct rng *rng) {
    static char text[TEXT_ROOM];
    static uint8_t damaged[2 * TEXT_ROOM];
    static struct plan plan;
    draw_body(rng, size_of(trial->number), &plan);
    try_text(trial, rng, (const uint8_t *)text, (size_t)draw_text(rng, &plan, text));
    drop_reads(rng, &plan);
    size_t length = (size_t)draw_text(rng, &plan, text);
    try_text(trial, rng, (const uint8_t *)text, length);
    for (int k = 0; k < 12; k++) {
        memcpy(damaged, text, length);
        size_t left = damage_often(rng, damaged, length);
        try_text(trial, rng, damaged, left);
    }
    memcpy(damaged, text, length);
    try_long_texts(trial, rng, damaged, length);
    try_limits(trial, rng);
}

static bool is_separator(uint8_t byte) {
    return byte == '\t' || byte == '\n';
}

/* A separator of the text, by its place. */
static size_t draw_separator(struct rng *rng, const uint8_t *text, size_t length) {
    size_t at = (size_t)draw_below(rng, (int)length);
    while (!is_separator(text[at]))
        at = (at + 1) % length;
    return at;
}

/* A byte that a search could take for this separator: one bit of it changed, the other separator,
   any above 127, or any. */
static uint8_t draw_like(struct rng *rng, uint8_t separator) {
    switch (draw_below(rng, 4)) {
    case 0:
        return separator ^ (uint8_t)(1 << draw_below(rng, 8));
    case 1:
        return separator == '\t' ? '\n' : '\t';
    case 2:
        return (uint8_t)draw(rng) | 0x80;
    default:
        return (uint8_t)draw(rng);
    }
}

/* Changes a text about a separator and answers its length. Puts bytes that a search could take for
   it, or digits, in its place, before it or behind it; or cuts the text before it or behind it. */
static size_t change_separator(struct rng *rng, uint8_t *text, size_t length) {
    uint8_t bytes[40];
    size_t at = draw_separator(rng, text, length);
    size_t size = 1 + (size_t)draw_below(rng, draw_below(rng, 2) == 0 ? 2 : (int)sizeof bytes);
    bool digits = draw_below(rng, 4) == 0;
    for (size_t k = 0; k < size; k++)
        bytes[k] = digits ? (uint8_t)('1' + draw_below(rng, 9)) : draw_like(rng, text[at]);
    switch (draw_below(rng, 5)) {
    case 0:
        return replace(text, length, at, at, bytes, size);
    case 1:
        return replace(text, length, at + 1, at + 1, bytes, size);
    case 2:
        return at + (size_t)draw_below(rng, 2);
    default:
        text[at] = bytes[0];
        return length;
    }
}

/* Reads a text from a block that ends where the text ends, at any place in a word. */
static struct reading try_block(struct trial *trial, struct rng *rng, const uint8_t *text,
                                size_t length) {
    size_t from = (size_t)draw_below(rng, 8);
    uint8_t *block = room(from + length);
    memcpy(block + from, text, length);
    struct reading reading = try_text(trial, rng, block + from, length);
    free(block);
    return reading;
}

/* A word of any number of digits. */
static uint64_t draw_digits(struct rng *rng) {
    return draw(rng) >> draw_below(rng, 64);
}

void search_group(struct trial *trial, struct rng *rng) {
    static char text[TEXT_ROOM];
    static uint8_t changed[2 * TEXT_ROOM];
    static struct plan plan;
    draw_plan(rng, SMALL, &plan);
    plan.passes = draw_digits(rng) % (MAX_PASSES + 1);
    for (int g = 0; g < plan.regions; g++)
        plan.start[g] = draw_digits(rng);
    for (int i = 0; i < plan.tasks; i++)
        plan.task[i].constant = draw_digits(rng);
    size_t length = (size_t)draw_text(rng, &plan, text);
    if (try_block(trial, rng, (const uint8_t *)text, length).refusal != 0)
        differ(trial, "a plan's text is refused");
    for (int k = 0; k < 16; k++) {
        memcpy(changed, text, length);
        try_block(trial, rng, changed, change_separator(rng, changed, length));
    }
}
