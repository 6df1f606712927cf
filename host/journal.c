/* Journals, written and checked.

   journal write PLAN [SEED] plays a plan to its end in a random order and prints its journal.
   journal check PLAN JOURNAL [BYTES] checks the journal in a file of any size, in pieces of at most
   so many bytes, 65,536 if no number is given. Prints `complete` and each region's number, or
   `unfinished`; or `refused`, the number and the line.

   Exit status 0; 1 where the plan or the journal is refused; 2 where one cannot be read, the
   journal cannot be written, or the call is none of these. */
#include <inttypes.h>
#include <stdbool.h>
#include <stdio.h>
#include <stdlib.h>
#include <string.h>

#include "../include/taskiter.h"
#include "draw.h"

/* No line in form has more than 48 bytes, so a piece of LEAST_BYTES that has no line feed is
   refused. */
enum { LEAST_BYTES = 64, MOST_BYTES = 65536 };

static uint64_t plan[TASKITER_PLAN_WORDS];
static TASKITER_COUNT_TYPE counts[TASKITER_COUNTS];
static uint64_t values[TASKITER_VALUES];
static uint16_t tables[TASKITER_PREPARED], freed[TASKITER_FREED];

/* The items that can take a step: first those that are ready, behind them those that run. */
static uint16_t free_item[TASKITER_MAX_ITEMS];
static int ready, running;

static FILE *open_file(const char *name) {
    FILE *file = fopen(name, "rb");
    if (file == NULL) {
        perror(name);
        exit(2);
    }
    return file;
}

/* Prints a refusal and its line, and ends the program. */
static void refuse(uint64_t refusal, uint64_t line) {
    printf("refused %" PRIu64 " %" PRIu64 "\n", refusal, line);
    exit(1);
}

static void read_plan(const char *name) {
    static uint8_t text[TASKITER_MAX_BYTES + 1];
    FILE *file = open_file(name);
    size_t length = fread(text, 1, sizeof text, file);
    if (ferror(file)) {
        perror(name);
        exit(2);
    }
    fclose(file);
    taskiter_reading reading = taskiter_read(text, length, plan, TASKITER_PLAN_WORDS);
    if (reading.refusal != 0)
        refuse(reading.refusal, reading.line);
}

/* A step of an item that is free is not refused. */
static uint64_t accepted(taskiter_answer answer) {
    if (answer.refusal != 0) {
        fprintf(stderr, "journal: a step is refused with %" PRIu64 "\n", answer.refusal);
        exit(2);
    }
    return answer.word;
}

/* Starts the item at place k, which is ready, and puts it behind the ready ones. */
static void start_at(int k) {
    uint16_t item = free_item[k];
    uint64_t word = accepted(taskiter_start_prepared(
        plan, TASKITER_PLAN_WORDS, tables, TASKITER_PREPARED, counts, TASKITER_COUNTS, values,
        TASKITER_VALUES, item));
    free_item[k] = free_item[--ready];
    free_item[ready] = item;
    running++;
    printf("start\t%d\t%" PRIu64 "\n", item, word);
}

/* Finishes the item at place k, which runs, and puts those that it makes ready to the others. */
static void finish_at(int k) {
    uint16_t item = free_item[k];
    accepted(taskiter_finish_freeing(plan, TASKITER_PLAN_WORDS, tables, TASKITER_PREPARED, counts,
                                     TASKITER_COUNTS, values, TASKITER_VALUES, freed,
                                     TASKITER_FREED, item));
    free_item[k] = free_item[ready + --running];
    for (int f = 1; f <= freed[0]; f++) {
        free_item[ready + running] = free_item[ready];
        free_item[ready++] = freed[f];
    }
    printf("finish\t%d\n", item);
}

static int write_journal(uint64_t seed) {
    struct rng rng = rng_of(seed, 0);
    taskiter_open(plan, TASKITER_PLAN_WORDS, counts, TASKITER_COUNTS, values, TASKITER_VALUES);
    taskiter_prepare(plan, TASKITER_PLAN_WORDS, tables, TASKITER_PREPARED);
    ready = (int)taskiter_ready(plan, TASKITER_PLAN_WORDS, counts, TASKITER_COUNTS, values,
                                TASKITER_VALUES, free_item, TASKITER_MAX_ITEMS)
                .number;
    while (ready + running > 0) {
        int k = draw_below(&rng, ready + running);
        if (k < ready)
            start_at(k);
        else
            finish_at(k);
    }
    if (fflush(stdout) != 0 || ferror(stdout)) {
        perror("journal");
        return 2;
    }
    return 0;
}

/* How many bytes stand up to the last line feed, with it; 0 where there is none. */
static size_t whole_lines(const uint8_t *bytes, size_t length) {
    while (length > 0 && bytes[length - 1] != '\n')
        length--;
    return length;
}

static uint64_t count_lines(const uint8_t *bytes, size_t length) {
    uint64_t lines = 0;
    for (size_t k = 0; k < length; k++)
        lines += bytes[k] == '\n';
    return lines;
}

/* Checks one piece of a journal, the first one from an opening. */
static taskiter_number check_piece(const uint8_t *piece, size_t length, bool more) {
    return more ? taskiter_check_more(plan, TASKITER_PLAN_WORDS, counts, TASKITER_COUNTS, values,
                                      TASKITER_VALUES, piece, length)
                : taskiter_check(plan, TASKITER_PLAN_WORDS, counts, TASKITER_COUNTS, values,
                                 TASKITER_VALUES, piece, length);
}

/* Checks the journal of a file, piece by piece. Whether the loop is then complete. */
static bool check_file(const char *name, size_t bytes) {
    static uint8_t piece[MOST_BYTES];
    FILE *file = open_file(name);
    uint64_t lines = 0;
    size_t held = 0;
    for (bool more = false;; more = true) {
        held += fread(piece + held, 1, bytes - held, file);
        if (ferror(file)) {
            perror(name);
            exit(2);
        }
        bool last = held < bytes;
        size_t length = whole_lines(piece, held);
        if (last || length == 0)
            length = held;
        taskiter_number answer = check_piece(piece, length, more);
        if (answer.refusal != 0)
            refuse(answer.refusal, lines + answer.number);
        if (last) {
            fclose(file);
            return answer.number == 1;
        }
        lines += count_lines(piece, length);
        held -= length;
        memmove(piece, piece + length, held);
    }
}

static int check_journal(const char *name, size_t bytes) {
    if (!check_file(name, bytes)) {
        printf("unfinished\n");
        return 0;
    }
    printf("complete\n");
    for (uint64_t region = 0; region < plan[2]; region++)
        printf("value %" PRIu64 " %" PRIu64 "\n", region,
               taskiter_result(plan, TASKITER_PLAN_WORDS, counts, TASKITER_COUNTS, values,
                               TASKITER_VALUES, region)
                   .word);
    return 0;
}

int main(int argc, char **argv) {
    bool writes = argc >= 3 && argc <= 4 && strcmp(argv[1], "write") == 0;
    bool checks = argc >= 4 && argc <= 5 && strcmp(argv[1], "check") == 0;
    char *end = "";
    uint64_t number = argc > 3 + checks ? strtoull(argv[3 + checks], &end, 10)
                                        : (checks ? MOST_BYTES : 1);
    if (!(writes || checks) || *end != '\0' ||
        (checks && (number < LEAST_BYTES || number > MOST_BYTES))) {
        fprintf(stderr, "usage: journal write PLAN [SEED] or journal check PLAN JOURNAL [BYTES], "
                        "%d to %d bytes\n",
                LEAST_BYTES, MOST_BYTES);
        return 2;
    }
    read_plan(argv[2]);
    return writes ? write_journal(number) : check_journal(argv[3], (size_t)number);
}
