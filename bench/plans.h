/* The plan texts that the benchmarks read. */
#ifndef PLANS_H
#define PLANS_H

#include <inttypes.h>
#include <stdio.h>
#include <string.h>

enum { TEXT_ROOM = 40000 };

#define MOST_PASSES UINT64_C(1000000000000)

static int put(char *text, int at, const char *line) {
    size_t length = strlen(line);
    memcpy(text + at, line, length);
    return at + (int)length;
}

static int put_loop(char *text, int at, uint64_t passes, int ranks, int regions) {
    char line[64];
    snprintf(line, sizeof line, "loop\t%" PRIu64 "\t%d\t%d\n", passes, ranks, regions);
    return put(text, at, line);
}

static int put_starts(char *text, int at, int regions) {
    for (int g = 0; g < regions; g++) {
        char line[64];
        snprintf(line, sizeof line, "start\t%d\t%" PRIu64 "\n", g, UINT64_MAX - (uint64_t)g);
        at = put(text, at, line);
    }
    return at;
}

static int put_begin(char *text, int at, int rank) {
    char line[64];
    snprintf(line, sizeof line, "begin\t%d\t1\t%" PRIu64 "\n", rank, UINT64_MAX);
    return put(text, at, line);
}

static int put_access(char *text, int at, const char *mode, int region) {
    char line[64];
    snprintf(line, sizeof line, "%s\t%d\n", mode, region);
    return put(text, at, line);
}

/* The paper's example on two ranks. */
static int example_plan(char *text) {
    return put(text, 0,
               "loop\t2\t2\t2\nstart\t0\t5\nbegin\t0\t1\t1\ninout\t0\nend\n"
               "begin\t1\t1\t0\nin\t0\ninout\t1\nend\n");
}

/* The largest text: 128 tasks of 8 `inout` accesses of regions with three digits, all starting values, the longest numbers. The tasks go
   round three ranks, each with seven regions of its own, and share region 127: 128 transfers. */
static int largest_plan(char *text) {
    int at = put_loop(text, 0, MOST_PASSES, 16, 128);
    at = put_starts(text, at, 128);
    for (int i = 0; i < 128; i++) {
        at = put_begin(text, at, 10 + i % 3);
        for (int a = 0; a < 7; a++)
            at = put_access(text, at, "inout", 100 + 7 * (i % 3) + a);
        at = put_access(text, at, "inout", 127);
        at = put(text, at, "end\n");
    }
    return at;
}

/* As many items as a plan may have: 128 tasks of 8 accesses round some ranks, each with six regions of its own and two that all share,
   so that the words of the shared ones change rank at every access: 256 transfers, 640 items. */
static int most_items_plan(char *text, int ranks) {
    int at = put_loop(text, 0, MOST_PASSES, ranks, 128);
    at = put_starts(text, at, 128);
    for (int i = 0; i < 128; i++) {
        at = put_begin(text, at, i % ranks);
        for (int a = 0; a < 6; a++)
            at = put_access(text, at, "inout", 6 * (i % ranks) + a);
        at = put_access(text, at, "inout", 126);
        at = put_access(text, at, "inout", 127);
        at = put(text, at, "end\n");
    }
    return at;
}

/* As many items, and long walks: 32 tasks on rank 0 write eight words each that a task on rank 1 reads, 256 transfers; before them stand 64
   tasks on rank 0 that read eight regions which nobody writes, so that no writer ends a walk from them. */
static int longest_walk_plan(char *text) {
    int at = put_loop(text, 0, MOST_PASSES, 2, 16);
    for (int i = 0; i < 64; i++) {
        at = put_begin(text, at, 0);
        for (int a = 0; a < 8; a++)
            at = put_access(text, at, "in", 8 + a);
        at = put(text, at, "end\n");
    }
    for (int i = 0; i < 64; i++) {
        at = put_begin(text, at, i % 2);
        for (int a = 0; a < 8; a++)
            at = put_access(text, at, i % 2 == 0 ? "out" : "in", a);
        at = put(text, at, "end\n");
    }
    return at;
}

/* Gauss-Seidel on 40 blocks, eight by five, over 16 ranks. */
static int blocks_plan(char *text) {
    enum { WIDTH = 8, HEIGHT = 5 };
    int at = put_loop(text, 0, 10, 16, WIDTH * HEIGHT);
    for (int y = 0; y < HEIGHT; y++)
        for (int x = 0; x < WIDTH; x++) {
            int block = y * WIDTH + x;
            at = put_begin(text, at, block * 16 / (WIDTH * HEIGHT));
            if (y > 0)
                at = put_access(text, at, "in", block - WIDTH);
            if (x > 0)
                at = put_access(text, at, "in", block - 1);
            if (x < WIDTH - 1)
                at = put_access(text, at, "in", block + 1);
            if (y < HEIGHT - 1)
                at = put_access(text, at, "in", block + WIDTH);
            at = put_access(text, at, "inout", block);
            at = put(text, at, "end\n");
        }
    return at;
}

/* Gauss-Seidel on 40 blocks in a line on one rank: a block reads itself and those beside it. */
static int line_plan(char *text) {
    enum { BLOCKS = 40 };
    int at = put_loop(text, 0, 10, 1, BLOCKS);
    for (int block = 0; block < BLOCKS; block++) {
        at = put_begin(text, at, 0);
        if (block > 0)
            at = put_access(text, at, "in", block - 1);
        if (block < BLOCKS - 1)
            at = put_access(text, at, "in", block + 1);
        at = put_access(text, at, "inout", block);
        at = put(text, at, "end\n");
    }
    return at;
}

/* Gives a plan's text another number of passes, in its first line, and answers its length. */
static inline int with_passes(char *text, int length, uint64_t passes) {
    char line[64];
    int from = (int)strlen("loop\t"), to = from;
    while (text[to] != '\t')
        to++;
    int size = snprintf(line, sizeof line, "%" PRIu64, passes);
    memmove(text + from + size, text + to, (size_t)(length - to));
    memcpy(text + from, line, (size_t)size);
    return length - (to - from) + size;
}

/* A plan by its name; 0 if there is none. */
static int named_plan(char *text, const char *name) {
    if (strcmp(name, "example") == 0)
        return example_plan(text);
    if (strcmp(name, "largest") == 0)
        return largest_plan(text);
    if (strcmp(name, "shorter") == 0) /* by one byte than the largest */
        return with_passes(text, largest_plan(text), MOST_PASSES - 1);
    if (strcmp(name, "items") == 0)
        return most_items_plan(text, 16);
    if (strcmp(name, "items2") == 0)
        return most_items_plan(text, 2);
    if (strcmp(name, "walk") == 0)
        return longest_walk_plan(text);
    if (strcmp(name, "blocks") == 0)
        return blocks_plan(text);
    if (strcmp(name, "line") == 0)
        return line_plan(text);
    return 0;
}

#endif
