/* A line of a text as its first field, which is the name of a record, and the numbers behind it:
   for plan texts and for journals. It uses nothing of the runtime. */
#ifndef HOST_FIELDS_H
#define HOST_FIELDS_H

#include <stdbool.h>
#include <stddef.h>
#include <stdint.h>

enum { MAX_NUMBERS = 3 };

/* A kind of line: its name, and how many numbers follow it. */
struct record {
    const char *name;
    int numbers;
};

/* A number of a line; `beyond` says that it is above 2^64 − 1. */
struct number {
    uint64_t value;
    bool beyond;
};

/* Which of some records a line is, and its numbers. */
struct line {
    int record;
    struct number number[MAX_NUMBERS];
};

/* Whether the bytes, which end before a line feed, are a line in form: the name of one of so many
   records, and behind it its numbers, each behind one tab. */
bool line_of(const struct record *records, int count, const uint8_t *bytes, size_t length,
             struct line *line);

#endif
