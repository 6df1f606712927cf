/* format FILE: prints a plan's written form, which all texts of the plan have in common. Exit
   status 0, 1 where the text is refused, 2 where anything else goes wrong. */
#include <inttypes.h>
#include <stdio.h>

#include "../include/taskiter.h"

static uint8_t text[TASKITER_MAX_BYTES + 1]; /* one more, so that a text too long is seen as such */
static uint64_t plan[TASKITER_PLAN_WORDS];
static uint8_t written[TASKITER_TEXT_BYTES];

int main(int argc, char **argv) {
    if (taskiter_version() != TASKITER_VERSION) {
        fprintf(stderr, "format: the runtime is not of its header's version\n");
        return 2;
    }
    FILE *file = argc == 2 ? fopen(argv[1], "rb") : NULL;
    if (file == NULL) {
        fprintf(stderr, "usage: format FILE\n");
        return 2;
    }
    size_t length = fread(text, 1, sizeof text, file);
    if (ferror(file)) {
        fprintf(stderr, "format: cannot read %s\n", argv[1]);
        return 2;
    }
    fclose(file);

    taskiter_reading reading = taskiter_read(text, length, plan, TASKITER_PLAN_WORDS);
    if (reading.refusal != 0) {
        printf("refused %" PRIu64 " %" PRIu64 "\n", reading.refusal, reading.line);
        return 1;
    }
    taskiter_number answer =
        taskiter_write(plan, TASKITER_PLAN_WORDS, written, TASKITER_TEXT_BYTES);
    size_t put = fwrite(written, 1, answer.number, stdout);
    return answer.refusal == 0 && put == answer.number && fflush(stdout) == 0 ? 0 : 2;
}
