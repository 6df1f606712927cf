/* Prints the text of a plan that the benchmarks read: plan_text NAME [PASSES]. Without a number it has the passes of bench/plans.h. */
#include <stdlib.h>

#include "plans.h"

static char text[TEXT_ROOM];

int main(int argc, char **argv) {
    int length = argc > 1 ? named_plan(text, argv[1]) : 0;
    if (length == 0) {
        fprintf(stderr, "plan_text NAME [PASSES]: example, largest, shorter, items, items2, walk, blocks or line\n");
        return 2;
    }
    if (argc > 2)
        length = with_passes(text, length, strtoull(argv[2], NULL, 10));
    return fwrite(text, 1, (size_t)length, stdout) == (size_t)length ? 0 : 1;
}
