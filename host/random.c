/* A host that chooses at random: random [FILE|- [SEED]]. It plays the plan in the file, or a random
   one, by trying starts and finishes of any item until the loop is complete. Prints the steps
   taken, the tries refused and the values. Exit status 0 where each word and value is the unrolled
   loop's. */
#include <inttypes.h>
#include <stdio.h>
#include <stdlib.h>

#include "play.h"

int main(int argc, char **argv) {
    static struct play play;
    struct rng rng = rng_of(argc > 2 ? strtoull(argv[2], NULL, 10) : 1, 0);
    if (!play_begin(&play, argc > 1 ? argv[1] : NULL, &rng))
        return 1;
    while (play.steps < play.total) {
        int item = draw_below(&rng, play.items);
        if (draw_below(&rng, 2) == 0)
            play_start(&play, item);
        else
            play_finish(&play, item);
    }
    printf("items %d\nsteps %" PRIu64 "\nrefused tries %" PRIu64 "\n", play.items, play.steps,
           play.refused);
    return play_end(&play);
}
