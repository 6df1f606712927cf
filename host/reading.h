/* What reading a text answers, straight from the paper's list of refusals 1 to 10. It uses nothing
   of the runtime. */
#ifndef HOST_READING_H
#define HOST_READING_H

#include <stddef.h>
#include <stdint.h>

#include "plan.h"

enum { TEXT_LIMIT = 32768 };

/* Refusal and line are 0 where the text is accepted. */
struct reading {
    int refusal, line;
};

/* Reads a text. The plan is the text's where it is accepted, and nothing to use otherwise. */
struct reading read_text(const uint8_t *text, size_t length, struct plan *plan);

#endif
