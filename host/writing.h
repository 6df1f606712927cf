/* The written form of a plan, straight from the paper. It uses nothing of the runtime. */
#ifndef HOST_WRITING_H
#define HOST_WRITING_H

#include "plan.h"

/* The longest written form. */
enum { TEXT_BYTES = 18732 };

/* Puts the lines of the tasks, with a NUL behind them, and answers their length. */
int write_tasks(const struct plan *plan, char *text);

/* Puts the written form, with a NUL behind it, and answers its length. */
int write_text(const struct plan *plan, char *text);

#endif
