/* taskiter: a proved runtime for iterative task loops.

   A plan text gives one loop body as tasks on ranks, with the regions that they read and write; a
   region is one 64-bit word. The runtime adds a send and a receive for each word that another rank
   reads. These, with the tasks, are the items. It draws the cyclic graph of the taskiter rule:
   which item waits for which, within a pass of the loop and from one pass to the next. The host
   calls taskiter_read once for each plan, taskiter_open once for each run, and then taskiter_start
   and taskiter_finish in whatever order it likes, pass after pass, until every item has finished
   its passes; then taskiter_result gives each region's number. Whatever the order of the calls,
   every word answered is the one of the loop unrolled and run in order. A host that takes many
   steps of one plan prepares it once, by taskiter_prepare, and starts and finishes by the tables:
   such a step looks at the words of its own item, and at no other item's but the numbers that a
   finish lowers. A journal says in text which steps somebody took of a plan, and with which words;
   taskiter_check tells whether they keep to the plan.

   An item has the passes of the plan, with one exception. A transfer brings a task's word to
   another rank, and serves the reads there that take that word. It is wrapped when each of them
   stands at or before the writer in the body: the word is read in the next pass alone. In the last
   pass it is not made. So its send and its receive have one pass fewer than the plan, and none
   where the plan has none.

   The runtime computes: a start computes the word by the task's kernel, a finish writes it. The
   host chooses the order. Each rank has a copy of each region, each transfer a slot between its
   send and its receive, and each item a word that it holds; copies and slots are the places that
   items read and write. All of them lie in the lent values. Real threads and messages are the
   host's.

   All memory is the host's. The runtime keeps nothing between calls and allocates nothing.

   Duties of the host, for every call:
     - each slice is as long as the call says, in elements, and aligned for its type; where its
       length is 0 it may be NULL;
     - the slices of one call do not overlap;
     - calls come one after another (docs/HOST.md says more of threads).
   With these kept every call ends and does nothing undefined, whatever the slices hold. For the
   words to be those of the unrolled loop, besides:
     - from an accepted opening of the plan on, plan and state come to a call as the call before
       left them; a check of a journal that is not refused for 11 or 12 opens, too;
     - the tables are those that taskiter_prepare made of this plan.
   The ordinary calls, which are all but the steps by tables, refuse words that reading leaves for
   no text, and counts out of form (docs/LAYOUT.md), with 12. A state that was never opened, or
   belongs to another plan, may pass this test, as one of zeros does. So may one that an earlier
   version left: it has no numbers of unmet waits, and is judged by the words that stand in their
   place (docs/HOST.md, "Numbers of unmet waits"). A step by tables tests less: only the words that
   it uses (docs/HOST.md, "Prepared plans").

   An answer carries a refusal number. 0 says that the call is accepted, and only then is the word
   to be used. A refused call changes nothing, with two exceptions: where taskiter_read refuses a
   text for 1 to 10, the plan becomes zeros; where a journal is refused for 20 or 21, the state
   stands after the lines before that line. The numbers:

      1  a line not in form, or without its line feed  11  a slice too short
      2  no `loop` first, or a record out of place     12  the plan is not one that reading leaves,
      3  a number out of its limits                        or the counts of an item are out of form;
      4  `begin` while a task is open                      by tables: a word is out of its range
      5  an access or `end` with no task open          13  item or region number too large
      6  a region named twice                          14  start: no pass left to finish
      7  the text ends with a task open                15  start: the item is running
      8  the text ends with no task                    16  start: the item has unmet waits
      9  wrong number of reads for the kernel          17  finish: the item is not running
     10  too long, too many tasks, accesses or         18  result: the loop is not complete
         transfers                                     19  write: the text slice is too short for
                                                           this text
                                                       20  journal: a line not in form
                                                       21  journal: the step of a line is refused,
                                                           or answers another word

   docs/HOST.md says what a host does about each, docs/LAYOUT.md what stands where in the slices. */
#ifndef TASKITER_H
#define TASKITER_H

#include <stddef.h>
#include <stdint.h>

#ifdef __cplusplus
extern "C" {
#endif

/* The version of this header. Numbers, types and layouts change between versions under the same
   names. So a host asks once, before its other calls, whether taskiter_version answers
   TASKITER_VERSION: then the runtime that it is linked with has the version of the header that it
   was compiled with. CHANGELOG.md says what each version changes. */
#define TASKITER_VERSION 6
uint64_t taskiter_version(void);

/* A text has at most so many bytes. It has no NUL at its end: one that is counted is a line not in
   form. */
#define TASKITER_MAX_BYTES 32768

/* The least lengths of the lent slices, in elements: the same for all plans. What lies behind them
   is neither read nor changed. */
#define TASKITER_PLAN_WORDS 1668 /* uint64_t: 13,344 bytes */
#define TASKITER_COUNTS 1920     /* TASKITER_COUNT_TYPE: 15,360 bytes */
#define TASKITER_VALUES 3328     /* uint64_t: 26,624 bytes */

/* The longest text that taskiter_write writes, in bytes. A text slice of this length is enough for
   every plan; a shorter one is enough for a plan whose text it holds. */
#define TASKITER_TEXT_BYTES 18732

/* The type of a count: a plan has at most 1,000,000,000,000 passes. Hosts use this name. */
#define TASKITER_COUNT_TYPE uint64_t

/* In the counts item a has its started passes at a, its finished passes at TASKITER_FIRST_FINISHED
   + a, and at TASKITER_FIRST_UNMET + a its number of unmet waits: how many of its waits for the
   first pass that it has not finished are unmet, 0 once its passes are done. Opening sets the
   numbers, each finish moves them on, and a start goes by its item's own. A number above the number
   of items is out of form. */
#define TASKITER_FIRST_FINISHED 640
#define TASKITER_FIRST_UNMET 1280

/* No plan has more items than this: their numbers lie below it. */
#define TASKITER_MAX_ITEMS 640

/* The least length of a slice for the edges, three numbers each: no plan has more than 4,224.
   50,688 bytes. */
#define TASKITER_EDGE_NUMBERS 12672

/* The least lengths of the slices for prepared plans: the tables, and the list of the items that a
   finish made ready, which begins with their number. */
#define TASKITER_PREPARED 17666 /* uint16_t: 35,332 bytes */
#define TASKITER_FREED 641      /* uint16_t: 1,282 bytes */

/* Refusal 0: the text is accepted, and line is 0. Else the refusal (1 to 11) and the line that it
   is for: the first line is 1; a refusal at the end of the text is for one line past the last; 0
   where no line was looked at (a text too long, a slice too short). */
typedef struct {
    uint64_t refusal;
    uint64_t line;
} taskiter_reading;

/* Refusal 0: accepted, and the word is the answer, which may be any 64-bit number, 0 too. Else the
   refusal (11 to 18), and the word is 0. */
typedef struct {
    uint64_t refusal;
    uint64_t word;
} taskiter_answer;

/* Refusal 0: accepted, and the number. Else the refusal, and the number is 0, but for 20 and 21,
   where it is the line of a journal. */
typedef struct {
    uint64_t refusal;
    uint64_t number;
} taskiter_number;

/* Reads a text into the plan.
   Accepted: the first TASKITER_PLAN_WORDS words of the plan are written. Refused for 1 to 10: they
   are zeros. Refused for 11, when the plan is too short: nothing is changed. An empty text may be
   (NULL, 0). */
taskiter_reading taskiter_read(const uint8_t *text, size_t text_length, uint64_t *plan,
                               size_t plan_length);

/* Writes the plan as a text, in the written form: the `loop` line, then a `start` line for each
   region whose value is not 0, regions rising, then the tasks in order with their accesses as the
   plan holds them. Reading the text gives the same plan. Two plans have the same text exactly if
   they are the same plan. Accepted texts are read to the same plan exactly if they differ only in
   the order of their `start` lines and in `start` lines with the value 0.

   Accepted: the text stands at the start of the slice, the number is its length in bytes, and what
   lies behind it is left as it is. It has no NUL at its end. Refused, in this order, for 11 where
   the plan is too short, for 12, or for 19 where the slice is shorter than this plan's text; then
   the number is 0 and nothing is changed. A text slice may be (NULL, 0), and is then too short. */
taskiter_number taskiter_write(const uint64_t *plan, size_t plan_length, uint8_t *text,
                               size_t text_length);

/* The items of the plan and the edges between them, for a host that wants to know what a step is,
   where it belongs and what it may free.

   taskiter_items puts a number n for each item into a slice of at least TASKITER_MAX_ITEMS, and
   answers how many items there are. The macros below take n apart. The kind is 0 for a task, 1 for
   a send, 2 for a receive; the number is the task's, or the region that is sent.
   TASKITER_ITEM_FEWER(n) is 1 for the two items of a wrapped transfer, else 0, whatever the passes:
   the item has so many passes fewer than the plan, and none where the plan has none. Items are
   numbered from 0: each task, then its sends, each with its receive right behind it.
   taskiter_edges puts from, to and distance of each edge into a slice of at least
   TASKITER_EDGE_NUMBERS, in that order, and answers how many edges there are. An item waits for the
   source of each edge into it: at distance 0 in the same pass, at distance 1 in the pass before.
   The edges do not depend on the passes: a wait for a pass that the source does not have counts as
   met. What lies behind the last number is left as it is. Refused for 11 or 12, with number 0 and
   nothing changed. */
taskiter_number taskiter_items(const uint64_t *plan, size_t plan_length, uint16_t *items,
                               size_t items_length);
taskiter_number taskiter_edges(const uint64_t *plan, size_t plan_length, uint32_t *edges,
                               size_t edges_length);

/* An item's number n is 8192 * fewer + 512 * rank + 128 * kind + number. */
#define TASKITER_ITEM_FEWER(n) ((n) / 8192)
#define TASKITER_ITEM_RANK(n) ((n) / 512 % 16)
#define TASKITER_ITEM_KIND(n) ((n) / 128 % 4)
#define TASKITER_ITEM_NUMBER(n) ((n) % 128)

/* The number of accepted steps from an opening to the end, two for each pass of each item:
   2 * (passes * items - 2 * wrapped transfers), and 0 where the plan has no pass. A host that
   counts down from it knows the end without asking for a result. Refused for 11 or 12, with number
   0. Changes nothing. */
taskiter_number taskiter_total(const uint64_t *plan, size_t plan_length);

/* Opens a state for the plan: every copy gets its starting value, passes, slots and held words
   become 0, and the unmet waits of each item are counted. What the plan does not use of the state
   is left as it is. Answers the refusal, 11 or 12 (of the plan alone), or 0. A state may be opened
   again at any time. */
uint64_t taskiter_open(const uint64_t *plan, size_t plan_length, TASKITER_COUNT_TYPE *counts,
                       size_t counts_length, uint64_t *values, size_t values_length);

/* Starts the next pass of an item: it reads its places, and answers the word that it computes,
   which it holds for the finish. A send or receive answers the word that it carries. Refused for 11
   to 16. 14 says that the item has finished its own passes: those of a wrapped transfer have none
   in the last pass of the plan. 16 says that the item's number of unmet waits is not 0; no other
   number is looked at but for 12, and none is changed. From an opening on the number is that of the
   sources which have not finished, so after 16 the same start is accepted once they have. */
taskiter_answer taskiter_start(const uint64_t *plan, size_t plan_length,
                               TASKITER_COUNT_TYPE *counts, size_t counts_length, uint64_t *values,
                               size_t values_length, uint64_t item);

/* Finishes the pass that an item is in: the word held goes to the places that the item writes, and
   is answered once more. One is taken off the number of unmet waits of each other item whose wait
   it meets, a 0 staying 0, and the item's own are counted anew for its next pass. Refused for 11,
   12, 13 or 17. */
taskiter_answer taskiter_finish(const uint64_t *plan, size_t plan_length,
                                TASKITER_COUNT_TYPE *counts, size_t counts_length, uint64_t *values,
                                size_t values_length, uint64_t item);

/* The result of a region, once every item has finished its passes; of a region that no task writes,
   its starting value. Refused for 11, 12, 13 or 18. */
taskiter_answer taskiter_result(const uint64_t *plan, size_t plan_length,
                                const TASKITER_COUNT_TYPE *counts, size_t counts_length,
                                const uint64_t *values, size_t values_length, uint64_t region);

/* The items whose start is accepted now, as taskiter_start takes them: counted from 0, and not by
   the numbers n of taskiter_items. They stand at the front of a slice of at least
   TASKITER_MAX_ITEMS, rising, and the answer is how many they are; what lies behind them is left as
   it is. A start takes its own item off the list and leaves the others; a finish can only add to
   it. From an opening on, where the list is empty an item runs or the loop is complete. Refused for
   11 where a slice is too short, the one for the items included, and for 12 as a start is. Then the
   number is 0 and nothing is changed. */
taskiter_number taskiter_ready(const uint64_t *plan, size_t plan_length,
                               const TASKITER_COUNT_TYPE *counts, size_t counts_length,
                               const uint64_t *values, size_t values_length, uint16_t *items,
                               size_t items_length);

/* A call of a list, in one word: 3 times its number, and which call it is. The number lies below
   6,148,914,691,236,517,205, as those of all items and regions do; of a larger one the word may be
   that of another call. */
#define TASKITER_CALL_START(item) (3 * (uint64_t)(item))
#define TASKITER_CALL_FINISH(item) (3 * (uint64_t)(item) + 1)
#define TASKITER_CALL_RESULT(region) (3 * (uint64_t)(region) + 2)

/* Makes a list of calls, one after another, each on the state that the one before left. Call k of
   the list puts its refusal into answers[2 * k] and its word into answers[2 * k + 1]: just what
   taskiter_start, taskiter_finish and taskiter_result answer, 12 and the other refusals too. A
   refused call does not end the list. What lies behind the last answer is left as it is.
   Answers 11, with nothing changed, where a slice is too short: plan, counts, values, or answers
   with fewer than two words for each call. Else 0. An empty list may be (NULL, 0), and its answers
   too. */
uint64_t taskiter_play(const uint64_t *plan, size_t plan_length, TASKITER_COUNT_TYPE *counts,
                       size_t counts_length, uint64_t *values, size_t values_length,
                       const uint64_t *calls, size_t calls_length, uint64_t *answers,
                       size_t answers_length);

/* Prepared plans. Every call above looks at the whole plan anew. That costs nearly all of a start,
   and much of a finish. Tables hold what steps need of the plan's graph. They are made once for
   each plan, and a step by tables looks at the words of its own item, and at no other item's but
   the numbers that a finish lowers.

   taskiter_prepare makes the tables of the plan, and answers the number of items. It writes all of
   the first TASKITER_PREPARED numbers of the slice; what lies behind them is left as it is.
   docs/LAYOUT.md says what stands where. Refused for 11, where plan or tables are too short, or for
   12, where the plan is not one that reading leaves; then the number is 0 and nothing is changed.

   Tables belong to their plan and serve any number of its states. They do not depend on a state,
   and hold no pointers: they may be stored, copied and lent from another place. No call but
   taskiter_prepare changes them. */
taskiter_number taskiter_prepare(const uint64_t *plan, size_t plan_length, uint16_t *tables,
                                 size_t tables_length);

/* Start and finish as above, by tables. From an opening on, with the tables of the plan, they
   answer and leave just what taskiter_start and taskiter_finish do. Either kind may be called at
   any time: they may be mixed as the host likes. Opening, results and the ready items have no other
   call.

   The host keeps plan, tables and state as the call before left them: no word of the plan changes
   after its preparing, the tables are that plan's, and the state is one of its states from an
   opening on. Where a host does not know that, it uses the ordinary calls.

   Refused, in this order: 11 where a slice is too short; 12 where a word that the step uses is out
   of its range; 13 where the item is not below the number of items, tables[0]; then a start for 14,
   15 or 16, a finish for 17. Refused: the word is 0 and nothing is changed. 12 finds a number of
   items above 640. Of an item below it 12 finds more than 1,000,000,000,000 passes, the item's own
   counts or number of unmet waits out of form, and in the row of places that the step uses more
   than 8 places or one that is no place. A finish finds besides a target or a number of targets or
   sources that is too large, or targets that end past 4,224. So every call is safe, whatever the
   slices hold. But 12 does not find a plan that reading leaves for no text, words of other items,
   or words in their ranges that are not this plan's. Then the step goes by what stands there, and
   its word need not be the loop's. */
taskiter_answer taskiter_start_prepared(const uint64_t *plan, size_t plan_length,
                                        const uint16_t *tables, size_t tables_length,
                                        TASKITER_COUNT_TYPE *counts, size_t counts_length,
                                        uint64_t *values, size_t values_length, uint64_t item);
taskiter_answer taskiter_finish_prepared(const uint64_t *plan, size_t plan_length,
                                         const uint16_t *tables, size_t tables_length,
                                         TASKITER_COUNT_TYPE *counts, size_t counts_length,
                                         uint64_t *values, size_t values_length, uint64_t item);

/* As taskiter_finish_prepared, and lists the items that the finish made ready: freed[0] is how many
   they are, freed[1] and on are they. Use freed only where the refusal is 0. From an opening on
   these are exactly the items whose start was refused before the finish and is accepted after it,
   each once: those of the items that wait for this one which are now ready, rising; then the item
   itself where it has another pass and no other item has an edge to it. So a host asks
   taskiter_ready once, after the opening, and adds these to its list of ready items after each
   finish. The list stays right only if every finish is this call and each item that is started is
   taken off it; then the host need not ask again. What lies behind these in freed is left as it is.
   Refused for 11 also where freed is shorter than TASKITER_FREED; where the call is refused freed
   is not changed. */
taskiter_answer taskiter_finish_freeing(const uint64_t *plan, size_t plan_length,
                                        const uint16_t *tables, size_t tables_length,
                                        TASKITER_COUNT_TYPE *counts, size_t counts_length,
                                        uint64_t *values, size_t values_length, uint16_t *freed,
                                        size_t freed_length, uint64_t item);

/* Journals. A journal is a text of steps, in the order in which they were taken. Each line ends
   with a line feed, and is one of

      start TAB item TAB word
      finish TAB item

   with numbers up to 2^64 - 1, formed as in a plan: decimal, with no leading zero except 0 itself.
   The word is the one that the start answered. Whatever order a runtime takes, the journal of a
   plan's accepted steps passes; no other does. A journal may have any length.

   taskiter_check opens the state for the plan, as taskiter_open does, and then takes the journal's
   steps, one a line. Accepted: each line is an accepted step, a start with just the word that its
   line states. The number is 1 where the loop is then complete, else 0, unfinished; the state
   stands after all these steps, so that after a complete journal taskiter_result gives the results
   of the unrolled loop. An empty journal is unfinished, unless the plan has no step at all; it may
   be (NULL, 0).
   Refused for 11 where plan, counts or values is too short, or for 12 by the plan alone: the number
   is 0 and nothing is changed. Refused for 20 at a line that is not in form, or has no line feed; a
   number above 2^64 - 1 is not in form. Refused for 21 at a line whose step is refused, or whose
   word is not the one that the step answers; an item number too large is in form, and so gets 21.
   The first such line decides, and the number is that line, the first being 1. The state then
   stands after the lines before it, freshly opened where the line is 1; the refused line leaves no
   trace, in the item's held word neither.

   taskiter_check_more is the same without the opening: it goes on from the state as it is lent. So
   a journal longer than memory is checked piece by piece, each cut behind a line feed: the first
   piece by taskiter_check, the others by taskiter_check_more. The first piece that is refused
   decides, else the last piece's number. That is what checking the whole answers and leaves, but
   that lines are counted from the piece's first. Of an empty piece it tells whether the loop is
   complete. It may go on after steps of the host's own, too. Refused for 12 also where the counts
   are out of form. It goes by the plan's tables: from an opening on its steps are those of
   taskiter_start and taskiter_finish. In a state that no opening leads to they are those of
   taskiter_start_prepared and taskiter_finish_prepared with the tables that taskiter_prepare makes.

   The plan is looked at once a call, and not once a line. */
taskiter_number taskiter_check(const uint64_t *plan, size_t plan_length,
                               TASKITER_COUNT_TYPE *counts, size_t counts_length, uint64_t *values,
                               size_t values_length, const uint8_t *journal,
                               size_t journal_length);
taskiter_number taskiter_check_more(const uint64_t *plan, size_t plan_length,
                                    TASKITER_COUNT_TYPE *counts, size_t counts_length,
                                    uint64_t *values, size_t values_length, const uint8_t *journal,
                                    size_t journal_length);

/* In C (NULL, 0) is a slice of no elements. The runtime is proved for slices that point somewhere.
   So each call with slices goes through an inline function. It lends an empty text, journal, list
   or answers a byte of its own, and refuses any other NULL with 11: a slice that needs elements, or
   one that is said to have some. The runtime's functions themselves are reached by a name in
   parentheses, (taskiter_read)(...), by a pointer to a function, and from other languages; there no
   slice may be NULL. */
static inline taskiter_reading taskiter_read_lent(const uint8_t *text, size_t text_length,
                                                  uint64_t *plan, size_t plan_length) {
    static const uint8_t none = 0;
    taskiter_reading refused = {11, 0};
    if (plan == NULL || (text == NULL && text_length > 0))
        return refused;
    return taskiter_read(text == NULL ? &none : text, text_length, plan, plan_length);
}

static inline taskiter_number taskiter_write_lent(const uint64_t *plan, size_t plan_length,
                                                  uint8_t *text, size_t text_length) {
    uint8_t none = 0;
    taskiter_number refused = {11, 0};
    if (plan == NULL || (text == NULL && text_length > 0))
        return refused;
    return taskiter_write(plan, plan_length, text == NULL ? &none : text, text_length);
}

static inline taskiter_number taskiter_items_lent(const uint64_t *plan, size_t plan_length,
                                                  uint16_t *items, size_t items_length) {
    taskiter_number refused = {11, 0};
    if (plan == NULL || items == NULL)
        return refused;
    return taskiter_items(plan, plan_length, items, items_length);
}

static inline taskiter_number taskiter_edges_lent(const uint64_t *plan, size_t plan_length,
                                                  uint32_t *edges, size_t edges_length) {
    taskiter_number refused = {11, 0};
    if (plan == NULL || edges == NULL)
        return refused;
    return taskiter_edges(plan, plan_length, edges, edges_length);
}

static inline taskiter_number taskiter_total_lent(const uint64_t *plan, size_t plan_length) {
    taskiter_number refused = {11, 0};
    if (plan == NULL)
        return refused;
    return taskiter_total(plan, plan_length);
}

static inline uint64_t taskiter_open_lent(const uint64_t *plan, size_t plan_length,
                                          TASKITER_COUNT_TYPE *counts, size_t counts_length,
                                          uint64_t *values, size_t values_length) {
    if (plan == NULL || counts == NULL || values == NULL)
        return 11;
    return taskiter_open(plan, plan_length, counts, counts_length, values, values_length);
}

static inline taskiter_answer taskiter_start_lent(const uint64_t *plan, size_t plan_length,
                                                  TASKITER_COUNT_TYPE *counts,
                                                  size_t counts_length, uint64_t *values,
                                                  size_t values_length, uint64_t item) {
    taskiter_answer refused = {11, 0};
    if (plan == NULL || counts == NULL || values == NULL)
        return refused;
    return taskiter_start(plan, plan_length, counts, counts_length, values, values_length, item);
}

static inline taskiter_answer taskiter_finish_lent(const uint64_t *plan, size_t plan_length,
                                                   TASKITER_COUNT_TYPE *counts,
                                                   size_t counts_length, uint64_t *values,
                                                   size_t values_length, uint64_t item) {
    taskiter_answer refused = {11, 0};
    if (plan == NULL || counts == NULL || values == NULL)
        return refused;
    return taskiter_finish(plan, plan_length, counts, counts_length, values, values_length, item);
}

static inline taskiter_answer taskiter_result_lent(const uint64_t *plan, size_t plan_length,
                                                   const TASKITER_COUNT_TYPE *counts,
                                                   size_t counts_length, const uint64_t *values,
                                                   size_t values_length, uint64_t region) {
    taskiter_answer refused = {11, 0};
    if (plan == NULL || counts == NULL || values == NULL)
        return refused;
    return taskiter_result(plan, plan_length, counts, counts_length, values, values_length,
                           region);
}

static inline taskiter_number taskiter_ready_lent(const uint64_t *plan, size_t plan_length,
                                                  const TASKITER_COUNT_TYPE *counts,
                                                  size_t counts_length, const uint64_t *values,
                                                  size_t values_length, uint16_t *items,
                                                  size_t items_length) {
    taskiter_number refused = {11, 0};
    if (plan == NULL || counts == NULL || values == NULL || items == NULL)
        return refused;
    return taskiter_ready(plan, plan_length, counts, counts_length, values, values_length, items,
                          items_length);
}

static inline uint64_t taskiter_play_lent(const uint64_t *plan, size_t plan_length,
                                          TASKITER_COUNT_TYPE *counts, size_t counts_length,
                                          uint64_t *values, size_t values_length,
                                          const uint64_t *calls, size_t calls_length,
                                          uint64_t *answers, size_t answers_length) {
    uint64_t none[2] = {0, 0};
    if (plan == NULL || counts == NULL || values == NULL || (calls == NULL && calls_length > 0) ||
        (answers == NULL && answers_length > 0))
        return 11;
    return taskiter_play(plan, plan_length, counts, counts_length, values, values_length,
                         calls == NULL ? &none[0] : calls, calls_length,
                         answers == NULL ? &none[1] : answers, answers_length);
}

static inline taskiter_number taskiter_prepare_lent(const uint64_t *plan, size_t plan_length,
                                                    uint16_t *tables, size_t tables_length) {
    taskiter_number refused = {11, 0};
    if (plan == NULL || tables == NULL)
        return refused;
    return taskiter_prepare(plan, plan_length, tables, tables_length);
}

static inline taskiter_answer
taskiter_start_prepared_lent(const uint64_t *plan, size_t plan_length, const uint16_t *tables,
                             size_t tables_length, TASKITER_COUNT_TYPE *counts,
                             size_t counts_length, uint64_t *values, size_t values_length,
                             uint64_t item) {
    taskiter_answer refused = {11, 0};
    if (plan == NULL || tables == NULL || counts == NULL || values == NULL)
        return refused;
    return taskiter_start_prepared(plan, plan_length, tables, tables_length, counts, counts_length,
                                   values, values_length, item);
}

static inline taskiter_answer
taskiter_finish_prepared_lent(const uint64_t *plan, size_t plan_length, const uint16_t *tables,
                              size_t tables_length, TASKITER_COUNT_TYPE *counts,
                              size_t counts_length, uint64_t *values, size_t values_length,
                              uint64_t item) {
    taskiter_answer refused = {11, 0};
    if (plan == NULL || tables == NULL || counts == NULL || values == NULL)
        return refused;
    return taskiter_finish_prepared(plan, plan_length, tables, tables_length, counts,
                                    counts_length, values, values_length, item);
}

static inline taskiter_answer
taskiter_finish_freeing_lent(const uint64_t *plan, size_t plan_length, const uint16_t *tables,
                             size_t tables_length, TASKITER_COUNT_TYPE *counts,
                             size_t counts_length, uint64_t *values, size_t values_length,
                             uint16_t *freed, size_t freed_length, uint64_t item) {
    taskiter_answer refused = {11, 0};
    if (plan == NULL || tables == NULL || counts == NULL || values == NULL || freed == NULL)
        return refused;
    return taskiter_finish_freeing(plan, plan_length, tables, tables_length, counts, counts_length,
                                   values, values_length, freed, freed_length, item);
}

/* Whether a call on a state with a journal has a slice that is NULL and needs elements. */
static inline int taskiter_null_journal(const uint64_t *plan, const TASKITER_COUNT_TYPE *counts,
                                        const uint64_t *values, const uint8_t *journal,
                                        size_t journal_length) {
    return plan == NULL || counts == NULL || values == NULL ||
           (journal == NULL && journal_length > 0);
}

static inline taskiter_number taskiter_check_lent(const uint64_t *plan, size_t plan_length,
                                                  TASKITER_COUNT_TYPE *counts,
                                                  size_t counts_length, uint64_t *values,
                                                  size_t values_length, const uint8_t *journal,
                                                  size_t journal_length) {
    static const uint8_t none = 0;
    taskiter_number refused = {11, 0};
    if (taskiter_null_journal(plan, counts, values, journal, journal_length))
        return refused;
    return taskiter_check(plan, plan_length, counts, counts_length, values, values_length,
                          journal == NULL ? &none : journal, journal_length);
}

static inline taskiter_number taskiter_check_more_lent(const uint64_t *plan, size_t plan_length,
                                                       TASKITER_COUNT_TYPE *counts,
                                                       size_t counts_length, uint64_t *values,
                                                       size_t values_length,
                                                       const uint8_t *journal,
                                                       size_t journal_length) {
    static const uint8_t none = 0;
    taskiter_number refused = {11, 0};
    if (taskiter_null_journal(plan, counts, values, journal, journal_length))
        return refused;
    return taskiter_check_more(plan, plan_length, counts, counts_length, values, values_length,
                               journal == NULL ? &none : journal, journal_length);
}

#define taskiter_read(...) taskiter_read_lent(__VA_ARGS__)
#define taskiter_write(...) taskiter_write_lent(__VA_ARGS__)
#define taskiter_items(...) taskiter_items_lent(__VA_ARGS__)
#define taskiter_edges(...) taskiter_edges_lent(__VA_ARGS__)
#define taskiter_total(...) taskiter_total_lent(__VA_ARGS__)
#define taskiter_open(...) taskiter_open_lent(__VA_ARGS__)
#define taskiter_start(...) taskiter_start_lent(__VA_ARGS__)
#define taskiter_finish(...) taskiter_finish_lent(__VA_ARGS__)
#define taskiter_result(...) taskiter_result_lent(__VA_ARGS__)
#define taskiter_ready(...) taskiter_ready_lent(__VA_ARGS__)
#define taskiter_play(...) taskiter_play_lent(__VA_ARGS__)
#define taskiter_prepare(...) taskiter_prepare_lent(__VA_ARGS__)
#define taskiter_start_prepared(...) taskiter_start_prepared_lent(__VA_ARGS__)
#define taskiter_finish_prepared(...) taskiter_finish_prepared_lent(__VA_ARGS__)
#define taskiter_finish_freeing(...) taskiter_finish_freeing_lent(__VA_ARGS__)
#define taskiter_check(...) taskiter_check_lent(__VA_ARGS__)
#define taskiter_check_more(...) taskiter_check_more_lent(__VA_ARGS__)

#ifdef __cplusplus
}
#endif

#endif
