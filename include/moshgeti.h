/* The admission test of Moshgeti, for C and C++. docs/c.md has the details. */
#ifndef MOSHGETI_H
#define MOSHGETI_H

#include <stddef.h>
#include <stdint.h>

#ifdef __cplusplus
extern "C" {
#endif

/* What moshgeti_admit answers: 0, or the number of a refusal. */
enum moshgeti_answer {
    MOSHGETI_ADMITTED = 0,
    MOSHGETI_TABLE_FULL = 1,               /* there are more than 32 tasks */
    MOSHGETI_NO_EXECUTION = 2,             /* C of a task is 0 */
    MOSHGETI_DEADLINE_OUTSIDE_PERIOD = 3,  /* D of a task is 0 or above its T */
    MOSHGETI_NO_WARRANT = 4,               /* no bounds hold */
    MOSHGETI_RULE_OUT_OF_RANGE = 15,       /* no such kind of rule, or a weight outside -16 ... 16 */
    MOSHGETI_WRONG_LENGTH = 17             /* the table has no multiple of 8 bytes, or the result too few */
};

/* The first rule byte. */
enum moshgeti_kind {
    MOSHGETI_DEADLINE = 0,
    MOSHGETI_ARRIVAL = 1,
    MOSHGETI_LEVEL = 2
};

enum moshgeti_size {
    MOSHGETI_MOST_TASKS = 32,  /* of a table */
    MOSHGETI_TABLE_BYTES = 8,  /* of each task: C, S, D, T, 2 bytes each, low byte first */
    MOSHGETI_RESULT_BYTES = 4  /* of each task: bound, offset, 2 bytes each, low byte first */
};

/* Tests the tasks of a table under a rule. The rule bytes are its kind, its C-weight and its S-weight, the weights in
   two's complement. Answers 0 if bounds hold for all tasks; then the result begins with bound and offset of each
   task, and later bytes stay as they were. Else answers the number of a refusal, and the whole result stays. A table
   or a result of length 0 may be null; rule may not. Table and rule may not overlap the result. */
uint32_t moshgeti_admit(const uint8_t *table, size_t table_len, const uint8_t rule[3], uint8_t *result,
                        size_t result_len);

#ifdef __cplusplus
}
#endif

#endif
