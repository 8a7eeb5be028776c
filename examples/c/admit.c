/* Admits two tasks under the deadline rule and prints their bounds. */
#include "moshgeti.h"

#include <stdio.h>

enum { TASKS = 2 };

static void put(uint8_t *at, uint16_t number)
{
    at[0] = (uint8_t)(number & 0xff);
    at[1] = (uint8_t)(number >> 8);
}

static unsigned get(const uint8_t *at)
{
    return at[0] + 256u * at[1];
}

static const char *reason(uint32_t answer)
{
    switch (answer) {
    case MOSHGETI_TABLE_FULL:
        return "there are more than 32 tasks";
    case MOSHGETI_NO_EXECUTION:
        return "C of a task is 0";
    case MOSHGETI_DEADLINE_OUTSIDE_PERIOD:
        return "D of a task is 0 or above its T";
    case MOSHGETI_NO_WARRANT:
        return "no bounds hold";
    case MOSHGETI_RULE_OUT_OF_RANGE:
        return "no such kind or weight of rule";
    case MOSHGETI_WRONG_LENGTH:
        return "a buffer has the wrong length";
    default:
        return "no reason is known";
    }
}

int main(void)
{
    /* C, S, D, T of each task, in ticks. */
    static const uint16_t tasks[TASKS][4] = {{1, 2, 5, 5}, {1, 3, 7, 7}};
    static const uint8_t rule[3] = {MOSHGETI_DEADLINE, 0, 0};
    uint8_t table[TASKS * MOSHGETI_TABLE_BYTES];
    uint8_t result[TASKS * MOSHGETI_RESULT_BYTES];
    uint32_t answer;

    for (int k = 0; k < TASKS; k++)
        for (int figure = 0; figure < 4; figure++)
            put(table + MOSHGETI_TABLE_BYTES * k + 2 * figure, tasks[k][figure]);

    answer = moshgeti_admit(table, sizeof table, rule, result, sizeof result);
    if (answer != MOSHGETI_ADMITTED) {
        fprintf(stderr, "refused %u: %s\n", (unsigned)answer, reason(answer));
        return 1;
    }
    for (int k = 0; k < TASKS; k++) {
        const uint8_t *at = result + MOSHGETI_RESULT_BYTES * k;
        printf("task %d: every job ends within %u ticks (offset %u)\n", k, get(at), get(at + 2));
    }
    return 0;
}
