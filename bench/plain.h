/* Plain C versions of the test, written for comparison: one scans every offset, one jumps to where a count falls. */
#ifndef PLAIN_H
#define PLAIN_H

#include <stdint.h>

enum { MOST_TASKS = 32 };

struct task {
    uint16_t execution, suspension, deadline, period;
};

/* The points of a kind of rule: 0 deadline, 1 arrival, 2 level. */
void plain_points(const struct task *tasks, int count, int kind, int32_t *points);

/* Whether bounds hold for all tasks, with the smallest bounds and their offsets. */
int plain_scan(const struct task *tasks, const int32_t *points, int count, uint16_t *bounds, uint16_t *offsets);
int plain_jump(const struct task *tasks, const int32_t *points, int count, uint16_t *bounds, uint16_t *offsets);

#endif
