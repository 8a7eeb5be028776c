#include "plain.h"

void plain_points(const struct task *tasks, int count, int kind, int32_t *points) {
    int32_t level = 0;
    for (int i = 0; i < count; i++) {
        level += tasks[i].deadline;
        points[i] = kind == 0 ? tasks[i].deadline : kind == 1 ? 0 : level;
    }
}

/* The smallest total of a task over its offsets, and the first offset that has it. */
typedef uint64_t search(const struct task *tasks, const int32_t *points, const uint32_t *figures, int count, int own,
                        uint16_t *offset);

static uint64_t scan(const struct task *tasks, const int32_t *points, const uint32_t *figures, int count, int own,
                     uint16_t *offset) {
    uint64_t best = UINT64_MAX;
    for (uint32_t q = 0; q < tasks[own].deadline; q++) {
        uint64_t total = (uint64_t)tasks[own].execution + tasks[own].suspension + q;
        for (int i = 0; i < count; i++) {
            int64_t reach = (int64_t)points[own] - points[i] + figures[i] - q;
            if (i != own && reach > 0)
                total += (uint64_t)(((uint32_t)reach - 1) / tasks[i].period + 1) * tasks[i].execution;
        }
        if (total < best) {
            best = total;
            *offset = (uint16_t)q;
        }
    }
    return best;
}

static uint64_t jump(const struct task *tasks, const int32_t *points, const uint32_t *figures, int count, int own,
                     uint16_t *offset) {
    uint32_t alone = (uint32_t)tasks[own].execution + tasks[own].suspension;
    uint64_t best = (uint64_t)tasks[own].deadline + 1;
    for (uint32_t q = 0; q < tasks[own].deadline && alone + q < best;) {
        uint64_t total = alone + q;
        uint32_t step = 65536;
        for (int i = 0; i < count; i++) {
            int64_t reach = (int64_t)points[own] - points[i] + figures[i] - q;
            if (i != own && reach > 0) {
                uint32_t jobs = ((uint32_t)reach - 1) / tasks[i].period;
                uint32_t fall = ((uint32_t)reach - 1) % tasks[i].period + 1;
                total += (uint64_t)(jobs + 1) * tasks[i].execution;
                if (fall < step)
                    step = fall;
            }
        }
        if (total < best) {
            best = total;
            *offset = (uint16_t)q;
        }
        q += step;
    }
    return best;
}

static int rounds(search *smallest, const struct task *tasks, const int32_t *points, int count, uint16_t *bounds,
                  uint16_t *offsets) {
    uint32_t figures[MOST_TASKS];
    for (int k = 0; k < count; k++) {
        uint32_t alone = (uint32_t)tasks[k].execution + tasks[k].suspension;
        figures[k] = alone < tasks[k].deadline + 1u ? alone : tasks[k].deadline + 1u;
    }
    for (;;) {
        int moved = 0;
        for (int k = 0; k < count; k++) {
            uint64_t total = smallest(tasks, points, figures, count, k, &offsets[k]);
            if (total > tasks[k].deadline)
                return 0;
            bounds[k] = (uint16_t)total;
        }
        for (int k = 0; k < count; k++) {
            moved |= bounds[k] != figures[k];
            figures[k] = bounds[k];
        }
        if (!moved)
            return 1;
    }
}

int plain_scan(const struct task *tasks, const int32_t *points, int count, uint16_t *bounds, uint16_t *offsets) {
    return rounds(scan, tasks, points, count, bounds, offsets);
}

int plain_jump(const struct task *tasks, const int32_t *points, int count, uint16_t *bounds, uint16_t *offsets) {
    return rounds(jump, tasks, points, count, bounds, offsets);
}
