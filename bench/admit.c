/* Times the test through the C entry point beside plain C versions, and compares every answer. With the word "short" it
   only compares, on few sets. Ends with status 1 if an answer differs. */
#define _POSIX_C_SOURCE 199309L
#include <math.h>
#include <stdio.h>
#include <string.h>
#include <time.h>

#include "moshgeti.h"
#include "plain.h"

static uint64_t seed = 1;

static double uniform(void) {
    seed ^= seed << 13;
    seed ^= seed >> 7;
    seed ^= seed << 17;
    return (double)(seed >> 11) / 9007199254740992.0;
}

static double now(void) {
    struct timespec t;
    clock_gettime(CLOCK_MONOTONIC, &t);
    return (double)t.tv_sec * 1e6 + (double)t.tv_nsec / 1e3;
}

/* Tasks with periods between two ends, log-uniform, that share a utilisation evenly at random; each waits up to a tenth
   of what its period leaves. */
static void draw(struct task *tasks, int count, double utilisation, double least, double most) {
    double left = utilisation;
    for (int i = 0; i < count; i++) {
        double next = i + 1 < count ? left * pow(uniform(), 1.0 / (count - 1 - i)) : 0;
        double period = floor(exp(log(least) + uniform() * (log(most) - log(least))));
        double execution = fmax(1, floor((left - next) * period));
        left = next;
        if (execution > period)
            execution = period;
        tasks[i].execution = (uint16_t)execution;
        tasks[i].suspension = (uint16_t)(uniform() * (period - execution) / 10);
        tasks[i].deadline = (uint16_t)period;
        tasks[i].period = (uint16_t)period;
    }
}

static void put(uint8_t *at, uint16_t number) {
    at[0] = (uint8_t)(number & 255);
    at[1] = (uint8_t)(number >> 8);
}

struct sums {
    int sets, admitted;
    double scan, jump, library;
};

/* Tests a set by the library, by jumps and if asked for by a scan, adds up the times, and says whether the answers
   differ. */
static int differ(const struct task *tasks, int count, int kind, int with_scan, struct sums *sums) {
    uint8_t table[8 * MOST_TASKS], result[4 * MOST_TASKS], rule[3] = {(uint8_t)kind, 0, 0};
    int32_t points[MOST_TASKS];
    uint16_t bounds[3][MOST_TASKS], offsets[3][MOST_TASKS];
    int yes[3];
    for (int i = 0; i < count; i++) {
        put(table + 8 * i, tasks[i].execution);
        put(table + 8 * i + 2, tasks[i].suspension);
        put(table + 8 * i + 4, tasks[i].deadline);
        put(table + 8 * i + 6, tasks[i].period);
    }
    double start = now();
    yes[0] = moshgeti_admit(table, (size_t)(8 * count), rule, result, (size_t)(4 * count)) == 0;
    double library = now() - start;
    for (int i = 0; i < count; i++) {
        bounds[0][i] = (uint16_t)(result[4 * i] | result[4 * i + 1] << 8);
        offsets[0][i] = (uint16_t)(result[4 * i + 2] | result[4 * i + 3] << 8);
    }
    start = now();
    plain_points(tasks, count, kind, points);
    yes[1] = plain_jump(tasks, points, count, bounds[1], offsets[1]);
    double jump = now() - start;
    if (with_scan) {
        start = now();
        plain_points(tasks, count, kind, points);
        yes[2] = plain_scan(tasks, points, count, bounds[2], offsets[2]);
        sums->scan += now() - start;
    }
    sums->sets++;
    sums->admitted += yes[0];
    sums->library += library;
    sums->jump += jump;
    for (int v = 1; v < 2 + with_scan; v++)
        if (yes[v] != yes[0] || (yes[0] && (memcmp(bounds[v], bounds[0], sizeof bounds[0][0] * (size_t)count) != 0 ||
                                            memcmp(offsets[v], offsets[0], sizeof offsets[0][0] * (size_t)count) != 0)))
            return 1;
    return 0;
}

/* How the time of the library grows: the mean over sets under the deadline rule with so many tasks, and with periods
   shrunk by a divisor. */
static void grow(void) {
    printf("\nlibrary us by tasks and periods, deadline rule, utilisation 0.3 to 0.95\n%-6s", "tasks");
    for (int divisor = 1; divisor <= 64; divisor *= 4)
        printf(" %6d to %5d", 655 / divisor, 65535 / divisor);
    printf("\n");
    for (int count = 4; count <= MOST_TASKS; count *= 2) {
        printf("%-6d", count);
        for (int divisor = 1; divisor <= 64; divisor *= 4) {
            struct sums sums = {0};
            seed = 88172645463325252u;
            for (int i = 0; i < 210; i++) {
                struct task tasks[MOST_TASKS];
                draw(tasks, count, 0.3 + 0.65 * (i % 14) / 13, 655.0 / divisor, 65535.0 / divisor);
                differ(tasks, count, 0, 0, &sums);
            }
            printf(" %15.1f", sums.library / sums.sets);
        }
        printf("\n");
    }
}

int main(int argc, char **argv) {
    static const char *const kinds[] = {"deadline", "arrival", "level"};
    static const char *const shapes[] = {"655 to 65535", "10 to 65535"};
    int is_short = argc > 1 && strcmp(argv[1], "short") == 0;
    int sets = is_short ? 14 : 210, bad = 0;
    if (!is_short)
        printf("%-9s %-13s %5s %8s | %11s %11s %11s | %9s %9s\n", "rule", "periods", "sets", "admitted", "scan us",
               "jump us", "library us", "scan/lib", "lib/jump");
    for (int shape = 0; shape < 2; shape++)
        for (int kind = 0; kind < 3; kind++) {
            struct sums sums = {0};
            seed = 88172645463325252u + (uint64_t)(shape * 3 + kind);
            for (int i = 0; i < sets; i++) {
                struct task tasks[MOST_TASKS];
                int count = is_short ? 8 : 32;
                double most = is_short ? 700 : 65535, least = shape == 0 ? (is_short ? 100 : 655) : 10;
                draw(tasks, count, 0.3 + 0.65 * (i % 14) / 13, least, most);
                bad += differ(tasks, count, kind, 1, &sums);
            }
            if (!is_short)
                printf("%-9s %-13s %5d %8d | %11.0f %11.1f %11.1f | %9.0f %9.2f\n", kinds[kind], shapes[shape], sums.sets,
                       sums.admitted, sums.scan / sums.sets, sums.jump / sums.sets, sums.library / sums.sets,
                       sums.scan / sums.library, sums.library / sums.jump);
            fflush(stdout);
        }
    if (!is_short)
        grow();
    printf("%d answers differ\n", bad);
    return bad != 0;
}
