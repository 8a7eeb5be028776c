/* A plain dispatcher, written for comparison: it makes the calls of crates/bench_run. The number of ticks stands on
   standard input; what all calls answered is written as one number, and the time on standard error. */
#define _POSIX_C_SOURCE 199309L
#include <stdint.h>
#include <stdio.h>
#include <time.h>

enum { TASKS = 32 };
enum phase { NEVER, CLOSED, READY, WAITING };

struct task {
    uint16_t execution, suspension, deadline, period;
};

struct job {
    uint32_t release;
    enum phase phase;
    uint16_t given, waited;
};

static struct task tasks[TASKS];
static struct job jobs[TASKS];
static uint32_t clock_now;

/* The ready job with the earliest deadline, of equal ones that of the lower number; -1 if none is ready. */
static int processor(void) {
    int best = -1;
    uint64_t earliest = 0;
    for (int i = 0; i < TASKS; i++)
        if (jobs[i].phase == READY) {
            uint64_t point = (uint64_t)jobs[i].release + tasks[i].deadline;
            if (best < 0 || point < earliest) {
                best = i;
                earliest = point;
            }
        }
    return best;
}

static uint64_t refused(unsigned number) {
    return 6 ^ ((uint64_t)number << 8);
}

static uint64_t release(uint32_t task) {
    if (task >= TASKS)
        return refused(6);
    struct job *job = &jobs[task];
    if (job->phase != NEVER && clock_now - job->release < tasks[task].period)
        return refused(7);
    *job = (struct job){clock_now, READY, 0, 0};
    return 1 ^ ((uint64_t)clock_now << 8);
}

static uint64_t suspend(void) {
    int task = processor();
    if (task < 0)
        return refused(8);
    if (jobs[task].waited == tasks[task].suspension)
        return refused(9);
    jobs[task].phase = WAITING;
    return 2 ^ ((uint64_t)task << 8);
}

static uint64_t wake(uint32_t task) {
    if (task >= TASKS)
        return refused(6);
    if (jobs[task].phase != WAITING)
        return refused(10);
    jobs[task].phase = READY;
    return 3 ^ ((uint64_t)jobs[task].waited << 8);
}

static uint64_t finish(void) {
    int task = processor();
    if (task < 0)
        return refused(8);
    jobs[task].phase = CLOSED;
    return 4 ^ ((uint64_t)task << 8) ^ ((uint64_t)(clock_now - jobs[task].release) << 16) ^
           ((uint64_t)jobs[task].given << 48);
}

static uint64_t tick(void) {
    if (clock_now == 4000000000u)
        return refused(11);
    int task = processor();
    uint64_t ended = 0, forced = 0;
    for (int i = 0; i < TASKS; i++)
        if (jobs[i].phase == WAITING && ++jobs[i].waited == tasks[i].suspension) {
            jobs[i].phase = READY;
            forced |= (uint64_t)1 << i;
        }
    clock_now++;
    if (task >= 0 && ++jobs[task].given == tasks[task].execution) {
        jobs[task].phase = CLOSED;
        ended = 1;
    }
    return 5 ^ ((uint64_t)(task < 0 ? 255 : task) << 8) ^ ended << 16 ^ forced << 24;
}

static uint64_t joined(uint64_t sum, uint64_t code) {
    return (sum ^ code) * 0x100000001B3u;
}

int main(void) {
    uint32_t ticks;
    uint64_t sum = 0;
    struct timespec start, end;
    if (scanf("%u", &ticks) != 1)
        return 1;
    for (int i = 0; i < TASKS; i++) {
        uint16_t period = (uint16_t)(200 + 37 * i);
        tasks[i] = (struct task){(uint16_t)(1 + i % 4), (uint16_t)(1 + i % 7), period, period};
    }
    clock_gettime(CLOCK_MONOTONIC, &start);
    for (uint32_t t = 0; t < ticks; t++) {
        sum = joined(sum, release(t % 32));
        if (t % 3 == 0)
            sum = joined(sum, suspend());
        if (t % 5 == 0)
            sum = joined(sum, wake(t / 5 % 32));
        if (t % 11 == 0)
            sum = joined(sum, finish());
        sum = joined(sum, tick());
    }
    clock_gettime(CLOCK_MONOTONIC, &end);
    printf("%u ticks, answers %llu\n", ticks, (unsigned long long)sum);
    fprintf(stderr, "%lld ns\n", (long long)(end.tv_sec - start.tv_sec) * 1000000000 + (end.tv_nsec - start.tv_nsec));
    return 0;
}
