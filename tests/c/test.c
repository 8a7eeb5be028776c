/* Prints what moshgeti_admit answers and leaves, case by case. The bytes of table and rule cannot be written, and every
   buffer ends where accessible memory ends: a write to a table or an access past an end stops the test. */
#define _DEFAULT_SOURCE
#include "moshgeti.h"

#include <stdio.h>
#include <stdlib.h>
#include <string.h>
#include <sys/mman.h>
#include <unistd.h>

#define COUNT(list) (sizeof(list) / sizeof *(list))
#define TABLE(list) (list), COUNT(list)

struct task {
    uint16_t c, s, d, t;
};

static const struct task pair[] = {{1, 2, 5, 5}, {1, 3, 7, 7}};
static const struct task offset_pair[] = {{4, 0, 10, 10}, {2, 0, 18, 20}};
static const struct task late_pair[] = {{3, 0, 6, 6}, {10, 0, 20, 20}};
static const struct task single[] = {{2, 3, 5, 9}};
static const struct task late_single[] = {{2, 3, 4, 9}};
static const struct task larger[] = {{1, 0, 9, 9}, {1, 0, 12, 12}, {2, 1, 30, 30}, {1, 0, 40, 40}};

static const uint8_t deadline[3] = {MOSHGETI_DEADLINE, 0, 0};
static const uint8_t arrival[3] = {MOSHGETI_ARRIVAL, 0, 0};
static const uint8_t level[3] = {MOSHGETI_LEVEL, 0, 0};
static const uint8_t no_rule[3] = {3, 0, 0};

/* A page of memory and an inaccessible page behind it. */
static size_t page;
static uint8_t *table_end, *rule_end, *result_end;

static void need(int holds, const char *what)
{
    if (!holds) {
        printf("FAILED: %s\n", what);
        exit(1);
    }
}

static uint8_t *page_end(void)
{
    uint8_t *start = mmap(NULL, 2 * page, PROT_READ | PROT_WRITE, MAP_PRIVATE | MAP_ANONYMOUS, -1, 0);
    need(start != MAP_FAILED && mprotect(start + page, page, PROT_NONE) == 0, "memory for a buffer");
    return start + page;
}

/* The bytes at the end of a page, which can then be read only. */
static const uint8_t *lend(uint8_t *end, const uint8_t *bytes, size_t len)
{
    need(mprotect(end - page, page, PROT_READ | PROT_WRITE) == 0, "a page that can be written");
    memcpy(end - len, bytes, len);
    need(mprotect(end - page, page, PROT_READ) == 0, "a page that can be read only");
    return end - len;
}

static void blank_result(void)
{
    memset(result_end - page, 0xa5, page);
}

/* Calls with a result of some length at the end of its page, and prints what comes of it. */
static void call(const char *label, const uint8_t *table, size_t table_len, const uint8_t rule[3], size_t result_len)
{
    uint8_t *result = result_end - result_len;
    uint8_t *before = malloc(page);
    size_t written;
    uint32_t answer;

    need(before != NULL, "memory for a copy");
    memcpy(before, result_end - page, page);
    answer = moshgeti_admit(lend(table_end, table, table_len), table_len, lend(rule_end, rule, 3), result, result_len);
    written = answer == MOSHGETI_ADMITTED ? table_len / MOSHGETI_TABLE_BYTES * MOSHGETI_RESULT_BYTES : 0;
    printf("%s: %u;", label, (unsigned)answer);
    for (size_t at = 0; at < written; at += MOSHGETI_RESULT_BYTES)
        printf(" %u at %u", result[at] + 256u * result[at + 1], result[at + 2] + 256u * result[at + 3]);
    printf("%s %zu bytes stay\n", written > 0 ? ";" : "", result_len - written);
    need(memcmp(before, result_end - page, page - result_len) == 0, "bytes in front of the result stay");
    need(memcmp(before + page - result_len + written, result + written, result_len - written) == 0,
         "bytes behind the answers stay");
    free(before);
}

static size_t encode(uint8_t *bytes, const struct task *tasks, size_t count)
{
    size_t len = 0;

    for (size_t k = 0; k < count; k++) {
        const uint16_t figures[4] = {tasks[k].c, tasks[k].s, tasks[k].d, tasks[k].t};
        for (int i = 0; i < 4; i++) {
            bytes[len++] = (uint8_t)(figures[i] & 0xff);
            bytes[len++] = (uint8_t)(figures[i] >> 8);
        }
    }
    return len;
}

/* Calls for tasks with a result that has some bytes more than they need. */
static void call_for(const char *label, const struct task *tasks, size_t count, const uint8_t rule[3], size_t more)
{
    uint8_t bytes[40 * MOSHGETI_TABLE_BYTES];
    size_t len = encode(bytes, tasks, count);

    call(label, bytes, len, rule, MOSHGETI_RESULT_BYTES * count + more);
}

static void test(const char *label, const struct task *tasks, size_t count, const uint8_t rule[3])
{
    blank_result();
    call_for(label, tasks, count, rule, 3);
}

/* Once with a blank result, and once in the bytes where a larger table was answered. */
static void test_twice(const char *label, const struct task *tasks, size_t count, const uint8_t rule[3])
{
    size_t room = MOSHGETI_RESULT_BYTES * COUNT(larger);

    test(label, tasks, count, rule);
    blank_result();
    call_for("  a larger table", TABLE(larger), deadline, 0);
    call_for("  and behind it", tasks, count, rule, room - MOSHGETI_RESULT_BYTES * count);
}

static void test_worked_sets(void)
{
    static const uint8_t suspension_urgent[3] = {MOSHGETI_DEADLINE, 0, 0xff};
    static const uint8_t execution_urgent[3] = {MOSHGETI_DEADLINE, 0xff, 0};

    test_twice("A, deadline", TABLE(pair), deadline);
    test_twice("B, arrival", TABLE(pair), arrival);
    test_twice("C, level", TABLE(pair), level);
    test_twice("D, deadline with S-weight -1", TABLE(pair), suspension_urgent);
    test_twice("A, deadline with C-weight -1", TABLE(pair), execution_urgent);
    test_twice("E, deadline", TABLE(offset_pair), deadline);
    test_twice("F, deadline", TABLE(late_pair), deadline);
    test_twice("G, deadline", TABLE(single), deadline);
    test_twice("H, deadline", TABLE(late_single), deadline);
}

static void test_two_bytes(void)
{
    static const struct task high[] = {{800, 0, 2000, 2000}, {400, 0, 3600, 4000}};
    static const struct task most[] = {{65535, 0, 65535, 65535}};
    static const struct task too_much[] = {{65535, 65535, 65535, 65535}};

    test("numbers above 255", TABLE(high), deadline);
    test("the largest bound", TABLE(most), deadline);
    test("C + S above 65535", TABLE(too_much), deadline);
}

static void test_count(void)
{
    struct task many[33];

    for (size_t k = 0; k < COUNT(many); k++)
        many[k] = (struct task){1, 0, 100, 100};
    printf("no tasks, no buffers: %u\n", (unsigned)moshgeti_admit(NULL, 0, lend(rule_end, deadline, 3), NULL, 0));
    printf("no tasks, no buffers, no such rule: %u\n",
           (unsigned)moshgeti_admit(NULL, 0, lend(rule_end, no_rule, 3), NULL, 0));
    test("no tasks", many, 0, deadline);
    test("32 tasks", many, 32, arrival);
    test("33 tasks", many, 33, arrival);
    test("33 tasks, no such rule", many, 33, no_rule);
    many[0].c = 0;
    test("33 tasks, C of the first 0", many, 33, arrival);
    test("32 tasks, C of the first 0", many, 32, arrival);
}

static void test_lengths(void)
{
    uint8_t bytes[40 * MOSHGETI_TABLE_BYTES];
    struct task many[33];
    size_t len = encode(bytes, TABLE(pair));

    blank_result();
    call("16 table bytes, 8 result bytes", bytes, len, deadline, 8);
    blank_result();
    call("16 table bytes, 7 result bytes", bytes, len, deadline, 7);
    call("16 table bytes, 0 result bytes", bytes, len, deadline, 0);
    call("15 table bytes", bytes, 15, deadline, 20);
    call("9 table bytes", bytes, 9, deadline, 20);
    call("7 table bytes", bytes, 7, deadline, 20);
    call("9 table bytes, no such rule", bytes, 9, no_rule, 20);
    call("7 result bytes, no such rule", bytes, len, no_rule, 7);
    memset(many, 0, sizeof many);
    len = encode(bytes, many, 33);
    call("33 tasks, 131 result bytes", bytes, len, deadline, 131);
    call("33 tasks, 132 result bytes", bytes, len, deadline, 132);
}

static void test_rows(void)
{
    static const struct task no_execution[] = {{1, 2, 5, 5}, {0, 3, 7, 7}};
    static const struct task no_deadline[] = {{1, 2, 5, 5}, {1, 3, 0, 7}};
    static const struct task past_period[] = {{1, 2, 6, 5}, {1, 3, 7, 7}};
    static const struct task both[] = {{0, 0, 0, 0}};
    static const struct task deadline_first[] = {{1, 2, 0, 5}, {0, 3, 7, 7}};
    static const struct task execution_first[] = {{0, 2, 5, 5}, {1, 3, 8, 7}};
    static const struct task late_and_none[] = {{3, 0, 6, 6}, {10, 0, 20, 20}, {0, 0, 9, 9}};

    test("C of the second task 0", TABLE(no_execution), deadline);
    test("D of the second task 0", TABLE(no_deadline), deadline);
    test("D of the first task above T", TABLE(past_period), deadline);
    test("C and D 0", TABLE(both), deadline);
    test("D of the first 0, C of the second 0", TABLE(deadline_first), deadline);
    test("C of the first 0, D of the second above T", TABLE(execution_first), deadline);
    test("no bounds hold, C of the last 0", TABLE(late_and_none), deadline);
    test("C of the second task 0, no such rule", TABLE(no_execution), no_rule);
}

static void test_rules(void)
{
    static const uint8_t rules[][3] = {{0, 0x10, 0xf0}, {1, 0xf0, 0x10}, {2, 0x10, 0x10}, {0, 0x11, 0}, {0, 0xef, 0},
                                       {0, 0, 0x11},    {0, 0, 0xef},    {0, 0x80, 0},    {0, 0, 0x7f}, {3, 0, 0},
                                       {255, 0, 0}};
    char label[32];

    for (size_t k = 0; k < COUNT(rules); k++) {
        snprintf(label, sizeof label, "rule %02x %02x %02x", rules[k][0], rules[k][1], rules[k][2]);
        test(label, TABLE(single), rules[k]);
    }
}

int main(void)
{
    page = (size_t)sysconf(_SC_PAGESIZE);
    table_end = page_end();
    rule_end = page_end();
    result_end = page_end();
    test_worked_sets();
    test_two_bytes();
    test_count();
    test_lengths();
    test_rows();
    test_rules();
    return 0;
}
