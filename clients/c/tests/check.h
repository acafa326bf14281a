/* Tests: functions that CHECK what has to hold. A program of tests prints a line for each, and answers 1 where one failed. */
#ifndef STRING_CACHE_CHECK_H
#define STRING_CACHE_CHECK_H

#include <stdbool.h>
#include <stddef.h>
#include <stdio.h>

typedef struct test {
    const char *name;
    void (*run)(void);
} test;

static size_t failures;

/* Only the first failures are printed: a loop may have many. */
static void check(bool holds, const char *what, const char *file, int line) {
    if (!holds && failures++ < 20) {
        printf("%s:%d: %s\n", file, line, what);
    }
}

#define CHECK(condition) check((condition), #condition, __FILE__, __LINE__)

static int run_tests(const test *tests, size_t count) {
    size_t failed = 0;
    for (size_t at = 0; at < count; at++) {
        failures = 0;
        tests[at].run();
        printf("test %s ... %s\n", tests[at].name, failures == 0 ? "ok" : "FAILED");
        failed += failures != 0;
    }
    return failed != 0;
}

#define RUN_TESTS(tests) run_tests((tests), sizeof(tests) / sizeof(tests)[0])

#endif
