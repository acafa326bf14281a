/* What the programs that measure have in common: the texts, the clock and the memory. */
#ifndef SPEED_BENCH_H
#define SPEED_BENCH_H

#include <stdint.h>
#include <stdio.h>
#include <stdlib.h>
#include <sys/resource.h>
#include <time.h>

enum { LONGEST = 24 };

/* Different texts of 19 bytes, in an order that no map has by itself. */
typedef struct texts {
    size_t count;
    char (*list)[LONGEST];
    size_t len;
} texts;

static texts texts_of(int arguments, char **words) {
    texts made = {arguments > 1 ? (size_t)strtoul(words[1], NULL, 10) : 1000000, NULL, 19};
    made.list = malloc(made.count * LONGEST);
    if (made.list == NULL) {
        exit(1);
    }
    for (size_t at = 0; at < made.count; at++) {
        snprintf(made.list[at], LONGEST, "name number %07u", (unsigned)(at * 7919 % made.count) % 10000000);
    }
    return made;
}

/* Nanoseconds of processor time. */
static double now(void) {
    struct timespec time;
    clock_gettime(CLOCK_PROCESS_CPUTIME_ID, &time);
    return (double)time.tv_sec * 1e9 + (double)time.tv_nsec;
}

/* The most memory so far, in bytes. */
static double peak(void) {
    struct rusage usage;
    getrusage(RUSAGE_SELF, &usage);
    return (double)usage.ru_maxrss * 1024;
}

/* A line: which program, what was done, and how much of it one text took. */
static void tell(const char *program, const char *what, double whole, size_t count) {
    printf("%s %s %.1f\n", program, what, whole / (double)count);
}

#endif
