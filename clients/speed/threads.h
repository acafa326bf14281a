/* What the programs that measure threads have in common: each thread goes over all texts, from a place of its own on, and takes and gives a holder
 * of each. All texts are there before. usage: PROGRAM TEXTS THREADS ROUNDS */
#ifndef SPEED_THREADS_H
#define SPEED_THREADS_H

#include <pthread.h>

#include "bench.h"

enum { MOST_THREADS = 64 };

/* What is done with a text: it gets a holder, or gets one and gives it back. */
typedef void text_call(const char *text, size_t len);

typedef struct job {
    const texts *texts;
    size_t begin;
    long rounds;
    text_call *visit;
    pthread_barrier_t *gate;
} job;

static void *visit_all(void *given) {
    const job *own = given;
    (void)pthread_barrier_wait(own->gate);
    for (long round = 0; round < own->rounds; round++) {
        for (size_t at = 0; at < own->texts->count; at++) {
            own->visit(own->texts->list[(own->begin + at) % own->texts->count], own->texts->len);
        }
    }
    return NULL;
}

static double clock_now(void) {
    struct timespec time;
    clock_gettime(CLOCK_MONOTONIC, &time);
    return (double)time.tv_sec * 1e9 + (double)time.tv_nsec;
}

/* Prints nanoseconds by the clock, and of processors, for one text of one thread: by the clock all threads together take a share of it. */
static int measure_threads(const char *program, int arguments, char **words, text_call *keep, text_call *visit) {
    const texts texts = texts_of(arguments, words);
    const size_t count = arguments > 2 ? (size_t)strtoul(words[2], NULL, 10) : 1;
    const long rounds = arguments > 3 ? strtol(words[3], NULL, 10) : 10;
    pthread_barrier_t gate;
    pthread_t threads[MOST_THREADS];
    job jobs[MOST_THREADS];
    if (count == 0 || count > MOST_THREADS || pthread_barrier_init(&gate, NULL, (unsigned)count + 1) != 0) {
        return 1;
    }
    for (size_t at = 0; at < texts.count; at++) {
        keep(texts.list[at], texts.len);
    }
    for (size_t at = 0; at < count; at++) {
        jobs[at] = (job){&texts, (at + 1) * 7919 % texts.count, rounds, visit, &gate};
        if (pthread_create(&threads[at], NULL, visit_all, &jobs[at]) != 0) {
            return 1;
        }
    }
    const double begin = clock_now(), work = now();
    (void)pthread_barrier_wait(&gate);
    for (size_t at = 0; at < count; at++) {
        (void)pthread_join(threads[at], NULL);
    }
    const size_t calls = count * (size_t)rounds * texts.count;
    printf("%s %zu ", program, count);
    tell("threads", "clock", clock_now() - begin, calls);
    printf("%s %zu ", program, count);
    tell("threads", "processors", now() - work, calls);
    return 0;
}

#endif
