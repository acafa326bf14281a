/* Threads over the shared interner: tables behind locks. usage: threads_shared TEXTS THREADS ROUNDS */
#include "string_cache_shared.h"
#include "threads.h"

static sc_shared shared;

static void keep(const char *text, size_t len) {
    uint64_t word;
    if (sc_shared_intern(&shared, text, len, &word) != SC_OK) {
        exit(1);
    }
}

static void visit(const char *text, size_t len) {
    uint64_t word;
    if (sc_shared_intern(&shared, text, len, &word) != SC_OK || sc_shared_give(&shared, word) != SC_OK) {
        exit(1);
    }
}

int main(int arguments, char **words) {
    return sc_shared_open(&shared) == SC_OK ? measure_threads("shared", arguments, words, keep, visit) : 1;
}
