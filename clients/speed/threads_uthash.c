/* The same by one mutex over uthash: an entry for each text, with its holders. usage: threads_uthash TEXTS THREADS ROUNDS */
#include <string.h>

#include "threads.h"
#include "uthash.h"

typedef struct entry {
    size_t holders;
    UT_hash_handle hh;
    char text[];
} entry;

static pthread_mutex_t lock = PTHREAD_MUTEX_INITIALIZER;
static entry *map;

/* The entry of a text, with one holder more. */
static entry *interned(const char *text, size_t len) {
    entry *found;
    (void)pthread_mutex_lock(&lock);
    HASH_FIND(hh, map, text, len, found);
    if (found == NULL) {
        found = calloc(1, sizeof *found + len);
        if (found == NULL) {
            exit(1);
        }
        memcpy(found->text, text, len);
        HASH_ADD_KEYPTR(hh, map, found->text, len, found);
    }
    found->holders++;
    (void)pthread_mutex_unlock(&lock);
    return found;
}

static void give(entry *given) {
    (void)pthread_mutex_lock(&lock);
    if (--given->holders == 0) {
        HASH_DEL(map, given);
        free(given);
    }
    (void)pthread_mutex_unlock(&lock);
}

static void keep(const char *text, size_t len) {
    (void)interned(text, len);
}

static void visit(const char *text, size_t len) {
    give(interned(text, len));
}

int main(int arguments, char **words) {
    return measure_threads("uthash", arguments, words, keep, visit);
}
