/* Reading calls beside each other. Four threads ask one table, which lies in memory that can't be written meanwhile: the handle, and all that the
 * table has of malloc, for which the program is linked with --wrap=malloc, --wrap=realloc and --wrap=free. */
#define _DEFAULT_SOURCE
#include <pthread.h>
#include <sys/mman.h>

#include "string_cache.h"
#include "texts.h"

enum { THREADS = 4, TEXTS = 300, ROUNDS = 20, ARENA = 8 << 20, ALIGNMENT = 16 };

void *__wrap_malloc(size_t size);
void *__wrap_realloc(void *block, size_t size);
void __wrap_free(void *block);

static char *arena;
static size_t arena_used;

/* What the arena has next. It takes nothing back. */
void *__wrap_malloc(size_t size) {
    const size_t whole = (size + 2 * ALIGNMENT - 1) / ALIGNMENT * ALIGNMENT;
    if (whole > ARENA - arena_used) {
        return NULL;
    }
    char *block = arena + arena_used + ALIGNMENT;
    memcpy(block - ALIGNMENT, &size, sizeof size);
    arena_used += whole;
    return block;
}

void *__wrap_realloc(void *block, size_t size) {
    void *grown = __wrap_malloc(size);
    size_t kept = 0;
    if (grown != NULL && block != NULL) {
        memcpy(&kept, (char *)block - ALIGNMENT, sizeof kept);
        memcpy(grown, block, kept < size ? kept : size);
    }
    return grown;
}

void __wrap_free(void *block) {
    (void)block;
}

/* What a thread reads, and whether each answer was the right one. */
typedef struct reader {
    const sc_table *table;
    const uint64_t *words;
    bool right;
} reader;

static size_t nth_text(char *room, size_t size, size_t at) {
    return (size_t)snprintf(room, size, at % 3 == 0 ? "n%zu" : "a name of some length, \xc3\xa9 %zu", at);
}

/* Whether every reading call answers what it has to of the text of this number. */
static bool reads(const reader *own, size_t at) {
    char text[64];
    char room[64];
    const size_t len = nth_text(text, sizeof text, at);
    uint64_t word = 0;
    uint64_t holders = 0;
    size_t found = 0;
    const bool is_entry = at % 3 != 0;
    return sc_get(own->table, text, len, &word) == SC_OK && word == own->words[at] && sc_holds(own->table, word) &&
           sc_text(own->table, word, room, sizeof room, &found) == SC_OK && found == len && memcmp(room, text, len) == 0 &&
           sc_holders(own->table, word, &holders) == (is_entry ? SC_OK : SC_NOT_HELD) && holders == (is_entry ? 1 : 0) &&
           sc_get(own->table, "no name of the table", 20, &word) == SC_NOT_HELD;
}

/* Whether the entries are those of the texts. */
static bool lists(const reader *own) {
    size_t entries = 0;
    for (size_t at = 0; at < TEXTS; at++) {
        uint64_t word = 0;
        uint64_t holders = 0;
        if (at % 3 != 0 && (sc_entry(own->table, entries++, &word, &holders) != SC_OK || word != own->words[at] || holders != 1)) {
            return false;
        }
    }
    return sc_entries(own->table) == entries && sc_entry(own->table, entries, NULL, NULL) == SC_NOT_HELD &&
           sc_text_bytes(own->table) > 8 * entries && sc_memory(own->table) > sc_text_bytes(own->table);
}

static void *read_all(void *given) {
    reader *own = given;
    own->right = true;
    for (size_t round = 0; round < ROUNDS; round++) {
        for (size_t at = 0; at < TEXTS; at++) {
            own->right = own->right && reads(own, at);
        }
        own->right = own->right && lists(own);
    }
    return NULL;
}

/* A table in the arena, with a word for each text. */
static sc_table *filled(uint64_t *words) {
    char text[64];
    arena = mmap(NULL, ARENA, PROT_READ | PROT_WRITE, MAP_PRIVATE | MAP_ANONYMOUS, -1, 0);
    CHECK(arena != MAP_FAILED);
    arena_used = 0;
    sc_table *table = __wrap_malloc(sizeof *table);
    *table = (sc_table)SC_CLOSED_TABLE;
    CHECK(sc_open(table) == SC_OK);
    for (size_t at = 0; at < TEXTS; at++) {
        const size_t len = nth_text(text, sizeof text, at);
        CHECK(sc_intern(table, text, len, &words[at]) == SC_OK);
    }
    return table;
}

static void threads_read_a_table_that_cannot_be_written(void) {
    uint64_t words[TEXTS];
    pthread_t threads[THREADS];
    reader readers[THREADS];
    sc_table *table = filled(words);
    CHECK(mprotect(arena, ARENA, PROT_READ) == 0);
    for (size_t at = 0; at < THREADS; at++) {
        readers[at] = (reader){table, words, false};
        CHECK(pthread_create(&threads[at], NULL, read_all, &readers[at]) == 0);
    }
    for (size_t at = 0; at < THREADS; at++) {
        CHECK(pthread_join(threads[at], NULL) == 0);
        CHECK(readers[at].right);
    }
    CHECK(mprotect(arena, ARENA, PROT_READ | PROT_WRITE) == 0);
    sc_close(table);
    CHECK(munmap(arena, ARENA) == 0);
}

static void a_closed_table_is_read_where_it_cannot_be_written(void) {
    static const sc_table closed = SC_CLOSED_TABLE;
    uint64_t word = 0;
    size_t len = 0;
    CHECK(sc_get(&closed, "a name", 6, &word) == SC_CLOSED && sc_holders(&closed, 1, &word) == SC_CLOSED);
    CHECK(sc_text(&closed, 1, NULL, 0, &len) == SC_CLOSED && sc_entry(&closed, 0, &word, NULL) == SC_CLOSED);
    CHECK(!sc_holds(&closed, 1) && sc_entries(&closed) == 0 && sc_text_bytes(&closed) == 0 && sc_memory(&closed) == 0);
}

static const test tests[] = {
    {"threads_read_a_table_that_cannot_be_written", threads_read_a_table_that_cannot_be_written},
    {"a_closed_table_is_read_where_it_cannot_be_written", a_closed_table_is_read_where_it_cannot_be_written},
};

int main(void) {
    return RUN_TESTS(tests);
}
