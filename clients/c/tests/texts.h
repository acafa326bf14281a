/* What several tests do with texts. */
#ifndef STRING_CACHE_TEXTS_H
#define STRING_CACHE_TEXTS_H

#include <string.h>

#include "check.h"
#include "string_cache.h"

/* The number of an interning of a text that ends with a zero byte. */
static inline sc_status intern(sc_table *table, const char *text, uint64_t *word) {
    return sc_intern(table, text, strlen(text), word);
}

/* The word of a text, which is interned with no refusal. */
static inline uint64_t word_of(sc_table *table, const char *text) {
    uint64_t word = 0;
    CHECK(intern(table, text, &word) == SC_OK);
    return word;
}

/* Whether the text of a word is this one. */
static inline bool has_text(const sc_table *table, uint64_t word, const char *text) {
    char room[256];
    size_t len = 0;
    return sc_text(table, word, room, sizeof room, &len) == SC_OK && len == strlen(text) && memcmp(room, text, len) == 0;
}

static inline sc_table opened(void) {
    sc_table table = SC_CLOSED_TABLE;
    CHECK(sc_open(&table) == SC_OK);
    return table;
}

#endif
