/* For ThreadSanitizer, which sees nothing of what the proved archive does with a table: each call of the library that takes one writes to its
 * handle first, so that two calls with no lock between them are a race that is seen. Linked with --wrap of each of these names. */
#include "string_cache.h"

static void touch(sc_table *table) {
    volatile bool *full = &table->full;
    *full = *full;
}

sc_status __real_sc_intern(sc_table *table, const char *text, size_t len, uint64_t *word);
sc_status __real_sc_get(sc_table *table, const char *text, size_t len, uint64_t *word);
sc_status __real_sc_clone(sc_table *table, uint64_t word);
sc_status __real_sc_give(sc_table *table, uint64_t word);
bool __real_sc_holds(sc_table *table, uint64_t word);
sc_status __real_sc_holders(sc_table *table, uint64_t word, uint64_t *holders);
sc_status __real_sc_text(sc_table *table, uint64_t word, char *room, size_t room_len, size_t *len);
size_t __real_sc_entries(sc_table *table);
uint64_t __real_sc_text_bytes(sc_table *table);
uint64_t __real_sc_memory(sc_table *table);
sc_status __real_sc_clear(sc_table *table);

sc_status __wrap_sc_intern(sc_table *table, const char *text, size_t len, uint64_t *word);
sc_status __wrap_sc_get(sc_table *table, const char *text, size_t len, uint64_t *word);
sc_status __wrap_sc_clone(sc_table *table, uint64_t word);
sc_status __wrap_sc_give(sc_table *table, uint64_t word);
bool __wrap_sc_holds(sc_table *table, uint64_t word);
sc_status __wrap_sc_holders(sc_table *table, uint64_t word, uint64_t *holders);
sc_status __wrap_sc_text(sc_table *table, uint64_t word, char *room, size_t room_len, size_t *len);
size_t __wrap_sc_entries(sc_table *table);
uint64_t __wrap_sc_text_bytes(sc_table *table);
uint64_t __wrap_sc_memory(sc_table *table);
sc_status __wrap_sc_clear(sc_table *table);

sc_status __wrap_sc_intern(sc_table *table, const char *text, size_t len, uint64_t *word) {
    touch(table);
    return __real_sc_intern(table, text, len, word);
}

sc_status __wrap_sc_get(sc_table *table, const char *text, size_t len, uint64_t *word) {
    touch(table);
    return __real_sc_get(table, text, len, word);
}

sc_status __wrap_sc_clone(sc_table *table, uint64_t word) {
    touch(table);
    return __real_sc_clone(table, word);
}

sc_status __wrap_sc_give(sc_table *table, uint64_t word) {
    touch(table);
    return __real_sc_give(table, word);
}

bool __wrap_sc_holds(sc_table *table, uint64_t word) {
    touch(table);
    return __real_sc_holds(table, word);
}

sc_status __wrap_sc_holders(sc_table *table, uint64_t word, uint64_t *holders) {
    touch(table);
    return __real_sc_holders(table, word, holders);
}

sc_status __wrap_sc_text(sc_table *table, uint64_t word, char *room, size_t room_len, size_t *len) {
    touch(table);
    return __real_sc_text(table, word, room, room_len, len);
}

size_t __wrap_sc_entries(sc_table *table) {
    touch(table);
    return __real_sc_entries(table);
}

uint64_t __wrap_sc_text_bytes(sc_table *table) {
    touch(table);
    return __real_sc_text_bytes(table);
}

uint64_t __wrap_sc_memory(sc_table *table) {
    touch(table);
    return __real_sc_memory(table);
}

sc_status __wrap_sc_clear(sc_table *table) {
    touch(table);
    return __real_sc_clear(table);
}
