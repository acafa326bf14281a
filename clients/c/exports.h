/* What the archive of Rattle exports. string_cache.c alone calls these: each asks for pointers that aren't null, also at length 0, and for
 * lengths up to PTRDIFF_MAX, and answers the numbers of sc_status.
 *
 * A call that only reads takes the bytes of a handle and not where it is: C lends it the table, which nobody writes until it returns. */
#ifndef STRING_CACHE_EXPORTS_H
#define STRING_CACHE_EXPORTS_H

#include "string_cache.h"

/* An sc_word_parts as it crosses. */
typedef struct sc_parts {
    uint8_t kind;
    uint16_t bucket;
    uint32_t index;
    uint64_t serial;
} sc_parts;

uint32_t sc_table_version(void);
uint32_t sc_table_open(sc_table *table, sc_key key);
uint32_t sc_table_open_with(sc_table *table, uint64_t holders, uint64_t serials, uint8_t bucket_bits, sc_key key);
void sc_table_close(sc_table *table);
uint32_t sc_table_intern(sc_table *table, const uint8_t *text, size_t len, uint64_t *word);
uint32_t sc_table_get(sc_table lent, const uint8_t *text, size_t len, uint64_t *word);
uint32_t sc_table_clone(sc_table *table, uint64_t word);
uint32_t sc_table_give(sc_table *table, uint64_t word);
bool sc_table_holds(sc_table lent, uint64_t word);
uint32_t sc_table_holders(sc_table lent, uint64_t word, uint64_t *holders);
uint32_t sc_table_text(sc_table lent, uint64_t word, uint8_t *room, size_t room_len, size_t *len);
size_t sc_table_entries(sc_table lent);
uint64_t sc_table_text_bytes(sc_table lent);
uint64_t sc_table_memory(sc_table lent);
uint32_t sc_table_entry(sc_table lent, size_t place, uint64_t *word, uint64_t *holders);
uint32_t sc_table_clear(sc_table *table);
uint32_t sc_table_reserve(sc_table *table, size_t more);
uint32_t sc_word_pack(const uint8_t *text, size_t len, uint64_t *word);
uint32_t sc_word_unpack(uint64_t word, uint8_t *room, size_t room_len, size_t *len);
uint32_t sc_word_form(uint64_t word, sc_parts *parts);
uint32_t sc_text_hash(const uint8_t *text, size_t len, uint64_t key, sc_hashes *hashes);
uint32_t sc_text_check_tables(const uint8_t *text, size_t len, bool *perfect);

#endif
