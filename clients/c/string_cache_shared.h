/* Interned texts for many threads: some number of tables, the shards, each behind a lock, and each text in the shard that its hash chooses.
 *
 * What string_cache.h says of a table and its words holds here too: two words that are held at one time are equal exactly if their texts are,
 * whatever shard they are in; a text of at most 7 bytes lies in its word, and then no lock is taken; any other has holders, and goes with
 * the last one; its word never comes back.
 *
 * Any number of threads may call with one sc_shared at the same time, except for sc_shared_open, sc_shared_open_with and sc_shared_close, which
 * need that no other call runs. A call waits only for calls with texts or words of the same shard. What is told of all shards (entries, bytes,
 * memory) is added up shard by shard: other threads may change one meanwhile.
 *
 * The tables are proved. This layer, which takes the locks, is tested. It is compiled with the program:
 *     cc -pthread -I lib program.c string_cache_shared.c lib/libstring_cache.a
 *
 * Pointers, lengths, signals, forked children and malloc are as in string_cache.h. */
#ifndef STRING_CACHE_SHARED_H
#define STRING_CACHE_SHARED_H

#include "string_cache.h"

#ifdef __cplusplus
extern "C" {
#endif

/* A shared interner. Begin with SC_CLOSED_SHARED, which is all zeros. Threads may share one, or have copies of it once it is open: no call but
 * those that open and close writes it. */
typedef struct sc_shared {
    struct sc_shards *shards;
} sc_shared;

#define SC_CLOSED_SHARED \
    { 0 }

/* Opens a closed interner, in which nothing is held, with 64 shards of 64 buckets each and the greatest limits.
 * Each shard has a key of its own, as sc_open draws it.
 * SC_NO_MEMORY, also if the system has no lock left, SC_NO_RANDOM, SC_NOT_CLOSED if it is open, SC_BAD_ARGUMENT. */
SC_TO_BE_READ sc_status sc_shared_open(sc_shared *shared);

/* Opens a closed interner of 2 to the power of shard_bits shards, whose tables have the limits and buckets of sc_open_with. The two numbers of
 * bits have a sum of at most 14.
 * SC_NOT_CLOSED if it is open, else SC_NOT_LIMITS outside of these ranges, SC_NO_RANDOM or SC_NO_MEMORY; SC_BAD_ARGUMENT. */
SC_TO_BE_READ sc_status sc_shared_open_with(sc_shared *shared, uint8_t shard_bits, uint64_t holders, uint64_t tickets, uint8_t bucket_bits);

/* Closes the interner and frees all that it keeps; all its words are void. Does nothing to one that is closed, and to null. */
void sc_shared_close(sc_shared *shared);

/* The word of a text of len bytes, with one holder more: as sc_intern. */
SC_TO_BE_READ sc_status sc_shared_intern(const sc_shared *shared, const char *text, size_t len, uint64_t *word);

/* The word of a text, with no holder more: as sc_get. Another thread may have given it back when the answer is read. */
SC_TO_BE_READ sc_status sc_shared_get(const sc_shared *shared, const char *text, size_t len, uint64_t *word);

/* One holder more of a word that is held: as sc_clone. */
SC_TO_BE_READ sc_status sc_shared_clone(const sc_shared *shared, uint64_t word);

/* One holder less of a word that is held; with the last one the entry goes: as sc_give. */
sc_status sc_shared_give(const sc_shared *shared, uint64_t word);

/* Whether the word is held: as sc_holds. */
bool sc_shared_holds(const sc_shared *shared, uint64_t word);

/* How many holders a word of more than 7 bytes has: as sc_holders. */
SC_TO_BE_READ sc_status sc_shared_holders(const sc_shared *shared, uint64_t word, uint64_t *holders);

/* Copies the text of a word: as sc_text. */
SC_TO_BE_READ sc_status sc_shared_text(const sc_shared *shared, uint64_t word, char *room, size_t room_len, size_t *len);

/* How many texts of more than 7 bytes are held, and how many bytes they have together: as sc_entries and sc_text_bytes. */
size_t sc_shared_entries(const sc_shared *shared);
uint64_t sc_shared_text_bytes(const sc_shared *shared);

/* How many bytes the tables hold, as sc_memory tells, and those of the block with the locks. 0 for a closed interner and for null. */
uint64_t sc_shared_memory(const sc_shared *shared);

/* Takes all entries away, shard by shard; no word that was given comes again. SC_CLOSED, SC_BAD_ARGUMENT. */
sc_status sc_shared_clear(const sc_shared *shared);

#ifdef __cplusplus
}
#endif

#endif
