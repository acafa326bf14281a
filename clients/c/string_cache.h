/* Interned texts: each different text is kept once, and a 64-bit word stands for it.
 *
 * Two words that a table holds at one time are equal exactly if their texts are, so that a program compares, hashes and stores words. A
 * text of at most 7 bytes lies in its word, and takes no memory. Any other is an entry of the table with a number of holders: one more with
 * each sc_intern and sc_clone, one less with each sc_give. With its last holder the entry goes; its word never comes back, so that a word
 * that was kept too long finds no text, and never another one.
 *
 * Behind each function stands one in Rattle that is proved to do what is said here. Before that, string_cache.c looks at what C hands
 * over: a null pointer or an impossible length is answered by SC_BAD_ARGUMENT, and else a closed table by SC_CLOSED. Both come before any
 * other answer. Every function takes any bytes and any word. A refusal changes nothing: no text of a table, no holder, no word, no byte behind a
 * pointer, but the length that SC_TOO_SMALL tells. Only room that a table got before it was refused memory may stay: see sc_reserve.
 *
 * What the caller owes:
 * - A pointer that isn't null leads to as many bytes as the type or the length says, and nobody else writes them meanwhile. The room of
 *   sc_text and sc_unpack, and every text, lies apart from the table.
 * - An sc_table begins as SC_CLOSED_TABLE. After that only these functions write it, and no copy of an open one is used, but where it
 *   was moved there for good.
 * - Threads keep to the rules below.
 * - No call comes from a signal handler, or from the forked child of a process with threads.
 * - malloc, realloc and free are one allocator, and malloc aligns to 16 bytes, or to the greatest power of two that divides the size.
 *
 * What threads may do:
 * - Functions that take a const sc_table only read: sc_get, sc_holds, sc_holders, sc_text, sc_entries, sc_text_bytes, sc_memory and sc_entry. Any
 *   number of threads may be in these at a time, with one table, and none of them needs a lock.
 * - All others that take an sc_table write it: sc_open, sc_open_with, sc_open_keyed, sc_close, sc_intern, sc_clone, sc_give, sc_clear and sc_reserve. While one of
 *   these runs, no other call with that table does. So if one thread may write, each call is made under a lock of the caller's, which may let
 *   readers in together. A table that one thread opened or wrote is handed to others by that lock, or by a start or a join of a thread.
 * - Functions that take no sc_table may run beside any others, and so may calls with different tables.
 */
#ifndef STRING_CACHE_H
#define STRING_CACHE_H

#include <stdbool.h>
#include <stddef.h>
#include <stdint.h>

#ifdef __cplusplus
extern "C" {
#endif

/* The version of this interface, and as one number 10000 * major + 100 * minor + patch. A program runs with each later library of the same major
 * version. sc_version tells that of the library that is linked. */
#define SC_VERSION_MAJOR 1
#define SC_VERSION_MINOR 2
#define SC_VERSION_PATCH 0
#define SC_VERSION (SC_VERSION_MAJOR * 10000u + SC_VERSION_MINOR * 100u + SC_VERSION_PATCH)

#if defined(__GNUC__)
#define SC_EXPORT __attribute__((visibility("default")))
#define SC_TO_BE_READ __attribute__((warn_unused_result))
#else
#define SC_EXPORT
#define SC_TO_BE_READ
#endif

/* What a call answers. */
typedef enum sc_status {
    SC_OK = 0,            /* It is done. */
    SC_NO_MEMORY = 1,     /* malloc or realloc found no memory. */
    SC_FULL_COUNT = 2,    /* The text has as many holders as the limits allow. */
    SC_TICKETS_SPENT = 3, /* A text that is new finds no ticket left in its bucket. */
    SC_NOT_UTF8 = 5,      /* The bytes aren't UTF-8. */
    SC_NOT_HELD = 6,      /* The table holds no such word, text or place. */
    SC_CLOSED = 7,        /* The table is closed. */
    SC_NOT_CLOSED = 8,    /* The table is open already. */
    SC_TOO_SMALL = 9,     /* The text is longer than the room. */
    SC_NOT_LIMITS = 10,   /* A limit, or the number of buckets, is out of range. */
    SC_NOT_A_WORD = 11,   /* The number is no word of this kind, or the text is too long to be one. */
    SC_BAD_ARGUMENT = 12, /* A pointer is null, a length is above PTRDIFF_MAX, or the handle was never closed or opened. */
    SC_NO_RANDOM = 13     /* The system gave no random bytes. */
} sc_status;

/* Its former name. */
typedef sc_status sc_number;

/* What a status means, as a text that is never freed. Any number has one: that of one which no call answers is "unknown status". */
SC_EXPORT const char *sc_strerror(uint32_t status);

/* The former name of sc_strerror. */
SC_EXPORT const char *sc_text_of_fault(uint32_t status);

/* SC_VERSION of the library that is linked. */
SC_EXPORT uint32_t sc_version(void);

/* A table. Begin with SC_CLOSED_TABLE, which is all zeros, as calloc and static memory give it. */
typedef struct sc_table {
    void *at;
    bool full;
} sc_table;

#define SC_CLOSED_TABLE \
    { 0, false }

/* Opens a closed table, in which nothing is held, with the greatest limits and 4096 buckets. It finds its texts by a hash under a key that is
 * drawn here, from the system's random bytes, so texts that somebody chose cost no more than others.
 * SC_NOT_CLOSED if it is open, else SC_NO_RANDOM or SC_NO_MEMORY; SC_BAD_ARGUMENT. */
SC_TO_BE_READ SC_EXPORT sc_status sc_open(sc_table *table);

/* Opens a closed table with limits, as sc_open does: each text has at most so many holders, from 1 to 2^63 - 1, and each bucket gives so many
 * tickets, from 1 to 2^48 - 1. There are 2 to the power of bucket_bits buckets, from 0 to 14 bits.
 * SC_NOT_CLOSED if it is open, else SC_NO_RANDOM, else SC_NOT_LIMITS outside of these ranges, else SC_NO_MEMORY; SC_BAD_ARGUMENT. */
SC_TO_BE_READ SC_EXPORT sc_status sc_open_with(sc_table *table, uint64_t holders, uint64_t tickets, uint8_t bucket_bits);

/* The key of a table's hash, SipHash-1-3: 128 bits. */
typedef struct sc_key {
    uint64_t low;
    uint64_t high;
} sc_key;

/* Opens a closed table as sc_open_with does, under a given key, and asks the system for nothing but memory: for runs that take the same steps each
 * time. Words and answers are the same under every key. Whoever knows the key can choose texts that slow the table down.
 * SC_NOT_CLOSED if it is open, else SC_NOT_LIMITS, else SC_NO_MEMORY; SC_BAD_ARGUMENT. */
SC_TO_BE_READ SC_EXPORT sc_status sc_open_keyed(sc_table *table, uint64_t holders, uint64_t tickets, uint8_t bucket_bits, sc_key key);

/* Closes the table and frees all that it keeps; all its words are void. Does nothing to one that is closed, and to null. */
SC_EXPORT void sc_close(sc_table *table);

/* The word of a text of len bytes, with one holder more. The text may be null if len is 0.
 * SC_NOT_UTF8, SC_FULL_COUNT, SC_TICKETS_SPENT, SC_NO_MEMORY, SC_CLOSED, SC_BAD_ARGUMENT. A text of at most 7 bytes of UTF-8 is
 * refused for neither limits nor memory. */
SC_TO_BE_READ SC_EXPORT sc_status sc_intern(sc_table *table, const char *text, size_t len, uint64_t *word);

/* The word of a text, with no holder more. SC_NOT_HELD exactly if the text has no word: it has more than 7 bytes, and no entry.
 * SC_NOT_UTF8, SC_CLOSED, SC_BAD_ARGUMENT. */
SC_TO_BE_READ SC_EXPORT sc_status sc_get(const sc_table *table, const char *text, size_t len, uint64_t *word);

/* One holder more of a word that is held. SC_NOT_HELD, SC_FULL_COUNT, SC_CLOSED, SC_BAD_ARGUMENT. */
SC_TO_BE_READ SC_EXPORT sc_status sc_clone(sc_table *table, uint64_t word);

/* One holder less of a word that is held; with the last one the entry goes. SC_NOT_HELD, SC_CLOSED, SC_BAD_ARGUMENT. */
SC_EXPORT sc_status sc_give(sc_table *table, uint64_t word);

/* Whether the word is held: the word of a text of at most 7 bytes always is. False for a closed table and for null. */
SC_EXPORT bool sc_holds(const sc_table *table, uint64_t word);

/* How many holders a word of more than 7 bytes has. SC_NOT_HELD for any other word, SC_CLOSED, SC_BAD_ARGUMENT. */
SC_TO_BE_READ SC_EXPORT sc_status sc_holders(const sc_table *table, uint64_t word, uint64_t *holders);

/* Copies the text of a word to the front of the room, which has room_len bytes, and tells its length. No zero byte comes behind it.
 * SC_TOO_SMALL if the text is longer: nothing is copied, but its length is told. With a null room and room_len 0 that is how to ask for the
 * length. SC_NOT_HELD, SC_CLOSED, SC_BAD_ARGUMENT. */
SC_TO_BE_READ SC_EXPORT sc_status sc_text(const sc_table *table, uint64_t word, char *room, size_t room_len, size_t *len);

/* How many texts of more than 7 bytes are held. 0 for a closed table and for null. */
SC_EXPORT size_t sc_entries(const sc_table *table);

/* How many bytes these texts have together, or 2^64 - 1 if that is more. 0 for a closed table and for null. */
SC_EXPORT uint64_t sc_text_bytes(const sc_table *table);

/* How many bytes the table has asked of malloc and still holds, as they were asked for; or 2^64 - 1 if that is more. A text that goes gives
 * its bytes back, and the room of its entry stays until the table is closed. If malloc refused while the table grew, what it got before
 * that isn't counted until it has grown. The sc_table itself isn't counted. 0 for a closed table and for null. */
SC_EXPORT uint64_t sc_memory(const sc_table *table);

/* The word and the holders of the entry at a place, from 0 on: a new entry comes last, and if one goes, the last one comes in its place.
 * Takes constant time. Either pointer may be null if it isn't asked for.
 * SC_NOT_HELD from sc_entries on, SC_CLOSED, SC_BAD_ARGUMENT. */
SC_TO_BE_READ SC_EXPORT sc_status sc_entry(const sc_table *table, size_t place, uint64_t *word, uint64_t *holders);

/* Takes all entries away; no ticket that was given comes again. SC_CLOSED, SC_BAD_ARGUMENT. */
SC_EXPORT sc_status sc_clear(sc_table *table);

/* Makes room for so many texts more. SC_NO_MEMORY, SC_CLOSED, SC_BAD_ARGUMENT.
 * If it finds no memory, or sc_intern finds none while the table grows, the texts, their words and their holders are as they were. The room
 * that the table got before it was refused may stay, for texts that come later: then sc_memory may tell more, until sc_close gives all back. */
SC_TO_BE_READ SC_EXPORT sc_status sc_reserve(sc_table *table, size_t more);

/* The word of a text of at most 7 bytes, which needs no table. SC_NOT_UTF8, else SC_NOT_A_WORD above 7 bytes; SC_BAD_ARGUMENT. */
SC_TO_BE_READ SC_EXPORT sc_status sc_pack(const char *text, size_t len, uint64_t *word);

/* The text of such a word, as sc_text gives it. SC_NOT_A_WORD, SC_TOO_SMALL, SC_BAD_ARGUMENT. */
SC_TO_BE_READ SC_EXPORT sc_status sc_unpack(uint64_t word, char *room, size_t room_len, size_t *len);

/* What a word says of itself, without a table. */
typedef enum sc_kind {
    SC_INLINE = 0, /* Its text lies in the word. */
    SC_STATIC = 1, /* Its text has an index in static tables. A table of this library has none. */
    SC_TICKET = 2  /* Its text is, or was, an entry of a table. */
} sc_kind;

typedef struct sc_word_parts {
    sc_kind kind;
    uint32_t index;  /* of SC_STATIC, and else 0 */
    uint64_t serial; /* of SC_TICKET: which ticket of its bucket it is, from 1 on; and else 0 */
    uint16_t bucket; /* of SC_TICKET, and else 0 */
} sc_word_parts;

/* What a word says of itself. SC_NOT_A_WORD if it is the word of nothing, SC_BAD_ARGUMENT. */
SC_TO_BE_READ SC_EXPORT sc_status sc_form(uint64_t word, sc_word_parts *parts);

/* The parts of a hash. */
typedef struct sc_hashes {
    uint32_t g;
    uint32_t f1;
    uint32_t f2;
} sc_hashes;

/* The hash of a text under a key: SipHash-1-3 with 128 bits. SC_NOT_UTF8, SC_BAD_ARGUMENT. */
SC_TO_BE_READ SC_EXPORT sc_status sc_hash(const char *text, size_t len, uint64_t key, sc_hashes *hashes);

/* Whether a text is the printed form of static tables in which every text is found. SC_NO_MEMORY, SC_NOT_UTF8, SC_BAD_ARGUMENT. */
SC_TO_BE_READ SC_EXPORT sc_status sc_check_tables(const char *text, size_t len, bool *perfect);

#ifdef __cplusplus
}
#endif

#endif
