/* The guarded layer: what C may hand over wrongly is answered here, and the rest goes to the proved exports.
 *
 * What a call answers beside its number goes through a variable of its own, so that a pointer may lead anywhere that can be written. */
#include "string_cache.h"

#include <errno.h>
#include <string.h>

#if defined(__APPLE__) || defined(__FreeBSD__) || defined(__NetBSD__) || defined(__OpenBSD__)
#include <stdlib.h>
#else
#include <sys/random.h>
#endif

#include "exports.h"

/* Whether a handle is one that these functions made, as far as its bytes tell. */
static bool is_handle(const sc_table *table) {
    unsigned char full;
    if (table == NULL) {
        return false;
    }
    memcpy(&full, &table->full, sizeof full);
    return full == 0 || (full == 1 && table->at != NULL);
}

static bool is_text(const char *text, size_t len) {
    return len <= PTRDIFF_MAX && (text != NULL || len == 0);
}

/* Draws a key. The system may have none only early while it starts, or where it knows no such call. */
static bool draw_key(sc_key *key) {
#if defined(__APPLE__) || defined(__FreeBSD__) || defined(__NetBSD__) || defined(__OpenBSD__)
    arc4random_buf(key, sizeof *key);
    return true;
#else
    ssize_t drawn;
    do {
        drawn = getrandom(key, sizeof *key, 0);
    } while (drawn < 0 && errno == EINTR);
    return drawn == (ssize_t)sizeof *key;
#endif
}

/* The bytes of a text: never null, also where it has none. */
static const uint8_t *bytes_of(const char *text) {
    return (const uint8_t *)(text != NULL ? text : "");
}

/* The room for a text: never null, also where it has none. */
static uint8_t *room_of(char *room, uint8_t *none) {
    return room != NULL ? (uint8_t *)room : none;
}

const char *sc_strerror(uint32_t status) {
    switch (status) {
    case SC_OK:
        return "success";
    case SC_NO_MEMORY:
        return "there is no memory";
    case SC_FULL_COUNT:
        return "the text has as many holders as the limits allow";
    case SC_TICKETS_SPENT:
        return "the bucket of the text has no ticket left";
    case SC_NOT_UTF8:
        return "the bytes are not UTF-8";
    case SC_NOT_HELD:
        return "the table does not hold it";
    case SC_CLOSED:
        return "the table is closed";
    case SC_NOT_CLOSED:
        return "the table is open already";
    case SC_TOO_SMALL:
        return "the text is longer than the room";
    case SC_NOT_LIMITS:
        return "a limit or the number of buckets is out of range";
    case SC_NOT_A_WORD:
        return "it is no such word";
    case SC_BAD_ARGUMENT:
        return "null pointer, length too large, or not a valid handle";
    case SC_NO_RANDOM:
        return "the system gave no random bytes";
    default:
        return "unknown status";
    }
}

const char *sc_text_of_fault(uint32_t status) {
    return sc_strerror(status);
}

uint32_t sc_version(void) {
    return sc_table_version() * 10000u + SC_VERSION_MINOR * 100u + SC_VERSION_PATCH;
}

sc_status sc_open(sc_table *table) {
    sc_key key = {0, 0};
    if (!is_handle(table)) {
        return SC_BAD_ARGUMENT;
    }
    if (!table->full && !draw_key(&key)) {
        return SC_NO_RANDOM;
    }
    return sc_table_open(table, key);
}

sc_status sc_open_with(sc_table *table, uint64_t holders, uint64_t tickets, uint8_t bucket_bits) {
    sc_key key = {0, 0};
    if (!is_handle(table)) {
        return SC_BAD_ARGUMENT;
    }
    if (!table->full && !draw_key(&key)) {
        return SC_NO_RANDOM;
    }
    return sc_table_open_with(table, holders, tickets, bucket_bits, key);
}

sc_status sc_open_keyed(sc_table *table, uint64_t holders, uint64_t tickets, uint8_t bucket_bits, sc_key key) {
    return is_handle(table) ? sc_table_open_with(table, holders, tickets, bucket_bits, key) : SC_BAD_ARGUMENT;
}

void sc_close(sc_table *table) {
    if (is_handle(table)) {
        sc_table_close(table);
    }
}

sc_status sc_intern(sc_table *table, const char *text, size_t len, uint64_t *word) {
    uint64_t found = 0;
    sc_status status;
    if (!is_handle(table) || !is_text(text, len) || word == NULL) {
        return SC_BAD_ARGUMENT;
    }
    status = sc_table_intern(table, bytes_of(text), len, &found);
    if (status == SC_OK) {
        *word = found;
    }
    return status;
}

sc_status sc_get(const sc_table *table, const char *text, size_t len, uint64_t *word) {
    uint64_t found = 0;
    sc_status status;
    if (!is_handle(table) || !is_text(text, len) || word == NULL) {
        return SC_BAD_ARGUMENT;
    }
    status = sc_table_get(*table, bytes_of(text), len, &found);
    if (status == SC_OK) {
        *word = found;
    }
    return status;
}

sc_status sc_clone(sc_table *table, uint64_t word) {
    return is_handle(table) ? sc_table_clone(table, word) : SC_BAD_ARGUMENT;
}

sc_status sc_give(sc_table *table, uint64_t word) {
    return is_handle(table) ? sc_table_give(table, word) : SC_BAD_ARGUMENT;
}

bool sc_holds(const sc_table *table, uint64_t word) {
    return is_handle(table) && sc_table_holds(*table, word);
}

sc_status sc_holders(const sc_table *table, uint64_t word, uint64_t *holders) {
    uint64_t found = 0;
    sc_status status;
    if (!is_handle(table) || holders == NULL) {
        return SC_BAD_ARGUMENT;
    }
    status = sc_table_holders(*table, word, &found);
    if (status == SC_OK) {
        *holders = found;
    }
    return status;
}

sc_status sc_text(const sc_table *table, uint64_t word, char *room, size_t room_len, size_t *len) {
    uint8_t none = 0;
    size_t found = 0;
    sc_status status;
    if (!is_handle(table) || !is_text(room, room_len) || len == NULL) {
        return SC_BAD_ARGUMENT;
    }
    status = sc_table_text(*table, word, room_of(room, &none), room_len, &found);
    if (status == SC_OK || status == SC_TOO_SMALL) {
        *len = found;
    }
    return status;
}

size_t sc_entries(const sc_table *table) {
    return is_handle(table) ? sc_table_entries(*table) : 0;
}

uint64_t sc_text_bytes(const sc_table *table) {
    return is_handle(table) ? sc_table_text_bytes(*table) : 0;
}

uint64_t sc_memory(const sc_table *table) {
    return is_handle(table) ? sc_table_memory(*table) : 0;
}

sc_status sc_entry(const sc_table *table, size_t place, uint64_t *word, uint64_t *holders) {
    uint64_t found = 0;
    uint64_t count = 0;
    sc_status status;
    if (!is_handle(table)) {
        return SC_BAD_ARGUMENT;
    }
    status = sc_table_entry(*table, place, &found, &count);
    if (status == SC_OK && word != NULL) {
        *word = found;
    }
    if (status == SC_OK && holders != NULL) {
        *holders = count;
    }
    return status;
}

sc_status sc_clear(sc_table *table) {
    return is_handle(table) ? sc_table_clear(table) : SC_BAD_ARGUMENT;
}

sc_status sc_reserve(sc_table *table, size_t more) {
    return is_handle(table) ? sc_table_reserve(table, more) : SC_BAD_ARGUMENT;
}

sc_status sc_pack(const char *text, size_t len, uint64_t *word) {
    uint64_t found = 0;
    sc_status status;
    if (!is_text(text, len) || word == NULL) {
        return SC_BAD_ARGUMENT;
    }
    status = sc_word_pack(bytes_of(text), len, &found);
    if (status == SC_OK) {
        *word = found;
    }
    return status;
}

sc_status sc_unpack(uint64_t word, char *room, size_t room_len, size_t *len) {
    uint8_t none = 0;
    size_t found = 0;
    sc_status status;
    if (!is_text(room, room_len) || len == NULL) {
        return SC_BAD_ARGUMENT;
    }
    status = sc_word_unpack(word, room_of(room, &none), room_len, &found);
    if (status == SC_OK || status == SC_TOO_SMALL) {
        *len = found;
    }
    return status;
}

sc_status sc_form(uint64_t word, sc_word_parts *parts) {
    sc_parts found = {0, 0, 0, 0};
    sc_status status;
    if (parts == NULL) {
        return SC_BAD_ARGUMENT;
    }
    status = sc_word_form(word, &found);
    if (status == SC_OK) {
        parts->kind = (sc_kind)found.kind;
        parts->index = found.index;
        parts->serial = found.serial;
        parts->bucket = found.bucket;
    }
    return status;
}

sc_status sc_hash(const char *text, size_t len, uint64_t key, sc_hashes *hashes) {
    sc_hashes found = {0, 0, 0};
    sc_status status;
    if (!is_text(text, len) || hashes == NULL) {
        return SC_BAD_ARGUMENT;
    }
    status = sc_text_hash(bytes_of(text), len, key, &found);
    if (status == SC_OK) {
        *hashes = found;
    }
    return status;
}

sc_status sc_check_tables(const char *text, size_t len, bool *perfect) {
    bool found = false;
    sc_status status;
    if (!is_text(text, len) || perfect == NULL) {
        return SC_BAD_ARGUMENT;
    }
    status = sc_text_check_tables(bytes_of(text), len, &found);
    if (status == SC_OK) {
        *perfect = found;
    }
    return status;
}
