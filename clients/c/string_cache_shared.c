/* Tables behind locks. A text's hash chooses the table, and each word of more than 7 bytes tells it.
 *
 * A ticket is serial * 2^16 + bucket * 4, with 14 bits for the bucket. A table of 2^b buckets leaves the upper 14 - b of them zero, and the shard's
 * number stands there. So a table's ticket and its shard can be told from the word, and two texts never share one: in one shard their tickets
 * differ, and in two the shards. An inline word has no shard, and is the same for all. */
#include "string_cache_shared.h"

#include <pthread.h>
#include <stdlib.h>

enum {
    CACHE_LINE = 64,    /* bytes: two threads in two shards write to no common line */
    MOST_INLINE = 7,    /* bytes of a text that lies in its word */
    TAG_BITS = 2,       /* of a word: those of a ticket are zero */
    MOST_BITS = 14,     /* of shard and bucket together */
    USUAL_SHARD_BITS = 6,
    USUAL_BUCKET_BITS = 6
};

static const uint64_t MOST_HOLDERS = (UINT64_C(1) << 63) - 1;
static const uint64_t MOST_TICKETS = (UINT64_C(1) << 48) - 1;

typedef struct shard {
    pthread_mutex_t lock;
    sc_table table;
} shard;

/* A shard with all of its lines of the cache. */
typedef union shard_lines {
    shard shard;
    char bytes[(sizeof(shard) + CACHE_LINE - 1) / CACHE_LINE * CACHE_LINE];
} shard_lines;

/* The front of the one block of an interner. */
struct sc_shards {
    shard_lines *list; /* in the same block, from the next line of the cache on */
    uint64_t mask;     /* the number of shards, less 1 */
    unsigned shift;    /* how many bits of a word stand below its shard */
    size_t block;      /* the bytes of the block */
};

static shard *shard_at(const struct sc_shards *shards, uint64_t number) {
    return &shards->list[number].shard;
}

/* The shard at this number, for this thread alone until it is left. */
static shard *entered(const struct sc_shards *shards, uint64_t number) {
    shard *found = shard_at(shards, number);
    (void)pthread_mutex_lock(&found->lock);
    return found;
}

static void leave(shard *left) {
    (void)pthread_mutex_unlock(&left->lock);
}

static bool is_ticket(uint64_t word) {
    return word >> TAG_BITS << TAG_BITS == word;
}

static uint64_t shard_of_ticket(const struct sc_shards *shards, uint64_t word) {
    return word >> shards->shift & shards->mask;
}

/* The ticket as the table of its shard knows it. */
static uint64_t without_shard(const struct sc_shards *shards, uint64_t word) {
    return word & ~(shards->mask << shards->shift);
}

/* The answer to a call with a word that is no ticket: an inline word is held for ever, and no other is. */
static sc_status answer_without_table(uint64_t word) {
    sc_word_parts parts = {SC_TICKET, 0, 0, 0};
    return sc_form(word, &parts) == SC_OK && parts.kind == SC_INLINE ? SC_OK : SC_NOT_HELD;
}

/* Closes the first shards of a block, and frees it. */
static void end_shards(struct sc_shards *shards, uint64_t count) {
    for (uint64_t number = 0; number < count; number++) {
        sc_close(&shard_at(shards, number)->table);
        (void)pthread_mutex_destroy(&shard_at(shards, number)->lock);
    }
    free(shards);
}

/* A block for so many shards, none of which is open yet. Null without memory. */
static struct sc_shards *block_of(uint8_t shard_bits, uint8_t bucket_bits) {
    const size_t count = (size_t)1 << shard_bits;
    const size_t bytes = sizeof(struct sc_shards) + CACHE_LINE - 1 + count * sizeof(shard_lines);
    struct sc_shards *shards = malloc(bytes);
    if (shards != NULL) {
        const uintptr_t behind = (uintptr_t)(shards + 1) + CACHE_LINE - 1;
        shards->list = (shard_lines *)(behind - behind % CACHE_LINE);
        shards->mask = count - 1;
        shards->shift = TAG_BITS + bucket_bits;
        shards->block = bytes;
    }
    return shards;
}

/* Opens a shard. Where it is refused, nothing is left of it. */
static sc_status open_shard(shard *opened, uint64_t holders, uint64_t tickets, uint8_t bucket_bits) {
    const sc_table closed = SC_CLOSED_TABLE;
    sc_status status;
    opened->table = closed;
    status = sc_open_with(&opened->table, holders, tickets, bucket_bits);
    if (status == SC_OK && pthread_mutex_init(&opened->lock, NULL) != 0) {
        sc_close(&opened->table);
        status = SC_NO_MEMORY;
    }
    return status;
}

sc_status sc_shared_open(sc_shared *shared) {
    return sc_shared_open_with(shared, USUAL_SHARD_BITS, MOST_HOLDERS, MOST_TICKETS, USUAL_BUCKET_BITS);
}

sc_status sc_shared_open_with(sc_shared *shared, uint8_t shard_bits, uint64_t holders, uint64_t tickets, uint8_t bucket_bits) {
    struct sc_shards *shards;
    sc_status status = SC_OK;
    if (shared == NULL) {
        return SC_BAD_ARGUMENT;
    }
    if (shared->shards != NULL) {
        return SC_NOT_CLOSED;
    }
    /* Here too, so that neither memory nor a key is asked for before. */
    if (shard_bits > MOST_BITS || bucket_bits > MOST_BITS - shard_bits || holders - 1 >= MOST_HOLDERS || tickets - 1 >= MOST_TICKETS) {
        return SC_NOT_LIMITS;
    }
    shards = block_of(shard_bits, bucket_bits);
    if (shards == NULL) {
        return SC_NO_MEMORY;
    }
    for (uint64_t at = 0; at <= shards->mask && status == SC_OK; at++) {
        status = open_shard(shard_at(shards, at), holders, tickets, bucket_bits);
        if (status != SC_OK) {
            end_shards(shards, at);
            return status;
        }
    }
    shared->shards = shards;
    return SC_OK;
}

void sc_shared_close(sc_shared *shared) {
    if (shared != NULL && shared->shards != NULL) {
        end_shards(shared->shards, shared->shards->mask + 1);
        shared->shards = NULL;
    }
}

/* What calls with a text answer before they look at it. */
static sc_status answer_to_pointers(const sc_shared *shared, const char *text, size_t len, const void *answered) {
    if (shared == NULL || answered == NULL || len > PTRDIFF_MAX || (text == NULL && len != 0)) {
        return SC_BAD_ARGUMENT;
    }
    return shared->shards != NULL ? SC_OK : SC_CLOSED;
}

/* What calls with a word answer before they look at it. */
static sc_status answer_to_handle(const sc_shared *shared) {
    if (shared == NULL) {
        return SC_BAD_ARGUMENT;
    }
    return shared->shards != NULL ? SC_OK : SC_CLOSED;
}

/* A call of the table with a text, which is sc_intern or sc_get. */
typedef sc_status text_call(sc_table *table, const char *text, size_t len, uint64_t *word);

/* Makes a call with a text of more than 7 bytes, in its shard. */
static sc_status in_shard_of(const struct sc_shards *shards, text_call *call, const char *text, size_t len, uint64_t *word) {
    sc_hashes hashes;
    uint64_t found = 0, own;
    shard *inside;
    sc_status status = sc_hash(text, len, 0, &hashes);
    if (status != SC_OK) {
        return status;
    }
    own = hashes.g & shards->mask;
    inside = entered(shards, own);
    status = call(&inside->table, text, len, &found);
    leave(inside);
    if (status == SC_OK) {
        *word = found | own << shards->shift;
    }
    return status;
}

static sc_status with_text(const sc_shared *shared, text_call *call, const char *text, size_t len, uint64_t *word) {
    const sc_status status = answer_to_pointers(shared, text, len, word);
    if (status != SC_OK) {
        return status;
    }
    return len <= MOST_INLINE ? sc_pack(text, len, word) : in_shard_of(shared->shards, call, text, len, word);
}

/* A call of the table with a word, which is sc_clone or sc_give. */
typedef sc_status word_call(sc_table *table, uint64_t word);

static sc_status with_word(const sc_shared *shared, word_call *call, uint64_t word) {
    sc_status status = answer_to_handle(shared);
    if (status == SC_OK && !is_ticket(word)) {
        return answer_without_table(word);
    }
    if (status == SC_OK) {
        shard *inside = entered(shared->shards, shard_of_ticket(shared->shards, word));
        status = call(&inside->table, without_shard(shared->shards, word));
        leave(inside);
    }
    return status;
}

/* sc_get as a text_call: it only reads its table. */
static sc_status get_in(sc_table *table, const char *text, size_t len, uint64_t *word) {
    return sc_get(table, text, len, word);
}

sc_status sc_shared_intern(const sc_shared *shared, const char *text, size_t len, uint64_t *word) {
    return with_text(shared, sc_intern, text, len, word);
}

sc_status sc_shared_get(const sc_shared *shared, const char *text, size_t len, uint64_t *word) {
    return with_text(shared, get_in, text, len, word);
}

sc_status sc_shared_clone(const sc_shared *shared, uint64_t word) {
    return with_word(shared, sc_clone, word);
}

sc_status sc_shared_give(const sc_shared *shared, uint64_t word) {
    return with_word(shared, sc_give, word);
}

bool sc_shared_holds(const sc_shared *shared, uint64_t word) {
    shard *inside;
    bool held;
    if (answer_to_handle(shared) != SC_OK) {
        return false;
    }
    if (!is_ticket(word)) {
        return answer_without_table(word) == SC_OK;
    }
    inside = entered(shared->shards, shard_of_ticket(shared->shards, word));
    held = sc_holds(&inside->table, without_shard(shared->shards, word));
    leave(inside);
    return held;
}

sc_status sc_shared_holders(const sc_shared *shared, uint64_t word, uint64_t *holders) {
    sc_status status = holders != NULL ? answer_to_handle(shared) : SC_BAD_ARGUMENT;
    if (status == SC_OK && !is_ticket(word)) {
        return SC_NOT_HELD;
    }
    if (status == SC_OK) {
        shard *inside = entered(shared->shards, shard_of_ticket(shared->shards, word));
        status = sc_holders(&inside->table, without_shard(shared->shards, word), holders);
        leave(inside);
    }
    return status;
}

sc_status sc_shared_text(const sc_shared *shared, uint64_t word, char *room, size_t room_len, size_t *len) {
    sc_status status = answer_to_pointers(shared, room, room_len, len);
    if (status == SC_OK && !is_ticket(word)) {
        status = sc_unpack(word, room, room_len, len);
        return status == SC_NOT_A_WORD ? SC_NOT_HELD : status;
    }
    if (status == SC_OK) {
        shard *inside = entered(shared->shards, shard_of_ticket(shared->shards, word));
        status = sc_text(&inside->table, without_shard(shared->shards, word), room, room_len, len);
        leave(inside);
    }
    return status;
}

/* Adds numbers, or answers 2^64 - 1 where the sum is more. */
static uint64_t sum_of(uint64_t one, uint64_t other) {
    return one > UINT64_MAX - other ? UINT64_MAX : one + other;
}

size_t sc_shared_entries(const sc_shared *shared) {
    size_t entries = 0;
    if (answer_to_handle(shared) != SC_OK) {
        return 0;
    }
    for (uint64_t at = 0; at <= shared->shards->mask; at++) {
        shard *inside = entered(shared->shards, at);
        entries += sc_entries(&inside->table);
        leave(inside);
    }
    return entries;
}

uint64_t sc_shared_text_bytes(const sc_shared *shared) {
    uint64_t bytes = 0;
    if (answer_to_handle(shared) != SC_OK) {
        return 0;
    }
    for (uint64_t at = 0; at <= shared->shards->mask; at++) {
        shard *inside = entered(shared->shards, at);
        bytes = sum_of(bytes, sc_text_bytes(&inside->table));
        leave(inside);
    }
    return bytes;
}

uint64_t sc_shared_memory(const sc_shared *shared) {
    uint64_t bytes;
    if (answer_to_handle(shared) != SC_OK) {
        return 0;
    }
    bytes = shared->shards->block;
    for (uint64_t at = 0; at <= shared->shards->mask; at++) {
        shard *inside = entered(shared->shards, at);
        bytes = sum_of(bytes, sc_memory(&inside->table));
        leave(inside);
    }
    return bytes;
}

sc_status sc_shared_clear(const sc_shared *shared) {
    sc_status status = answer_to_handle(shared);
    for (uint64_t at = 0; status == SC_OK && at <= shared->shards->mask; at++) {
        shard *inside = entered(shared->shards, at);
        status = sc_clear(&inside->table);
        leave(inside);
    }
    return status;
}
