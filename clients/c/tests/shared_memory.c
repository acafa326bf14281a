/* Each request for memory and for a lock refused in turn: the shared interner says so, changes nothing, and does its work when it is asked again.
 * What sc_shared_memory tells is what the heap has given. */
#include <pthread.h>
#include <stdlib.h>
#include <string.h>

#include "check.h"
#include "counted_heap.h"
#include "string_cache_shared.h"

enum { TEXTS = 100, MOST = 2000, SHARD_BITS = 3 };

static long locks_before_refusal = -1; /* how many locks are still made before one is refused; none is below 0 */
static size_t locks_made;              /* those that weren't ended */

int __real_pthread_mutex_init(pthread_mutex_t *lock, const pthread_mutexattr_t *how);
int __real_pthread_mutex_destroy(pthread_mutex_t *lock);
int __wrap_pthread_mutex_init(pthread_mutex_t *lock, const pthread_mutexattr_t *how);
int __wrap_pthread_mutex_destroy(pthread_mutex_t *lock);

int __wrap_pthread_mutex_init(pthread_mutex_t *lock, const pthread_mutexattr_t *how) {
    if (locks_before_refusal >= 0 && locks_before_refusal-- == 0) {
        return 12; /* ENOMEM */
    }
    locks_made++;
    return __real_pthread_mutex_init(lock, how);
}

int __wrap_pthread_mutex_destroy(pthread_mutex_t *lock) {
    locks_made--;
    return __real_pthread_mutex_destroy(lock);
}

static sc_status open_small(sc_shared *shared) {
    return sc_shared_open_with(shared, SHARD_BITS, UINT64_C(1) << 62, UINT64_C(1) << 47, 0);
}

/* Opens an interner, again where memory was refused. How often it was. */
static int open_again(sc_shared *shared) {
    const sc_status status = open_small(shared);
    if (status == SC_OK) {
        return 0;
    }
    CHECK(status == SC_NO_MEMORY && shared->shards == NULL && bytes_given == 0 && blocks_given == 0 && locks_made == 0);
    CHECK(open_small(shared) == SC_OK);
    return 1;
}

/* Interns a text, again where memory was refused. How often it was. */
static int intern_again(const sc_shared *shared, int at) {
    char text[32];
    uint64_t word = 77;
    const size_t entries = sc_shared_entries(shared);
    const uint64_t bytes = sc_shared_text_bytes(shared);
    const size_t len = (size_t)snprintf(text, sizeof text, "text number %d", at);
    const sc_status status = sc_shared_intern(shared, text, len, &word);
    if (status == SC_OK) {
        return 0;
    }
    CHECK(status == SC_NO_MEMORY && word == 77 && sc_shared_entries(shared) == entries && sc_shared_text_bytes(shared) == bytes);
    CHECK(sc_shared_get(shared, text, len, &word) == SC_NOT_HELD);
    CHECK(sc_shared_intern(shared, text, len, &word) == SC_OK && sc_shared_holds(shared, word));
    return 1;
}

static void each_request_is_refused(void) {
    int refused = 0;
    long at = 0;
    for (int before = -1; before != refused && at < MOST; at++) {
        before = refused;
        before_refusal = at;
        sc_shared shared = SC_CLOSED_SHARED;
        refused += open_again(&shared);
        for (int text = 0; text < TEXTS; text++) {
            refused += intern_again(&shared, text);
        }
        CHECK(sc_shared_entries(&shared) == TEXTS);
        sc_shared_close(&shared);
        CHECK(bytes_given == 0 && blocks_given == 0 && locks_made == 0);
    }
    before_refusal = -1;
    /* The block, two for each table, and each text has its bytes. */
    CHECK(refused > 1 + 2 * (1 << SHARD_BITS) + TEXTS && at < MOST);
    printf("%d requests, each refused in turn\n", refused);
}

static void each_lock_is_refused(void) {
    for (long at = 0; at < 1 << SHARD_BITS; at++) {
        sc_shared shared = SC_CLOSED_SHARED;
        locks_before_refusal = at;
        CHECK(open_small(&shared) == SC_NO_MEMORY && shared.shards == NULL && bytes_given == 0 && locks_made == 0);
    }
    locks_before_refusal = -1;
}

static void memory_is_told(void) {
    sc_shared shared = SC_CLOSED_SHARED;
    CHECK(sc_shared_memory(&shared) == 0 && open_small(&shared) == SC_OK);
    for (int at = 0; at < 1000; at++) {
        char text[32];
        uint64_t word = 0;
        const size_t len = (size_t)snprintf(text, sizeof text, "text number %d", at);
        CHECK(sc_shared_intern(&shared, text, len, &word) == SC_OK && sc_shared_memory(&shared) == bytes_given);
        CHECK(at % 3 != 0 || (sc_shared_give(&shared, word) == SC_OK && sc_shared_memory(&shared) == bytes_given));
    }
    CHECK(sc_shared_clear(&shared) == SC_OK && sc_shared_memory(&shared) == bytes_given);
    sc_shared_close(&shared);
    CHECK(bytes_given == 0 && blocks_given == 0 && locks_made == 0);
}

/* Whether these limits are refused as such, and not as a want of memory. */
static bool limits_are_refused(uint64_t holders, uint64_t tickets) {
    sc_shared other = SC_CLOSED_SHARED;
    return sc_shared_open_with(&other, SHARD_BITS, holders, tickets, 0) == SC_NOT_LIMITS && other.shards == NULL && before_refusal == 0;
}

/* What needs no memory goes on with every request refused. */
static void the_rest_asks_for_none(void) {
    sc_shared shared = SC_CLOSED_SHARED;
    uint64_t word = 0, again = 0;
    char room[32];
    size_t len = 0;
    CHECK(open_small(&shared) == SC_OK && sc_shared_intern(&shared, "a longer text", 13, &word) == SC_OK);
    before_refusal = 0;
    CHECK(sc_shared_intern(&shared, "a longer text", 13, &again) == SC_OK && again == word && sc_shared_intern(&shared, "short", 5, &again) == SC_OK);
    CHECK(sc_shared_get(&shared, "a longer text", 13, &again) == SC_OK && again == word && sc_shared_clone(&shared, word) == SC_OK);
    CHECK(sc_shared_text(&shared, word, room, sizeof room, &len) == SC_OK && len == 13 && sc_shared_give(&shared, word) == SC_OK);
    CHECK(sc_shared_clear(&shared) == SC_OK && before_refusal == 0);
    CHECK(limits_are_refused(0, 1) && limits_are_refused(1, 0) && limits_are_refused(UINT64_C(1) << 63, 1) && limits_are_refused(1, UINT64_C(1) << 48));
    before_refusal = -1;
    sc_shared_close(&shared);
}

static const test tests[] = {
    {"each_request_is_refused", each_request_is_refused},
    {"each_lock_is_refused", each_lock_is_refused},
    {"memory_is_told", memory_is_told},
    {"the_rest_asks_for_none", the_rest_asks_for_none},
};

int main(void) {
    return RUN_TESTS(tests);
}
