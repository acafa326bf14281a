/* Threads that intern, copy, read and give in one shared interner: each sees its own texts all the time, and at the end all that is held is what
 * they hold together. */
#include <pthread.h>
#include <stdlib.h>
#include <string.h>

#include "check.h"
#include "string_cache_shared.h"

enum { TEXTS = 200, STEPS = 1500, MOST_THREADS = 64, ROOM = 64 };

/* One thread: what it holds, and how often it saw what it shouldn't. */
typedef struct worker {
    const sc_shared *shared;
    uint64_t chance;
    uint64_t words[TEXTS];
    uint64_t holders[TEXTS]; /* its own */
    size_t wrong;
} worker;

static unsigned below(worker *self, unsigned bound) {
    self->chance ^= self->chance << 13;
    self->chance ^= self->chance >> 7;
    self->chance ^= self->chance << 17;
    return (unsigned)(self->chance >> 33) % bound;
}

/* A text of its number: every eighth one is short. */
static size_t text_of(unsigned number, char *room) {
    return (size_t)snprintf(room, ROOM, number % 8 == 0 ? "t%u" : "text number %u", number);
}

static void expect(worker *self, bool holds) {
    self->wrong += !holds;
}

static void interns(worker *self, unsigned number) {
    char text[ROOM];
    const size_t len = text_of(number, text);
    uint64_t word = 0;
    expect(self, sc_shared_intern(self->shared, text, len, &word) == SC_OK);
    expect(self, self->holders[number] == 0 || self->words[number] == word);
    self->words[number] = word;
    self->holders[number]++;
}

static void reads(worker *self, unsigned number) {
    char text[ROOM], room[ROOM];
    const size_t len = text_of(number, text);
    uint64_t word = 0, holders = 0;
    size_t found = 0;
    expect(self, sc_shared_text(self->shared, self->words[number], room, ROOM, &found) == SC_OK);
    expect(self, found == len && memcmp(room, text, len) == 0);
    expect(self, sc_shared_get(self->shared, text, len, &word) == SC_OK && word == self->words[number]);
    expect(self, sc_shared_holds(self->shared, word));
    expect(self, len <= 7 || (sc_shared_holders(self->shared, word, &holders) == SC_OK && holders >= self->holders[number]));
}

static void steps(worker *self, unsigned number) {
    switch (self->holders[number] == 0 ? 0 : below(self, 5)) {
    case 0:
        interns(self, number);
        break;
    case 1:
        expect(self, sc_shared_clone(self->shared, self->words[number]) == SC_OK);
        self->holders[number]++;
        break;
    case 2:
    case 3:
        expect(self, sc_shared_give(self->shared, self->words[number]) == SC_OK);
        self->holders[number]--;
        break;
    default:
        reads(self, number);
    }
}

/* The bytes of texts come first: what the tables take later has room for each of these texts still, whatever other threads do meanwhile. */
static void counts(worker *self) {
    const uint64_t bytes = sc_shared_text_bytes(self->shared);
    expect(self, sc_shared_entries(self->shared) <= TEXTS && sc_shared_memory(self->shared) > bytes);
}

static void *work(void *given) {
    worker *self = given;
    for (int step = 0; step < STEPS; step++) {
        steps(self, below(self, TEXTS));
        if (step % 500 == 0) {
            counts(self);
        }
    }
    return NULL;
}

/* What the threads hold of a text together is what the interner has. Gives it all back. */
static void settle(const sc_shared *shared, worker *workers, size_t count, unsigned number) {
    char text[ROOM];
    const size_t len = text_of(number, text);
    uint64_t word = 0, held = 0, holders = 0;
    for (size_t at = 0; at < count; at++) {
        const uint64_t own = workers[at].holders[number];
        CHECK(own == 0 || held == 0 || workers[at].words[number] == word);
        word = own != 0 ? workers[at].words[number] : word;
        held += own;
    }
    if (len <= 7) {
        return;
    }
    CHECK(sc_shared_holders(shared, word, &holders) == (held != 0 ? SC_OK : SC_NOT_HELD) && holders == held);
    for (; held != 0; held--) {
        CHECK(sc_shared_give(shared, word) == SC_OK);
    }
    CHECK(!sc_shared_holds(shared, word));
}

static void threads_share(size_t count, uint8_t shard_bits) {
    static worker workers[MOST_THREADS];
    pthread_t threads[MOST_THREADS];
    sc_shared shared = SC_CLOSED_SHARED;
    CHECK(sc_shared_open_with(&shared, shard_bits, UINT64_C(1) << 62, UINT64_C(1) << 47, 2) == SC_OK);
    memset(workers, 0, sizeof workers);
    for (size_t at = 0; at < count; at++) {
        workers[at].shared = &shared;
        workers[at].chance = UINT64_C(0x2545f4914f6cdd1d) * (at + 1);
        CHECK(pthread_create(&threads[at], NULL, work, &workers[at]) == 0);
    }
    for (size_t at = 0; at < count; at++) {
        CHECK(pthread_join(threads[at], NULL) == 0 && workers[at].wrong == 0);
    }
    for (unsigned number = 0; number < TEXTS; number++) {
        settle(&shared, workers, count, number);
    }
    CHECK(sc_shared_entries(&shared) == 0 && sc_shared_text_bytes(&shared) == 0);
    sc_shared_close(&shared);
}

static void two_threads_share(void) {
    threads_share(2, 0);
    threads_share(2, 6);
}

static void eight_threads_share(void) {
    threads_share(8, 1);
    threads_share(8, 6);
}

static void sixty_four_threads_share(void) {
    threads_share(64, 0);
    threads_share(64, 6);
}

static const test tests[] = {
    {"two_threads_share", two_threads_share},
    {"eight_threads_share", eight_threads_share},
    {"sixty_four_threads_share", sixty_four_threads_share},
};

int main(void) {
    return RUN_TESTS(tests);
}
