/* The keys of tables: each table has one of its own, drawn whole from the system's random bytes, and is opened under it. What the tests link stands
 * before getrandom and before the exports that open tables, so it sees what was drawn and what was handed on. */
#include <errno.h>
#include <string.h>
#include <sys/types.h>

#include "exports.h"
#include "string_cache_shared.h"
#include "texts.h"

enum { MOST_KEYS = 64, TEXTS = 1000 };

static const uint64_t GREATEST_HOLDERS = (UINT64_C(1) << 63) - 1, GREATEST_TICKETS = (UINT64_C(1) << 48) - 1;

static sc_key drawn[MOST_KEYS], opened_under[MOST_KEYS];
static size_t draws, opens;
static int interrupts, refusals, short_draws;
static size_t fewer; /* of the tables, how many were opened with other limits than the greatest */

ssize_t __wrap_getrandom(void *at, size_t len, unsigned flags);
uint32_t __wrap_sc_table_open(sc_table *table, sc_key key);
uint32_t __wrap_sc_table_open_with(sc_table *table, uint64_t holders, uint64_t serials, uint8_t bucket_bits, sc_key key);
uint32_t __real_sc_table_open(sc_table *table, sc_key key);
uint32_t __real_sc_table_open_with(sc_table *table, uint64_t holders, uint64_t serials, uint8_t bucket_bits, sc_key key);

/* Bytes of which no 8 are the same, in any draw. */
ssize_t __wrap_getrandom(void *at, size_t len, unsigned flags) {
    sc_key key = {3 * draws + 1, ~(5 * (uint64_t)draws)};
    CHECK(len <= sizeof key && flags == 0);
    if (interrupts > 0) {
        interrupts--;
        errno = EINTR;
        return -1;
    }
    if (refusals > 0) {
        refusals--;
        errno = ENOSYS;
        return -1;
    }
    if (short_draws > 0) {
        short_draws--;
        len /= 2;
    }
    memcpy(at, &key, len);
    if (draws < MOST_KEYS) {
        drawn[draws] = key;
    }
    draws++;
    return (ssize_t)len;
}

static size_t nulls; /* pointers that were handed on */

uint32_t __wrap_sc_word_pack(const uint8_t *text, size_t len, uint64_t *word);
uint32_t __wrap_sc_word_unpack(uint64_t word, uint8_t *room, size_t room_len, size_t *len);
uint32_t __real_sc_word_pack(const uint8_t *text, size_t len, uint64_t *word);
uint32_t __real_sc_word_unpack(uint64_t word, uint8_t *room, size_t room_len, size_t *len);

uint32_t __wrap_sc_word_pack(const uint8_t *text, size_t len, uint64_t *word) {
    nulls += text == NULL;
    return __real_sc_word_pack(text, len, word);
}

uint32_t __wrap_sc_word_unpack(uint64_t word, uint8_t *room, size_t room_len, size_t *len) {
    nulls += room == NULL;
    return __real_sc_word_unpack(word, room, room_len, len);
}

static void note(sc_key key) {
    if (opens < MOST_KEYS) {
        opened_under[opens] = key;
    }
    opens++;
}

uint32_t __wrap_sc_table_open(sc_table *table, sc_key key) {
    note(key);
    return __real_sc_table_open(table, key);
}

uint32_t __wrap_sc_table_open_with(sc_table *table, uint64_t holders, uint64_t serials, uint8_t bucket_bits, sc_key key) {
    note(key);
    fewer += holders != GREATEST_HOLDERS || serials != GREATEST_TICKETS;
    return __real_sc_table_open_with(table, holders, serials, bucket_bits, key);
}

static bool is_key(sc_key one, sc_key other) {
    return one.low == other.low && one.high == other.high;
}

static void begin(void) {
    draws = opens = fewer = 0;
    interrupts = refusals = short_draws = 0;
}

static void each_table_is_opened_under_a_key_of_its_own(void) {
    begin();
    for (size_t at = 0; at < 20; at++) {
        sc_table table = SC_CLOSED_TABLE;
        CHECK((at % 2 == 0 ? sc_open(&table) : sc_open_with(&table, 9, 9, 3)) == SC_OK);
        CHECK(draws == at + 1 && opens == at + 1 && is_key(opened_under[at], drawn[at]));
        CHECK(at == 0 || (opened_under[at].low != opened_under[at - 1].low && opened_under[at].high != opened_under[at - 1].high));
        sc_close(&table);
    }
}

static void each_shard_has_a_key_of_its_own(void) {
    begin();
    sc_shared shared = SC_CLOSED_SHARED;
    CHECK(sc_shared_open_with(&shared, 3, GREATEST_HOLDERS, GREATEST_TICKETS, 2) == SC_OK);
    CHECK(draws == 8 && opens == 8);
    for (size_t at = 0; at < 8; at++) {
        CHECK(is_key(opened_under[at], drawn[at]));
    }
    sc_shared_close(&shared);
}

static void the_usual_limits_are_the_greatest(void) {
    begin();
    sc_shared shared = SC_CLOSED_SHARED;
    CHECK(sc_shared_open(&shared) == SC_OK && opens == 64 && fewer == 0);
    sc_shared_close(&shared);
}

/* No text and no room at null: the exports ask for pointers that aren't. */
static void no_null_is_handed_on(void) {
    uint64_t word = 0;
    size_t len = 77;
    nulls = 0;
    CHECK(sc_pack(NULL, 0, &word) == SC_OK && sc_unpack(word, NULL, 0, &len) == SC_OK && len == 0 && nulls == 0);
}

static void a_refused_draw_opens_nothing(void) {
    begin();
    for (int way = 0; way < 4; way++) {
        sc_table table = SC_CLOSED_TABLE;
        refusals = way < 2;
        short_draws = way >= 2;
        CHECK((way % 2 == 0 ? sc_open(&table) : sc_open_with(&table, 9, 9, 3)) == SC_NO_RANDOM);
        CHECK(opens == (size_t)way && !table.full && table.at == NULL);
        CHECK((way % 2 == 0 ? sc_open(&table) : sc_open_with(&table, 9, 9, 3)) == SC_OK);
        sc_close(&table);
    }
    CHECK(strcmp(sc_strerror(SC_NO_RANDOM), "the system gave no random bytes") == 0);
}

static void an_interrupted_draw_is_made_again(void) {
    begin();
    sc_table table = SC_CLOSED_TABLE;
    interrupts = 3;
    CHECK(sc_open(&table) == SC_OK && draws == 1 && opens == 1 && is_key(opened_under[0], drawn[0]));
    sc_close(&table);
}

static void an_open_table_draws_nothing(void) {
    begin();
    sc_table table = opened();
    uint64_t word = word_of(&table, "a longer text");
    refusals = 2;
    CHECK(sc_open(&table) == SC_NOT_CLOSED && sc_open_with(&table, 9, 9, 3) == SC_NOT_CLOSED);
    CHECK(sc_open_keyed(&table, 0, 0, 99, drawn[0]) == SC_NOT_CLOSED);
    CHECK(draws == 1 && refusals == 2 && has_text(&table, word, "a longer text"));
    sc_close(&table);
}

static void a_given_key_is_the_tables(void) {
    begin();
    sc_key key = {UINT64_C(0x0706050403020100), UINT64_C(0x0f0e0d0c0b0a0908)};
    sc_table table = SC_CLOSED_TABLE;
    CHECK(sc_open_keyed(NULL, 9, 9, 3, key) == SC_BAD_ARGUMENT);
    CHECK(sc_open_keyed(&table, 0, 9, 3, key) == SC_NOT_LIMITS && sc_open_keyed(&table, 9, 9, 15, key) == SC_NOT_LIMITS);
    opens = 0;
    CHECK(sc_open_keyed(&table, 2, 3, 0, key) == SC_OK);
    CHECK(draws == 0 && opens == 1 && is_key(opened_under[0], key));
    uint64_t word = word_of(&table, "a longer text");
    CHECK(sc_clone(&table, word) == SC_OK && sc_clone(&table, word) == SC_FULL_COUNT);
    sc_close(&table);
}

/* The word of a text of this number, which has some bytes beyond ASCII. */
static uint64_t numbered(sc_table *table, int at) {
    char text[40];
    snprintf(text, sizeof text, "tokenis\xc3\xa9 %d", at % (TEXTS / 2));
    return word_of(table, text);
}

static void words_are_the_same_under_every_key(void) {
    begin();
    sc_key zero = {0, 0}, other = {UINT64_MAX, 7};
    sc_table tables[3] = {SC_CLOSED_TABLE, SC_CLOSED_TABLE, SC_CLOSED_TABLE};
    CHECK(sc_open(&tables[0]) == SC_OK);
    CHECK(sc_open_keyed(&tables[1], GREATEST_HOLDERS, GREATEST_TICKETS, 12, zero) == SC_OK);
    CHECK(sc_open_keyed(&tables[2], GREATEST_HOLDERS, GREATEST_TICKETS, 12, other) == SC_OK);
    for (int at = 0; at < TEXTS; at++) {
        uint64_t word = numbered(&tables[0], at);
        CHECK(numbered(&tables[1], at) == word && numbered(&tables[2], at) == word);
    }
    for (int at = 0; at < 3; at++) {
        CHECK(sc_entries(&tables[at]) == TEXTS / 2);
        sc_close(&tables[at]);
    }
}

int main(void) {
    static const test tests[] = {
        {"each_table_is_opened_under_a_key_of_its_own", each_table_is_opened_under_a_key_of_its_own},
        {"each_shard_has_a_key_of_its_own", each_shard_has_a_key_of_its_own},
        {"the_usual_limits_are_the_greatest", the_usual_limits_are_the_greatest},
        {"no_null_is_handed_on", no_null_is_handed_on},
        {"a_refused_draw_opens_nothing", a_refused_draw_opens_nothing},
        {"an_interrupted_draw_is_made_again", an_interrupted_draw_is_made_again},
        {"an_open_table_draws_nothing", an_open_table_draws_nothing},
        {"a_given_key_is_the_tables", a_given_key_is_the_tables},
        {"words_are_the_same_under_every_key", words_are_the_same_under_every_key},
    };
    return RUN_TESTS(tests);
}
