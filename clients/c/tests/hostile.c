/* What C can call wrongly is answered, and changes nothing. */
#include <stdlib.h>

#include "string_cache.h"
#include "texts.h"

enum { KEPT = 4, ROOM = 64 };

/* All that a table tells, so that two states can be compared. */
typedef struct state {
    size_t entries;
    uint64_t text_bytes;
    uint64_t words[KEPT];
    uint64_t holders[KEPT];
    char texts[KEPT][ROOM];
} state;

static state state_of(sc_table *table) {
    state seen;
    memset(&seen, 0, sizeof seen);
    seen.entries = sc_entries(table);
    seen.text_bytes = sc_text_bytes(table);
    for (size_t at = 0; at < KEPT && at < seen.entries; at++) {
        size_t len = 0;
        CHECK(sc_entry(table, at, &seen.words[at], &seen.holders[at]) == SC_OK);
        CHECK(sc_text(table, seen.words[at], seen.texts[at], ROOM, &len) == SC_OK);
    }
    return seen;
}

static bool is_as_before(sc_table *table, const state *before) {
    state now = state_of(table);
    return memcmp(&now, before, sizeof now) == 0;
}

/* A table with three texts, one of which has two holders. */
static sc_table filled(void) {
    sc_table table = opened();
    (void)word_of(&table, "the first text");
    (void)word_of(&table, "the second text");
    (void)word_of(&table, "the third text");
    (void)word_of(&table, "the third text");
    return table;
}

static void null_pointers_are_bad_arguments(void) {
    sc_table table = filled();
    state before = state_of(&table);
    uint64_t word = 77;
    size_t len = 77;
    char room[ROOM];
    CHECK(sc_intern(&table, NULL, 1, &word) == SC_BAD_ARGUMENT && sc_intern(&table, "abc", 3, NULL) == SC_BAD_ARGUMENT);
    CHECK(sc_get(&table, NULL, 1, &word) == SC_BAD_ARGUMENT && sc_get(&table, "abc", 3, NULL) == SC_BAD_ARGUMENT);
    CHECK(sc_holders(&table, before.words[0], NULL) == SC_BAD_ARGUMENT);
    CHECK(sc_text(&table, before.words[0], NULL, 1, &len) == SC_BAD_ARGUMENT && len == 77);
    CHECK(sc_text(&table, before.words[0], room, ROOM, NULL) == SC_BAD_ARGUMENT);
    CHECK(sc_pack(NULL, 1, &word) == SC_BAD_ARGUMENT && sc_pack("abc", 3, NULL) == SC_BAD_ARGUMENT);
    CHECK(sc_unpack(1, NULL, 1, &len) == SC_BAD_ARGUMENT && sc_unpack(1, room, ROOM, NULL) == SC_BAD_ARGUMENT);
    CHECK(sc_form(1, NULL) == SC_BAD_ARGUMENT && sc_hash("abc", 3, 0, NULL) == SC_BAD_ARGUMENT);
    CHECK(sc_check_tables("", 0, NULL) == SC_BAD_ARGUMENT && sc_check_tables(NULL, 1, &(bool){false}) == SC_BAD_ARGUMENT);
    CHECK(sc_hash(NULL, 1, 0, &(sc_hashes){0, 0, 0}) == SC_BAD_ARGUMENT);
    CHECK(word == 77 && is_as_before(&table, &before));
    sc_close(&table);
}

/* What each function answers for a handle: the same number of all that answer one, and nothing of the others. */
static bool all_answer(sc_table *table, sc_status number) {
    uint64_t word = 77, holders = 77;
    size_t len = 77;
    char room[ROOM];
    bool same = sc_intern(table, "a longer text", 13, &word) == number && sc_intern(table, "abc", 3, &word) == number;
    same = same && sc_get(table, "abc", 3, &word) == number && sc_clone(table, 1) == number && sc_give(table, 1) == number;
    same = same && sc_holders(table, 1, &holders) == number && sc_text(table, 1, room, ROOM, &len) == number;
    same = same && sc_entry(table, 0, &word, &holders) == number && sc_clear(table) == number && sc_reserve(table, 1) == number;
    same = same && !sc_holds(table, 1) && sc_entries(table) == 0 && sc_text_bytes(table) == 0 && sc_memory(table) == 0;
    sc_close(table);
    return same && word == 77 && holders == 77 && len == 77;
}

static const sc_key KEY = {1, 2};

static void no_handle_is_a_bad_argument(void) {
    CHECK(all_answer(NULL, SC_BAD_ARGUMENT));
    CHECK(sc_open(NULL) == SC_BAD_ARGUMENT && sc_open_with(NULL, 1, 1, 0) == SC_BAD_ARGUMENT);
    CHECK(sc_open_keyed(NULL, 1, 1, 0, KEY) == SC_BAD_ARGUMENT);
}

static void a_closed_handle_is_answered(void) {
    sc_table table = SC_CLOSED_TABLE;
    CHECK(all_answer(&table, SC_CLOSED));
    sc_table used = filled();
    sc_close(&used);
    CHECK(all_answer(&used, SC_CLOSED));
}

/* Memory that was never a handle, as far as it shows. */
static void a_handle_of_other_bytes_is_a_bad_argument(void) {
    static const unsigned char bytes[] = {2, 16, 128, 255};
    for (size_t at = 0; at < sizeof bytes; at++) {
        sc_table table;
        memset(&table, bytes[at], sizeof table);
        CHECK(all_answer(&table, SC_BAD_ARGUMENT) && sc_open(&table) == SC_BAD_ARGUMENT);
        CHECK(sc_open_with(&table, 1, 1, 0) == SC_BAD_ARGUMENT && sc_open_keyed(&table, 1, 1, 0, KEY) == SC_BAD_ARGUMENT);
    }
    sc_table full_of_nothing = {NULL, true};
    CHECK(all_answer(&full_of_nothing, SC_BAD_ARGUMENT) && sc_open(&full_of_nothing) == SC_BAD_ARGUMENT);
}

static void a_second_open_changes_nothing(void) {
    sc_table table = filled();
    state before = state_of(&table);
    CHECK(sc_open(&table) == SC_NOT_CLOSED && is_as_before(&table, &before));
    CHECK(sc_open_with(&table, 1, 1, 0) == SC_NOT_CLOSED && is_as_before(&table, &before));
    CHECK(sc_open_with(&table, 0, 0, 99) == SC_NOT_CLOSED && is_as_before(&table, &before));
    CHECK(sc_open_keyed(&table, 1, 1, 0, KEY) == SC_NOT_CLOSED && is_as_before(&table, &before));
    sc_close(&table);
}

static void lengths_beyond_all_memory_are_bad_arguments(void) {
    static const size_t lengths[] = {(size_t)PTRDIFF_MAX + 1, SIZE_MAX / 2 + 2, SIZE_MAX - 1, SIZE_MAX};
    sc_table table = filled();
    state before = state_of(&table);
    uint64_t word = 77;
    size_t len = 77;
    char room[ROOM];
    for (size_t at = 0; at < sizeof lengths / sizeof lengths[0]; at++) {
        CHECK(sc_intern(&table, "abc", lengths[at], &word) == SC_BAD_ARGUMENT);
        CHECK(sc_get(&table, "abc", lengths[at], &word) == SC_BAD_ARGUMENT);
        CHECK(sc_text(&table, before.words[0], room, lengths[at], &len) == SC_BAD_ARGUMENT);
        CHECK(sc_intern(&table, NULL, lengths[at], &word) == SC_BAD_ARGUMENT);
        CHECK(sc_pack("abc", lengths[at], &word) == SC_BAD_ARGUMENT && sc_unpack(1, room, lengths[at], &len) == SC_BAD_ARGUMENT);
        CHECK(sc_hash("abc", lengths[at], 0, &(sc_hashes){0, 0, 0}) == SC_BAD_ARGUMENT);
        CHECK(sc_check_tables("abc", lengths[at], &(bool){false}) == SC_BAD_ARGUMENT);
        CHECK(sc_entry(&table, lengths[at], &word, NULL) == SC_NOT_HELD);
    }
    CHECK(word == 77 && len == 77 && is_as_before(&table, &before));
    CHECK(sc_reserve(&table, SIZE_MAX) == SC_NO_MEMORY && sc_reserve(&table, SIZE_MAX / 2) == SC_NO_MEMORY);
    CHECK(sc_reserve(&table, SIZE_MAX / 64) == SC_NO_MEMORY && is_as_before(&table, &before));
    sc_close(&table);
}

static void nothing_at_null_is_the_empty_text(void) {
    sc_table table = opened();
    uint64_t word = 77;
    size_t len = 77;
    CHECK(sc_intern(&table, NULL, 0, &word) == SC_OK && word == 1);
    CHECK(sc_get(&table, NULL, 0, &word) == SC_OK && word == 1);
    CHECK(sc_text(&table, 1, NULL, 0, &len) == SC_OK && len == 0);
    CHECK(sc_pack(NULL, 0, &word) == SC_OK && word == 1 && sc_unpack(1, NULL, 0, &len) == SC_OK && len == 0);
    sc_hashes at_null, empty;
    CHECK(sc_hash(NULL, 0, 5, &at_null) == SC_OK && sc_hash("", 0, 5, &empty) == SC_OK);
    CHECK(at_null.g == empty.g && at_null.f1 == empty.f1 && at_null.f2 == empty.f2);
    sc_close(&table);
}

/* Bytes that aren't UTF-8, by what is wrong with them. */
static const struct {
    const char *text;
    size_t len;
} not_utf8[] = {
    {"\x80", 1},                /* a byte that only goes on */
    {"ab\xbf", 3},              /* the same at the end */
    {"\xc3", 1},                /* a letter that ends too soon */
    {"\xe2\x82", 2},            /* the same with three bytes */
    {"\xf0\x9f\x98", 3},        /* the same with four */
    {"\xc0\x80", 2},            /* too long a form of zero */
    {"\xc1\xbf", 2},            /* too long a form of 127 */
    {"\xe0\x80\xaf", 3},        /* too long a form of '/' */
    {"\xf0\x80\x80\xaf", 4},    /* the same in four bytes */
    {"\xed\xa0\x80", 3},        /* a surrogate */
    {"\xed\xbf\xbf", 3},        /* the last surrogate */
    {"\xf4\x90\x80\x80", 4},    /* beyond the last letter */
    {"\xf5\x80\x80\x80", 4},    /* a first byte of no letter */
    {"\xfe\xff", 2},            /* bytes of no letter */
    {"\xff", 1},                /* the same */
    {"a longer text \xff", 15}, /* the same behind a text */
    {"caf\xe9 au lait", 12},    /* Latin-1 */
    {"a\xc3(", 3},              /* a letter cut by another */
};

static void other_bytes_are_not_utf8(void) {
    sc_table table = filled();
    state before = state_of(&table);
    for (size_t at = 0; at < sizeof not_utf8 / sizeof not_utf8[0]; at++) {
        const char *text = not_utf8[at].text;
        size_t len = not_utf8[at].len;
        uint64_t word = 77;
        CHECK(sc_intern(&table, text, len, &word) == SC_NOT_UTF8 && word == 77);
        CHECK(sc_get(&table, text, len, &word) == SC_NOT_UTF8 && word == 77);
        CHECK(sc_hash(text, len, 0, &(sc_hashes){0, 0, 0}) == SC_NOT_UTF8);
        CHECK(sc_check_tables(text, len, &(bool){false}) == SC_NOT_UTF8);
        CHECK(sc_pack(text, len, &word) == SC_NOT_UTF8 && word == 77);
    }
    CHECK(is_as_before(&table, &before));
    sc_close(&table);
}

/* Zero bytes are part of a text, and so is any letter of UTF-8. */
static void any_utf8_is_a_text(void) {
    static const char texts[][17] = {"\0", "a\0b\0c\0d\0e\0f", "caf\xc3\xa9 au lait", "\xf0\x9f\x98\x80\xf4\x8f\xbf\xbf\xee\x80\x80"};
    static const size_t lengths[] = {1, 11, 13, 11};
    sc_table table = opened();
    for (size_t at = 0; at < sizeof lengths / sizeof lengths[0]; at++) {
        uint64_t word = 0;
        char room[ROOM];
        size_t len = 0;
        CHECK(sc_intern(&table, texts[at], lengths[at], &word) == SC_OK);
        CHECK(sc_text(&table, word, room, ROOM, &len) == SC_OK && len == lengths[at] && memcmp(room, texts[at], len) == 0);
    }
    CHECK(sc_entries(&table) == 3);
    sc_close(&table);
}

/* Words of another table, with one bucket each so that the tickets of both are multiples of 2^16. */
static void words_of_another_table_are_not_held(void) {
    sc_table table = SC_CLOSED_TABLE, other = SC_CLOSED_TABLE;
    CHECK(sc_open_with(&table, 9, 9, 0) == SC_OK && sc_open_with(&other, 9, 9, 0) == SC_OK);
    (void)word_of(&table, "the first text");
    (void)word_of(&other, "not the first text");
    uint64_t word = word_of(&other, "the first text");
    state before = state_of(&table);
    char room[ROOM];
    size_t len = 77;
    CHECK(!sc_holds(&table, word) && sc_clone(&table, word) == SC_NOT_HELD && sc_give(&table, word) == SC_NOT_HELD);
    CHECK(sc_text(&table, word, room, ROOM, &len) == SC_NOT_HELD && len == 77);
    CHECK(sc_holders(&table, word, &(uint64_t){0}) == SC_NOT_HELD);
    CHECK(is_as_before(&table, &before));
    sc_close(&table);
    CHECK(has_text(&other, word, "the first text"));
    sc_close(&other);
}

/* The next of a row of numbers that look like chance (xorshift). */
static uint64_t next(uint64_t *chance) {
    *chance ^= *chance << 13;
    *chance ^= *chance >> 7;
    *chance ^= *chance << 17;
    return *chance;
}

/* Any number, and any near to a word: what isn't held is refused, and what is held can be given back as often as it is cloned. */
static void any_number_is_answered(void) {
    sc_table table = filled();
    state before = state_of(&table);
    uint64_t chance = UINT64_C(0x9e3779b97f4a7c15);
    for (int round = 0; round < 300000; round++) {
        uint64_t word = next(&chance);
        word = round % 3 == 0 ? word : round % 3 == 1 ? word >> (word & 63) : before.words[word % 3] ^ UINT64_C(1) << (word >> 8 & 63);
        char room[ROOM];
        size_t len = 0;
        bool holds = sc_holds(&table, word);
        CHECK(sc_text(&table, word, room, ROOM, &len) == (holds ? SC_OK : SC_NOT_HELD));
        CHECK(sc_clone(&table, word) == (holds ? SC_OK : SC_NOT_HELD));
        CHECK(sc_give(&table, word) == (holds ? SC_OK : SC_NOT_HELD));
        sc_word_parts parts;
        CHECK(sc_form(word, &parts) == SC_OK || !holds);
    }
    CHECK(is_as_before(&table, &before));
    sc_close(&table);
}

/* An answer may go to where the word came from, and two answers to one place. */
static void answers_may_go_anywhere(void) {
    sc_table table = filled();
    uint64_t word = word_of(&table, "the first text");
    uint64_t first = word;
    CHECK(sc_holders(&table, word, &word) == SC_OK && word == 2);
    char text[] = "the first text";
    CHECK(sc_intern(&table, text, 14, &word) == SC_OK && word == first);
    uint64_t both = 0;
    CHECK(sc_entry(&table, 0, &both, &both) == SC_OK && both == 3);
    sc_close(&table);
}

static const test tests[] = {
    {"null_pointers_are_bad_arguments", null_pointers_are_bad_arguments},
    {"no_handle_is_a_bad_argument", no_handle_is_a_bad_argument},
    {"a_closed_handle_is_answered", a_closed_handle_is_answered},
    {"a_handle_of_other_bytes_is_a_bad_argument", a_handle_of_other_bytes_is_a_bad_argument},
    {"a_second_open_changes_nothing", a_second_open_changes_nothing},
    {"lengths_beyond_all_memory_are_bad_arguments", lengths_beyond_all_memory_are_bad_arguments},
    {"nothing_at_null_is_the_empty_text", nothing_at_null_is_the_empty_text},
    {"other_bytes_are_not_utf8", other_bytes_are_not_utf8},
    {"any_utf8_is_a_text", any_utf8_is_a_text},
    {"words_of_another_table_are_not_held", words_of_another_table_are_not_held},
    {"any_number_is_answered", any_number_is_answered},
    {"answers_may_go_anywhere", answers_may_go_anywhere},
};

int main(void) {
    return RUN_TESTS(tests);
}
