/* What the shared interner answers, by one thread: what a table does, with words that tell their shards. */
#include <stdlib.h>
#include <string.h>

#include "check.h"
#include "string_cache_shared.h"

enum { ROOM = 64, MANY = 50000, MORE = 70000 };

static const uint64_t HOLDERS = (UINT64_C(1) << 63) - 1;
static const uint64_t TICKETS = (UINT64_C(1) << 48) - 1;

static sc_shared opened(uint8_t shard_bits, uint8_t bucket_bits) {
    sc_shared shared = SC_CLOSED_SHARED;
    CHECK(sc_shared_open_with(&shared, shard_bits, HOLDERS, TICKETS, bucket_bits) == SC_OK);
    return shared;
}

static uint64_t word_of(const sc_shared *shared, const char *text) {
    uint64_t word = 0;
    CHECK(sc_shared_intern(shared, text, strlen(text), &word) == SC_OK);
    return word;
}

static bool has_text(const sc_shared *shared, uint64_t word, const char *text) {
    char room[ROOM];
    size_t len = 0;
    return sc_shared_text(shared, word, room, sizeof room, &len) == SC_OK && len == strlen(text) && memcmp(room, text, len) == 0;
}

static uint64_t holders_of(const sc_shared *shared, uint64_t word) {
    uint64_t holders = 0;
    return sc_shared_holders(shared, word, &holders) == SC_OK ? holders : 0;
}

static void a_text_is_kept_until_its_last_holder_goes(void) {
    sc_shared shared = SC_CLOSED_SHARED;
    uint64_t found = 0;
    CHECK(sc_shared_open(&shared) == SC_OK && sc_shared_open(&shared) == SC_NOT_CLOSED);
    const uint64_t word = word_of(&shared, "a longer text");
    CHECK(word_of(&shared, "a longer text") == word && has_text(&shared, word, "a longer text"));
    CHECK(sc_shared_get(&shared, "a longer text", 13, &found) == SC_OK && found == word);
    CHECK(sc_shared_clone(&shared, word) == SC_OK && holders_of(&shared, word) == 3);
    CHECK(sc_shared_entries(&shared) == 1 && sc_shared_text_bytes(&shared) == 13);
    for (uint64_t left = 3; left-- != 0;) {
        CHECK(sc_shared_holds(&shared, word) && sc_shared_give(&shared, word) == SC_OK && holders_of(&shared, word) == left);
    }
    CHECK(!sc_shared_holds(&shared, word) && !has_text(&shared, word, "a longer text"));
    CHECK(sc_shared_give(&shared, word) == SC_NOT_HELD && sc_shared_clone(&shared, word) == SC_NOT_HELD);
    CHECK(sc_shared_get(&shared, "a longer text", 13, &found) == SC_NOT_HELD);
    CHECK(sc_shared_entries(&shared) == 0 && sc_shared_text_bytes(&shared) == 0);
    CHECK(word_of(&shared, "a longer text") != word);
    sc_shared_close(&shared);
    sc_shared_close(&shared);
    CHECK(shared.shards == NULL);
}

/* As another program has them: the text in the upper bytes, its length and a tag in the lowest. */
static void a_short_text_is_the_same_word_everywhere(void) {
    sc_shared one = opened(0, 0), many = opened(8, 6);
    const sc_shared *both[] = {&one, &many};
    for (size_t at = 0; at < 2; at++) {
        uint64_t found = 0;
        CHECK(word_of(both[at], "abc") == UINT64_C(0x63626131) && word_of(both[at], "") == 1);
        CHECK(word_of(both[at], "1234567") == UINT64_C(0x3736353433323171));
        CHECK(sc_shared_get(both[at], "abc", 3, &found) == SC_OK && found == UINT64_C(0x63626131) && has_text(both[at], found, "abc"));
        CHECK(sc_shared_holds(both[at], found) && sc_shared_clone(both[at], found) == SC_OK && sc_shared_give(both[at], found) == SC_OK);
        CHECK(sc_shared_holders(both[at], found, &found) == SC_NOT_HELD && sc_shared_entries(both[at]) == 0);
    }
    sc_shared_close(&one);
    sc_shared_close(&many);
}

/* What a number of 64 bits is answered that no ticket has is what a table answers. */
static void any_number_is_answered_as_by_a_table(void) {
    static const uint64_t numbers[] = {0, 1, 2, 3, 0x21, 0x6131, 0x636261f1, 0xff11, 0x100000002, 0x8000000000000001, UINT64_MAX, UINT64_C(1) << 63};
    sc_shared shared = opened(6, 6);
    sc_table table = SC_CLOSED_TABLE;
    CHECK(sc_open(&table) == SC_OK);
    for (size_t at = 0; at < sizeof numbers / sizeof numbers[0]; at++) {
        const uint64_t word = numbers[at];
        char room[ROOM], other[ROOM];
        size_t len = 77, other_len = 77;
        uint64_t holders = 77;
        CHECK(sc_shared_holds(&shared, word) == sc_holds(&table, word));
        CHECK(sc_shared_clone(&shared, word) == sc_clone(&table, word) && sc_shared_give(&shared, word) == sc_give(&table, word));
        CHECK(sc_shared_holders(&shared, word, &holders) == sc_holders(&table, word, &holders) && holders == 77);
        CHECK(sc_shared_text(&shared, word, room, ROOM, &len) == sc_text(&table, word, other, ROOM, &other_len) && len == other_len);
        CHECK(len == 77 || memcmp(room, other, len) == 0);
    }
    sc_close(&table);
    sc_shared_close(&shared);
}

static int by_number(const void *one, const void *other) {
    const uint64_t left = *(const uint64_t *)one, right = *(const uint64_t *)other;
    return left < right ? -1 : left > right;
}

/* Interns many texts and sees that no two have one word, and that each word has its text: the first tickets of all shards are the same number. */
static void words_are_told_apart(uint8_t shard_bits, uint8_t bucket_bits, int count) {
    static uint64_t words[MANY], sorted[MANY];
    sc_shared shared = opened(shard_bits, bucket_bits);
    uint64_t shards = 0;
    char text[ROOM];
    for (int at = 0; at < count; at++) {
        snprintf(text, sizeof text, "text number %d", at);
        words[at] = sorted[at] = word_of(&shared, text);
        shards |= UINT64_C(1) << (words[at] >> (2 + bucket_bits) & 63);
        CHECK((words[at] & 3) == 0 && (words[at] >> (2 + bucket_bits + shard_bits) & (UINT64_C(0x3fff) >> (shard_bits + bucket_bits))) == 0);
    }
    qsort(sorted, (size_t)count, sizeof sorted[0], by_number);
    for (int at = 1; at < count; at++) {
        CHECK(sorted[at - 1] != sorted[at]);
    }
    for (int at = 0; at < count; at++) {
        snprintf(text, sizeof text, "text number %d", at);
        CHECK(has_text(&shared, words[at], text) && word_of(&shared, text) == words[at] && holders_of(&shared, words[at]) == 2);
    }
    CHECK(sc_shared_entries(&shared) == (size_t)count && (shard_bits != 6 || bucket_bits != 0 || shards == UINT64_MAX));
    sc_shared_close(&shared);
}

static void two_texts_never_share_a_word(void) {
    words_are_told_apart(6, 6, MANY);
    words_are_told_apart(6, 0, MANY);
    for (uint8_t shard_bits = 0; shard_bits <= 14; shard_bits++) {
        words_are_told_apart(shard_bits, 0, 2000);
        words_are_told_apart(shard_bits, (uint8_t)(14 - shard_bits), 500);
    }
}

/* Whatever the number of shards, an open interner is left as it is. */
static void an_open_interner_is_not_opened(void) {
    for (uint8_t shard_bits = 0; shard_bits <= 14; shard_bits++) {
        sc_shared shared = opened(shard_bits, 0);
        struct sc_shards *const shards = shared.shards;
        const uint64_t word = word_of(&shared, "a longer text");
        CHECK(sc_shared_open(&shared) == SC_NOT_CLOSED && sc_shared_open_with(&shared, shard_bits, 1, 1, 0) == SC_NOT_CLOSED);
        CHECK(sc_shared_open_with(&shared, 255, 0, 0, 255) == SC_NOT_CLOSED && shared.shards == shards);
        CHECK(has_text(&shared, word, "a longer text") && holders_of(&shared, word) == 1);
        sc_shared_close(&shared);
    }
}

/* Of entries, holders and bytes there are more than 16 bits can count. */
static void counts_go_beyond_16_bits(void) {
    sc_shared shared = opened(4, 8);
    uint64_t bytes = 0, word = 0;
    char text[ROOM];
    for (int at = 0; at < MORE; at++) {
        bytes += (uint64_t)snprintf(text, sizeof text, "text number %d", at);
        word = word_of(&shared, text);
    }
    CHECK(sc_shared_entries(&shared) == MORE && sc_shared_text_bytes(&shared) == bytes && sc_shared_memory(&shared) > bytes);
    for (uint64_t at = 1; at < MORE; at++) {
        CHECK(sc_shared_clone(&shared, word) == SC_OK);
    }
    CHECK(holders_of(&shared, word) == MORE);
    for (uint64_t at = MORE; at-- != 0;) {
        CHECK(sc_shared_give(&shared, word) == SC_OK && holders_of(&shared, word) == at);
    }
    CHECK(sc_shared_entries(&shared) == MORE - 1 && !sc_shared_holds(&shared, word));
    sc_shared_close(&shared);
}

/* A word with another shard, bucket or serial is not held, and changes nothing. */
static void the_word_of_another_shard_is_not_held(void) {
    sc_shared shared = opened(3, 4);
    const uint64_t word = word_of(&shared, "a longer text");
    for (int bit = 0; bit < 64; bit++) {
        const uint64_t other = word ^ UINT64_C(1) << bit;
        CHECK(!sc_shared_holds(&shared, other) && sc_shared_give(&shared, other) == SC_NOT_HELD);
        CHECK(sc_shared_clone(&shared, other) == SC_NOT_HELD && holders_of(&shared, other) == 0);
    }
    CHECK(holders_of(&shared, word) == 1);
    sc_shared_close(&shared);
}

static void limits_have_ranges(void) {
    static const struct {
        uint64_t holders, tickets;
        uint8_t shard_bits, bucket_bits;
    } rows[] = {
        {0, 1, 2, 2}, {1, 0, 2, 2}, {UINT64_C(1) << 63, 1, 2, 2}, {1, UINT64_C(1) << 48, 2, 2}, {1, 1, 15, 0}, {1, 1, 0, 15}, {1, 1, 7, 8}, {1, 1, 255, 255},
    };
    sc_shared shared = SC_CLOSED_SHARED;
    for (size_t at = 0; at < sizeof rows / sizeof rows[0]; at++) {
        CHECK(sc_shared_open_with(&shared, rows[at].shard_bits, rows[at].holders, rows[at].tickets, rows[at].bucket_bits) == SC_NOT_LIMITS);
        CHECK(shared.shards == NULL);
    }
    CHECK(sc_shared_open_with(&shared, 0, 2, 1, 0) == SC_OK);
    uint64_t word = word_of(&shared, "a longer text"), other = 77;
    CHECK(sc_shared_clone(&shared, word) == SC_OK && sc_shared_clone(&shared, word) == SC_FULL_COUNT);
    CHECK(sc_shared_intern(&shared, "a longer text", 13, &other) == SC_FULL_COUNT && other == 77);
    CHECK(sc_shared_intern(&shared, "another text", 12, &other) == SC_TICKETS_SPENT && other == 77);
    sc_shared_close(&shared);
}

/* What calls answer for a handle: the same status of all that answer one, and nothing of the others. */
static bool all_answer(const sc_shared *shared, sc_status status) {
    uint64_t word = 77, holders = 77;
    size_t len = 77;
    char room[ROOM];
    bool same = sc_shared_intern(shared, "a longer text", 13, &word) == status && sc_shared_intern(shared, "abc", 3, &word) == status;
    same = same && sc_shared_get(shared, "abc", 3, &word) == status && sc_shared_clone(shared, 1) == status && sc_shared_give(shared, 1) == status;
    same = same && sc_shared_holders(shared, 1, &holders) == status && sc_shared_text(shared, 1, room, ROOM, &len) == status;
    same = same && sc_shared_clear(shared) == status && !sc_shared_holds(shared, 1) && sc_shared_entries(shared) == 0;
    same = same && sc_shared_text_bytes(shared) == 0 && sc_shared_memory(shared) == 0;
    return same && word == 77 && holders == 77 && len == 77;
}

static void a_closed_interner_says_so(void) {
    const sc_shared closed = SC_CLOSED_SHARED;
    CHECK(all_answer(&closed, SC_CLOSED) && all_answer(NULL, SC_BAD_ARGUMENT));
    CHECK(sc_shared_open(NULL) == SC_BAD_ARGUMENT && sc_shared_open_with(NULL, 0, 1, 1, 0) == SC_BAD_ARGUMENT);
    sc_shared_close(NULL);
}

static void wrong_pointers_and_bytes_are_refused(void) {
    sc_shared shared = opened(2, 2);
    const uint64_t held = word_of(&shared, "a longer text");
    uint64_t word = 77;
    size_t len = 77;
    char room[ROOM];
    CHECK(sc_shared_intern(&shared, NULL, 1, &word) == SC_BAD_ARGUMENT && sc_shared_intern(&shared, "abc", 3, NULL) == SC_BAD_ARGUMENT);
    CHECK(sc_shared_get(&shared, NULL, 1, &word) == SC_BAD_ARGUMENT && sc_shared_get(&shared, "abc", SIZE_MAX, &word) == SC_BAD_ARGUMENT);
    CHECK(sc_shared_holders(&shared, held, NULL) == SC_BAD_ARGUMENT && sc_shared_text(&shared, held, room, ROOM, NULL) == SC_BAD_ARGUMENT);
    CHECK(sc_shared_text(&shared, held, NULL, 1, &len) == SC_BAD_ARGUMENT && sc_shared_text(&shared, 1, NULL, 1, &len) == SC_BAD_ARGUMENT);
    CHECK(sc_shared_intern(&shared, "\xff", 1, &word) == SC_NOT_UTF8 && sc_shared_intern(&shared, "not UTF-8 \xff", 11, &word) == SC_NOT_UTF8);
    CHECK(sc_shared_get(&shared, "\xff", 1, &word) == SC_NOT_UTF8 && sc_shared_get(&shared, "not UTF-8 \xff", 11, &word) == SC_NOT_UTF8);
    CHECK(word == 77 && len == 77);
    CHECK(sc_shared_text(&shared, held, room, 12, &len) == SC_TOO_SMALL && len == 13 && sc_shared_text(&shared, held, NULL, 0, &len) == SC_TOO_SMALL);
    CHECK(sc_shared_intern(&shared, NULL, 0, &word) == SC_OK && word == 1 && sc_shared_entries(&shared) == 1);
    CHECK(sc_shared_text(&shared, UINT64_C(0x63626131), room, 2, &len) == SC_TOO_SMALL && len == 3);
    sc_shared_close(&shared);
}

static void a_cleared_interner_gives_no_word_twice(void) {
    sc_shared shared = opened(4, 0);
    static uint64_t words[500];
    char text[ROOM];
    for (int round = 0; round < 2; round++) {
        for (int at = 0; at < 500; at++) {
            snprintf(text, sizeof text, "text number %d", at);
            const uint64_t word = word_of(&shared, text);
            CHECK(round == 0 || word != words[at]);
            words[at] = word;
        }
        CHECK(sc_shared_entries(&shared) == 500 && sc_shared_clear(&shared) == SC_OK && sc_shared_entries(&shared) == 0);
        CHECK(!sc_shared_holds(&shared, words[7]));
    }
    sc_shared_close(&shared);
}

static void long_texts_and_letters_are_kept(void) {
    sc_shared shared = opened(6, 6);
    static char large[1 << 20], room[1 << 20];
    uint64_t word = 0;
    size_t len = 0;
    memset(large, 'x', sizeof large);
    CHECK(sc_shared_intern(&shared, large, sizeof large, &word) == SC_OK);
    CHECK(sc_shared_text(&shared, word, room, sizeof room, &len) == SC_OK && len == sizeof large && memcmp(room, large, len) == 0);
    CHECK(has_text(&shared, word_of(&shared, "\xe6\x97\xa5\xe6\x9c\xac\xe8\xaa\x9e"), "\xe6\x97\xa5\xe6\x9c\xac\xe8\xaa\x9e"));
    CHECK(sc_shared_text_bytes(&shared) == sizeof large + 9);
    sc_shared_close(&shared);
}

/* As another program has them, which was written from the description of SipHash and of words. C++ and Rust have the same. */
static void words_are_those_of_each_language(void) {
    sc_shared shared = SC_CLOSED_SHARED;
    CHECK(sc_shared_open(&shared) == SC_OK);
    CHECK(word_of(&shared, "a longer name") == 0x122cc && word_of(&shared, "another long name") == 0x13130);
    CHECK(word_of(&shared, "\xe6\x97\xa5\xe6\x9c\xac\xe8\xaa\x9e\xe3\x81\xae\xe9\x95\xb7\xe3\x81\x84\xe5\x90\x8d\xe5\x89\x8d") == 0x10ea4);
    sc_shared_close(&shared);
}

static const test tests[] = {
    {"a_text_is_kept_until_its_last_holder_goes", a_text_is_kept_until_its_last_holder_goes},
    {"a_short_text_is_the_same_word_everywhere", a_short_text_is_the_same_word_everywhere},
    {"any_number_is_answered_as_by_a_table", any_number_is_answered_as_by_a_table},
    {"two_texts_never_share_a_word", two_texts_never_share_a_word},
    {"an_open_interner_is_not_opened", an_open_interner_is_not_opened},
    {"counts_go_beyond_16_bits", counts_go_beyond_16_bits},
    {"the_word_of_another_shard_is_not_held", the_word_of_another_shard_is_not_held},
    {"limits_have_ranges", limits_have_ranges},
    {"a_closed_interner_says_so", a_closed_interner_says_so},
    {"wrong_pointers_and_bytes_are_refused", wrong_pointers_and_bytes_are_refused},
    {"a_cleared_interner_gives_no_word_twice", a_cleared_interner_gives_no_word_twice},
    {"long_texts_and_letters_are_kept", long_texts_and_letters_are_kept},
    {"words_are_those_of_each_language", words_are_those_of_each_language},
};

int main(void) {
    return RUN_TESTS(tests);
}
