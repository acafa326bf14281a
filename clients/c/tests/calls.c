/* What each function answers where it is called as it should be. */
#include "string_cache.h"
#include "texts.h"

static void a_table_opens_and_closes(void) {
    sc_table table = SC_CLOSED_TABLE;
    CHECK(sc_open(&table) == SC_OK);
    CHECK(sc_open(&table) == SC_NOT_CLOSED);
    CHECK(sc_open_with(&table, 1, 1, 0) == SC_NOT_CLOSED);
    CHECK(sc_entries(&table) == 0 && sc_text_bytes(&table) == 0);
    (void)word_of(&table, "a longer text");
    sc_close(&table);
    CHECK(sc_entries(&table) == 0);
    CHECK(sc_open(&table) == SC_OK);
    CHECK(sc_entries(&table) == 0);
    sc_close(&table);
    sc_close(&table);
}

static void equal_texts_have_equal_words(void) {
    sc_table table = opened();
    uint64_t first = word_of(&table, "a longer text");
    CHECK(word_of(&table, "a longer text") == first);
    CHECK(word_of(&table, "another long text") != first);
    CHECK(word_of(&table, "short") == word_of(&table, "short"));
    CHECK(word_of(&table, "short") != word_of(&table, "shorts"));
    CHECK(has_text(&table, first, "a longer text"));
    CHECK(sc_entries(&table) == 2 && sc_text_bytes(&table) == 13 + 17);
    sc_close(&table);
}

/* The word of "abc" is 1 + 16 * 3, and then its bytes. */
static void a_short_text_lies_in_its_word(void) {
    sc_table table = opened();
    CHECK(word_of(&table, "") == 1);
    CHECK(word_of(&table, "abc") == UINT64_C(0x63626131));
    CHECK(word_of(&table, "abcdefg") == UINT64_C(0x6766656463626171));
    CHECK(has_text(&table, UINT64_C(0x63626131), "abc"));
    CHECK(has_text(&table, 1, ""));
    CHECK(sc_holds(&table, UINT64_C(0x6766656463626171)));
    CHECK(sc_clone(&table, UINT64_C(0x63626131)) == SC_OK && sc_give(&table, UINT64_C(0x63626131)) == SC_OK);
    CHECK(sc_entries(&table) == 0);
    sc_close(&table);
}

/* With one bucket, the words are the multiples of 2^16, in turn. */
static void tickets_come_in_turn(void) {
    sc_table table = SC_CLOSED_TABLE;
    CHECK(sc_open_with(&table, 2, 3, 0) == SC_OK);
    CHECK(word_of(&table, "the first text") == UINT64_C(1) << 16);
    CHECK(word_of(&table, "the second text") == UINT64_C(2) << 16);
    CHECK(sc_give(&table, UINT64_C(1) << 16) == SC_OK);
    CHECK(word_of(&table, "the first text") == UINT64_C(3) << 16);
    CHECK(word_of(&table, "the first text") == UINT64_C(3) << 16);
    uint64_t word = 77;
    CHECK(intern(&table, "the first text", &word) == SC_FULL_COUNT && word == 77);
    CHECK(sc_clone(&table, UINT64_C(3) << 16) == SC_FULL_COUNT);
    CHECK(intern(&table, "the third text", &word) == SC_TICKETS_SPENT && word == 77);
    CHECK(intern(&table, "inline", &word) == SC_OK);
    CHECK(sc_entries(&table) == 2);
    sc_close(&table);
}

static void limits_have_ranges(void) {
    sc_table table = SC_CLOSED_TABLE;
    CHECK(sc_open_with(&table, 0, 1, 0) == SC_NOT_LIMITS);
    CHECK(sc_open_with(&table, 1, 0, 0) == SC_NOT_LIMITS);
    CHECK(sc_open_with(&table, UINT64_C(1) << 63, 1, 0) == SC_NOT_LIMITS);
    CHECK(sc_open_with(&table, 1, UINT64_C(1) << 48, 0) == SC_NOT_LIMITS);
    CHECK(sc_open_with(&table, 1, 1, 15) == SC_NOT_LIMITS);
    CHECK(sc_open_with(&table, 1, 1, 255) == SC_NOT_LIMITS);
    CHECK(!table.full);
    for (uint8_t bits = 0; bits <= 14; bits++) {
        CHECK(sc_open_with(&table, (UINT64_C(1) << 63) - 1, (UINT64_C(1) << 48) - 1, bits) == SC_OK);
        sc_close(&table);
    }
}

static void a_text_is_found_without_a_holder_more(void) {
    sc_table table = opened();
    uint64_t found = 77, holders = 0;
    CHECK(sc_get(&table, "a longer text", 13, &found) == SC_NOT_HELD && found == 77);
    uint64_t word = word_of(&table, "a longer text");
    CHECK(sc_get(&table, "a longer text", 13, &found) == SC_OK && found == word);
    CHECK(sc_holders(&table, word, &holders) == SC_OK && holders == 1);
    CHECK(sc_get(&table, "abc", 3, &found) == SC_OK && found == UINT64_C(0x63626131));
    CHECK(sc_holders(&table, found, &holders) == SC_NOT_HELD && holders == 1);
    sc_close(&table);
}

static void the_last_holder_takes_the_text_away(void) {
    sc_table table = opened();
    uint64_t word = word_of(&table, "a longer text"), holders = 0;
    CHECK(sc_clone(&table, word) == SC_OK);
    CHECK(word_of(&table, "a longer text") == word);
    CHECK(sc_holders(&table, word, &holders) == SC_OK && holders == 3);
    CHECK(sc_give(&table, word) == SC_OK && sc_give(&table, word) == SC_OK && sc_holds(&table, word));
    CHECK(sc_give(&table, word) == SC_OK && !sc_holds(&table, word));
    CHECK(sc_give(&table, word) == SC_NOT_HELD && sc_clone(&table, word) == SC_NOT_HELD);
    CHECK(sc_holders(&table, word, &holders) == SC_NOT_HELD);
    CHECK(word_of(&table, "a longer text") != word);
    sc_close(&table);
}

static void a_text_is_copied_where_it_has_room(void) {
    sc_table table = opened();
    uint64_t word = word_of(&table, "a longer text");
    char room[16];
    size_t len = 0;
    memset(room, '.', sizeof room);
    CHECK(sc_text(&table, word, room, 12, &len) == SC_TOO_SMALL && len == 13 && room[0] == '.');
    CHECK(sc_text(&table, word, room, 13, &len) == SC_OK && len == 13);
    CHECK(memcmp(room, "a longer text...", 16) == 0);
    len = 0;
    CHECK(sc_text(&table, word, NULL, 0, &len) == SC_TOO_SMALL && len == 13);
    CHECK(sc_text(&table, 1, NULL, 0, &len) == SC_OK && len == 0);
    sc_close(&table);
}

/* The last entry comes in the place of one that goes. */
static void entries_stand_in_order(void) {
    sc_table table = opened();
    uint64_t first = word_of(&table, "the first text"), second = word_of(&table, "the second text");
    uint64_t third = word_of(&table, "the third text"), word = 0, holders = 0;
    CHECK(word_of(&table, "the third text") == third);
    CHECK(sc_entry(&table, 0, &word, &holders) == SC_OK && word == first && holders == 1);
    CHECK(sc_entry(&table, 1, &word, &holders) == SC_OK && word == second && holders == 1);
    CHECK(sc_entry(&table, 2, &word, &holders) == SC_OK && word == third && holders == 2);
    CHECK(sc_entry(&table, 3, &word, &holders) == SC_NOT_HELD && word == third && holders == 2);
    CHECK(sc_give(&table, first) == SC_OK);
    CHECK(sc_entry(&table, 0, &word, NULL) == SC_OK && word == third);
    CHECK(sc_entry(&table, 1, NULL, &holders) == SC_OK && holders == 1);
    CHECK(sc_entry(&table, 2, NULL, NULL) == SC_NOT_HELD);
    sc_close(&table);
}

static void a_cleared_table_gives_no_ticket_twice(void) {
    sc_table table = SC_CLOSED_TABLE;
    CHECK(sc_open_with(&table, 10, 10, 0) == SC_OK);
    CHECK(sc_reserve(&table, 1000) == SC_OK && sc_entries(&table) == 0);
    CHECK(word_of(&table, "the first text") == UINT64_C(1) << 16);
    CHECK(sc_clear(&table) == SC_OK && sc_entries(&table) == 0 && sc_text_bytes(&table) == 0);
    CHECK(!sc_holds(&table, UINT64_C(1) << 16));
    CHECK(word_of(&table, "the first text") == UINT64_C(2) << 16);
    sc_close(&table);
}

static void words_tell_of_themselves(void) {
    uint64_t word = 77;
    char room[7];
    size_t len = 0;
    CHECK(sc_pack("abc", 3, &word) == SC_OK && word == UINT64_C(0x63626131));
    CHECK(sc_pack("abcdefgh", 8, &word) == SC_NOT_A_WORD && word == UINT64_C(0x63626131));
    CHECK(sc_unpack(word, room, sizeof room, &len) == SC_OK && len == 3 && memcmp(room, "abc", 3) == 0);
    CHECK(sc_unpack(word, room, 2, &len) == SC_TOO_SMALL && len == 3);
    CHECK(sc_unpack(UINT64_C(1) << 16, room, sizeof room, &len) == SC_NOT_A_WORD && len == 3);
    sc_word_parts parts;
    CHECK(sc_form(word, &parts) == SC_OK && parts.kind == SC_INLINE);
    CHECK(sc_form(UINT64_C(0x500000002), &parts) == SC_OK && parts.kind == SC_STATIC && parts.index == 5);
    CHECK(sc_form(UINT64_C(7) << 16 | 9 << 2, &parts) == SC_OK && parts.kind == SC_TICKET && parts.serial == 7 && parts.bucket == 9);
    CHECK(sc_form(3, &parts) == SC_NOT_A_WORD && parts.serial == 7);
    /* The greatest of each, and 0 for what a kind doesn't have. */
    CHECK(sc_form(UINT64_MAX - 3, &parts) == SC_OK && parts.serial == (UINT64_C(1) << 48) - 1 && parts.bucket == 16383 && parts.index == 0);
    CHECK(sc_form(UINT64_C(0xffffffff00000002), &parts) == SC_OK && parts.index == UINT32_MAX && parts.serial == 0 && parts.bucket == 0);
}

/* Hashes as another program has them, which was written from the description of SipHash. */
static void texts_have_hashes(void) {
    static const struct {
        const char *text;
        uint64_t key;
        sc_hashes wanted;
    } rows[] = {
        {"sentence", 0, {0xed02e6f1, 0x6c03c165, 0x56e93a5c}},
        {"sentence", 1, {0x8c071a17, 0x6b8b0b17, 0x1d7eba7c}},
        {"", 7, {0xa8c1ff71, 0xec7b4b2f, 0x755e96ad}},
        {"a longer text of 31 bytes, yes!", UINT64_C(0x0123456789abcdef), {0xea54a5ca, 0x87d68b34, 0x7af1d631}},
    };
    for (size_t at = 0; at < sizeof rows / sizeof rows[0]; at++) {
        sc_hashes found;
        CHECK(sc_hash(rows[at].text, strlen(rows[at].text), rows[at].key, &found) == SC_OK);
        CHECK(found.g == rows[at].wanted.g && found.f1 == rows[at].wanted.f1 && found.f2 == rows[at].wanted.f2);
    }
}

/* The tables of one text, in the one spelling that they have. */
static void tables_are_checked(void) {
    static const char tables[] = "key 0\ndisp 0 0\natom 1122334455667788 sentence\n";
    bool perfect = false;
    CHECK(sc_check_tables(tables, sizeof tables - 1, &perfect) == SC_OK && perfect);
    CHECK(sc_check_tables(tables, sizeof tables - 2, &perfect) == SC_OK && !perfect);
    CHECK(sc_check_tables("", 0, &perfect) == SC_OK && !perfect);
}

static void many_texts_are_kept(void) {
    enum { TEXTS = 21000 };
    sc_table table = opened();
    char text[32];
    static uint64_t words[TEXTS];
    for (int at = 0; at < TEXTS; at++) {
        snprintf(text, sizeof text, "text number %d", at);
        words[at] = word_of(&table, text);
    }
    CHECK(sc_entries(&table) == TEXTS);
    for (int at = 0; at < TEXTS; at += 7) {
        snprintf(text, sizeof text, "text number %d", at);
        CHECK(has_text(&table, words[at], text));
    }
    sc_close(&table);
}

enum { LARGE = 300000 };

static void check_text(const char *text, size_t text_len) {
    sc_table table = opened();
    static char room[LARGE];
    uint64_t word = 0;
    size_t len = 0;
    bool perfect = true;
    CHECK(sc_intern(&table, text, text_len, &word) == SC_OK);
    CHECK(sc_text(&table, word, room, LARGE, &len) == SC_OK && len == text_len && memcmp(room, text, text_len) == 0);
    CHECK(sc_check_tables(text, text_len, &perfect) == SC_OK && !perfect);
    sc_close(&table);
}

static void large_texts_are_taken(void) {
    static char text[LARGE];
    memset(text, 'a', LARGE);
    check_text(text, LARGE);
    for (size_t at = 0; at < LARGE; at += 2) {
        memcpy(text + at, "\xc3\xa9", 2);
    }
    check_text(text, LARGE);
}

static void texts_of_several_lines_are_taken(void) {
    static char text[LARGE];
    for (size_t at = 0; at < LARGE; at++) {
        text[at] = at % 9 == 8 ? '\n' : 'a';
    }
    static const size_t lengths[] = {10, 100, 1000, 10000, 100000};
    for (size_t at = 0; at < sizeof lengths / sizeof lengths[0]; at++) {
        check_text(text, lengths[at]);
    }
}

static void numbers_have_texts(void) {
    CHECK(sc_version() == SC_VERSION && SC_VERSION == SC_VERSION_MAJOR * 10000 + SC_VERSION_MINOR * 100 + SC_VERSION_PATCH);
    CHECK(strcmp(sc_strerror(SC_OK), "success") == 0);
    CHECK(strcmp(sc_strerror(SC_NO_MEMORY), "there is no memory") == 0);
    CHECK(strcmp(sc_strerror(SC_BAD_ARGUMENT), "null pointer, length too large, or not a valid handle") == 0);
    for (uint32_t number = 0; number < 20; number++) {
        bool is_known = number <= SC_NO_RANDOM && number != 4;
        CHECK(sc_strerror(number)[0] != '\0' && is_known == (strcmp(sc_strerror(number), "unknown status") != 0));
        CHECK(strcmp(sc_text_of_fault(number), sc_strerror(number)) == 0);
        for (uint32_t other = 0; is_known && other < number; other++) {
            CHECK(strcmp(sc_strerror(other), sc_strerror(number)) != 0);
        }
    }
    CHECK(strcmp(sc_strerror(UINT32_MAX), "unknown status") == 0 && sizeof(sc_number) == sizeof(sc_status));
    CHECK(strcmp(sc_strerror(256), "unknown status") == 0 && strcmp(sc_strerror(65536 + SC_CLOSED), "unknown status") == 0);
    static const struct {
        sc_status status;
        const char *text;
    } rows[] = {
        {SC_FULL_COUNT, "the text has as many holders as the limits allow"},
        {SC_TICKETS_SPENT, "the bucket of the text has no ticket left"},
        {SC_NOT_UTF8, "the bytes are not UTF-8"},
        {SC_NOT_HELD, "the table does not hold it"},
        {SC_CLOSED, "the table is closed"},
        {SC_NOT_CLOSED, "the table is open already"},
        {SC_TOO_SMALL, "the text is longer than the room"},
        {SC_NOT_LIMITS, "a limit or the number of buckets is out of range"},
        {SC_NOT_A_WORD, "it is no such word"},
    };
    for (size_t at = 0; at < sizeof rows / sizeof rows[0]; at++) {
        CHECK(strcmp(sc_strerror(rows[at].status), rows[at].text) == 0);
    }
}

static const test tests[] = {
    {"a_table_opens_and_closes", a_table_opens_and_closes},
    {"equal_texts_have_equal_words", equal_texts_have_equal_words},
    {"a_short_text_lies_in_its_word", a_short_text_lies_in_its_word},
    {"tickets_come_in_turn", tickets_come_in_turn},
    {"limits_have_ranges", limits_have_ranges},
    {"a_text_is_found_without_a_holder_more", a_text_is_found_without_a_holder_more},
    {"the_last_holder_takes_the_text_away", the_last_holder_takes_the_text_away},
    {"a_text_is_copied_where_it_has_room", a_text_is_copied_where_it_has_room},
    {"entries_stand_in_order", entries_stand_in_order},
    {"a_cleared_table_gives_no_ticket_twice", a_cleared_table_gives_no_ticket_twice},
    {"words_tell_of_themselves", words_tell_of_themselves},
    {"texts_have_hashes", texts_have_hashes},
    {"tables_are_checked", tables_are_checked},
    {"many_texts_are_kept", many_texts_are_kept},
    {"large_texts_are_taken", large_texts_are_taken},
    {"texts_of_several_lines_are_taken", texts_of_several_lines_are_taken},
    {"numbers_have_texts", numbers_have_texts},
};

int main(void) {
    return RUN_TESTS(tests);
}
