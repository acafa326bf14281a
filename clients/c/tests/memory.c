/* Each request for memory refused in turn: the call says so, changes nothing, and does its work when it is made again. */
#include <stdlib.h>

#include "counted_heap.h"
#include "string_cache.h"
#include "texts.h"

enum { TEXTS = 200, MOST = 2000, HELD = 36 }; /* one text more than the last makes each map of a table grow */

/* Opens a table, again where memory was refused. How often it was. */
static int open_again(sc_table *table) {
    sc_status number = sc_open(table);
    if (number == SC_OK) {
        return 0;
    }
    CHECK(number == SC_NO_MEMORY && !table->full && sc_entries(table) == 0);
    CHECK(sc_open(table) == SC_OK);
    return 1;
}

/* Interns a text, again where memory was refused. How often it was. */
static int intern_again(sc_table *table, int at) {
    char text[32];
    uint64_t word = 77;
    size_t entries = sc_entries(table);
    uint64_t bytes = sc_text_bytes(table);
    snprintf(text, sizeof text, "text number %d", at);
    sc_status number = intern(table, text, &word);
    if (number == SC_OK) {
        return 0;
    }
    CHECK(number == SC_NO_MEMORY && word == 77 && sc_entries(table) == entries && sc_text_bytes(table) == bytes);
    CHECK(sc_get(table, text, strlen(text), &word) == SC_NOT_HELD);
    CHECK(intern(table, text, &word) == SC_OK && has_text(table, word, text));
    return 1;
}

static void each_request_of_interning_is_refused(void) {
    int refused = 0;
    long at = 0;
    for (int before = -1; before != refused && at < MOST; at++) {
        before = refused;
        before_refusal = at;
        sc_table table = SC_CLOSED_TABLE;
        refused += open_again(&table);
        for (int text = 0; text < TEXTS; text++) {
            refused += intern_again(&table, text);
        }
        CHECK(sc_entries(&table) == TEXTS);
        sc_close(&table);
    }
    before_refusal = -1;
    /* Each text has its bytes, and the table its buckets. */
    CHECK(refused > TEXTS && at < MOST);
    printf("%d requests, each refused in turn\n", refused);
}

static void a_request_for_room_is_refused(void) {
    sc_table table = opened();
    uint64_t word = word_of(&table, "a longer text");
    before_refusal = 0;
    CHECK(sc_reserve(&table, 5000) == SC_NO_MEMORY);
    before_refusal = 0;
    CHECK(sc_reserve(&table, (size_t)1 << 32) == SC_NO_MEMORY); /* the number isn't cut */
    before_refusal = -1;
    CHECK(sc_entries(&table) == 1 && has_text(&table, word, "a longer text"));
    CHECK(sc_reserve(&table, 5000) == SC_OK && sc_reserve(&table, 150000) == SC_OK && sc_entries(&table) == 1);
    sc_close(&table);
}

/* A table of HELD texts, of which the first has two holders, and the word of one that went before them. */
static sc_table filled(uint64_t *words, uint64_t *stale) {
    sc_table table = opened();
    char text[32];
    *stale = word_of(&table, "a text that goes");
    CHECK(sc_give(&table, *stale) == SC_OK);
    for (int at = 0; at < HELD; at++) {
        snprintf(text, sizeof text, "text number %d", at);
        words[at] = word_of(&table, text);
    }
    CHECK(sc_clone(&table, words[0]) == SC_OK);
    return table;
}

/* Whether the table says of all texts what one says that was just filled. */
static bool is_as_filled(const sc_table *table, const uint64_t *words, uint64_t stale) {
    bool is = sc_entries(table) == HELD && !sc_holds(table, stale);
    for (int at = 0; at < HELD; at++) {
        char text[32];
        uint64_t found = 0, entry = 0, holders = 0;
        snprintf(text, sizeof text, "text number %d", at);
        is = is && has_text(table, words[at], text) && sc_get(table, text, strlen(text), &found) == SC_OK && found == words[at];
        is = is && sc_entry(table, (size_t)at, &entry, &holders) == SC_OK && entry == words[at] && holders == (at == 0 ? 2 : 1);
    }
    return is;
}

/* A call that makes a table grow that was just filled. */
typedef sc_status growing_call(sc_table *table);

static sc_status make_room(sc_table *table) {
    return sc_reserve(table, 5000);
}

static sc_status take_one_more(sc_table *table) {
    uint64_t word = 0;
    return intern(table, "a text that comes later", &word);
}

/* Each request of a call refused in turn. How often the table has more memory than before. */
static int refused_growths_that_kept_room(growing_call *call, uint64_t later) {
    uint64_t words[HELD], stale = 0;
    int kept = 0;
    long at = 0;
    for (sc_status status = SC_NO_MEMORY; status == SC_NO_MEMORY && at < MOST; at++) {
        sc_table table = filled(words, &stale);
        const uint64_t memory = sc_memory(&table);
        before_refusal = at;
        status = call(&table);
        before_refusal = -1;
        if (status != SC_OK) {
            CHECK(status == SC_NO_MEMORY && is_as_filled(&table, words, stale) && sc_memory(&table) >= memory);
            kept += sc_memory(&table) > memory;
        }
        CHECK(word_of(&table, "a text that comes later") == later);
        sc_close(&table);
        CHECK(bytes_given == 0 && blocks_given == 0);
    }
    /* Each of two maps asks more than once. */
    CHECK(at > 4 && at < MOST);
    return kept;
}

static void room_that_a_refused_call_got_stays_and_tells_nothing(void) {
    uint64_t words[HELD], stale = 0;
    sc_table table = filled(words, &stale);
    const uint64_t later = word_of(&table, "a text that comes later");
    sc_close(&table);
    CHECK(refused_growths_that_kept_room(make_room, later) > 0);
    CHECK(refused_growths_that_kept_room(take_one_more, later) > 0);
}

static void tables_are_checked_without_memory(void) {
    static const char tables[] = "key 0\ndisp 0 0\natom 1122334455667788 sentence\n";
    long at = 0;
    bool perfect = false;
    sc_status number = SC_NO_MEMORY;
    for (; number == SC_NO_MEMORY && at < MOST; at++) {
        before_refusal = at;
        number = sc_check_tables(tables, sizeof tables - 1, &perfect);
        CHECK(number == SC_OK || (number == SC_NO_MEMORY && !perfect));
    }
    before_refusal = -1;
    CHECK(number == SC_OK && perfect && at > 1);
}

/* What needs no memory goes on with every request refused. */
static void the_rest_asks_for_none(void) {
    sc_table table = opened();
    uint64_t word = word_of(&table, "a longer text"), found = 0;
    before_refusal = 0;
    CHECK(word_of(&table, "a longer text") == word && word_of(&table, "short") != word);
    CHECK(sc_get(&table, "a longer text", 13, &found) == SC_OK && found == word);
    CHECK(has_text(&table, word, "a longer text") && sc_clone(&table, word) == SC_OK);
    CHECK(sc_give(&table, word) == SC_OK && sc_entry(&table, 0, &found, NULL) == SC_OK);
    CHECK(sc_hash("abc", 3, 0, &(sc_hashes){0, 0, 0}) == SC_OK && sc_clear(&table) == SC_OK);
    CHECK(before_refusal == 0);
    before_refusal = -1;
    sc_close(&table);
}

static const test tests[] = {
    {"each_request_of_interning_is_refused", each_request_of_interning_is_refused},
    {"a_request_for_room_is_refused", a_request_for_room_is_refused},
    {"room_that_a_refused_call_got_stays_and_tells_nothing", room_that_a_refused_call_got_stays_and_tells_nothing},
    {"tables_are_checked_without_memory", tables_are_checked_without_memory},
    {"the_rest_asks_for_none", the_rest_asks_for_none},
};

int main(void) {
    return RUN_TESTS(tests);
}
