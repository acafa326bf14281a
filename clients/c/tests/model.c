/* Random calls, and what a plain list of texts with holders says of each: the answers, the entries, their order. */
#include "string_cache.h"
#include "texts.h"

enum { TEXTS = 60, CALLS = 200000, HOLDERS = 5 };

/* A text that is held. */
typedef struct entry {
    unsigned text; /* its number */
    uint64_t word;
    uint64_t holders;
} entry;

/* What should be in the table, in its order. */
static entry entries[TEXTS];
static size_t count;
static uint64_t last_serial; /* of the one bucket */
static uint64_t chance = UINT64_C(0x2545f4914f6cdd1d);

static unsigned below(unsigned bound) {
    chance ^= chance << 13;
    chance ^= chance >> 7;
    chance ^= chance << 17;
    return (unsigned)(chance >> 33) % bound;
}

/* The text of a number: every other one is short, and the last ones are long. */
static size_t text_of(unsigned number, char *room) {
    size_t len = (size_t)sprintf(room, number % 2 == 0 ? "t%u" : "text number %u", number);
    for (; number > TEXTS - 10 && len < 200; len++) {
        room[len] = (char)('a' + len % 26);
    }
    return len;
}

static size_t place_of(unsigned text) {
    size_t at = 0;
    while (at < count && entries[at].text != text) {
        at++;
    }
    return at;
}

static size_t place_of_word(uint64_t word) {
    size_t at = 0;
    while (at < count && entries[at].word != word) {
        at++;
    }
    return at;
}

static void interns(sc_table *table) {
    char text[256];
    unsigned number = below(TEXTS);
    size_t len = text_of(number, text), at = place_of(number);
    uint64_t word = 77, wanted = 0;
    if (len <= 7) {
        CHECK(sc_intern(table, text, len, &word) == SC_OK && sc_pack(text, len, &wanted) == SC_OK && word == wanted);
    } else if (at == count) {
        entries[count++] = (entry){number, ++last_serial << 16, 1};
        CHECK(sc_intern(table, text, len, &word) == SC_OK && word == last_serial << 16);
    } else if (entries[at].holders == HOLDERS) {
        CHECK(sc_intern(table, text, len, &word) == SC_FULL_COUNT && word == 77);
    } else {
        entries[at].holders++;
        CHECK(sc_intern(table, text, len, &word) == SC_OK && word == entries[at].word);
    }
}

static void gets(sc_table *table) {
    char text[256];
    unsigned number = below(TEXTS);
    size_t len = text_of(number, text), at = place_of(number);
    uint64_t word = 77;
    sc_status answer = sc_get(table, text, len, &word);
    CHECK(len <= 7 ? answer == SC_OK : at == count ? answer == SC_NOT_HELD && word == 77 : answer == SC_OK && word == entries[at].word);
}

/* A word that is held, or was, or never will be. */
static uint64_t any_word(void) {
    return (uint64_t)(1 + below((unsigned)last_serial + 2)) << 16;
}

static void clones(sc_table *table) {
    uint64_t word = any_word();
    size_t at = place_of_word(word);
    if (at == count) {
        CHECK(sc_clone(table, word) == SC_NOT_HELD);
    } else if (entries[at].holders == HOLDERS) {
        CHECK(sc_clone(table, word) == SC_FULL_COUNT);
    } else {
        entries[at].holders++;
        CHECK(sc_clone(table, word) == SC_OK);
    }
}

static void gives(sc_table *table) {
    uint64_t word = count != 0 && below(4) != 0 ? entries[below((unsigned)count)].word : any_word();
    size_t at = place_of_word(word);
    CHECK(sc_give(table, word) == (at == count ? SC_NOT_HELD : SC_OK));
    if (at != count && --entries[at].holders == 0) {
        entries[at] = entries[--count];
    }
}

static void reads(sc_table *table) {
    char wanted[256], room[256];
    uint64_t word = any_word(), holders = 77;
    size_t at = place_of_word(word), len = 77;
    sc_status answer = sc_text(table, word, room, sizeof room, &len);
    CHECK(sc_holds(table, word) == (at != count));
    CHECK(sc_holders(table, word, &holders) == (at != count ? SC_OK : SC_NOT_HELD));
    if (at == count) {
        CHECK(answer == SC_NOT_HELD && len == 77 && holders == 77);
    } else {
        size_t own = text_of(entries[at].text, wanted);
        CHECK(answer == SC_OK && len == own && memcmp(room, wanted, own) == 0 && holders == entries[at].holders);
    }
}

static void lists(sc_table *table) {
    uint64_t word = 77, holders = 77, bytes = 0;
    char text[256];
    for (size_t at = 0; at < count; at++) {
        CHECK(sc_entry(table, at, &word, &holders) == SC_OK && word == entries[at].word && holders == entries[at].holders);
        bytes += text_of(entries[at].text, text);
    }
    CHECK(sc_entry(table, count, &word, &holders) == SC_NOT_HELD);
    CHECK(sc_entries(table) == count && sc_text_bytes(table) == bytes);
}

static void clears(sc_table *table) {
    CHECK(sc_clear(table) == SC_OK);
    count = 0;
}

static void calls_are_those_of_a_list(void) {
    sc_table table = SC_CLOSED_TABLE;
    CHECK(sc_open_with(&table, HOLDERS, (UINT64_C(1) << 48) - 1, 0) == SC_OK);
    for (int call = 0; call < CALLS; call++) {
        switch (below(8)) {
        case 0:
        case 1:
            interns(&table);
            break;
        case 2:
            gets(&table);
            break;
        case 3:
            clones(&table);
            break;
        case 4:
        case 5:
            gives(&table);
            break;
        default:
            reads(&table);
        }
        if (call % 100 == 0) {
            lists(&table);
        }
        if (call % 20000 == 19999) {
            clears(&table);
        }
    }
    sc_close(&table);
}

static const test tests[] = {{"calls_are_those_of_a_list", calls_are_those_of_a_list}};

int main(void) {
    return RUN_TESTS(tests);
}
