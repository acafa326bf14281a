/* What sc_memory tells is what the heap has given at that moment, and a table that is closed gives all of it back. */
#include "counted_heap.h"
#include "string_cache.h"
#include "texts.h"

enum { TEXTS = 1000, MOST = 2000 };

/* The bytes of a group of nine places, in the map of texts and in that of tickets. A map has a power of two of them: so many for these texts. */
enum { TEXT_GROUP = 496, TICKET_GROUP = 208, GROUPS = 128 };

static const uint64_t MOST_HOLDERS = (UINT64_C(1) << 63) - 1, MOST_TICKETS = (UINT64_C(1) << 48) - 1;

/* A table of 2 to the power of so many buckets, with the greatest limits. */
static sc_table with_buckets(uint8_t bucket_bits) {
    sc_table table = SC_CLOSED_TABLE;
    CHECK(sc_open_with(&table, MOST_HOLDERS, MOST_TICKETS, bucket_bits) == SC_OK);
    return table;
}

/* Whether a table that is the only one tells what the heap has given. */
static bool tells_all(sc_table *table) {
    return sc_memory(table) == bytes_given;
}

/* Closes a table that is the only one. */
static void close_last(sc_table *table) {
    sc_close(table);
    CHECK(bytes_given == 0 && blocks_given == 0 && sc_memory(table) == 0);
}

static uint64_t numbered(sc_table *table, int number) {
    char text[32];
    snprintf(text, sizeof text, "text number %d", number);
    return word_of(table, text);
}

/* Two blocks: the table, and the last serial of each bucket with 8 bytes. */
static void an_empty_table_has_its_buckets(void) {
    static const uint8_t bits[] = {0, 1, 5, 12, 14};
    uint64_t one_bucket = 0;
    for (size_t at = 0; at < sizeof bits / sizeof bits[0]; at++) {
        sc_table table = with_buckets(bits[at]);
        one_bucket = at == 0 ? sc_memory(&table) : one_bucket;
        CHECK(tells_all(&table) && blocks_given == 2);
        CHECK(sc_memory(&table) == one_bucket + 8 * ((UINT64_C(1) << bits[at]) - 1));
        close_last(&table);
    }
    sc_table usual = opened();
    CHECK(tells_all(&usual) && sc_memory(&usual) == one_bucket + 8 * 4095);
    close_last(&usual);
}

/* A text of at most 7 bytes takes nothing, and one that is there takes nothing more. */
static void each_text_is_counted(void) {
    sc_table table = opened();
    for (int number = 0; number < TEXTS; number++) {
        (void)numbered(&table, number);
        CHECK(tells_all(&table));
    }
    const uint64_t before = sc_memory(&table);
    (void)numbered(&table, 7);
    (void)word_of(&table, "inline");
    CHECK(tells_all(&table) && sc_memory(&table) == before);
    CHECK(before > sc_text_bytes(&table) + TEXTS * 64);
    close_last(&table);
}

/* Ten texts have two groups of nine places in each of two maps. */
static void places_come_by_groups_of_nine(void) {
    sc_table table = with_buckets(0);
    const uint64_t empty = sc_memory(&table), group = TEXT_GROUP + TICKET_GROUP, unit = 1;
    for (int number = 0; number < 10; number++) {
        (void)numbered(&table, number);
        const uint64_t groups = number < 9 ? 1 : 2;
        CHECK(tells_all(&table) && sc_memory(&table) == empty + sc_text_bytes(&table) + groups * group + unit);
    }
    close_last(&table);
}

static void a_text_has_as_many_bytes_as_its_letters(void) {
    static char large[1 << 20];
    sc_table table = opened();
    uint64_t letters = 0, word = 0;
    memset(large, 'x', sizeof large);
    CHECK(intern(&table, "\xe6\x97\xa5\xe6\x9c\xac\xe8\xaa\x9e", &letters) == SC_OK && tells_all(&table));
    const uint64_t before = sc_memory(&table);
    CHECK(sc_intern(&table, large, sizeof large, &word) == SC_OK && tells_all(&table));
    CHECK(sc_memory(&table) == before + sizeof large);
    CHECK(sc_give(&table, word) == SC_OK && tells_all(&table) && sc_memory(&table) == before);
    CHECK(sc_give(&table, letters) == SC_OK && tells_all(&table) && sc_memory(&table) == before - 9);
    close_last(&table);
}

/* Fills a table that is new, and lets all texts go in another order: their bytes go with them. Then fills it again, and tells by how much it has
 * grown. */
static uint64_t growth_of_a_second_filling(sc_table *table) {
    static uint64_t words[TEXTS];
    for (int number = 0; number < TEXTS; number++) {
        words[number] = numbered(table, number);
    }
    const uint64_t full = sc_memory(table), bytes = sc_text_bytes(table);
    for (int number = 0; number < TEXTS; number++) {
        CHECK(sc_give(table, words[number * 7 % TEXTS]) == SC_OK && tells_all(table));
    }
    CHECK(sc_memory(table) == full - bytes);
    for (int number = 0; number < TEXTS; number++) {
        (void)numbered(table, number);
        CHECK(tells_all(table));
    }
    CHECK(sc_text_bytes(table) == bytes && sc_memory(table) >= full);
    return sc_memory(table) - full;
}

/* What goes gives its bytes back, and its place stays for the next. But a place in a group that was full when one more text fell there isn't counted
 * as free until the map puts its groups in order, and where it has to while more than half of its places are taken, it gets as many groups more.
 * Where texts fall hangs on the key: under the second one here the map gets more. */
static void giving_leaves_the_places(void) {
    static const struct {
        sc_key key;
        uint64_t growth;
    } rows[] = {{{1, 2}, 0}, {{1, 30}, GROUPS * TEXT_GROUP}};
    for (size_t at = 0; at < sizeof rows / sizeof rows[0]; at++) {
        sc_table table = SC_CLOSED_TABLE;
        CHECK(sc_open_keyed(&table, MOST_HOLDERS, MOST_TICKETS, 12, rows[at].key) == SC_OK);
        CHECK(growth_of_a_second_filling(&table) == rows[at].growth);
        close_last(&table);
    }
}

/* Under any key the map of texts grows once or not at all, and the map of tickets never. */
static void giving_loses_no_place(void) {
    for (int turn = 0; turn < 20; turn++) {
        sc_table table = opened();
        const uint64_t growth = growth_of_a_second_filling(&table);
        CHECK(growth == 0 || growth == GROUPS * TEXT_GROUP);
        close_last(&table);
    }
}

static void clearing_leaves_the_places(void) {
    sc_table table = opened();
    for (int number = 0; number < TEXTS; number++) {
        (void)numbered(&table, number);
    }
    const uint64_t full = sc_memory(&table), bytes = sc_text_bytes(&table);
    CHECK(sc_clear(&table) == SC_OK && tells_all(&table) && sc_memory(&table) == full - bytes);
    (void)numbered(&table, 1);
    CHECK(tells_all(&table));
    close_last(&table);
}

/* Texts that find room take their bytes alone. */
static void room_is_counted_before_it_is_used(void) {
    sc_table table = opened();
    const uint64_t empty = sc_memory(&table);
    CHECK(sc_reserve(&table, 0) == SC_OK && tells_all(&table) && sc_memory(&table) == empty);
    CHECK(sc_reserve(&table, TEXTS) == SC_OK && tells_all(&table));
    const uint64_t reserved = sc_memory(&table);
    CHECK(reserved >= empty + TEXTS * 64);
    for (int number = 0; number < TEXTS; number++) {
        (void)numbered(&table, number);
        CHECK(tells_all(&table));
    }
    CHECK(sc_memory(&table) == reserved + sc_text_bytes(&table));
    CHECK(sc_reserve(&table, 5 * TEXTS) == SC_OK && tells_all(&table));
    close_last(&table);
}

static void two_tables_share_the_heap(void) {
    sc_table table = opened(), other = with_buckets(3);
    for (int number = 0; number < TEXTS; number++) {
        (void)numbered(number % 3 == 0 ? &table : &other, number);
        CHECK(sc_memory(&table) + sc_memory(&other) == bytes_given);
    }
    sc_close(&table);
    CHECK(tells_all(&other));
    close_last(&other);
}

/* What a table got before it was refused room is counted once it has grown. */
static void a_refusal_is_made_good(void) {
    int refused = 0;
    long at = 0;
    for (int before = -1; before != refused && at < MOST; at++) {
        before = refused;
        sc_table table = with_buckets(0);
        before_refusal = at;
        for (int number = 0; number < 40; number++) {
            char text[32];
            uint64_t word = 0;
            snprintf(text, sizeof text, "text number %d", number);
            if (intern(&table, text, &word) != SC_OK) {
                refused++;
                CHECK(sc_memory(&table) <= bytes_given);
                CHECK(intern(&table, text, &word) == SC_OK);
            }
            CHECK(tells_all(&table));
        }
        before_refusal = -1;
        close_last(&table);
    }
    CHECK(refused > 40 && at < MOST);
}

/* What is asked for to check tables is given back. */
static void a_check_keeps_nothing(void) {
    static const char tables[] = "key 0\ndisp 0 0\natom 1122334455667788 sentence\n";
    bool perfect = false;
    CHECK(sc_check_tables(tables, sizeof tables - 1, &perfect) == SC_OK);
    CHECK(perfect && bytes_given == 0 && blocks_given == 0);
}

static const test tests[] = {
    {"an_empty_table_has_its_buckets", an_empty_table_has_its_buckets},
    {"each_text_is_counted", each_text_is_counted},
    {"places_come_by_groups_of_nine", places_come_by_groups_of_nine},
    {"a_text_has_as_many_bytes_as_its_letters", a_text_has_as_many_bytes_as_its_letters},
    {"giving_leaves_the_places", giving_leaves_the_places},
    {"giving_loses_no_place", giving_loses_no_place},
    {"clearing_leaves_the_places", clearing_leaves_the_places},
    {"room_is_counted_before_it_is_used", room_is_counted_before_it_is_used},
    {"two_tables_share_the_heap", two_tables_share_the_heap},
    {"a_refusal_is_made_good", a_refusal_is_made_good},
    {"a_check_keeps_nothing", a_check_keeps_nothing},
};

int main(void) {
    return RUN_TESTS(tests);
}
