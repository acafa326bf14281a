/* Times of the table: nanoseconds of a call, and bytes of memory for each text. usage: table [TEXTS] */
#include "bench.h"
#include "string_cache.h"

#define MUST(call)             \
    do {                       \
        if ((call) != SC_OK) { \
            exit(1);           \
        }                      \
    } while (0)

int main(int arguments, char **given) {
    const texts texts = texts_of(arguments, given);
    uint64_t *words = calloc(texts.count, sizeof *words);
    if (words == NULL) {
        return 1;
    }
    for (size_t at = 0; at < texts.count; at++) {
        words[at] = 1; /* so that its memory counts before */
    }
    sc_table table = SC_CLOSED_TABLE;
    uint64_t word;
    char room[LONGEST];
    size_t len, wrong = 0;
    const double memory = peak(), begin = now();
    MUST(sc_open(&table));
    for (size_t at = 0; at < texts.count; at++) {
        MUST(sc_intern(&table, texts.list[at], texts.len, &words[at]));
    }
    const double made = now();
    const double most = peak();
    for (size_t at = 0; at < texts.count; at++) {
        MUST(sc_intern(&table, texts.list[at], texts.len, &word));
        wrong += word != words[at];
    }
    const double found = now();
    for (size_t at = 0; at < texts.count; at++) {
        MUST(sc_get(&table, texts.list[at], texts.len, &word));
        wrong += word != words[at];
    }
    const double got = now();
    for (size_t at = 0; at < texts.count; at++) {
        MUST(sc_text(&table, words[at], room, sizeof room, &len));
        wrong += len != texts.len;
    }
    const double read = now();
    for (size_t at = 0; at < texts.count; at++) {
        sc_give(&table, words[at]);
    }
    const double given_back = now();
    sc_close(&table);
    const double closed = now();
    tell("table", "new", made - begin, texts.count);
    tell("table", "there", found - made, texts.count);
    tell("table", "look-up", got - found, texts.count);
    tell("table", "text", read - got, texts.count);
    tell("table", "give", given_back - read, texts.count);
    tell("table", "close", closed - given_back, texts.count);
    tell("table", "memory", most - memory, texts.count);
    return wrong != 0;
}
