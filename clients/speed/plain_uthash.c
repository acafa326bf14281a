/* The same by uthash: an entry for each text, with its number. usage: plain_uthash [TEXTS] */
#include <string.h>

#include "bench.h"
#include "uthash.h"

typedef struct entry {
    uint32_t number;
    UT_hash_handle hh;
    char text[];
} entry;

static entry *entry_of(entry *map, const char *text, size_t len) {
    entry *found;
    HASH_FIND(hh, map, text, len, found);
    return found;
}

static entry *added(entry *map, const char *text, size_t len, uint32_t number) {
    entry *made = malloc(sizeof *made + len);
    if (made == NULL) {
        exit(1);
    }
    made->number = number;
    memcpy(made->text, text, len);
    HASH_ADD_KEYPTR(hh, map, made->text, len, made);
    return map;
}

int main(int arguments, char **given) {
    const texts texts = texts_of(arguments, given);
    entry *map = NULL, *item, *next;
    size_t wrong = 0;
    const double memory = peak(), begin = now();
    for (size_t at = 0; at < texts.count; at++) {
        if (entry_of(map, texts.list[at], texts.len) == NULL) {
            map = added(map, texts.list[at], texts.len, (uint32_t)at);
        }
    }
    const double made = now();
    const double most = peak();
    for (size_t at = 0; at < texts.count; at++) {
        wrong += entry_of(map, texts.list[at], texts.len)->number != at;
    }
    const double found = now();
    HASH_ITER(hh, map, item, next) {
        HASH_DEL(map, item);
        free(item);
    }
    const double closed = now();
    tell("uthash", "new", made - begin, texts.count);
    tell("uthash", "there", found - made, texts.count);
    tell("uthash", "close", closed - found, texts.count);
    tell("uthash", "memory", most - memory, texts.count);
    return wrong != 0;
}
