#include "word_map.h"

#include <stdlib.h>

enum { FEWEST_SLOTS = 64 };

void word_map_free(word_map *map) {
    free(map->slots);
    *map = (word_map){NULL, 0, 0};
}

/* The slot where a word is looked for first: its bits, mixed by a product with the golden ratio. */
static size_t home_of(const word_map *map, uint64_t word) {
    return (size_t)((word * UINT64_C(0x9e3779b97f4a7c15)) >> 32) & map->mask;
}

/* The slot of a word, or the free one where it would stand. */
static word_slot *slot_of(const word_map *map, uint64_t word) {
    size_t at = home_of(map, word);
    while (map->slots[at].word != 0 && map->slots[at].word != word) {
        at = (at + 1) & map->mask;
    }
    return &map->slots[at];
}

static bool grow(word_map *map) {
    const size_t number = map->slots == NULL ? FEWEST_SLOTS : 2 * (map->mask + 1);
    word_map larger = {calloc(number, sizeof(word_slot)), number - 1, map->count};
    if (larger.slots == NULL) {
        return false;
    }
    for (size_t at = 0; map->slots != NULL && at <= map->mask; at++) {
        if (map->slots[at].word != 0) {
            *slot_of(&larger, map->slots[at].word) = map->slots[at];
        }
    }
    free(map->slots);
    *map = larger;
    return true;
}

size_t *word_map_find(word_map *map, uint64_t word) {
    if (map->slots == NULL) {
        return NULL;
    }
    word_slot *slot = slot_of(map, word);
    return slot->word == word ? &slot->value : NULL;
}

bool word_map_add(word_map *map, uint64_t word, size_t value) {
    if ((map->slots == NULL || 4 * map->count >= 3 * map->mask) && !grow(map)) {
        return false;
    }
    *slot_of(map, word) = (word_slot){word, value};
    map->count++;
    return true;
}

/* What stands behind the freed slot moves up to it, unless its home lies between. */
void word_map_remove(word_map *map, uint64_t word) {
    if (word_map_find(map, word) == NULL) {
        return;
    }
    size_t hole = (size_t)(slot_of(map, word) - map->slots);
    for (size_t at = (hole + 1) & map->mask; map->slots[at].word != 0; at = (at + 1) & map->mask) {
        const size_t home = home_of(map, map->slots[at].word);
        if (((at - home) & map->mask) >= ((at - hole) & map->mask)) {
            map->slots[hole] = map->slots[at];
            hole = at;
        }
    }
    map->slots[hole].word = 0;
    map->count--;
}
