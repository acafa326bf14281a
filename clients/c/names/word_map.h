/* A map from words to numbers. A word is its own key: comparing texts is over once they are interned. */
#ifndef NAMES_WORD_MAP_H
#define NAMES_WORD_MAP_H

#include <stdbool.h>
#include <stddef.h>
#include <stdint.h>

typedef struct word_slot {
    uint64_t word; /* 0, which is the word of nothing, where the slot is free */
    size_t value;
} word_slot;

/* Begins as all zeros. */
typedef struct word_map {
    word_slot *slots; /* as many as a power of two, less than three quarters of which are taken; or null */
    size_t mask;
    size_t count;
} word_map;

void word_map_free(word_map *map);

/* The value of a word, or null where it has none. Good until the map is changed. */
size_t *word_map_find(word_map *map, uint64_t word);

/* Gives a word that has no value this one. False where there is no memory; the map is as it was then. */
bool word_map_add(word_map *map, uint64_t word, size_t value);

/* Takes the value of a word away. */
void word_map_remove(word_map *map, uint64_t word);

#endif
