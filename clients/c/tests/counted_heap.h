/* A heap that counts what it has given, and refuses a request where it is told to. Linked with --wrap=malloc, --wrap=realloc and --wrap=free. */
#ifndef STRING_CACHE_COUNTED_HEAP_H
#define STRING_CACHE_COUNTED_HEAP_H

#include <stdbool.h>
#include <stddef.h>
#include <stdint.h>

enum { BEFORE_BLOCK = 16 }; /* bytes in front of a block, which tell its size and keep its alignment */

static size_t bytes_given;       /* as they were asked for, of all blocks that weren't given back */
static size_t blocks_given;      /* the blocks that weren't given back */
static long before_refusal = -1; /* how many requests are still given before one is refused; none is below 0 */

void *__real_malloc(size_t size);
void *__real_realloc(void *block, size_t size);
void __real_free(void *block);
void *__wrap_malloc(size_t size);
void *__wrap_realloc(void *block, size_t size);
void __wrap_free(void *block);

static bool is_refused(size_t size) {
    return size > SIZE_MAX - BEFORE_BLOCK || (before_refusal >= 0 && before_refusal-- == 0);
}

/* Counts a block of this size, and where C has it. */
static void *given(size_t *whole, size_t size) {
    if (whole == NULL) {
        return NULL;
    }
    *whole = size;
    bytes_given += size;
    blocks_given++;
    return (char *)whole + BEFORE_BLOCK;
}

/* Counts a block no more, and where it begins. */
static size_t *taken_back(void *block) {
    size_t *whole = (size_t *)(void *)((char *)block - BEFORE_BLOCK);
    bytes_given -= *whole;
    blocks_given--;
    return whole;
}

void *__wrap_malloc(size_t size) {
    return is_refused(size) ? NULL : given(__real_malloc(BEFORE_BLOCK + size), size);
}

/* A block that doesn't grow is as it was. */
void *__wrap_realloc(void *block, size_t size) {
    if (is_refused(size)) {
        return NULL;
    }
    if (block == NULL) {
        return given(__real_malloc(BEFORE_BLOCK + size), size);
    }
    size_t *whole = taken_back(block);
    const size_t kept = *whole;
    void *grown = given(__real_realloc(whole, BEFORE_BLOCK + size), size);
    if (grown == NULL) {
        (void)given(whole, kept);
    }
    return grown;
}

void __wrap_free(void *block) {
    if (block != NULL) {
        __real_free(taken_back(block));
    }
}

#endif
