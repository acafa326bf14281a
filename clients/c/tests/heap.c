/* What the archive is given of malloc. Linked with --wrap=malloc and --wrap=realloc. */
#include <stdint.h>
#include <string.h>

#include "check.h"

/* As in heap.c: whether there is memory, and where. */
typedef struct tried {
    bool ok;
    unsigned char *block;
} tried;

tried rattle_alloc(size_t size, size_t alignment);
tried rattle_realloc(void *block, size_t kept, size_t size, size_t alignment);
void rattle_dealloc(void *block);

void *__real_malloc(size_t size);
void *__real_realloc(void *block, size_t size);
void *__wrap_malloc(size_t size);
void *__wrap_realloc(void *block, size_t size);

static bool refuses;
static size_t asked; /* of the last request */

void *__wrap_malloc(size_t size) {
    asked = size;
    return refuses ? NULL : __real_malloc(size);
}

void *__wrap_realloc(void *block, size_t size) {
    asked = size;
    return refuses ? NULL : __real_realloc(block, size);
}

static void a_block_has_its_size_and_alignment(void) {
    for (size_t size = 1; size <= 4096; size++) {
        const size_t alignment = size % 16 == 0 ? 16 : size % 8 == 0 ? 8 : 1;
        const tried got = rattle_alloc(size, alignment);
        CHECK(got.ok && asked == size && (uintptr_t)got.block % alignment == 0);
        memset(got.block, 7, size);
        rattle_dealloc(got.block);
    }
}

static void a_block_of_no_bytes_has_an_address(void) {
    const tried got = rattle_alloc(0, 8), other = rattle_alloc(0, 8);
    CHECK(got.ok && got.block != NULL && asked == 8 && got.block != other.block);
    const tried again = rattle_realloc(got.block, 0, 0, 8);
    CHECK(again.ok && again.block != NULL && asked == 8);
    rattle_dealloc(again.block);
    rattle_dealloc(other.block);
}

static void a_block_that_grows_keeps_its_bytes(void) {
    tried got = rattle_alloc(3, 1);
    memcpy(got.block, "abc", 3);
    for (size_t size = 4; size < 100000; size *= 3) {
        got = rattle_realloc(got.block, 3, size, 1);
        CHECK(got.ok && asked == size && memcmp(got.block, "abc", 3) == 0);
    }
    got = rattle_realloc(got.block, 2, 2, 1);
    CHECK(got.ok && memcmp(got.block, "ab", 2) == 0);
    rattle_dealloc(got.block);
}

/* The pointer isn't null all the same, and the block that should have grown is as it was. */
static void want_of_memory_is_told(void) {
    const tried got = rattle_alloc(3, 1);
    memcpy(got.block, "abc", 3);
    refuses = true;
    const tried none = rattle_alloc(8, 8), grown = rattle_realloc(got.block, 3, 1000, 1);
    refuses = false;
    CHECK(!none.ok && none.block != NULL && !grown.ok && grown.block != NULL);
    CHECK(memcmp(got.block, "abc", 3) == 0);
    rattle_dealloc(got.block);
}

static const test tests[] = {
    {"a_block_has_its_size_and_alignment", a_block_has_its_size_and_alignment},
    {"a_block_of_no_bytes_has_an_address", a_block_of_no_bytes_has_an_address},
    {"a_block_that_grows_keeps_its_bytes", a_block_that_grows_keeps_its_bytes},
    {"want_of_memory_is_told", want_of_memory_is_told},
};

int main(void) {
    return RUN_TESTS(tests);
}
