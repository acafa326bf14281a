/* The memory of the archive of Rattle, from malloc. A block of no bytes is asked for with its alignment as its size, so that it has an address
 * of its own. Stands in an object of its own: a program that links another definition of these three names takes that one. */
#include <stdbool.h>
#include <stddef.h>
#include <stdlib.h>

/* Whether there is memory, and where. The pointer is never null: without memory it leads to a byte that nobody uses. */
typedef struct tried {
    bool ok;
    void *block;
} tried;

static char no_block;

static tried tried_of(void *block) {
    tried answer = {block != NULL, block != NULL ? block : &no_block};
    return answer;
}

tried rattle_alloc(size_t size, size_t alignment);
tried rattle_realloc(void *block, size_t kept, size_t size, size_t alignment);
void rattle_dealloc(void *block);

tried rattle_alloc(size_t size, size_t alignment) {
    return tried_of(malloc(size != 0 ? size : alignment));
}

/* realloc keeps the first bytes by itself. */
tried rattle_realloc(void *block, size_t kept, size_t size, size_t alignment) {
    (void)kept;
    return tried_of(realloc(block, size != 0 ? size : alignment));
}

void rattle_dealloc(void *block) {
    free(block);
}
