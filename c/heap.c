/* The way from the library to malloc, realloc and free. Put your own allocator here if you have one: it aligns to 16, and a request that
   it cannot serve ends the call with HIVE_NO_MEMORY. */
#include <stdint.h>
#include <stdlib.h>

/* whether there is a block, and where */
struct block {
    uint64_t is_there;
    void *at;
};

/* what stands for a block where there is none: never read or written */
static uint64_t nowhere[2];

static struct block block_at(void *at) {
    struct block block = {at != NULL, at ? at : nowhere};
    return block;
}

struct block rattle_alloc(uint64_t bytes, uint64_t alignment) {
    return block_at(malloc(bytes ? bytes : alignment));
}

struct block rattle_realloc(void *old, uint64_t kept, uint64_t bytes, uint64_t alignment) {
    (void)kept;
    return block_at(realloc(old, bytes ? bytes : alignment));
}

void rattle_dealloc(void *old) {
    free(old);
}
