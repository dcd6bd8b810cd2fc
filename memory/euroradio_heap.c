/*
 * euroradio_heap.c - the library's heap over malloc, realloc and free. It overwrites nothing: keys and messages stay in
 * memory that was freed, until the program writes over it. See euroradio_pool.c for one that does.
 */
#include "euroradio_heap.h"

#include <stdlib.h>

/* What a failure answers: an address that isn't null. */
static euroradio_block answer(void *block) {
    static uint64_t nothing[2];
    euroradio_block it;
    it.ok = block != NULL;
    it.block = block != NULL ? block : (void *)nothing;
    return it;
}

/* malloc may answer null for 0 octets, so none is asked for fewer than 1. */
static size_t at_least_one(size_t octets) {
    return octets > 0 ? octets : 1;
}

euroradio_block rattle_alloc(size_t octets, size_t align) {
    (void)align; /* what malloc answers is aligned to 16 on the targets of the library */
    return answer(malloc(at_least_one(octets)));
}

euroradio_block rattle_realloc(void *block, size_t kept, size_t octets, size_t align) {
    (void)kept;
    (void)align;
    return answer(realloc(block, at_least_one(octets)));
}

void rattle_dealloc(void *block) {
    free(block);
}
