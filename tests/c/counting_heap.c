/* counting_heap.c - see counting_heap.h. A block has its octets in 16 octets before it. */
#include "counting_heap.h"

#include "euroradio_heap.h"

#include <stdlib.h>
#include <string.h>

#define BEFORE 16

size_t heap_calls;
size_t heap_blocks;
size_t heap_octets;
size_t heap_failing;

void heap_reset(size_t failing) {
    heap_calls = 0;
    heap_failing = failing;
}

static euroradio_block failed(void) {
    static uint64_t nothing[2];
    euroradio_block it;
    it.ok = 0;
    it.block = nothing;
    return it;
}

static euroradio_block taken(unsigned char *whole, size_t octets) {
    euroradio_block it;
    memcpy(whole, &octets, sizeof octets);
    it.ok = 1;
    it.block = whole + BEFORE;
    return it;
}

static size_t octets_of(void *block) {
    size_t octets;
    memcpy(&octets, (unsigned char *)block - BEFORE, sizeof octets);
    return octets;
}

euroradio_block rattle_alloc(size_t octets, size_t align) {
    unsigned char *whole;
    if (++heap_calls == heap_failing || align > BEFORE)
        return failed();
    whole = (unsigned char *)malloc(BEFORE + octets);
    if (whole == NULL)
        return failed();
    memset(whole, 0xa5, BEFORE + octets);
    heap_blocks++;
    heap_octets += octets;
    return taken(whole, octets);
}

/* It moves each block, so that what holds an old address is found out. */
euroradio_block rattle_realloc(void *block, size_t kept, size_t octets, size_t align) {
    size_t old = octets_of(block);
    euroradio_block it = rattle_alloc(octets, align);
    if (it.ok) {
        size_t stays = kept < octets ? kept : octets;
        memcpy(it.block, block, stays < old ? stays : old);
        rattle_dealloc(block);
    }
    return it;
}

void rattle_dealloc(void *block) {
    size_t octets = octets_of(block);
    heap_blocks--;
    heap_octets -= octets;
    memset((unsigned char *)block - BEFORE, 0x5a, BEFORE + octets);
    free((unsigned char *)block - BEFORE);
}
