/*
 * euroradio_heap.h - the three functions by which the library takes and gives back memory. A program links exactly one
 * definition of each: euroradio_heap.c has them over malloc, euroradio_pool.c over a fixed block of memory. A maker may
 * write others. What the library's proofs take as given of them:
 *
 *  - A block that is answered has at least the octets that were asked for, is aligned to `align`, a power of two and at
 *    most 16 (an alignment of 16 for all is right), and lies apart from all else that the program uses until it is
 *    given back.
 *  - A failure answers ok = 0. The address isn't null even then, and even where 0 octets were asked for: any non-null
 *    address aligned to `align` will do, since the library doesn't follow it.
 *  - euroradio_call, euroradio_answer, euroradio_answer_keys, euroradio_free and euroradio_key_file call them in the
 *    thread that they are called in, and no other call of the library does. Where a program makes or frees ends, or
 *    judges key files, in several threads, these functions must allow it; malloc does.
 *
 * They may fail at any call: the making that wanted the memory gives back what it had and answers EURORADIO_MEMORY.
 */
#ifndef EURORADIO_HEAP_H
#define EURORADIO_HEAP_H

#include <stddef.h>
#include <stdint.h>

#ifdef __cplusplus
extern "C" {
#endif

/* What a call that takes memory answers: whether it succeeded (1 or 0), and the block. */
typedef struct euroradio_block {
    uint8_t ok;
    void *block;
} euroradio_block;

/* A new block of this many octets. What it holds is of no matter. */
euroradio_block rattle_alloc(size_t octets, size_t align);

/* The block, made one of `octets` octets, of which the first `kept` stay as they were (as many as there are then, where
 * it shrinks). It may move; the old one is given back then. Where it fails the block is as it was, and still taken. */
euroradio_block rattle_realloc(void *block, size_t kept, size_t octets, size_t align);

/* Gives back a block that one of the others answered with ok = 1. */
void rattle_dealloc(void *block);

#ifdef __cplusplus
}
#endif
#endif
