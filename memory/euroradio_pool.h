/*
 * euroradio_pool.h - a pool: the library's heap in one fixed block of memory, which is overwritten with zeros wherever
 * it is given back. Link euroradio_pool.c in the place of euroradio_heap.c:
 *
 *     static uint64_t memory[40000];              320 kB: one end at the usual settings, see docs/EMBEDDING.md
 *     euroradio_pool_open(memory, sizeof memory); before the first end is made
 *     ...
 *
 * Nothing else is allocated: a program that links the pool and no malloc has no heap. A making for which the pool is
 * too small answers EURORADIO_MEMORY.
 *
 * WIPING. A block is overwritten when it is given back, when it shrinks and when it moves. So once all ends were
 * freed the pool holds no octet of a key, a message or a SaPDU: all of it is zero but for its own first 16 octets.
 * What the pool doesn't see it doesn't wipe: the program's own copies of keys, the stack below the calls, registers.
 * docs/EMBEDDING.md says more.
 *
 * TIME. Taking memory searches the blocks one by one, seven for an end, so its time grows with their number. Giving
 * back writes as many octets as the block has.
 *
 * THREADS. Where ends are made or freed in several threads, define EURORADIO_POOL_LOCK() and EURORADIO_POOL_UNLOCK() as
 * this file is compiled, or EURORADIO_POOL_PTHREAD for a lock of POSIX threads.
 */
#ifndef EURORADIO_POOL_H
#define EURORADIO_POOL_H

#include <stddef.h>

#ifdef __cplusplus
extern "C" {
#endif

/* Octets that the pool keeps to itself for each block, and to which it rounds a block's octets up. */
#define EURORADIO_POOL_GRAIN 16

/* Hands the pool its memory, which it overwrites with zeros. It is aligned to 16 inside, so up to 15 octets at either
 * end may stay unused. Call it before the first end is made; and again only where none is left. */
void euroradio_pool_open(void *memory, size_t octets);

/* The octets that are taken now, with those that the pool keeps to itself; 0 once all ends were freed. */
size_t euroradio_pool_taken(void);

/* The most octets from the pool's beginning that were ever part of a block since it was opened: how large it must be,
 * for the same calls in the same order. */
size_t euroradio_pool_most(void);

#ifdef __cplusplus
}
#endif
#endif
