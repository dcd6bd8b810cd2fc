/*
 * euroradio_pool.c - the library's heap in one fixed block of memory; see euroradio_pool.h. Blocks lie side by side,
 * each behind a head of 16 octets; the first that is large enough is taken, and split. Free neighbours are joined as
 * blocks are searched. All octets of free blocks are zero.
 */
#include "euroradio_pool.h"

#include "euroradio_heap.h"

#include <string.h>

#ifdef EURORADIO_POOL_PTHREAD
#include <pthread.h>
static pthread_mutex_t pool_lock = PTHREAD_MUTEX_INITIALIZER;
#define EURORADIO_POOL_LOCK() ((void)pthread_mutex_lock(&pool_lock))
#define EURORADIO_POOL_UNLOCK() ((void)pthread_mutex_unlock(&pool_lock))
#endif
#ifndef EURORADIO_POOL_LOCK
#define EURORADIO_POOL_LOCK() ((void)0)
#define EURORADIO_POOL_UNLOCK() ((void)0)
#endif

/* The head of a block: how many octets follow it, and whether they are taken. */
struct head {
    size_t octets;
    size_t is_taken;
};

#define GRAIN ((size_t)EURORADIO_POOL_GRAIN)

/* The pool: no memory until it is opened. */
static unsigned char *pool;
static size_t pool_octets;
static size_t pool_most;

/* The compiler can't tell which function this calls, so it drops no call of it. */
static void *(*const volatile wiping)(void *, int, size_t) = memset;

static void wipe(void *from, size_t octets) {
    if (octets > 0)
        wiping(from, 0, octets);
}

static struct head *head_at(size_t at) {
    return (struct head *)(void *)(pool + at);
}

static struct head *head_of(void *block) {
    return (struct head *)(void *)((unsigned char *)block - GRAIN);
}

static void set_head(size_t at, size_t octets, size_t is_taken) {
    struct head *head = head_at(at);
    head->octets = octets;
    head->is_taken = is_taken;
}

/* This many octets, rounded up to whole grains and at least one; 0 where there can't be as many. */
static size_t grains(size_t octets) {
    if (octets > SIZE_MAX / 2)
        return 0;
    return octets == 0 ? GRAIN : (octets + GRAIN - 1) / GRAIN * GRAIN;
}

static euroradio_block answer(void *block) {
    static uint64_t nothing[2];
    euroradio_block it;
    it.ok = block != NULL;
    it.block = block != NULL ? block : (void *)nothing;
    return it;
}

/* Joins the free block at `at` with the free blocks right behind it, whose heads become zero with the rest. */
static void join(size_t at) {
    struct head *head = head_at(at);
    size_t next = at + GRAIN + head->octets;
    while (next < pool_octets && !head_at(next)->is_taken) {
        head->octets += GRAIN + head_at(next)->octets;
        wipe(head_at(next), GRAIN);
        next = at + GRAIN + head->octets;
    }
}

/* Takes the block at `at`, which is free and large enough; what is left of it becomes a free block, if it can be one.
 * */
static void *take(size_t at, size_t octets) {
    size_t left = head_at(at)->octets - octets;
    if (left > GRAIN) {
        set_head(at + GRAIN + octets, left - GRAIN, 0);
        set_head(at, octets, 1);
    } else {
        head_at(at)->is_taken = 1;
    }
    if (at + GRAIN + head_at(at)->octets > pool_most)
        pool_most = at + GRAIN + head_at(at)->octets;
    return pool + at + GRAIN;
}

static void *found(size_t octets) {
    size_t at = 0;
    while (octets > 0 && at < pool_octets) {
        if (!head_at(at)->is_taken) {
            join(at);
            if (head_at(at)->octets >= octets)
                return take(at, octets);
        }
        at += GRAIN + head_at(at)->octets;
    }
    return NULL;
}

static void give_back(void *block) {
    wipe(block, head_of(block)->octets);
    head_of(block)->is_taken = 0;
}

void euroradio_pool_open(void *memory, size_t octets) {
    size_t skip = (GRAIN - (size_t)((uintptr_t)memory % GRAIN)) % GRAIN;
    EURORADIO_POOL_LOCK();
    pool = NULL;
    pool_octets = 0;
    pool_most = 0;
    if (octets >= skip + 2 * GRAIN) {
        pool = (unsigned char *)memory + skip;
        pool_octets = (octets - skip) / GRAIN * GRAIN;
        wipe(pool, pool_octets);
        set_head(0, pool_octets - GRAIN, 0);
    }
    EURORADIO_POOL_UNLOCK();
}

size_t euroradio_pool_taken(void) {
    size_t taken = 0;
    size_t at = 0;
    EURORADIO_POOL_LOCK();
    while (at < pool_octets) {
        if (head_at(at)->is_taken)
            taken += GRAIN + head_at(at)->octets;
        else
            join(at);
        at += GRAIN + head_at(at)->octets;
    }
    EURORADIO_POOL_UNLOCK();
    return taken;
}

size_t euroradio_pool_most(void) {
    size_t most;
    EURORADIO_POOL_LOCK();
    most = pool_most;
    EURORADIO_POOL_UNLOCK();
    return most;
}

euroradio_block rattle_alloc(size_t octets, size_t align) {
    void *block;
    EURORADIO_POOL_LOCK();
    block = align <= GRAIN ? found(grains(octets)) : NULL;
    EURORADIO_POOL_UNLOCK();
    return answer(block);
}

euroradio_block rattle_realloc(void *block, size_t kept, size_t octets, size_t align) {
    size_t old = head_of(block)->octets;
    void *moved = block;
    EURORADIO_POOL_LOCK();
    if (octets <= old) {
        wipe((unsigned char *)block + octets, old - octets);
    } else {
        moved = align <= GRAIN ? found(grains(octets)) : NULL;
        if (moved != NULL) {
            memcpy(moved, block, kept < old ? kept : old);
            give_back(block);
        }
    }
    EURORADIO_POOL_UNLOCK();
    return answer(moved);
}

void rattle_dealloc(void *block) {
    EURORADIO_POOL_LOCK();
    give_back(block);
    EURORADIO_POOL_UNLOCK();
}
