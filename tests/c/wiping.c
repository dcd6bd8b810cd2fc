/*
 * wiping.c - the pool of memory/euroradio_pool.c: ends that are made in it and freed leave not one octet that isn't
 * zero, and so no key and no message; an end that can't be made neither; it answers MEMORY where it is too small, as
 * malloc does.
 */
#define _DEFAULT_SOURCE

#include "check.h"
#include "euroradio_heap.h"
#include "euroradio_pool.h"
#include "euroradio_stack.h"
#include "wire.h"

#include <pthread.h>
#include <sys/mman.h>

#define POOL 700000

static uint64_t memory[POOL / 8];
static const euroradio_settings usual = EURORADIO_SETTINGS_INIT;

/* How many octets of the pool aren't zero, those apart that tell the pool's one free block. */
static size_t dirty(void) {
    const uint8_t *at = (const uint8_t *)memory;
    size_t count = 0;
    size_t i;
    for (i = EURORADIO_POOL_GRAIN; i < sizeof memory; i++)
        count += at[i] != 0;
    return count;
}

static int holds(const void *text, size_t length) {
    const uint8_t *at = (const uint8_t *)memory;
    size_t i;
    for (i = 0; i + length <= sizeof memory; i++)
        if (at[i] == *(const uint8_t *)text && memcmp(at + i, text, length) == 0)
            return 1;
    return 0;
}

static void ends_are_wiped(int as_text) {
    static const char text[] = "a message that nobody else may read, in the end's memory";
    struct wire wire;
    CHECK(open_wire(&wire, &usual));
    if (as_text) {
        euroradio_free(&wire.centre.end);
        CHECK(euroradio_answer(&wire.centre.end, &usual, CENTRE, (const uint8_t *)KEY_FILE, sizeof KEY_FILE - 1, 2,
                               wire.now) == EURORADIO_OK);
    }
    wire.keeps = 1;
    set_up(&wire);
    CHECK(wire.centre.connected == ENGINE);
    CHECK(send_text(&wire, &wire.engine, (const uint8_t *)text, sizeof text) == EURORADIO_OK);
    run(&wire);
    CHECK(euroradio_waiting(&wire.centre.end) == 1);

    /* the test looks where the octets are: while the ends live, they are found */
    CHECK(holds(KMAC, 8));
    CHECK(holds(text, sizeof text));
    CHECK(dirty() > 1000);
    CHECK(euroradio_pool_taken() > 2 * 260000);

    close_wire(&wire);
    CHECK(euroradio_pool_taken() == 0);
    CHECK(dirty() == 0);
    CHECK(!holds(KMAC, 8));
    CHECK(!holds(text, 8));
}

static void too_small(void) {
    size_t octets;
    int made = 0;
    for (octets = 0; octets <= 300000; octets += 7919) {
        euroradio_end end = EURORADIO_END_INIT;
        int32_t status;
        euroradio_pool_open(memory, octets);
        status = euroradio_call(&end, &usual, ENGINE, CENTRE, KMAC, 1, 0);
        CHECK(status == EURORADIO_OK || status == EURORADIO_MEMORY);
        made += status == EURORADIO_OK;
        CHECK((status == EURORADIO_OK) == (euroradio_pool_taken() > 0));
        euroradio_free(&end);
        CHECK(euroradio_pool_taken() == 0);
        CHECK(dirty() == 0);
    }
    CHECK(made > 0);
    euroradio_pool_open(memory, sizeof memory);
}

/* The pool's own functions, over many blocks of many sizes: blocks lie apart and hold what was written. */
static void blocks(void) {
    static struct {
        unsigned char *at;
        size_t octets;
        unsigned char name;
    } taken[64];
    unsigned number = 1;
    int step;
    size_t i;
    for (step = 0; step < 20000; step++) {
        number = number * 1664525u + 1013904223u;
        i = number >> 26;
        if (taken[i].at == NULL) {
            size_t octets = (number >> 8) % 3000;
            euroradio_block it = rattle_alloc(octets, 1u << (number >> 5 & 3));
            CHECK(it.block != NULL && (uintptr_t)it.block % 16 == 0);
            if (it.ok) {
                taken[i].at = (unsigned char *)it.block;
                taken[i].octets = octets;
                taken[i].name = (unsigned char)(step % 255 + 1);
                memset(taken[i].at, taken[i].name, octets);
            }
        } else {
            size_t k;
            for (k = 0; k < taken[i].octets && taken[i].at[k] == taken[i].name; k++)
                ;
            CHECK(k == taken[i].octets);
            if (number >> 7 & 1) {
                size_t octets = (number >> 8) % 6000;
                size_t kept = octets < taken[i].octets ? octets : taken[i].octets;
                euroradio_block it = rattle_realloc(taken[i].at, taken[i].octets, octets, 8);
                if (it.ok) {
                    taken[i].at = (unsigned char *)it.block;
                    for (k = 0; k < kept && taken[i].at[k] == taken[i].name; k++)
                        ;
                    CHECK(k == kept);
                    taken[i].octets = octets;
                    memset(taken[i].at, taken[i].name, octets);
                }
            } else {
                rattle_dealloc(taken[i].at);
                taken[i].at = NULL;
            }
        }
    }
    CHECK(euroradio_pool_most() <= sizeof memory);
    for (i = 0; i < 64; i++)
        if (taken[i].at != NULL)
            rattle_dealloc(taken[i].at);
    CHECK(euroradio_pool_taken() == 0);
    CHECK(dirty() == 0);
    CHECK(!rattle_alloc(SIZE_MAX, 1).ok && !rattle_alloc(POOL, 1).ok && !rattle_alloc(16, 32).ok);
    CHECK(rattle_alloc(sizeof memory - 16, 16).ok);
    euroradio_pool_open(memory, sizeof memory);
}

/* ---- the stack */

#define STACK (1u << 20)

static unsigned char *stack;
static euroradio_end made = EURORADIO_END_INIT;
static int wipes;

/* Makes an end and frees it, in a thread of its own. */
static void *makes(void *given) {
    int32_t status = euroradio_call(&made, &usual, ENGINE, CENTRE, KMAC, 1, 0);
    if (wipes)
        euroradio_stack_wipe();
    if (status == EURORADIO_OK)
        euroradio_free(&made);
    if (wipes)
        euroradio_stack_wipe();
    return given;
}

/* How often the octets of the KMAC's three keys stand on the stack of such a thread, once it has ended. */
static int left_by_thread(void) {
    pthread_attr_t attributes;
    pthread_t thread;
    int count = 0;
    size_t i;
    memset(stack, 0, STACK);
    CHECK(pthread_attr_init(&attributes) == 0 && pthread_attr_setstack(&attributes, stack, STACK) == 0);
    CHECK(pthread_create(&thread, &attributes, makes, NULL) == 0 && pthread_join(thread, NULL) == 0);
    (void)pthread_attr_destroy(&attributes);
    for (i = 0; i + 8 <= STACK; i++)
        count += memcmp(stack + i, &KMAC[0], 8) == 0 || memcmp(stack + i, &KMAC[1], 8) == 0 ||
                 memcmp(stack + i, &KMAC[2], 8) == 0;
    return count;
}

static void stack_is_wiped(void) {
    stack = (unsigned char *)mmap(NULL, STACK, PROT_READ | PROT_WRITE, MAP_PRIVATE | MAP_ANONYMOUS, -1, 0);
    CHECK(stack != MAP_FAILED);
    wipes = 0;
    CHECK(left_by_thread() > 0); /* the test looks where they are */
    wipes = 1;
    CHECK(left_by_thread() == 0);
}

/* With a word the stack is left out: it is read where no thread may read, which valgrind would tell. */
int main(int count, char **words) {
    (void)words;
    euroradio_pool_open((unsigned char *)memory + 3, 40);
    CHECK(!rattle_alloc(17, 1).ok);
    euroradio_pool_open(memory, sizeof memory);
    blocks();
    ends_are_wiped(0);
    ends_are_wiped(1);
    too_small();
    ends_are_wiped(0);
    if (count == 1)
        stack_is_wiped();
    return checked("wiping");
}
