/*
 * threads.c - four threads at once, with two ends each: made in one thread, used in another, freed in a third. Each end
 * sees what it would see alone. Compiled with EURORADIO_POOL_PTHREAD, all of them share one pool.
 */
#define _POSIX_C_SOURCE 200809L

#include "check.h"
#include "wire.h"

#include <pthread.h>

#define THREADS 4
#define MESSAGES 25

struct work {
    struct wire wire;
    unsigned char name;
    int made;
    int right;
};

static void *makes(void *given) {
    struct work *work = (struct work *)given;
    euroradio_settings settings = EURORADIO_SETTINGS_INIT;
    work->made = open_wire(&work->wire, &settings);
    return NULL;
}

static void *uses(void *given) {
    struct work *work = (struct work *)given;
    struct wire *wire = &work->wire;
    uint8_t text[100];
    int i;
    memset(text, work->name, sizeof text);
    set_up(wire);
    for (i = 0; i < MESSAGES; i++) {
        text[0] = (uint8_t)i;
        if (send_text(wire, &wire->engine, text, sizeof text) != EURORADIO_OK)
            return NULL;
        run(wire);
        work->right += wire->centre.text_length == sizeof text && memcmp(wire->centre.text, text, sizeof text) == 0;
    }
    leave(wire, &wire->engine, work->name);
    run(wire);
    work->right += wire->centre.release.released == 1 && wire->centre.release.sub == work->name;
    return NULL;
}

static void *frees(void *given) {
    close_wire(&((struct work *)given)->wire);
    return NULL;
}

static void in_threads(void *(*does)(void *), struct work *works) {
    pthread_t threads[THREADS];
    int i;
    for (i = 0; i < THREADS; i++)
        CHECK(pthread_create(&threads[i], NULL, does, &works[i]) == 0);
    for (i = 0; i < THREADS; i++)
        CHECK(pthread_join(threads[i], NULL) == 0);
}

#ifdef EURORADIO_POOL_PTHREAD
#include "euroradio_pool.h"
static uint64_t memory[2 * THREADS * 300000 / 8];
#endif

int main(void) {
    static struct work works[THREADS];
    int i;
#ifdef EURORADIO_POOL_PTHREAD
    euroradio_pool_open(memory, sizeof memory);
#endif
    for (i = 0; i < THREADS; i++)
        works[i].name = (unsigned char)(i + 1);
    in_threads(makes, works);
    in_threads(uses, works);
    in_threads(frees, works);
    for (i = 0; i < THREADS; i++) {
        CHECK(works[i].made);
        CHECK(works[i].right == MESSAGES + 1);
    }
#ifdef EURORADIO_POOL_PTHREAD
    CHECK(euroradio_pool_taken() == 0);
#endif
    return checked("threads");
}
