/*
 * memory.c - how much heap an end takes by its settings, and how much stack each call, by a stack that is painted.
 * Prints both, and fails where a call takes more stack than it is told, or an end more heap than the header says:
 *
 *     memory CALL ANSWER ANSWER_KEYS FREE EVENT
 *
 * are octets of stack: of euroradio_call, euroradio_answer with a short key file, euroradio_answer_keys,
 * euroradio_free, and of any other call.
 */
#define _DEFAULT_SOURCE

#include "check.h"
#include "counting_heap.h"
#include "wire.h"

#include <pthread.h>
#include <sys/mman.h>

#define HEAP_USUAL 268000
#define HEAP_MOST 293000

static size_t limits[5];

/* ---- heap */

static void heap(void) {
    static const struct {
        euroradio_settings settings;
        size_t most;
    } rows[] = {
        {EURORADIO_SETTINGS_INIT, HEAP_USUAL},      {{1, 1, 128, 1000, 5, 40000, 8}, HEAP_USUAL},
        {{1, 15, 128, 1000, 5, 40000, 8}, HEAP_USUAL}, {{7, 15, 1024, 1000, 5, 40000, 8}, HEAP_MOST},
        {{31, 15, 128, 1000, 5, 40000, 128}, HEAP_MOST}, {{31, 15, 1024, 1000, 5, 40000, 128}, HEAP_MOST},
    };
    size_t i;
    printf("window credit size modulo: heap of an end that calls\n");
    for (i = 0; i < sizeof rows / sizeof rows[0]; i++) {
        const euroradio_settings *it = &rows[i].settings;
        euroradio_end end = EURORADIO_END_INIT;
        heap_reset(0);
        CHECK(euroradio_call(&end, it, ENGINE, CENTRE, KMAC, 1, 0) == EURORADIO_OK);
        printf("%6u %6u %4u %6u: %u octets in %u blocks\n", (unsigned)it->window, (unsigned)it->credit,
               (unsigned)it->size, (unsigned)it->modulo, (unsigned)heap_octets, (unsigned)heap_blocks);
        CHECK(heap_octets <= rows[i].most);
        euroradio_free(&end);
        CHECK(heap_octets == 0);
    }
}

/* ---- stack */

#define STACK (1u << 20)
#define PAINT 0xa7

static unsigned char *stack;
static struct wire wire;
static const euroradio_settings usual = EURORADIO_SETTINGS_INIT;
static euroradio_deeds told;
static uint8_t text[EURORADIO_MESSAGE_MOST];
static uint8_t line[LINE];
static size_t line_length;
static euroradio_key key;

static void *nothing(void *given) {
    return given;
}

static void *calls(void *given) {
    (void)euroradio_call(&wire.engine.end, &usual, ENGINE, CENTRE, KMAC, 1, 1000);
    return given;
}

static void *answers(void *given) {
    (void)euroradio_answer(&wire.centre.end, &usual, CENTRE, (const uint8_t *)KEY_FILE, sizeof KEY_FILE - 1, 2, 1000);
    return given;
}

static void *answers_keys(void *given) {
    (void)euroradio_answer_keys(&wire.centre.end, &usual, CENTRE, &key, 1, 2, 1000);
    return given;
}

static void *frees(void *given) {
    euroradio_free((euroradio_end *)given);
    return NULL;
}

static void *events(void *given) {
    size_t used = 0;
    struct side *side = (struct side *)given;
    while (used < line_length) {
        if (euroradio_octets(&side->end, wire.now, line + used, line_length - used, &told) != EURORADIO_OK)
            return NULL;
        used += told.used;
        put(side, &told);
    }
    return NULL;
}

static void *starts(void *given) {
    (void)euroradio_start(&((struct side *)given)->end, wire.now, &told);
    return NULL;
}

static void *sends(void *given) {
    (void)euroradio_send(&((struct side *)given)->end, wire.now, text, sizeof text, &told);
    return NULL;
}

static void *takes(void *given) {
    (void)euroradio_take(&((struct side *)given)->end, wire.now, &told);
    (void)euroradio_taken(&((struct side *)given)->end, text, sizeof text);
    return NULL;
}

static void *leaves(void *given) {
    (void)euroradio_release(&((struct side *)given)->end, wire.now, 0, &told);
    return NULL;
}

/* The stack that a call takes in a thread of its own: the octets of its painted stack that were written. */
static size_t depth_of(void *(*does)(void *), void *given) {
    pthread_attr_t attributes;
    pthread_t thread;
    size_t at = 0;
    memset(stack, PAINT, STACK);
    if (pthread_attr_init(&attributes) != 0 || pthread_attr_setstack(&attributes, stack, STACK) != 0 ||
        pthread_create(&thread, &attributes, does, given) != 0 || pthread_join(thread, NULL) != 0)
        abort();
    (void)pthread_attr_destroy(&attributes);
    while (at < STACK && stack[at] == PAINT)
        at++;
    return STACK - at;
}

static size_t base;
static size_t event_most;

static size_t depth(const char *name, void *(*does)(void *), void *given) {
    size_t octets = depth_of(does, given);
    octets = octets > base ? octets - base : 0;
    if (name != NULL)
        printf("%s: %u octets of stack\n", name, (unsigned)octets);
    return octets;
}

static void event(void *(*does)(void *), struct side *side) {
    size_t octets = depth(NULL, does, side);
    put(side, &told);
    if (octets > event_most)
        event_most = octets;
}

/* What the writer sent is read by the other, each call on the painted stack. */
static void carried(struct side *reader, struct side *writer) {
    line_length = writer->length;
    memcpy(line, writer->sent, line_length);
    writer->length = 0;
    wire.now++;
    {
        size_t octets = depth(NULL, events, reader);
        if (octets > event_most)
            event_most = octets;
    }
}

static void stacks(void) {
    int i;
    stack = (unsigned char *)mmap(NULL, STACK, PROT_READ | PROT_WRITE, MAP_PRIVATE | MAP_ANONYMOUS, -1, 0);
    CHECK(stack != MAP_FAILED);
    key = key_of(ENGINE, CENTRE, 0, EURORADIO_MOMENT_MOST);
    wire.now = 1000;
    wire.engine.sent = (uint8_t *)malloc(LINE);
    wire.centre.sent = (uint8_t *)malloc(LINE);
    base = depth_of(nothing, NULL);
    CHECK(depth("euroradio_call", calls, NULL) <= limits[0]);
    CHECK(depth("euroradio_answer", answers, NULL) <= limits[1]);
    CHECK(depth("euroradio_free", frees, &wire.centre.end) <= limits[3]);
    CHECK(depth("euroradio_answer_keys", answers_keys, NULL) <= limits[2]);
    event(starts, &wire.engine);
    for (i = 0; i < 20; i++) {
        carried(&wire.centre, &wire.engine);
        carried(&wire.engine, &wire.centre);
    }
    event(sends, &wire.engine);
    for (i = 0; i < 20; i++) {
        carried(&wire.centre, &wire.engine);
        carried(&wire.engine, &wire.centre);
    }
    CHECK(euroradio_waiting(&wire.centre.end) == 1);
    event(takes, &wire.centre);
    event(leaves, &wire.engine);
    carried(&wire.centre, &wire.engine);
    printf("any event: %u octets of stack\n", (unsigned)event_most);
    CHECK(event_most > 0 && event_most <= limits[4]);
    close_wire(&wire);
}

int main(int count, char **words) {
    int i;
    if (count != 6) {
        fprintf(stderr, "usage: memory CALL ANSWER ANSWER_KEYS FREE EVENT\n");
        return 2;
    }
    for (i = 0; i < 5; i++)
        limits[i] = (size_t)strtoul(words[i + 1], NULL, 10);
    heap();
    stacks();
    return checked("memory");
}
