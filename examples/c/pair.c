/*
 * pair.c - an engine and a radio block centre in one process, wired to each other: what the one sends the other reads.
 * They set up the safe connection, the engine sends a message, the centre takes it, and the engine releases. No system
 * is wanted but the heap: moments and random numbers are made up, which a product must not do.
 */
#include "euroradio.h"

#include <inttypes.h>
#include <stdio.h>

#define ENGINE 5
#define CENTRE 9

static const uint64_t kmac[3] = {0x0123456789abcdef, 0x23456789abcdef01, 0x456789abcdef0123};

struct side {
    const char *name;
    euroradio_end end;
    uint8_t to_line[EURORADIO_OUT_MOST]; /* what it sent, and the other end hasn't read */
    size_t length;
};

static struct side engine = {"engine", EURORADIO_END_INIT, {0}, 0};
static struct side centre = {"centre", EURORADIO_END_INIT, {0}, 0};
static uint64_t now = 1000;

/* The octets that an event sent go to the line. */
static void put(struct side *side, const euroradio_deeds *deeds) {
    if (deeds->out <= sizeof side->to_line - side->length)
        side->length += euroradio_out(&side->end, 0, side->to_line + side->length, deeds->out);
}

/* What an event came to: octets for the line, and what the user is told. */
static void did(struct side *side, const euroradio_deeds *deeds) {
    put(side, deeds);
    if (deeds->connected)
        printf("the %s is connected with %" PRIu32 "\n", side->name, deeds->peer);
    if (deeds->released)
        printf("the %s is released: %d.%d by %s\n", side->name, deeds->reason, deeds->sub,
               deeds->by_peer ? "its peer" : "itself");
}

/* The user gets a message. */
static void use(struct side *side, const uint8_t *text, size_t length) {
    printf("the %s takes %.*s\n", side->name, (int)length, (const char *)text);
}

/* An engine: its end calls the radio block centre. */
static int call(struct side *side, uint64_t random_number) {
    euroradio_settings settings = EURORADIO_SETTINGS_INIT;
    euroradio_deeds deeds;
    if (euroradio_call(&side->end, &settings, ENGINE, CENTRE, kmac, random_number, now) != EURORADIO_OK)
        return -1;
    (void)euroradio_start(&side->end, now, &deeds);
    did(side, &deeds);
    return 0;
}

/* Octets came from the line, and go to the end frame by frame. */
static int receive(struct side *side, const uint8_t *octets, size_t length) {
    uint8_t text[EURORADIO_MESSAGE_MOST];
    euroradio_deeds deeds, taken;
    size_t used;
    for (used = 0; used < length; used += deeds.used) {
        if (euroradio_octets(&side->end, now, octets + used, length - used, &deeds) != EURORADIO_OK)
            return -1;
        did(side, &deeds);
        if (deeds.message > 0 && euroradio_take(&side->end, now, &taken) == EURORADIO_OK) {
            use(side, text, euroradio_taken(&side->end, text, sizeof text));
            put(side, &taken);
        }
    }
    return 0;
}

/* A radio block centre: its end waits for a call, and knows the key of one engine. */
static int answer(struct side *side, uint64_t random_number) {
    euroradio_settings settings = EURORADIO_SETTINGS_INIT;
    euroradio_key key = {ENGINE, CENTRE, 0, EURORADIO_MOMENT_MOST, {0, 0, 0}};
    int at;
    for (at = 0; at < 3; at++)
        key.kmac[at] = kmac[at];
    return euroradio_answer_keys(&side->end, &settings, CENTRE, &key, 1, random_number, now) == EURORADIO_OK ? 0 : -1;
}

/* Gives an end all that the other sent. */
static void read_all(struct side *reader, struct side *writer) {
    static uint8_t line[EURORADIO_OUT_MOST];
    size_t length = writer->length;
    size_t at;
    for (at = 0; at < length; at++)
        line[at] = writer->to_line[at];
    writer->length = 0;
    (void)receive(reader, line, length);
}

static void run(void) {
    while (engine.length > 0 || centre.length > 0) {
        now++;
        read_all(&centre, &engine);
        read_all(&engine, &centre);
    }
}

int main(void) {
    static const char text[] = "a position report";
    euroradio_deeds deeds;
    if (answer(&centre, 0x1122334455667788) < 0 || call(&engine, 0x0102030405060708) < 0) {
        fprintf(stderr, "pair: an end can't be made\n");
        return 1;
    }
    run();

    (void)euroradio_send(&engine.end, now, (const uint8_t *)text, sizeof text - 1, &deeds);
    did(&engine, &deeds);
    run();

    (void)euroradio_release(&engine.end, now, 0, &deeds);
    did(&engine, &deeds);
    run();

    euroradio_free(&engine.end);
    euroradio_free(&centre.end);
    return 0;
}
