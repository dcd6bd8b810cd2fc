/* wire.h - an engine and a radio block centre that read what the other sends, for the tests. */
#ifndef WIRE_H
#define WIRE_H

#include "euroradio.h"

#include <stdlib.h>
#include <string.h>

#define ENGINE 5
#define CENTRE 9
#define LINE (4 * EURORADIO_OUT_MOST)

static const uint64_t KMAC[3] = {UINT64_C(0x0123456789abcdef), UINT64_C(0x23456789abcdef01),
                                 UINT64_C(0x456789abcdef0123)};
static const char KEY_FILE[] = "version = 1\n[[key]]\nengine = 5\nrbc = 9\n"
                               "kmac = \"0123456789abcdef23456789abcdef01456789abcdef0123\"\n";

struct side {
    euroradio_end end;
    uint8_t *sent; /* LINE octets of room: what it sent, and the other end hasn't read */
    size_t length;
    uint32_t connected; /* the peer, once it is connected */
    int accepted;       /* messages that were accepted */
    int taken;          /* .. and taken */
    uint8_t text[EURORADIO_MESSAGE_MOST]; /* the message that was taken last */
    size_t text_length;
    euroradio_deeds release; /* the deeds of the event that released the end */
};

struct wire {
    struct side engine;
    struct side centre;
    uint64_t now;
    size_t most;   /* octets that are given to an end at once, 0: all */
    int keeps;     /* messages stay where they are until the test takes them */
};

static euroradio_key key_of(uint32_t engine, uint32_t rbc, uint64_t from, uint64_t to) {
    euroradio_key key;
    memset(&key, 0, sizeof key);
    key.engine = engine;
    key.rbc = rbc;
    key.from = from;
    key.to = to;
    memcpy(key.kmac, KMAC, sizeof KMAC);
    return key;
}

static void put(struct side *side, const euroradio_deeds *deeds) {
    size_t at = 0;
    if (deeds->out > LINE - side->length)
        abort();
    while (at < deeds->out)
        at += euroradio_out(&side->end, at, side->sent + side->length + at, deeds->out - at);
    side->length += at;
}

static int32_t take(struct wire *wire, struct side *side) {
    euroradio_deeds deeds;
    int32_t status = euroradio_take(&side->end, wire->now, &deeds);
    if (status == EURORADIO_OK) {
        side->text_length = euroradio_taken(&side->end, side->text, sizeof side->text);
        side->taken++;
    }
    put(side, &deeds);
    return status;
}

static void did(struct wire *wire, struct side *side, const euroradio_deeds *deeds) {
    put(side, deeds);
    if (deeds->connected)
        side->connected = deeds->peer;
    if (deeds->released)
        side->release = *deeds;
    if (deeds->message > 0) {
        side->accepted++;
        if (!wire->keeps)
            (void)take(wire, side);
    }
}

static void give(struct wire *wire, struct side *side, const uint8_t *octets, size_t length) {
    size_t used = 0;
    while (used < length) {
        size_t count = length - used;
        euroradio_deeds deeds;
        if (wire->most > 0 && count > wire->most)
            count = wire->most;
        if (euroradio_octets(&side->end, wire->now, octets + used, count, &deeds) != EURORADIO_OK || deeds.used == 0)
            abort();
        used += deeds.used;
        did(wire, side, &deeds);
    }
}

/* One end reads what the other sent. */
static void read_all(struct wire *wire, struct side *reader, struct side *writer) {
    size_t length = writer->length;
    uint8_t *line = (uint8_t *)malloc(length + 1);
    if (line == NULL)
        abort();
    memcpy(line, writer->sent, length);
    writer->length = 0;
    give(wire, reader, line, length);
    free(line);
}

static void run(struct wire *wire) {
    while (wire->engine.length > 0 || wire->centre.length > 0) {
        wire->now++;
        read_all(wire, &wire->centre, &wire->engine);
        read_all(wire, &wire->engine, &wire->centre);
    }
}

static void deadline(struct wire *wire) {
    euroradio_deeds deeds;
    uint64_t engine = 0;
    uint64_t centre = 0;
    if (euroradio_deadline(&wire->engine.end, &engine) == EURORADIO_OK && engine > wire->now)
        wire->now = engine;
    if (euroradio_deadline(&wire->centre.end, &centre) == EURORADIO_OK && centre > wire->now && engine == 0)
        wire->now = centre;
    if (euroradio_tick(&wire->engine.end, wire->now, &deeds) == EURORADIO_OK)
        did(wire, &wire->engine, &deeds);
    if (euroradio_tick(&wire->centre.end, wire->now, &deeds) == EURORADIO_OK)
        did(wire, &wire->centre, &deeds);
}

static int32_t send_text(struct wire *wire, struct side *side, const uint8_t *text, size_t length) {
    euroradio_deeds deeds;
    int32_t status = euroradio_send(&side->end, wire->now, text, length, &deeds);
    did(wire, side, &deeds);
    return status;
}

static void leave(struct wire *wire, struct side *side, uint8_t sub) {
    euroradio_deeds deeds;
    if (euroradio_release(&side->end, wire->now, sub, &deeds) == EURORADIO_OK)
        did(wire, side, &deeds);
}

/* Two ends, neither begun. Whether both could be made. */
static int open_wire(struct wire *wire, const euroradio_settings *settings) {
    euroradio_key key = key_of(ENGINE, CENTRE, 0, EURORADIO_MOMENT_MOST);
    memset(wire, 0, sizeof *wire);
    wire->now = 1000;
    wire->engine.sent = (uint8_t *)malloc(LINE);
    wire->centre.sent = (uint8_t *)malloc(LINE);
    if (wire->engine.sent == NULL || wire->centre.sent == NULL)
        abort();
    return euroradio_call(&wire->engine.end, settings, ENGINE, CENTRE, KMAC, UINT64_C(0x0102030405060708), wire->now) ==
               EURORADIO_OK &&
           euroradio_answer_keys(&wire->centre.end, settings, CENTRE, &key, 1, UINT64_C(0x1122334455667788),
                                 wire->now) == EURORADIO_OK;
}

/* The engine begins, and both set up the safe connection. */
static void set_up(struct wire *wire) {
    euroradio_deeds deeds;
    if (euroradio_start(&wire->engine.end, wire->now, &deeds) == EURORADIO_OK)
        did(wire, &wire->engine, &deeds);
    run(wire);
}

static void close_wire(struct wire *wire) {
    euroradio_free(&wire->engine.end);
    euroradio_free(&wire->centre.end);
    free(wire->engine.sent);
    free(wire->centre.sent);
}

#endif
