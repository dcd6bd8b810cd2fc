/*
 * wired.c - two ends, wired: messages of many lengths both ways at several settings, octets in pieces of several
 * sizes, lost octets that are sent again; each is accepted once and in order. Then noise. No call but the makers
 * takes memory, and all blocks are given back.
 */
#include "check.h"
#include "counting_heap.h"
#include "wire.h"

static void fill(uint8_t *text, size_t length, unsigned seed) {
    size_t i;
    for (i = 0; i < length; i++) {
        seed = seed * 1664525u + 1013904223u;
        text[i] = (uint8_t)(seed >> 24);
    }
}

static int has(const struct side *side, const uint8_t *text, size_t length) {
    return side->text_length == length && memcmp(side->text, text, length) == 0;
}

static void messages(const euroradio_settings *settings, size_t most) {
    static const size_t lengths[] = {1, 2, 24, 114, 115, 500, 1022, EURORADIO_MESSAGE_MOST};
    struct wire wire;
    uint8_t text[EURORADIO_MESSAGE_MOST];
    size_t i;
    size_t calls;
    int count = 0;
    heap_reset(0);
    CHECK(open_wire(&wire, settings));
    calls = heap_calls;
    wire.most = most;
    set_up(&wire);
    CHECK(wire.engine.connected == CENTRE && wire.centre.connected == ENGINE);
    for (i = 0; i < sizeof lengths / sizeof lengths[0]; i++) {
        fill(text, lengths[i], (unsigned)i);
        count++;
        CHECK(send_text(&wire, &wire.engine, text, lengths[i]) == EURORADIO_OK);
        run(&wire);
        CHECK(wire.centre.taken == count && has(&wire.centre, text, lengths[i]));
        CHECK(send_text(&wire, &wire.centre, text, lengths[i]) == EURORADIO_OK);
        run(&wire);
        CHECK(wire.engine.taken == count && has(&wire.engine, text, lengths[i]));
    }

    /* what is lost is sent again when T1 expires */
    fill(text, 24, 99);
    CHECK(send_text(&wire, &wire.engine, text, 24) == EURORADIO_OK);
    CHECK(wire.engine.length > 0);
    wire.engine.length = 0;
    for (i = 0; i < 20 && wire.centre.taken == count; i++) {
        deadline(&wire);
        run(&wire);
    }
    CHECK(wire.centre.taken == count + 1 && has(&wire.centre, text, 24));

    leave(&wire, &wire.centre, 3);
    run(&wire);
    CHECK(wire.engine.release.released == 1 && wire.engine.release.sub == 3 && wire.engine.release.by_peer == 1);
    CHECK(heap_calls == calls);
    close_wire(&wire);
    CHECK(heap_blocks == 0);
}

/* Messages wait until they are taken, in order, also behind a release; no more are accepted than the credit allows. */
static void waiting(void) {
    euroradio_settings settings = EURORADIO_SETTINGS_INIT;
    struct wire wire;
    uint8_t octet;
    size_t waits;
    size_t i;
    CHECK(open_wire(&wire, &settings));
    wire.keeps = 1;
    set_up(&wire);
    for (octet = 1; octet <= 30; octet++) {
        (void)send_text(&wire, &wire.engine, &octet, 1);
        run(&wire);
    }
    waits = euroradio_waiting(&wire.centre.end);
    CHECK(waits > 1 && waits <= EURORADIO_WAITING_MOST);
    CHECK(wire.centre.accepted == (int)waits);
    leave(&wire, &wire.centre, 1);
    for (i = 1; i <= waits; i++) {
        CHECK(take(&wire, &wire.centre) == EURORADIO_OK);
        CHECK(wire.centre.text_length == 1 && wire.centre.text[0] == i);
        CHECK(euroradio_waiting(&wire.centre.end) == waits - i);
    }
    CHECK(take(&wire, &wire.centre) == EURORADIO_NONE);
    close_wire(&wire);
    CHECK(heap_blocks == 0);
}

/* The engine sends its next messages while fewer than 16 wait to be sent, and the centre sends back each that it takes on
 * the same terms, until nothing moves. */
static void exchange(struct wire *wire, uint8_t *sent, uint8_t last) {
    do {
        run(wire);
        while (*sent < last && euroradio_unsent(&wire->engine.end) < EURORADIO_UNSENT_MOST) {
            ++*sent;
            CHECK(send_text(wire, &wire->engine, sent, 1) == EURORADIO_OK);
        }
        while (euroradio_waiting(&wire->centre.end) > 0 &&
               euroradio_unsent(&wire->centre.end) < EURORADIO_UNSENT_MOST) {
            CHECK(take(wire, &wire->centre) == EURORADIO_OK);
            CHECK(send_text(wire, &wire->centre, wire->centre.text, wire->centre.text_length) == EURORADIO_OK);
        }
    } while (wire->engine.length > 0 || wire->centre.length > 0);
}

/* While the engine takes nothing both stop, with all places full; then each message comes back, once and in order. */
static void echoes(void) {
    enum { LAST = 200 };
    euroradio_settings settings = EURORADIO_SETTINGS_INIT;
    struct wire wire;
    uint8_t sent = 0;
    uint8_t back;
    CHECK(open_wire(&wire, &settings));
    wire.keeps = 1;
    set_up(&wire);
    exchange(&wire, &sent, LAST);
    CHECK(sent < LAST);
    CHECK(euroradio_unsent(&wire.engine.end) == EURORADIO_UNSENT_MOST);
    CHECK(euroradio_unsent(&wire.centre.end) == EURORADIO_UNSENT_MOST);
    CHECK(sent == wire.engine.accepted + EURORADIO_UNSENT_MOST + (int)euroradio_waiting(&wire.centre.end) +
                      EURORADIO_UNSENT_MOST);
    for (back = 1; back <= LAST; back++) {
        CHECK(take(&wire, &wire.engine) == EURORADIO_OK);
        CHECK(wire.engine.text_length == 1 && wire.engine.text[0] == back);
        exchange(&wire, &sent, LAST);
    }
    CHECK(sent == LAST && euroradio_unsent(&wire.engine.end) == 0 && euroradio_unsent(&wire.centre.end) == 0);
    CHECK(take(&wire, &wire.engine) == EURORADIO_NONE);
    close_wire(&wire);
    CHECK(heap_blocks == 0);
}

/* Random octets, and frames of which an octet is altered, come to both ends: what is told stays in its bounds. */
static void noise(unsigned seed) {
    euroradio_settings settings = EURORADIO_SETTINGS_INIT;
    struct wire wire;
    uint8_t octets[64];
    int round;
    CHECK(open_wire(&wire, &settings));
    if (seed % 2 == 0)
        set_up(&wire);
    for (round = 0; round < 2000; round++) {
        struct side *side = round % 2 == 0 ? &wire.engine : &wire.centre;
        struct side *other = round % 2 == 0 ? &wire.centre : &wire.engine;
        euroradio_deeds deeds;
        size_t length = (size_t)(round % 64 + 1);
        fill(octets, length, seed + (unsigned)round);
        if (round % 3 == 0 && other->length > 0) {
            length = other->length < sizeof octets ? other->length : sizeof octets;
            memcpy(octets, other->sent, length);
            if (round % 2 == 0)
                octets[length / 2] ^= (uint8_t)(1u << round % 8);
        }
        other->length = 0;
        if (round % 5 == 0)
            octets[0] = octets[length - 1] = 0x7e;
        CHECK(euroradio_octets(&side->end, wire.now, octets, length, &deeds) == EURORADIO_OK);
        CHECK(deeds.used > 0 && deeds.used <= length && deeds.out <= EURORADIO_OUT_MOST && deeds.back == 0);
        CHECK(deeds.message <= EURORADIO_MESSAGE_MOST && deeds.connected <= 1 && deeds.released <= 1 && deeds.by_peer <= 1);
        did(&wire, side, &deeds);
        if (round % 100 == 99)
            deadline(&wire);
    }
    close_wire(&wire);
    CHECK(heap_blocks == 0);
}

int main(void) {
    static const size_t pieces[] = {0, 1, 7, 4096};
    static const euroradio_settings settings[] = {
        EURORADIO_SETTINGS_INIT,
        {1, 1, 128, 100, 10, 600000, 8},
        {7, 15, 1024, 1000, 5, 40000, 8},
        {31, 15, 1024, 1000, 5, 40000, 128},
        {2, 3, 256, 500, 5, 40000, 128},
    };
    size_t i;
    size_t k;
    for (i = 0; i < sizeof settings / sizeof settings[0]; i++)
        for (k = 0; k < sizeof pieces / sizeof pieces[0]; k++)
            messages(&settings[i], pieces[k]);
    waiting();
    echoes();
    for (i = 0; i < 20; i++)
        noise((unsigned)i);
    return checked("wired");
}
