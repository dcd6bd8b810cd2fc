/* Two ends of the library for C, wired to each other: what the crate bench does in Rattle, call by call, with the
 * same arguments and the same printed line, so that the two can be compared:
 *
 *     c_face LENGTH COUNT TIMES SIZE MODULO WINDOW
 *
 * The engine sends COUNT messages of LENGTH octets one at a time, each accepted and taken, and what both send is read
 * until neither has more to say; all of it TIMES times, with two new ends each.
 */
#include "euroradio.h"

#include <inttypes.h>
#include <stdio.h>
#include <stdlib.h>
#include <string.h>

#define PASSES 64
#define ROOM 1000000

struct side {
    euroradio_end end;
    size_t length;
    uint8_t sent[ROOM]; /* what it sent, and the other end hasn't read */
};

static struct side engine;
static struct side centre;
static uint64_t connected, taken, octets, frames, line;

static void put(struct side *side, size_t out) {
    if (out > 0 && out <= sizeof side->sent - side->length)
        side->length += euroradio_out(&side->end, 0, side->sent + side->length, out);
}

static void take(struct side *side, uint64_t now) {
    uint8_t text[EURORADIO_MESSAGE_MOST];
    euroradio_deeds deeds;
    if (euroradio_take(&side->end, now, &deeds) == EURORADIO_OK) {
        taken++;
        octets += euroradio_taken(&side->end, text, sizeof text);
        put(side, deeds.out);
    }
}

static void read_all(struct side *reader, struct side *writer, uint64_t now) {
    size_t used = 0;
    while (used < writer->length) {
        euroradio_deeds deeds;
        (void)euroradio_octets(&reader->end, now, writer->sent + used, writer->length - used, &deeds);
        used += deeds.used;
        frames++;
        line += deeds.used;
        put(reader, deeds.out);
        connected += deeds.connected;
        if (deeds.message > 0)
            take(reader, now);
    }
    writer->length = 0;
}

static void settle(uint64_t now) {
    int pass;
    for (pass = 0; pass < PASSES; pass++) {
        read_all(&centre, &engine, now);
        if (centre.length == 0)
            return;
        read_all(&engine, &centre, now);
    }
}

int main(int count, char **words) {
    unsigned long numbers[] = {24, 8, 1, 128, 8, 7};
    euroradio_settings settings = EURORADIO_SETTINGS_INIT;
    euroradio_key key = {5, 9, 0, EURORADIO_MOMENT_MOST, {0x0123456789abcdef, 0x23456789abcdef01, 0x456789abcdef0123}};
    uint8_t message[EURORADIO_MESSAGE_MOST];
    euroradio_deeds deeds;
    unsigned long round, number;
    int i;
    for (i = 1; i < count && i <= 6; i++)
        numbers[i - 1] = strtoul(words[i], NULL, 10);
    settings.size = (uint32_t)numbers[3];
    settings.modulo = (uint32_t)numbers[4];
    settings.window = (uint32_t)numbers[5];
    memset(message, 0x55, sizeof message);
    for (round = 0; round < numbers[2]; round++) {
        engine.length = centre.length = 0;
        if (euroradio_call(&engine.end, &settings, 5, 9, key.kmac, 0x0102030405060708, 0) != EURORADIO_OK ||
            euroradio_answer_keys(&centre.end, &settings, 9, &key, 1, 0x1122334455667788, 0) != EURORADIO_OK)
            return 1;
        (void)euroradio_start(&engine.end, 0, &deeds);
        put(&engine, deeds.out);
        settle(0);
        for (number = 0; number < numbers[1]; number++) {
            if (euroradio_send(&engine.end, number, message, numbers[0], &deeds) == EURORADIO_OK)
                put(&engine, deeds.out);
            settle(number);
        }
        euroradio_free(&engine.end);
        euroradio_free(&centre.end);
    }
    printf("connected %" PRIu64 " taken %" PRIu64 " octets %" PRIu64 " frames %" PRIu64 " line %" PRIu64 "\n", connected,
           taken, octets, frames, line);
    return 0;
}
