/* recording.c - see recording.h. */
#include "recording.h"

#include <inttypes.h>
#include <stdarg.h>
#include <stdio.h>

static void hexadecimal(const uint8_t *octets, size_t length) {
    static const char digits[] = "0123456789abcdef";
    size_t at;
    for (at = 0; at < length; at++) {
        putchar(digits[octets[at] >> 4]);
        putchar(digits[octets[at] & 15]);
    }
}

void recording_header(const euroradio_settings *settings) {
    printf("trace 1 %" PRIu32 " %" PRIu32 " %" PRIu32 " %" PRIu32 " %" PRIu32 " %" PRIu32 "\n", settings->window,
           settings->credit, settings->size, settings->t1, settings->n2, settings->setup);
}

void recording_event(uint64_t moment, uint64_t conn, const char *words, ...) {
    va_list values;
    printf("> %" PRIu64 " %" PRIu64 " ", moment, conn);
    va_start(values, words);
    vprintf(words, values);
    va_end(values);
    putchar('\n');
}

void recording_octets(uint64_t moment, uint64_t conn, const char *word, const uint8_t *octets, size_t length) {
    printf("> %" PRIu64 " %" PRIu64 " %s ", moment, conn, word);
    if (length == 0)
        putchar('-');
    hexadecimal(octets, length);
    putchar('\n');
}

/* The octets that the event sent, where there are any. */
static void outgoing(uint64_t conn, euroradio_end *end, const euroradio_deeds *deeds) {
    uint8_t piece[256];
    size_t at = 0;
    if (deeds->out == 0)
        return;
    printf("< %" PRIu64 " octets ", conn);
    while (at < deeds->out) {
        size_t count = euroradio_out(end, at, piece, sizeof piece);
        hexadecimal(piece, count);
        at += count;
    }
    putchar('\n');
}

static void message(uint64_t conn, const char *word, const uint8_t *text, size_t length) {
    printf("< %" PRIu64 " %s ", conn, word);
    hexadecimal(text, length);
    putchar('\n');
}

void recording_deeds(uint64_t conn, euroradio_end *end, const euroradio_deeds *deeds) {
    uint8_t text[EURORADIO_MESSAGE_MOST];
    if (deeds->connected)
        printf("< %" PRIu64 " connected %" PRIu32 "\n", conn, deeds->peer);
    if (deeds->message > 0)
        message(conn, "accepted", text, euroradio_accepted(end, text, sizeof text));
    if (deeds->released)
        printf("< %" PRIu64 " released %u %u %s\n", conn, deeds->reason, deeds->sub, deeds->by_peer ? "peer" : "local");
    outgoing(conn, end, deeds);
}

void recording_sent(uint64_t conn, euroradio_end *end, int32_t status, size_t length, const euroradio_deeds *deeds) {
    euroradio_deeds why;
    switch (status) {
    case EURORADIO_OK:
        recording_deeds(conn, end, deeds);
        break;
    case EURORADIO_RELEASED:
        (void)euroradio_released(end, &why);
        printf("< %" PRIu64 " refused released %u %u\n", conn, why.reason, why.sub);
        break;
    case EURORADIO_NOT_CONNECTED:
        printf("< %" PRIu64 " refused notconnected\n", conn);
        break;
    case EURORADIO_LENGTH:
        printf("< %" PRIu64 " refused length %" PRIu64 "\n", conn, (uint64_t)length);
        break;
    case EURORADIO_FULL:
        printf("< %" PRIu64 " refused full 16\n", conn);
        break;
    default:
        break;
    }
}

void recording_taken(uint64_t conn, euroradio_end *end, int32_t status, const euroradio_deeds *deeds) {
    uint8_t text[EURORADIO_MESSAGE_MOST];
    if (status == EURORADIO_NONE)
        printf("< %" PRIu64 " none\n", conn);
    if (status == EURORADIO_OK) {
        message(conn, "taken", text, euroradio_taken(end, text, sizeof text));
        outgoing(conn, end, deeds);
    }
}
