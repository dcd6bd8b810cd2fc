/*
 * train.c - a train: it calls a radio block centre over TCP, sends three position reports, takes the answer to each,
 * and releases behind the third. It prints a recording of what it did.
 *
 *     train ADDRESS PORT ENGINE RBC
 *
 * Against the program of this repository, with the key of examples/recorded-session.keys:
 *
 *     euroradio serve recorded-session.keys 127.0.0.1:4711 9 1000 &
 *     ./train 127.0.0.1 4711 5 9 > recording
 *     euroradio replay recorded-session.keys recording             prints the recording again
 *
 * Status: 0 where three answers came, 1 where they didn't, 2 where the words or the system didn't allow a try.
 */
#include "recording.h"
#include "session.h"

#include <inttypes.h>
#include <stdio.h>
#include <stdlib.h>
#include <string.h>
#include <unistd.h>

#define REPORTS 3

/* The KMAC of engine 5 and radio block centre 9. A real one comes from where keys are kept. */
static const uint64_t kmac[3] = {0x0123456789abcdef, 0x23456789abcdef01, 0x456789abcdef0123};

static struct session session;
static int answers;

static void report(int number) {
    char text[40];
    int length = snprintf(text, sizeof text, "position-report-%08d", number);
    session_send(&session, (const uint8_t *)text, (size_t)length);
}

/* What the train does behind each event: reports once connected, takes answers, releases behind the last. */
static void user(struct session *it, const euroradio_deeds *deeds) {
    uint8_t text[EURORADIO_MESSAGE_MOST];
    int number;
    if (deeds->connected)
        for (number = 1; number <= REPORTS; number++)
            report(number);
    if (deeds->message > 0 && session_take(it, text) > 0 && ++answers == REPORTS)
        session_release(it, 0);
}

int main(int count, char **words) {
    euroradio_settings settings = EURORADIO_SETTINGS_INIT;
    euroradio_deeds deeds;
    uint64_t random_number;
    uint32_t engine;
    uint32_t rbc;
    int32_t status;
    if (count != 5) {
        fprintf(stderr, "usage: train ADDRESS PORT ENGINE RBC\n");
        return 2;
    }
    engine = (uint32_t)strtoul(words[3], NULL, 10);
    rbc = (uint32_t)strtoul(words[4], NULL, 10);
    session.socket = session_dial(words[1], words[2]);
    if (session.socket < 0 || session_random(&random_number) < 0) {
        fprintf(stderr, "train: no connection to %s port %s, or no random number\n", words[1], words[2]);
        return 2;
    }

    session.now = session_now();
    status = euroradio_call(&session.end, &settings, engine, rbc, kmac, random_number, session.now);
    if (status != EURORADIO_OK) {
        fprintf(stderr, "train: euroradio_call answers %" PRId32 "\n", status);
        return 2;
    }
    recording_header(&settings);
    recording_event(session.now, 1, "call %" PRIu32 " %" PRIu32 " %016" PRIx64, engine, rbc, random_number);
    (void)euroradio_start(&session.end, session.now, &deeds);
    session_did(&session, &deeds);
    session_run(&session, user);

    euroradio_free(&session.end);
    (void)close(session.socket);
    return answers == REPORTS ? 0 : 1;
}
