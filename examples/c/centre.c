/*
 * centre.c - a radio block centre for one train: it takes one TCP connection, sends each message back to the train, and
 * ends when the train has left. It prints a recording of what it did.
 *
 *     centre ADDRESS PORT RBC
 *
 * Against the program of this repository, with the key of examples/recorded-session.keys:
 *
 *     ./centre 127.0.0.1 4711 9 > recording &
 *     euroradio call recorded-session.keys 127.0.0.1:4711 5 9 1000
 *     euroradio replay recorded-session.keys recording             prints the recording again
 *
 * Status: 0 where the train released, 1 where the session ended in another way, 2 where the words or the system didn't
 * allow a try.
 */
#include "recording.h"
#include "session.h"

#include <inttypes.h>
#include <stdio.h>
#include <stdlib.h>
#include <unistd.h>

/* The keys that the centre knows. Real ones come from where keys are kept, or as the text of a key file, which
 * euroradio_answer reads. */
static const euroradio_key keys[] = {
    {5, 9, 0, EURORADIO_MOMENT_MOST, {0x0123456789abcdef, 0x23456789abcdef01, 0x456789abcdef0123}},
};

static struct session session;
static int has_left;

/* What the centre does behind each event: it sends each message back, and notes how the train leaves. While as many
 * messages wait to be sent as may, it takes none: the train's credit runs out then, and the train waits too. */
static void user(struct session *it, const euroradio_deeds *deeds) {
    uint8_t text[EURORADIO_MESSAGE_MOST];
    while (euroradio_waiting(&it->end) > 0 && euroradio_unsent(&it->end) < EURORADIO_UNSENT_MOST)
        session_send(it, text, session_take(it, text));
    if (deeds->released)
        has_left = deeds->by_peer && deeds->reason == 0;
}

int main(int count, char **words) {
    euroradio_settings settings = EURORADIO_SETTINGS_INIT;
    uint64_t random_number;
    uint32_t rbc;
    int32_t status;
    if (count != 4) {
        fprintf(stderr, "usage: centre ADDRESS PORT RBC\n");
        return 2;
    }
    rbc = (uint32_t)strtoul(words[3], NULL, 10);
    session.socket = session_take_one(words[1], words[2]);
    if (session.socket < 0 || session_random(&random_number) < 0) {
        fprintf(stderr, "centre: nobody came at %s port %s, or no random number\n", words[1], words[2]);
        return 2;
    }

    session.now = session_now();
    status = euroradio_answer_keys(&session.end, &settings, rbc, keys, sizeof keys / sizeof keys[0], random_number,
                                   session.now);
    if (status != EURORADIO_OK) {
        fprintf(stderr, "centre: euroradio_answer_keys answers %" PRId32 "\n", status);
        return 2;
    }
    recording_header(&settings);
    recording_event(session.now, 1, "answer %" PRIu32 " %016" PRIx64, rbc, random_number);
    session_run(&session, user);

    euroradio_free(&session.end);
    (void)close(session.socket);
    return has_left ? 0 : 1;
}
