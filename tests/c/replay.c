/*
 * replay.c - what `euroradio replay KEYS TRACE` does, by the library in C: the events of a trace given to ends, and the
 * recording of it printed.
 *
 *     replay KEYS TRACE           the ends that answer are made with the text of the key file
 *     replay KEYS TRACE array     .. with the same keys as an array
 *
 * The trace is taken as one that is in its grammar. An event that has no connection, one too many, no key or a moment
 * that goes back ends the run with status 3 and the last line `! line LINE WHY`, as there; a key file that the library
 * refuses with status 4 and `! keys`.
 */
#include "recording.h"

#include <inttypes.h>
#include <stdio.h>
#include <stdlib.h>
#include <string.h>

#define CONNS 4096
#define KEYS 4096
#define LIVE_MOST 256

struct connection {
    uint64_t number;
    int is_live; /* an end that is neither released with nothing to take, nor declined */
    int is_declined;
    euroradio_deeds over; /* why it was released, where it isn't live */
    euroradio_end end;
};

static struct connection connections[CONNS];
static size_t count;
static size_t live;
static euroradio_key keys[KEYS];
static size_t keys_count;
static char *key_file;
static size_t key_file_length;
static int by_array;
static euroradio_settings settings = EURORADIO_SETTINGS_INIT;

static char *whole(const char *name, size_t *length) {
    FILE *file = fopen(name, "rb");
    size_t room = 1 << 16;
    char *text = (char *)malloc(room);
    size_t more;
    *length = 0;
    if (file == NULL || text == NULL)
        exit(2);
    while ((more = fread(text + *length, 1, room - *length - 1, file)) > 0) {
        *length += more;
        if (room - *length < 2)
            text = (char *)realloc(text, room *= 2);
        if (text == NULL)
            exit(2);
    }
    text[*length] = '\0';
    (void)fclose(file);
    return text;
}

static int refused(size_t line, const char *why) {
    printf("! line %u %s\n", (unsigned)line, why);
    return 3;
}

/* ---- keys: enough of TOML for key files that are right */

static void read_keys(void) {
    const char *at;
    for (at = key_file; at != NULL && *at != '\0'; at = strchr(at, '\n') ? strchr(at, '\n') + 1 : NULL) {
        euroradio_key *key = &keys[keys_count > 0 ? keys_count - 1 : 0];
        if (strncmp(at, "[[key]]", 7) == 0) {
            if (keys_count == KEYS)
                exit(2);
            key = &keys[keys_count++];
            key->to = EURORADIO_MOMENT_MOST;
        }
        (void)sscanf(at, "engine = %" SCNu32, &key->engine);
        (void)sscanf(at, "rbc = %" SCNu32, &key->rbc);
        (void)sscanf(at, "from = %" SCNu64, &key->from);
        (void)sscanf(at, "to = %" SCNu64, &key->to);
        (void)sscanf(at, "kmac = \"%16" SCNx64 "%16" SCNx64 "%16" SCNx64, &key->kmac[0], &key->kmac[1], &key->kmac[2]);
    }
}

static const euroradio_key *key_at(uint32_t engine, uint32_t rbc, uint64_t now) {
    size_t i;
    for (i = 0; i < keys_count; i++)
        if (keys[i].engine == engine && keys[i].rbc == rbc && keys[i].from <= now && now <= keys[i].to)
            return &keys[i];
    return NULL;
}

static int32_t answer(euroradio_end *end, uint32_t me, uint64_t ra, uint64_t now) {
    if (by_array)
        return euroradio_answer_keys(end, &settings, me, keys, keys_count, ra, now);
    return euroradio_answer(end, &settings, me, (const uint8_t *)key_file, key_file_length, ra, now);
}

/* ---- events */

static struct connection *find(uint64_t number) {
    size_t i;
    for (i = 0; i < count; i++)
        if (connections[i].number == number)
            return &connections[i];
    return NULL;
}

/* An end that is released, and at which no message waits, is freed, as `replay` does. */
static void settle(struct connection *it) {
    if (euroradio_waiting(&it->end) > 0 || euroradio_released(&it->end, &it->over) != EURORADIO_OK)
        return;
    euroradio_free(&it->end);
    it->is_live = 0;
    live--;
}

static size_t octets_of(const char *word, uint8_t *octets) {
    size_t length = 0;
    unsigned octet;
    while (sscanf(word + 2 * length, "%2x", &octet) == 1 && word[2 * length] != ' ')
        octets[length++] = (uint8_t)octet;
    return length;
}

static int begin(size_t line, uint64_t now, uint64_t number, const char *event) {
    struct connection *it = &connections[count];
    euroradio_deeds deeds;
    uint32_t first = 0;
    uint32_t second = 0;
    uint64_t random_number = 0;
    int calls = strncmp(event, "call ", 5) == 0;
    int answers = strncmp(event, "answer ", 7) == 0;
    const euroradio_key *key = NULL;
    if (find(number) != NULL)
        return refused(line, "twice");
    if (calls && sscanf(event, "call %" SCNu32 " %" SCNu32 " %" SCNx64, &first, &second, &random_number) == 3)
        key = key_at(first, second, now);
    if (calls && key == NULL)
        return refused(line, "nokey");
    if ((calls || answers) && live == LIVE_MOST)
        return refused(line, "many");
    if (count == CONNS)
        exit(2);
    count++;
    it->number = number;
    it->is_declined = !calls && !answers;
    it->is_live = !it->is_declined;
    live += it->is_live;
    if (calls) {
        if (euroradio_call(&it->end, &settings, first, second, key->kmac, random_number, now) != EURORADIO_OK)
            exit(2);
        recording_event(now, number, "call %" PRIu32 " %" PRIu32 " %016" PRIx64, first, second, random_number);
        (void)euroradio_start(&it->end, now, &deeds);
        recording_deeds(number, &it->end, &deeds);
    } else if (answers) {
        if (sscanf(event, "answer %" SCNu32 " %" SCNx64, &first, &random_number) != 2 ||
            answer(&it->end, first, random_number, now) != EURORADIO_OK)
            exit(2);
        recording_event(now, number, "answer %" PRIu32 " %016" PRIx64, first, random_number);
    } else {
        recording_event(now, number, "%s", event);
    }
    return 0;
}

static void octets(struct connection *it, uint64_t now, const char *word, uint8_t *room) {
    size_t length = octets_of(word, room);
    size_t used = 0;
    recording_octets(now, it->number, "octets", room, length);
    while (it->is_live && used < length) {
        euroradio_deeds deeds;
        if (euroradio_octets(&it->end, now, room + used, length - used, &deeds) != EURORADIO_OK)
            exit(2);
        used += deeds.used;
        recording_deeds(it->number, &it->end, &deeds);
    }
}

static void send(struct connection *it, uint64_t now, const char *word, uint8_t *room) {
    size_t length = octets_of(word, room);
    euroradio_deeds deeds;
    recording_octets(now, it->number, "send", room, length);
    if (it->is_live)
        recording_sent(it->number, &it->end, euroradio_send(&it->end, now, room, length, &deeds), length, &deeds);
    else
        printf("< %" PRIu64 " refused released %u %u\n", it->number, it->over.reason, it->over.sub);
}

static void take(struct connection *it, uint64_t now) {
    euroradio_deeds deeds;
    recording_event(now, it->number, "take");
    if (it->is_live)
        recording_taken(it->number, &it->end, euroradio_take(&it->end, now, &deeds), &deeds);
    else
        printf("< %" PRIu64 " none\n", it->number);
}

static void other(struct connection *it, uint64_t now, const char *event) {
    euroradio_deeds deeds;
    unsigned sub = 0;
    recording_event(now, it->number, "%s", event);
    if (!it->is_live)
        return;
    if (sscanf(event, "release %u", &sub) == 1)
        (void)euroradio_release(&it->end, now, (uint8_t)sub, &deeds);
    else if (strcmp(event, "tick") == 0)
        (void)euroradio_tick(&it->end, now, &deeds);
    else if (strcmp(event, "ended") == 0)
        (void)euroradio_ended(&it->end, &deeds);
    else if (strcmp(event, "fault") == 0)
        (void)euroradio_fault(&it->end, &deeds);
    else if (strcmp(event, "stalled") == 0)
        (void)euroradio_stalled(&it->end, &deeds);
    else
        exit(2);
    recording_deeds(it->number, &it->end, &deeds);
}

/* One line of the trace that is an event. `room` has space for its octets. */
static int happen(size_t line, uint64_t now, uint64_t number, const char *event, uint8_t *room) {
    struct connection *it;
    if (strncmp(event, "call ", 5) == 0 || strncmp(event, "answer ", 7) == 0 || strncmp(event, "full ", 5) == 0 ||
        strncmp(event, "unserved ", 9) == 0)
        return begin(line, now, number, event);
    it = find(number);
    if (it == NULL || it->is_declined)
        return refused(line, "noconn");
    if (strncmp(event, "octets ", 7) == 0)
        octets(it, now, event + 7, room);
    else if (strncmp(event, "send ", 5) == 0)
        send(it, now, event + 5, room);
    else if (strcmp(event, "take") == 0)
        take(it, now);
    else
        other(it, now, event);
    if (it->is_live)
        settle(it);
    return 0;
}

/* Behind the header: each event in turn; blank lines, comments and outcomes are skipped. */
static int replay(char *trace, size_t length) {
    uint8_t *room = (uint8_t *)malloc(length / 2 + 1);
    uint64_t last = 0;
    size_t line = 0;
    int status = 0;
    char *at;
    char *next;
    if (room == NULL)
        exit(2);
    for (at = trace; status == 0 && at != NULL && *at != '\0'; at = next) {
        uint64_t now;
        uint64_t number;
        int behind = 0;
        next = strchr(at, '\n');
        if (next != NULL)
            *next++ = '\0';
        line++;
        if (sscanf(at, "trace 1 %" SCNu32 " %" SCNu32 " %" SCNu32 " %" SCNu32 " %" SCNu32 " %" SCNu32, &settings.window,
                   &settings.credit, &settings.size, &settings.t1, &settings.n2, &settings.setup) == 6)
            recording_header(&settings);
        if (sscanf(at, "> %" SCNu64 " %" SCNu64 " %n", &now, &number, &behind) < 2)
            continue;
        status = now < last ? refused(line, "back") : happen(line, now, number, at + behind, room);
        last = now;
    }
    free(room);
    return status;
}

int main(int words_count, char **words) {
    euroradio_end end = EURORADIO_END_INIT;
    size_t length;
    char *trace;
    int status;
    size_t i;
    if (words_count < 3)
        return 1;
    by_array = words_count > 3;
    key_file = whole(words[1], &key_file_length);
    if (euroradio_answer(&end, &settings, 0, (const uint8_t *)key_file, key_file_length, 0, 0) == EURORADIO_KEYS) {
        printf("! keys\n");
        free(key_file);
        return 4;
    }
    euroradio_free(&end);
    read_keys();
    trace = whole(words[2], &length);
    status = replay(trace, length);
    for (i = 0; i < count; i++)
        euroradio_free(&connections[i].end);
    free(trace);
    free(key_file);
    return status;
}
