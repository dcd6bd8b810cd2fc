/*
 * calls.c - each call by itself: each status and the order of faults, what a fault leaves, each allocation failing in
 * turn, handles that hold nothing, that move, that are freed twice, and the copies of octets.
 */
#include "check.h"
#include "counting_heap.h"
#include "wire.h"

#define MOST EURORADIO_MOMENT_MOST
#define NUMBERS (UINT32_C(1) << 24)

static const euroradio_settings usual = EURORADIO_SETTINGS_INIT;
static euroradio_key usual_key;

static int is_zero(const void *memory, size_t octets) {
    const unsigned char *at = (const unsigned char *)memory;
    size_t i;
    for (i = 0; i < octets; i++)
        if (at[i] != 0)
            return 0;
    return 1;
}

static int is_same(const euroradio_end *a, const euroradio_end *b) {
    return memcmp(a, b, sizeof *a) == 0;
}

/* The three makers, behind one name. */
enum maker { CALL, ANSWER, ANSWER_KEYS, MAKERS };

static int32_t make(enum maker maker, euroradio_end *end, const euroradio_settings *settings, uint32_t me,
                    uint64_t now) {
    switch (maker) {
    case CALL:
        return euroradio_call(end, settings, me, CENTRE, KMAC, 1, now);
    case ANSWER:
        return euroradio_answer(end, settings, me, (const uint8_t *)KEY_FILE, sizeof KEY_FILE - 1, 2, now);
    default:
        return euroradio_answer_keys(end, settings, me, &usual_key, 1, 2, now);
    }
}

/* ---- making */

static void faults_of_makers(void) {
    int maker;
    for (maker = CALL; maker < MAKERS; maker++) {
        euroradio_end end = EURORADIO_END_INIT;
        euroradio_end before;
        euroradio_settings wrong = usual;
        wrong.modulo = 9;
        CHECK(make((enum maker)maker, &end, &usual, ENGINE, MOST + 1) == EURORADIO_MOMENT);
        CHECK(make((enum maker)maker, &end, &usual, NUMBERS, 0) == EURORADIO_NUMBER);
        CHECK(make((enum maker)maker, &end, &wrong, ENGINE, 0) == EURORADIO_SETTING);
        CHECK(make((enum maker)maker, &end, &wrong, NUMBERS, MOST + 1) == EURORADIO_MOMENT);
        CHECK(make((enum maker)maker, &end, &wrong, NUMBERS, MOST) == EURORADIO_NUMBER);
        CHECK(is_zero(&end, sizeof end));
        CHECK(make((enum maker)maker, &end, &usual, NUMBERS - 1, MOST) == EURORADIO_OK);
        before = end;
        CHECK(make((enum maker)maker, &end, &usual, ENGINE, 0) == EURORADIO_OPEN);
        CHECK(make((enum maker)maker, &end, &wrong, NUMBERS, MOST + 1) == EURORADIO_OPEN);
        CHECK(is_same(&end, &before));
        euroradio_free(&end);
    }
    {
        euroradio_end end = EURORADIO_END_INIT;
        CHECK(euroradio_call(&end, &usual, ENGINE, NUMBERS, KMAC, 1, 0) == EURORADIO_NUMBER);
        CHECK(euroradio_call(&end, &usual, 0, NUMBERS - 1, KMAC, 1, 0) == EURORADIO_OK);
        euroradio_free(&end);
    }
    CHECK(heap_blocks == 0);
}

static void judge_setting(const euroradio_settings *settings, int32_t wanted) {
    int maker;
    for (maker = CALL; maker < MAKERS; maker++) {
        euroradio_end end = EURORADIO_END_INIT;
        CHECK(make((enum maker)maker, &end, settings, ENGINE, 0) == wanted);
        CHECK((end.private_open != 0) == (wanted == EURORADIO_OK));
        euroradio_free(&end);
    }
}

/* Each setting at both ends of its range and right behind them. */
static void ranges_of_settings(void) {
    static const struct {
        size_t field;
        uint32_t modulo;
        uint32_t first;
        uint32_t last;
    } ranges[] = {
        {offsetof(euroradio_settings, window), 8, 1, 7},       {offsetof(euroradio_settings, window), 128, 1, 31},
        {offsetof(euroradio_settings, credit), 8, 1, 15},      {offsetof(euroradio_settings, t1), 8, 100, 60000},
        {offsetof(euroradio_settings, n2), 128, 1, 10},        {offsetof(euroradio_settings, setup), 8, 1000, 600000},
        {offsetof(euroradio_settings, size), 8, 128, 1024},
    };
    static const uint32_t wrong_sizes[] = {0, 129, 255, 384, 511, 513, 768, 1023, 65664, 2048};
    static const uint32_t wrong_modulos[] = {0, 7, 9, 16, 127, 129, 264, 384};
    size_t i;
    for (i = 0; i < sizeof ranges / sizeof ranges[0]; i++) {
        euroradio_settings settings = usual;
        uint32_t *field = (uint32_t *)(void *)((unsigned char *)&settings + ranges[i].field);
        settings.modulo = ranges[i].modulo;
        *field = ranges[i].first;
        judge_setting(&settings, EURORADIO_OK);
        *field = ranges[i].last;
        judge_setting(&settings, EURORADIO_OK);
        *field = ranges[i].first - 1;
        judge_setting(&settings, EURORADIO_SETTING);
        *field = ranges[i].last + 1;
        judge_setting(&settings, EURORADIO_SETTING);
        *field = UINT32_MAX;
        judge_setting(&settings, EURORADIO_SETTING);
    }
    for (i = 0; i < sizeof wrong_sizes / sizeof wrong_sizes[0]; i++) {
        euroradio_settings settings = usual;
        settings.size = wrong_sizes[i];
        judge_setting(&settings, EURORADIO_SETTING);
    }
    for (i = 0; i < sizeof wrong_modulos / sizeof wrong_modulos[0]; i++) {
        euroradio_settings settings = usual;
        settings.modulo = wrong_modulos[i];
        judge_setting(&settings, EURORADIO_SETTING);
    }
    CHECK(heap_blocks == 0);
}

static int32_t answer_text(const char *text, size_t length) {
    euroradio_end end = EURORADIO_END_INIT;
    int32_t status = euroradio_answer(&end, &usual, CENTRE, (const uint8_t *)text, length, 2, 0);
    CHECK((end.private_open != 0) == (status == EURORADIO_OK));
    euroradio_free(&end);
    return status;
}

static int32_t answer_array(const euroradio_key *keys, size_t count) {
    euroradio_end end = EURORADIO_END_INIT;
    int32_t status = euroradio_answer_keys(&end, &usual, CENTRE, keys, count, 2, 0);
    CHECK((end.private_open != 0) == (status == EURORADIO_OK));
    euroradio_free(&end);
    return status;
}

static void key_files(void) {
    static const char *const refused[] = {
        "", "no document", "version = 3\n", "version = 1\nkey = 5\n", "version = 1\n[[key]]\nengine = 5\nrbc = 9\n",
        "version = 1\n[[key]]\nengine = 16777216\nrbc = 9\nkmac = \"0123456789abcdef23456789abcdef01456789abcdef0123\"\n",
        "version = 1\n[[key]]\nengine = 5\nrbc = 9\nkmac = \"0123\"\n"};
    size_t i;
    for (i = 0; i < sizeof refused / sizeof refused[0]; i++)
        CHECK(answer_text(refused[i], strlen(refused[i])) == EURORADIO_KEYS);
    CHECK(answer_text(NULL, 0) == EURORADIO_KEYS);
    CHECK(answer_text("version = 1\nkey = []\n", 21) == EURORADIO_OK);
    CHECK(answer_text(KEY_FILE, sizeof KEY_FILE - 1) == EURORADIO_OK);
    CHECK(heap_blocks == 0);
}

/* Which fault is told of each text that is refused: the kind, the field, the entry, and the earlier one of two. */
static void key_faults(void) {
#define KEY "[[key]]\nengine = 5\nrbc = 9\nkmac = \"0123456789abcdef23456789abcdef01456789abcdef0123\"\n"
    static const struct {
        const char *text;
        uint32_t kind, field;
        size_t entry, other;
    } rows[] = {
        {"version = 1\n" KEY, 0, 0, 0, 0},
        {"version = ", EURORADIO_KEY_DOCUMENT, 0, 0, 0},
        {"", EURORADIO_KEY_FIELD, EURORADIO_KEY_FIELD_VERSION, 0, 0},
        {"version = 3\n", EURORADIO_KEY_VERSION, 0, 0, 0},
        {"version = 1\nkey = 5\n", EURORADIO_KEY_FIELD, EURORADIO_KEY_FIELD_KEY, 0, 0},
        {"version = 1\n" KEY "[[key]]\nrbc = 9\n", EURORADIO_KEY_FIELD, EURORADIO_KEY_FIELD_ENGINE, 2, 0},
        {"version = 1\n[[key]]\nengine = 5\nrbc = \"9\"\n", EURORADIO_KEY_FIELD, EURORADIO_KEY_FIELD_RBC, 1, 0},
        {"version = 1\n[[key]]\nengine = 5\nrbc = 9\n", EURORADIO_KEY_FIELD, EURORADIO_KEY_FIELD_KMAC, 1, 0},
        {"version = 2\n" KEY "to = 5\n", EURORADIO_KEY_FIELD, EURORADIO_KEY_FIELD_FROM, 1, 0},
        {"version = 2\n" KEY "from = 5\n", EURORADIO_KEY_FIELD, EURORADIO_KEY_FIELD_TO, 1, 0},
        {"version = 1\n[[key]]\nengine = 5\nrbc = 9\nkmac = \"0123\"\n", EURORADIO_KEY_HEX, 0, 1, 0},
        {"version = 1\n[[key]]\nengine = 16777216\nrbc = 9\n", EURORADIO_KEY_NUMBER, 0, 1, 0},
        {"version = 2\n" KEY "from = 6\nto = 5\n", EURORADIO_KEY_RANGE, 0, 1, 0},
        {"version = 2\n" KEY "from = 0\nto = 5\n" KEY "from = 6\nto = 9\n" KEY "from = 9\nto = 9\n", EURORADIO_KEY_TWICE, 0, 3, 2},
    };
#undef KEY
    size_t i, failing;
    for (i = 0; i < sizeof rows / sizeof rows[0]; i++) {
        euroradio_key_fault fault;
        int32_t wanted = rows[i].kind == 0 ? EURORADIO_OK : EURORADIO_KEYS;
        memset(&fault, 0x5a, sizeof fault);
        CHECK(euroradio_key_file((const uint8_t *)rows[i].text, strlen(rows[i].text), &fault) == wanted);
        CHECK(fault.kind == rows[i].kind && fault.field == rows[i].field);
        CHECK(fault.entry == rows[i].entry && fault.other == rows[i].other);
        CHECK(answer_text(rows[i].text, strlen(rows[i].text)) == wanted);
    }
    CHECK(heap_blocks == 0);

    /* where memory runs out no fault is told */
    for (failing = 1; heap_calls >= failing || failing == 1; failing++) {
        euroradio_key_fault fault;
        int32_t status;
        memset(&fault, 0x5a, sizeof fault);
        heap_reset(failing);
        status = euroradio_key_file((const uint8_t *)KEY_FILE, sizeof KEY_FILE - 1, &fault);
        CHECK(status == (heap_calls < failing ? EURORADIO_OK : EURORADIO_MEMORY));
        CHECK(is_zero(&fault, sizeof fault));
        CHECK(heap_blocks == 0);
        if (heap_calls < failing)
            break;
    }
    heap_reset(0);
}

/* A KMAC of octets: of each eight the first is the most significant. One of zeros is none. */
static void kmacs(void) {
    uint8_t octets[24];
    uint64_t key[3];
    uint64_t before[3];
    size_t i;
    for (i = 0; i < 24; i++)
        octets[i] = (uint8_t)(KMAC[i / 8] >> (56 - 8 * (i % 8)));
    CHECK(octets[0] == 0x01 && octets[23] == 0x23);
    CHECK(euroradio_kmac(octets, key) == EURORADIO_OK);
    CHECK(memcmp(key, KMAC, sizeof KMAC) == 0);
    memset(octets, 0, sizeof octets);
    memset(key, 0x5a, sizeof key);
    memcpy(before, key, sizeof key);
    CHECK(euroradio_kmac(octets, key) == EURORADIO_KEYS);
    CHECK(memcmp(key, before, sizeof key) == 0);
    for (i = 0; i < 24; i++) {
        memset(octets, 0, sizeof octets);
        octets[i] = 1;
        CHECK(euroradio_kmac(octets, key) == EURORADIO_OK);
        CHECK(key[i / 8] == UINT64_C(1) << (56 - 8 * (i % 8)) && key[(i / 8 + 1) % 3] == 0 && key[(i / 8 + 2) % 3] == 0);
    }
}

static void key_arrays(void) {
    static const struct {
        uint32_t engine, rbc;
        uint64_t from, to;
        int32_t wanted;
    } rows[] = {
        {5, 9, 0, 0, EURORADIO_OK},
        {5, 9, MOST, MOST, EURORADIO_OK},
        {5, 9, MOST, UINT64_MAX, EURORADIO_OK},
        {0, NUMBERS - 1, 0, MOST, EURORADIO_OK},
        {NUMBERS, 9, 0, MOST, EURORADIO_KEYS},
        {5, NUMBERS, 0, MOST, EURORADIO_KEYS},
        {UINT32_MAX, 9, 0, MOST, EURORADIO_KEYS},
        {5, 9, 2, 1, EURORADIO_KEYS},
    };
    static const struct {
        uint32_t engine, rbc;
        uint64_t from, to;
        int32_t wanted;
    } seconds[] = {
        /* beside one of 5 and 9 from 100 to 200 */
        {5, 9, 201, MOST, EURORADIO_OK},  {5, 9, 0, 99, EURORADIO_OK},      {5, 9, 200, 300, EURORADIO_KEYS},
        {5, 9, 0, 100, EURORADIO_KEYS},   {5, 9, 120, 130, EURORADIO_KEYS}, {5, 9, 0, MOST, EURORADIO_KEYS},
        {6, 9, 100, 200, EURORADIO_OK},   {5, 8, 100, 200, EURORADIO_OK},   {9, 5, 100, 200, EURORADIO_OK},
    };
    euroradio_key keys[3];
    size_t i;
    CHECK(answer_array(NULL, 0) == EURORADIO_OK);
    for (i = 0; i < sizeof rows / sizeof rows[0]; i++) {
        keys[0] = key_of(rows[i].engine, rows[i].rbc, rows[i].from, rows[i].to);
        CHECK(answer_array(keys, 1) == rows[i].wanted);
        keys[1] = keys[0];
        keys[0] = key_of(77, 78, 0, MOST);
        CHECK(answer_array(keys, 2) == rows[i].wanted);
    }
    for (i = 0; i < sizeof seconds / sizeof seconds[0]; i++) {
        keys[0] = key_of(5, 9, 100, 200);
        keys[1] = key_of(77, 78, 0, MOST);
        keys[2] = key_of(seconds[i].engine, seconds[i].rbc, seconds[i].from, seconds[i].to);
        CHECK(answer_array(keys, 3) == seconds[i].wanted);
    }
    CHECK(heap_blocks == 0);
}

/* The key that is used is the one of the pair at the moment, of a text or an array alike. */
static void keys_are_found(void) {
    static const struct {
        uint64_t from, to;
        int kmac; /* 0: another one */
        int connects;
    } rows[] = {{0, MOST, 1, 1}, {0, 999, 1, 0}, {0, 1005, 1, 1}, {2000, MOST, 1, 0}, {0, MOST, 0, 0}};
    int as_text;
    size_t i;
    for (as_text = 0; as_text < 2; as_text++)
        for (i = 0; i < sizeof rows / sizeof rows[0]; i++) {
            struct wire wire;
            char text[400];
            euroradio_key keys[2];
            CHECK(open_wire(&wire, &usual));
            euroradio_free(&wire.centre.end);
            keys[0] = key_of(ENGINE + 1, CENTRE, 0, MOST);
            keys[1] = key_of(ENGINE, CENTRE, rows[i].from, rows[i].to);
            if (!rows[i].kmac)
                keys[1].kmac[2] ^= 0x10;
            if (as_text) {
                int length = snprintf(text, sizeof text,
                                      "version = 2\n[[key]]\nengine = 5\nrbc = 9\nkmac = \"%016lx%016lx%016lx\"\n"
                                      "from = %lu\nto = %lu\n",
                                      (unsigned long)keys[1].kmac[0], (unsigned long)keys[1].kmac[1],
                                      (unsigned long)keys[1].kmac[2], (unsigned long)rows[i].from,
                                      (unsigned long)rows[i].to);
                CHECK(euroradio_answer(&wire.centre.end, &usual, CENTRE, (const uint8_t *)text, (size_t)length, 2,
                                       wire.now) == EURORADIO_OK);
                memset(text, 0, sizeof text);
            } else {
                CHECK(euroradio_answer_keys(&wire.centre.end, &usual, CENTRE, keys, 2, 2, wire.now) == EURORADIO_OK);
            }
            memset(keys, 0, sizeof keys);
            set_up(&wire);
            CHECK((wire.engine.connected == CENTRE) == rows[i].connects);
            CHECK((wire.centre.connected == ENGINE) == rows[i].connects);
            close_wire(&wire);
        }
    CHECK(heap_blocks == 0);
}

/* Each allocation of each maker fails in turn: MEMORY, no block is left, and the handle is as it was. One is borne: keys that are handed in as a
   list are compared with each other where there is no room to sort them. */
static void allocations_fail(void) {
    int maker;
    for (maker = CALL; maker < MAKERS; maker++) {
        size_t failing;
        size_t calls = 0;
        size_t borne = 0;
        for (failing = 1; calls == 0; failing++) {
            euroradio_end end = EURORADIO_END_INIT;
            int32_t status;
            heap_reset(failing);
            status = make((enum maker)maker, &end, &usual, ENGINE, 0);
            if (heap_calls < failing) {
                CHECK(status == EURORADIO_OK);
                calls = heap_calls;
                printf("maker %d: %u allocations, %u octets\n", maker, (unsigned)calls, (unsigned)heap_octets);
            } else if (status == EURORADIO_OK) {
                CHECK(!is_zero(&end, sizeof end));
                borne++;
            } else {
                CHECK(status == EURORADIO_MEMORY);
                CHECK(is_zero(&end, sizeof end));
                CHECK(heap_blocks == 0);
            }
            heap_reset(0);
            if (status == EURORADIO_MEMORY)
                CHECK(make((enum maker)maker, &end, &usual, ENGINE, 0) == EURORADIO_OK);
            euroradio_free(&end);
            CHECK(heap_blocks == 0);
        }
        CHECK(calls > 0);
        CHECK(borne == (maker == ANSWER_KEYS ? 1 : 0));
    }
}

/* ---- handles */

/* A handle that holds no end: CLOSED or 0 of each call, no deed, and it stays as it was. */
static void judge_closed(euroradio_end *end) {
    euroradio_end before = *end;
    euroradio_deeds deeds[12];
    euroradio_counts counts;
    uint64_t moment = 77;
    uint32_t peer = 77;
    uint8_t octets[4] = {1, 2, 3, 4};
    size_t i;
    memset(deeds, 0x5a, sizeof deeds);
    memset(&counts, 0x5a, sizeof counts);
    CHECK(euroradio_start(end, 0, &deeds[0]) == EURORADIO_CLOSED);
    CHECK(euroradio_octets(end, 0, octets, 4, &deeds[1]) == EURORADIO_CLOSED);
    CHECK(euroradio_send(end, 0, octets, 4, &deeds[2]) == EURORADIO_CLOSED);
    CHECK(euroradio_take(end, 0, &deeds[3]) == EURORADIO_CLOSED);
    CHECK(euroradio_release(end, 0, 7, &deeds[4]) == EURORADIO_CLOSED);
    CHECK(euroradio_tick(end, 0, &deeds[5]) == EURORADIO_CLOSED);
    CHECK(euroradio_ended(end, &deeds[6]) == EURORADIO_CLOSED);
    CHECK(euroradio_fault(end, &deeds[7]) == EURORADIO_CLOSED);
    CHECK(euroradio_stalled(end, &deeds[8]) == EURORADIO_CLOSED);
    CHECK(euroradio_released(end, &deeds[9]) == EURORADIO_CLOSED);
    CHECK(euroradio_tick(end, MOST + 1, &deeds[10]) == EURORADIO_CLOSED);
    CHECK(euroradio_send(end, MOST + 1, octets, 0, &deeds[11]) == EURORADIO_CLOSED);
    for (i = 0; i < sizeof deeds / sizeof deeds[0]; i++)
        CHECK(is_zero(&deeds[i], sizeof deeds[i]));
    CHECK(euroradio_counted(end, &counts) == EURORADIO_CLOSED);
    CHECK(is_zero(&counts, sizeof counts));
    CHECK(euroradio_deadline(end, &moment) == EURORADIO_CLOSED);
    CHECK(moment == 77);
    CHECK(euroradio_connected(end, &peer) == EURORADIO_CLOSED);
    CHECK(peer == 77);
    CHECK(euroradio_out(end, 0, octets, 4) == 0);
    CHECK(euroradio_accepted(end, octets, 4) == 0);
    CHECK(euroradio_taken(end, octets, 4) == 0);
    CHECK(octets[0] == 1 && octets[1] == 2 && octets[2] == 3 && octets[3] == 4);
    CHECK(euroradio_waiting(end) == 0);
    CHECK(euroradio_unsent(end) == 0);
    euroradio_free(end);
    CHECK(before.private_open != end->private_open || is_same(end, &before));
}

static void handles(void) {
    euroradio_end end = EURORADIO_END_INIT;
    euroradio_end moved;
    euroradio_end garbage;
    euroradio_deeds deeds;
    judge_closed(&end);

    /* memory that was never zeroed is taken for no end, unless it should spell what an open handle does */
    memset(&garbage, 0x5a, sizeof garbage);
    judge_closed(&garbage);

    CHECK(make(CALL, &end, &usual, ENGINE, 0) == EURORADIO_OK);
    moved = end;
    memset(&end, 0, sizeof end);
    judge_closed(&end);
    CHECK(euroradio_start(&moved, 0, &deeds) == EURORADIO_OK);
    CHECK(deeds.out > 0);
    CHECK(make(CALL, &end, &usual, ENGINE, 0) == EURORADIO_OK);
    euroradio_free(&moved);
    CHECK(heap_blocks > 0);
    CHECK(euroradio_start(&end, 0, &deeds) == EURORADIO_OK);
    euroradio_free(&end);
    CHECK(heap_blocks == 0);
    euroradio_free(&end);
    euroradio_free(&end);
    euroradio_free(NULL);
    judge_closed(&end);
    judge_closed(&moved);

    /* the handle can be used again */
    CHECK(make(ANSWER, &end, &usual, CENTRE, 0) == EURORADIO_OK);
    CHECK(euroradio_tick(&end, 0, &deeds) == EURORADIO_OK);
    euroradio_free(&end);
    CHECK(heap_blocks == 0);
}

/* ---- events */

/* Behind a moment that is too great: no deed, and the end goes on as if the call hadn't been. */
static void moments(void) {
    struct wire wire;
    euroradio_deeds deeds[7];
    uint64_t before = 0;
    uint64_t after = 0;
    uint8_t octet = 0x7e;
    size_t i;
    CHECK(open_wire(&wire, &usual));
    CHECK(euroradio_deadline(&wire.engine.end, &before) == EURORADIO_OK);
    memset(deeds, 0x5a, sizeof deeds);
    CHECK(euroradio_start(&wire.engine.end, MOST + 1, &deeds[0]) == EURORADIO_MOMENT);
    CHECK(euroradio_octets(&wire.engine.end, MOST + 1, &octet, 1, &deeds[1]) == EURORADIO_MOMENT);
    CHECK(euroradio_send(&wire.engine.end, UINT64_MAX, &octet, 1, &deeds[2]) == EURORADIO_MOMENT);
    CHECK(euroradio_take(&wire.engine.end, MOST + 1, &deeds[3]) == EURORADIO_MOMENT);
    CHECK(euroradio_release(&wire.engine.end, MOST + 1, 3, &deeds[4]) == EURORADIO_MOMENT);
    CHECK(euroradio_tick(&wire.engine.end, UINT64_MAX, &deeds[5]) == EURORADIO_MOMENT);
    for (i = 0; i < 6; i++)
        CHECK(is_zero(&deeds[i], sizeof deeds[i]));
    CHECK(euroradio_deadline(&wire.engine.end, &after) == EURORADIO_OK);
    CHECK(before == after);
    CHECK(euroradio_released(&wire.engine.end, &deeds[6]) == EURORADIO_NONE);
    CHECK(is_zero(&deeds[6], sizeof deeds[6]));
    set_up(&wire);
    CHECK(wire.engine.connected == CENTRE && wire.centre.connected == ENGINE);

    /* a moment that goes back counts as the last, and the last one may be 10^15 */
    CHECK(euroradio_tick(&wire.engine.end, wire.now, &deeds[0]) == EURORADIO_OK && deeds[0].back == 0);
    CHECK(euroradio_tick(&wire.engine.end, 0, &deeds[0]) == EURORADIO_OK && deeds[0].back == 1);
    CHECK(euroradio_tick(&wire.engine.end, MOST, &deeds[0]) == EURORADIO_OK && deeds[0].back == 0);
    CHECK(euroradio_stalled(&wire.engine.end, &deeds[0]) == EURORADIO_OK && deeds[0].back == 0);
    close_wire(&wire);
    CHECK(heap_blocks == 0);
}

/* A moment below one that was passed before, at the making too, is told by each call that has one, and by no fault; one that
 * was refused as too late was none. */
static void moments_back(void) {
    struct wire wire;
    euroradio_deeds deeds;
    uint8_t octet = 0x7e;
    CHECK(open_wire(&wire, &usual));
    CHECK(euroradio_start(&wire.engine.end, 999, &deeds) == EURORADIO_OK && deeds.back == 1 && deeds.out > 0);
    CHECK(euroradio_tick(&wire.centre.end, 1000, &deeds) == EURORADIO_OK && deeds.back == 0);
    CHECK(euroradio_tick(&wire.centre.end, MOST + 1, &deeds) == EURORADIO_MOMENT && deeds.back == 0);
    CHECK(euroradio_tick(&wire.centre.end, 2000, &deeds) == EURORADIO_OK && deeds.back == 0);
    CHECK(euroradio_octets(&wire.centre.end, 1999, &octet, 1, &deeds) == EURORADIO_OK && deeds.back == 1 && deeds.used == 1);
    CHECK(euroradio_take(&wire.centre.end, 1999, &deeds) == EURORADIO_NONE && deeds.back == 1);
    CHECK(euroradio_take(&wire.centre.end, 2000, &deeds) == EURORADIO_NONE && is_zero(&deeds, sizeof deeds));
    CHECK(euroradio_send(&wire.centre.end, 1999, &octet, 1, &deeds) == EURORADIO_NOT_CONNECTED && deeds.back == 1);
    CHECK(euroradio_send(&wire.centre.end, 3000, &octet, 1, &deeds) == EURORADIO_NOT_CONNECTED && is_zero(&deeds, sizeof deeds));
    CHECK(euroradio_tick(&wire.centre.end, 2999, &deeds) == EURORADIO_OK && deeds.back == 1);
    CHECK(euroradio_release(&wire.centre.end, 3000, 1, &deeds) == EURORADIO_OK && deeds.back == 0);
    CHECK(euroradio_ended(&wire.centre.end, &deeds) == EURORADIO_OK && deeds.back == 0);
    close_wire(&wire);
    CHECK(heap_blocks == 0);
}

/* A start that is misused: no deed, not that of a moment that goes back either, and the end is as if the call hadn't been. */
static void judge_misused(euroradio_end *end, uint64_t now) {
    euroradio_deeds deeds;
    uint8_t sent_before[300], sent_after[300];
    uint64_t before = 77, after = 77;
    int32_t wants = euroradio_deadline(end, &before);
    size_t count = euroradio_out(end, 0, sent_before, sizeof sent_before);
    memset(&deeds, 0x5a, sizeof deeds);
    CHECK(euroradio_start(end, now, &deeds) == EURORADIO_START);
    CHECK(is_zero(&deeds, sizeof deeds));
    memset(&deeds, 0x5a, sizeof deeds);
    CHECK(euroradio_start(end, MOST + 1, &deeds) == EURORADIO_MOMENT);
    CHECK(is_zero(&deeds, sizeof deeds));
    CHECK(euroradio_deadline(end, &after) == wants && before == after);
    CHECK(euroradio_out(end, 0, sent_after, sizeof sent_after) == count && memcmp(sent_before, sent_after, count) == 0);
}

/* An end that calls is started once, and one that answers never, at whatever point they are. */
static void starts(void) {
    struct wire wire;
    euroradio_end end = EURORADIO_END_INIT;
    euroradio_deeds deeds;
    uint32_t peer = 77;
    CHECK(open_wire(&wire, &usual));
    judge_misused(&wire.centre.end, wire.now);
    judge_misused(&wire.centre.end, 0);
    judge_misused(&wire.centre.end, MOST);
    CHECK(euroradio_tick(&wire.centre.end, wire.now, &deeds) == EURORADIO_OK && deeds.back == 0);

    /* neither a late moment nor a call of another kind takes the start */
    CHECK(euroradio_start(&wire.engine.end, MOST + 1, &deeds) == EURORADIO_MOMENT);
    CHECK(euroradio_tick(&wire.engine.end, wire.now, &deeds) == EURORADIO_OK && deeds.out == 0);
    CHECK(euroradio_start(&wire.engine.end, wire.now, &deeds) == EURORADIO_OK && deeds.out > 0);
    judge_misused(&wire.engine.end, wire.now);
    did(&wire, &wire.engine, &deeds);
    judge_misused(&wire.engine.end, wire.now + 500);
    run(&wire);
    CHECK(wire.engine.connected == CENTRE && wire.centre.connected == ENGINE);
    judge_misused(&wire.engine.end, wire.now);
    judge_misused(&wire.centre.end, wire.now);
    CHECK(euroradio_connected(&wire.engine.end, &peer) == EURORADIO_OK && peer == CENTRE);
    leave(&wire, &wire.engine, 0);
    run(&wire);
    judge_misused(&wire.engine.end, wire.now);
    judge_misused(&wire.centre.end, wire.now);
    close_wire(&wire);

    /* an end that was released before it was started has its one start, which sends nothing */
    CHECK(make(CALL, &end, &usual, ENGINE, 0) == EURORADIO_OK);
    CHECK(euroradio_ended(&end, &deeds) == EURORADIO_OK && deeds.released == 1);
    CHECK(euroradio_start(&end, 0, &deeds) == EURORADIO_OK && is_zero(&deeds, sizeof deeds));
    judge_misused(&end, 0);
    euroradio_free(&end);
    CHECK(heap_blocks == 0);
}

static void refusals(void) {
    struct wire wire;
    euroradio_deeds deeds;
    uint8_t text[EURORADIO_MESSAGE_MOST + 1];
    uint64_t moment = 77;
    int i;
    memset(text, 0x41, sizeof text);
    CHECK(open_wire(&wire, &usual));
    CHECK(send_text(&wire, &wire.engine, text, 1) == EURORADIO_NOT_CONNECTED);
    CHECK(send_text(&wire, &wire.engine, text, 0) == EURORADIO_NOT_CONNECTED);
    CHECK(send_text(&wire, &wire.centre, NULL, 0) == EURORADIO_NOT_CONNECTED);
    set_up(&wire);
    CHECK(send_text(&wire, &wire.engine, NULL, 0) == EURORADIO_LENGTH);
    CHECK(send_text(&wire, &wire.engine, text, EURORADIO_MESSAGE_MOST + 1) == EURORADIO_LENGTH);
    CHECK(wire.engine.length == 0);
    CHECK(euroradio_take(&wire.engine.end, wire.now, &deeds) == EURORADIO_NONE);
    CHECK(is_zero(&deeds, sizeof deeds));
    CHECK(euroradio_deadline(&wire.engine.end, &moment) == EURORADIO_NONE);
    CHECK(moment == 77);

    /* the window, the credit and then 16 messages that wait */
    for (i = 0; i < 200 && send_text(&wire, &wire.engine, text, EURORADIO_MESSAGE_MOST) == EURORADIO_OK; i++)
        ;
    CHECK(i >= 16 && i < 200);
    CHECK(send_text(&wire, &wire.engine, text, 1) == EURORADIO_FULL);
    memset(&deeds, 0x5a, sizeof deeds);
    CHECK(euroradio_send(&wire.engine.end, wire.now, text, 0, &deeds) == EURORADIO_LENGTH);
    CHECK(is_zero(&deeds, sizeof deeds));

    leave(&wire, &wire.engine, 7);
    CHECK(wire.engine.release.released == 1 && wire.engine.release.reason == 0 && wire.engine.release.sub == 7 &&
          wire.engine.release.by_peer == 0);
    memset(&deeds, 0x5a, sizeof deeds);
    CHECK(euroradio_send(&wire.engine.end, wire.now, text, 0, &deeds) == EURORADIO_RELEASED);
    CHECK(is_zero(&deeds, sizeof deeds));
    CHECK(euroradio_released(&wire.engine.end, &deeds) == EURORADIO_OK);
    CHECK(deeds.released == 1 && deeds.reason == 0 && deeds.sub == 7 && deeds.by_peer == 0);
    deeds.released = 0;
    deeds.sub = 0;
    CHECK(is_zero(&deeds, sizeof deeds));
    CHECK(euroradio_deadline(&wire.engine.end, &moment) == EURORADIO_NONE);
    close_wire(&wire);
    CHECK(heap_blocks == 0);
}

/* What waits to be sent: a send is refused as FULL exactly while 16 messages wait, and all that were sent come. Behind a
 * release they wait for good. */
static void unsent(void) {
    struct wire wire;
    uint8_t text[EURORADIO_MESSAGE_MOST];
    size_t before;
    int32_t status;
    int sent = 0;
    int i;
    memset(text, 0x41, sizeof text);
    CHECK(open_wire(&wire, &usual));
    CHECK(euroradio_unsent(&wire.engine.end) == 0 && euroradio_unsent(&wire.centre.end) == 0);
    set_up(&wire);
    CHECK(euroradio_unsent(&wire.engine.end) == 0 && euroradio_unsent(&wire.centre.end) == 0);
    for (i = 0; i < 60; i++) {
        before = euroradio_unsent(&wire.engine.end);
        CHECK(before <= EURORADIO_UNSENT_MOST);
        status = send_text(&wire, &wire.engine, text, sizeof text);
        CHECK(status == (before < EURORADIO_UNSENT_MOST ? EURORADIO_OK : EURORADIO_FULL));
        sent += status == EURORADIO_OK;
    }
    CHECK(euroradio_unsent(&wire.engine.end) == EURORADIO_UNSENT_MOST);
    CHECK(euroradio_unsent(&wire.centre.end) == 0);
    CHECK(sent >= EURORADIO_UNSENT_MOST && sent < 60);
    run(&wire);
    CHECK(euroradio_unsent(&wire.engine.end) == 0);
    CHECK(wire.centre.accepted == sent && wire.centre.taken == sent);

    for (i = 0; i < 60; i++)
        (void)send_text(&wire, &wire.engine, text, sizeof text);
    leave(&wire, &wire.engine, 7);
    CHECK(euroradio_unsent(&wire.engine.end) == EURORADIO_UNSENT_MOST);
    close_wire(&wire);
    CHECK(heap_blocks == 0);
}

/* The peer's release, and the three of the line. */
static void releases(void) {
    struct wire wire;
    euroradio_deeds deeds;
    int i;
    CHECK(open_wire(&wire, &usual));
    set_up(&wire);
    leave(&wire, &wire.engine, 9);
    run(&wire);
    CHECK(wire.centre.release.released == 1 && wire.centre.release.reason == 0 && wire.centre.release.sub == 9 &&
          wire.centre.release.by_peer == 1);
    CHECK(euroradio_released(&wire.centre.end, &deeds) == EURORADIO_OK);
    CHECK(deeds.sub == 9 && deeds.by_peer == 1);
    close_wire(&wire);

    for (i = 0; i < 3; i++) {
        euroradio_end end = EURORADIO_END_INIT;
        CHECK(make(CALL, &end, &usual, ENGINE, 0) == EURORADIO_OK);
        CHECK((i == 0 ? euroradio_ended : i == 1 ? euroradio_fault : euroradio_stalled)(&end, &deeds) == EURORADIO_OK);
        CHECK(deeds.released == 1 && deeds.reason == 1 && deeds.sub == 5 + i && deeds.by_peer == 0);
        CHECK(euroradio_tick(&end, 99, &deeds) == EURORADIO_OK);
        CHECK(is_zero(&deeds, sizeof deeds));
        euroradio_free(&end);
    }
    CHECK(heap_blocks == 0);
}

/* Whether an end is connected, and with whom: not before it is, and not behind its release; and the same in between,
 * whatever happens. */
static void connections(void) {
    struct wire wire;
    euroradio_deeds deeds;
    uint32_t peer = 77;
    uint8_t text[3] = {1, 2, 3};
    CHECK(open_wire(&wire, &usual));
    CHECK(euroradio_connected(&wire.engine.end, &peer) == EURORADIO_NONE && peer == 77);
    CHECK(euroradio_connected(&wire.centre.end, &peer) == EURORADIO_NONE && peer == 77);
    set_up(&wire);
    CHECK(euroradio_connected(&wire.engine.end, &peer) == EURORADIO_OK && peer == CENTRE);
    CHECK(euroradio_connected(&wire.centre.end, &peer) == EURORADIO_OK && peer == ENGINE);
    CHECK(send_text(&wire, &wire.engine, text, 0) == EURORADIO_LENGTH);
    CHECK(send_text(&wire, &wire.engine, text, sizeof text) == EURORADIO_OK);
    run(&wire);
    CHECK(euroradio_tick(&wire.centre.end, MOST + 1, &deeds) == EURORADIO_MOMENT);
    CHECK(euroradio_tick(&wire.centre.end, wire.now, &deeds) == EURORADIO_OK);
    peer = 77;
    CHECK(euroradio_connected(&wire.centre.end, &peer) == EURORADIO_OK && peer == ENGINE);
    leave(&wire, &wire.engine, 0);
    peer = 77;
    CHECK(euroradio_connected(&wire.engine.end, &peer) == EURORADIO_NONE && peer == 77);
    CHECK(euroradio_connected(&wire.centre.end, &peer) == EURORADIO_OK && peer == ENGINE);
    run(&wire);
    CHECK(euroradio_connected(&wire.centre.end, &peer) == EURORADIO_NONE && peer == ENGINE);
    close_wire(&wire);
    CHECK(heap_blocks == 0);
}

/* ---- copies */

static void copies(void) {
    struct wire wire;
    euroradio_deeds deeds;
    uint8_t whole[300];
    uint8_t part[300];
    uint8_t text[100];
    size_t from;
    size_t room;
    size_t count;
    size_t i;
    for (i = 0; i < sizeof text; i++)
        text[i] = (uint8_t)(i + 1);
    CHECK(open_wire(&wire, &usual));
    set_up(&wire);
    CHECK(euroradio_send(&wire.engine.end, wire.now, text, sizeof text, &deeds) == EURORADIO_OK);
    CHECK(deeds.out > sizeof text && deeds.out < sizeof whole);
    CHECK(euroradio_out(&wire.engine.end, 0, whole, sizeof whole) == deeds.out);
    for (from = 0; from <= deeds.out + 1; from += 13)
        for (room = 0; room <= deeds.out + 1; room += 17) {
            size_t wanted = from >= deeds.out ? 0 : deeds.out - from < room ? deeds.out - from : room;
            memset(part, 0x5a, sizeof part);
            count = euroradio_out(&wire.engine.end, from, part, room);
            CHECK(count == wanted);
            CHECK(memcmp(part, whole + (wanted > 0 ? from : 0), wanted) == 0);
            for (i = wanted; i < sizeof part && part[i] == 0x5a; i++)
                ;
            CHECK(i == sizeof part);
        }
    CHECK(euroradio_out(&wire.engine.end, SIZE_MAX, part, sizeof part) == 0);

    /* a send that is refused and a fault are no events: the octets of the one before stay */
    {
        euroradio_deeds none;
        CHECK(euroradio_send(&wire.engine.end, wire.now, text, 0, &none) == EURORADIO_LENGTH && none.out == 0);
        CHECK(euroradio_tick(&wire.engine.end, MOST + 1, &none) == EURORADIO_MOMENT && none.out == 0);
        CHECK(euroradio_out(&wire.engine.end, 0, part, sizeof part) == deeds.out);
        CHECK(memcmp(part, whole, deeds.out) == 0);
    }
    CHECK(euroradio_out(&wire.engine.end, 0, NULL, 0) == 0);

    /* what was accepted is told until the next event, and waits until it is taken */
    wire.keeps = 1;
    put(&wire.engine, &deeds);
    for (i = 0; i < wire.engine.length; i++) {
        CHECK(euroradio_octets(&wire.centre.end, wire.now, wire.engine.sent + i, 1, &deeds) == EURORADIO_OK);
        CHECK(deeds.used == 1);
        CHECK((deeds.message > 0) == (i + 1 == wire.engine.length));
    }
    CHECK(deeds.message == sizeof text);
    CHECK(euroradio_waiting(&wire.centre.end) == 1);
    CHECK(euroradio_accepted(&wire.centre.end, part, sizeof part) == sizeof text && memcmp(part, text, sizeof text) == 0);
    memset(part, 0x5a, sizeof part);
    CHECK(euroradio_accepted(&wire.centre.end, part, 7) == 7 && memcmp(part, text, 7) == 0 && part[7] == 0x5a);
    CHECK(euroradio_accepted(&wire.centre.end, NULL, 0) == 0);
    CHECK(euroradio_taken(&wire.centre.end, part, sizeof part) == 0);
    CHECK(euroradio_take(&wire.centre.end, wire.now, &deeds) == EURORADIO_OK);
    CHECK(deeds.message == sizeof text && deeds.out > 0 && deeds.used == 0 && deeds.connected == 0 && deeds.released == 0);
    CHECK(euroradio_accepted(&wire.centre.end, part, sizeof part) == 0);
    CHECK(euroradio_taken(&wire.centre.end, part, sizeof part) == sizeof text && memcmp(part, text, sizeof text) == 0);
    memset(part, 0x5a, sizeof part);
    CHECK(euroradio_taken(&wire.centre.end, part, 1) == 1 && part[0] == 1 && part[1] == 0x5a);
    CHECK(euroradio_waiting(&wire.centre.end) == 0);
    CHECK(euroradio_take(&wire.centre.end, wire.now, &deeds) == EURORADIO_NONE);
    CHECK(euroradio_taken(&wire.centre.end, part, sizeof part) == 0);

    /* no octets are an event too */
    memset(&deeds, 0x5a, sizeof deeds);
    CHECK(euroradio_octets(&wire.centre.end, wire.now, NULL, 0, &deeds) == EURORADIO_OK);
    CHECK(is_zero(&deeds, sizeof deeds));
    close_wire(&wire);
    CHECK(heap_blocks == 0);
}

/* The five kinds of frames that a station ignores. */
static void counts(void) {
    static const uint8_t bad_fcs[] = {0x7e, 0x01, 0x3f, 0xeb, 0xde, 0x7e};
    static const uint8_t too_short[] = {0x7e, 0x01, 0x02, 0x7e};
    static const uint8_t aborted[] = {0x7e, 0x01, 0x02, 0x03, 0x04, 0x7d, 0x7e};
    static const uint8_t stray[] = {0x7e, 0x01, 0x73, 0x83, 0x57, 0x7e};
    struct wire wire;
    euroradio_counts told;
    uint8_t too_long[1100];
    CHECK(open_wire(&wire, &usual));
    memset(&told, 0x5a, sizeof told);
    CHECK(euroradio_counted(&wire.centre.end, &told) == EURORADIO_OK);
    CHECK(is_zero(&told, sizeof told));
    give(&wire, &wire.centre, bad_fcs, sizeof bad_fcs);
    give(&wire, &wire.centre, too_short, sizeof too_short);
    give(&wire, &wire.centre, too_short, sizeof too_short);
    memset(too_long, 0x11, sizeof too_long);
    too_long[0] = too_long[sizeof too_long - 1] = 0x7e;
    give(&wire, &wire.centre, too_long, sizeof too_long);
    give(&wire, &wire.centre, aborted, sizeof aborted);
    give(&wire, &wire.centre, stray, sizeof stray);
    CHECK(euroradio_counted(&wire.centre.end, &told) == EURORADIO_OK);
    CHECK(told.bad_fcs == 1);
    CHECK(told.too_short == 2);
    CHECK(told.too_long == 1);
    CHECK(told.aborted == 1);
    CHECK(told.stray == 1);
    close_wire(&wire);
}

/* The words of a reason: whole, cut short, and those of what no end of this kind sends. */
static void reasons(void) {
    static const char no_key[] = "no key of this engine holds at the radio block centre";
    uint8_t words[65], few[3];
    unsigned reason, sub;
    size_t longest = 0;
    CHECK(euroradio_reason(3, 1, words, sizeof words) == sizeof no_key - 1);
    CHECK(memcmp(words, no_key, sizeof no_key - 1) == 0);
    CHECK(euroradio_reason(0, 7, words, sizeof words) == euroradio_reason(0, 0, words, sizeof words));
    CHECK(euroradio_reason(3, 1, few, sizeof few) == 3);
    CHECK(memcmp(few, no_key, 3) == 0);
    CHECK(euroradio_reason(3, 1, words, 0) == 0);
    for (reason = 0; reason < 256; reason++)
        for (sub = 0; sub < 256; sub++)
            if (euroradio_reason((uint8_t)reason, (uint8_t)sub, words, sizeof words) > longest)
                longest = euroradio_reason((uint8_t)reason, (uint8_t)sub, words, sizeof words);
    CHECK(longest <= 64);
}

int main(void) {
    usual_key = key_of(ENGINE, CENTRE, 0, MOST);
    CHECK(euroradio_version() == EURORADIO_VERSION);
    faults_of_makers();
    ranges_of_settings();
    key_files();
    key_faults();
    kmacs();
    key_arrays();
    keys_are_found();
    allocations_fail();
    handles();
    moments();
    moments_back();
    starts();
    refusals();
    unsent();
    releases();
    connections();
    copies();
    counts();
    reasons();
    return checked("calls");
}
