/*
 * euroradio.h - one end of a EuroRadio link, for programs in C, C++ and Ada.
 *
 * An end is a station of balanced HDLC (ISO/IEC 13239), network blocks (ITU-T T.70), a transport (ITU-T X.224 class 2)
 * and one side of a safe connection (UNISIG SUBSET-037). It has no clock, no line and no random source: the program
 * passes moments, octets and random numbers in, and gets deeds and octets out. Events go in one at a time:
 *
 *     euroradio_end end = EURORADIO_END_INIT;
 *     euroradio_settings settings = EURORADIO_SETTINGS_INIT;
 *     euroradio_deeds deeds;
 *
 *     euroradio_call(&end, &settings, 5, 9, kmac, random_number, now);     or euroradio_answer, euroradio_answer_keys
 *     euroradio_start(&end, now, &deeds);                                  an end that calls
 *     for (;;) {
 *         octets come        -> euroradio_octets, until all of them are used
 *         a message goes     -> euroradio_send
 *         deeds.message != 0 -> euroradio_take, euroradio_taken
 *         the deadline is up -> euroradio_tick
 *         behind each of these: euroradio_out with room for deeds.out octets, and write them to the line
 *     }
 *     euroradio_free(&end);
 *
 * examples/c has whole programs: a train over TCP, a radio block centre, two ends wired to each other, Ada.
 * docs/EMBEDDING.md says how to build and link, what is proved, and what is trusted.
 *
 * THE HANDLE. A euroradio_end is the program's own memory, 16 octets: a variable, a field, an element of an array. It
 * is zero (EURORADIO_END_INIT, or memset) before an end is made. The program reads and writes none of its fields and
 * keeps no second copy of it; to move it, copy it and zero the old one. A handle that holds no end is safe in each
 * call, which answers EURORADIO_CLOSED or 0; so is one that was freed, and freeing it again. Of two copies of a handle
 * each is taken for an owner: once one was freed, any call on the other is a use after free.
 *
 * MEMORY. euroradio_call, euroradio_answer and euroradio_answer_keys allocate, and euroradio_free gives all back;
 * euroradio_key_file allocates, and gives all back before it returns; nothing else does. An end takes about 268 kB at
 * the usual settings and 293 kB at most, and one that answers what its keys need besides; docs/EMBEDDING.md has a table
 * by settings. The library allocates by three functions that the program links: memory/euroradio_heap.c has them over
 * malloc, memory/euroradio_pool.c over a fixed block of memory, which it overwrites with zeros where it is given back.
 * Where memory runs out the making answers EURORADIO_MEMORY, and holds none.
 *
 * STACK. As measured on x86-64, the library built by LLVM: 36 kB for a making, 9 kB for euroradio_free, 6 kB for any
 * other call; docs/EMBEDDING.md has a table. An end that is made from the text of a key file goes as deep as that text
 * nests, so take such texts from trusted hands or pass an array of keys.
 *
 * POINTERS. No pointer may be null, except one whose length is 0, and that of euroradio_free. All that a call reads or
 * writes lies apart from all else that it is passed, is aligned for its type, and is alive until the call returns; the
 * library keeps no pointer to it. Memory that a call writes to need not hold anything before. Nothing tests this: a
 * call that breaks it may do anything.
 *
 * THREADS. The library has no state of its own, needs no initialisation, starts no thread, takes no lock, never blocks
 * and calls back into no code of the program but the three heap functions. Calls on different handles may run at the
 * same time in different threads, if the heap's functions may; calls on one handle may not. That holds of the calls
 * that only tell something too: each takes the end out of its handle and puts it back, so the handle isn't const, and
 * two of them at one time are a race. They are no readers of a lock of readers and writers: take it to write. A handle
 * may go from one thread to another by what orders memory: a lock, a queue, a thread's start or join. No call may be
 * made from a signal handler that could have interrupted another.
 *
 * TIME. A moment is in milliseconds since any fixed point of the program's choice, at most EURORADIO_MOMENT_MOST. It
 * should come of a clock that isn't set back: a moment below the last that the end was passed counts as the last, and
 * deeds.back tells of it. The first and last moments of keys are of the same clock, so where keys have them, use one
 * whose zero they know.
 *
 * ERRORS. A status above 0 is an answer of the protocol, one below 0 a fault of the call. Where a call answers a fault,
 * the end is as it was before, and *deeds, where there is one, is all zero. So is it where a send is refused or a take
 * finds none, but for deeds.back. Of several faults the one answered is the first in the order in which the call's
 * comment names them.
 *
 * NUMBERS. ETCS numbers are below 2^24. No type is an enum or a bool, so that C, C++ and Ada see the same sizes.
 *
 * VERSIONS. A program that was compiled with this header goes with each library of the same major number whose minor
 * number isn't below its own. With a minor number calls, statuses and constants are added, and what stood there stays
 * as it was; so take a status that the program doesn't know by its sign. With a major number anything may change: read
 * this file and compile anew.
 */
#ifndef EURORADIO_H
#define EURORADIO_H

#include <stddef.h>
#include <stdint.h>

#ifdef __cplusplus
extern "C" {
#endif

/* The version of this header, as euroradio_version answers it: 100 times the major number, and the minor one. */
#define EURORADIO_VERSION 201
#define EURORADIO_VERSION_TEXT "2.1" /* the same for people */

/* A handle. */
typedef struct euroradio_end {
    uint64_t private_open;
    void *private_end;
} euroradio_end;

#ifdef __cplusplus
#define EURORADIO_END_INIT {}
#else
#define EURORADIO_END_INIT {0, NULL}
#endif

/* Statuses of calls. */
#define EURORADIO_OK 0
#define EURORADIO_RELEASED 1      /* send: the end is released; nothing was sent */
#define EURORADIO_NOT_CONNECTED 2 /* send: the safe connection doesn't stand yet; nothing was sent */
#define EURORADIO_LENGTH 3        /* send: a message has 1 to 1,023 octets; nothing was sent */
#define EURORADIO_FULL 4          /* send: 16 messages wait to be sent, as euroradio_unsent tells; nothing was sent */
#define EURORADIO_NONE 5          /* take: no message waits; deadline: no tick is wanted; released, connected: no */
#define EURORADIO_CLOSED (-1)     /* the handle holds no end */
#define EURORADIO_OPEN (-2)       /* the handle holds an end already */
#define EURORADIO_MOMENT (-3)     /* the moment is above EURORADIO_MOMENT_MOST */
#define EURORADIO_NUMBER (-4)     /* an ETCS number is not below 2^24 */
#define EURORADIO_SETTING (-5)    /* a setting is out of its range */
#define EURORADIO_KEYS (-6)       /* the key file, the array of keys or the octets of a KMAC are refused */
#define EURORADIO_MEMORY (-7)     /* memory ran out */
#define EURORADIO_START (-8)      /* start: the end was started before, or it answers */

#define EURORADIO_MESSAGE_MOST 1023                  /* octets of a message */
#define EURORADIO_OUT_MOST 200208                    /* octets that one event sends, at most */
#define EURORADIO_WAITING_MOST 15                    /* accepted messages that wait to be taken, at most */
#define EURORADIO_UNSENT_MOST 16                     /* messages that wait to be sent, at most */
#define EURORADIO_MOMENT_MOST UINT64_C(1000000000000000) /* 10^15: the last moment, in milliseconds */

/* What both ends of a link agree on. EURORADIO_SETTINGS_INIT has the usual values. */
typedef struct euroradio_settings {
    uint32_t window; /* I frames that may be unacknowledged: 1 to 7, at modulo 128 1 to 31 */
    uint32_t credit; /* DT TPDUs that are granted to the peer: 1 to 15 */
    uint32_t size;   /* octets of a TPDU: 128, 256, 512 or 1024 */
    uint32_t t1;     /* T1, behind which a frame is sent again, in milliseconds: 100 to 60,000 */
    uint32_t n2;     /* how often T1 may expire in a row: 1 to 10 */
    uint32_t setup;  /* from the making to being connected, in milliseconds: 1,000 to 600,000 */
    uint32_t modulo; /* of the numbers of I frames: 8, or 128 */
} euroradio_settings;

#define EURORADIO_SETTINGS_INIT {7, 15, 128, 1000, 5, 40000, 8}

/* A key that a radio block centre knows: the KMAC that it shares with an engine, three DES keys, of each the first
 * octet the most significant, and the first and the last moment at which it holds. */
typedef struct euroradio_key {
    uint32_t engine; /* the ETCS number of the engine, below 2^24 */
    uint32_t rbc;    /* .. and of the radio block centre */
    uint64_t from;   /* the first moment: 0 where there is none */
    uint64_t to;     /* the last moment, not below `from`; any above EURORADIO_MOMENT_MOST, as UINT64_MAX, is none */
    uint64_t kmac[3];
} euroradio_key;

/* What an event came to. A call writes all fields. */
typedef struct euroradio_deeds {
    size_t out;         /* octets that go to the line: fetch them by euroradio_out before the next event */
    size_t used;        /* euroradio_octets: octets of the piece that were used */
    size_t message;     /* octets of the message that was accepted (it waits now), or, by a take, taken; 0: none */
    uint32_t connected; /* 1 where the safe connection came to stand in this event */
    uint32_t peer;      /* .. with the peer of this ETCS number */
    uint32_t released;  /* 1 where this event released the end */
    uint8_t reason;     /* .. for this reason and sub-reason: EURORADIO_WHY; euroradio_text.h has their words */
    uint8_t sub;
    uint8_t by_peer;    /* .. 1 where the peer did it */
    uint8_t back;       /* 1 where the moment is below one that was passed before: it counts as the last */
} euroradio_deeds;

/* The frames that the station ignored so far, by their kind. A count stays at its greatest value. */
typedef struct euroradio_counts {
    uint64_t bad_fcs;   /* frames whose check sequence is wrong */
    uint64_t too_short; /* frames whose content has under 4 octets */
    uint64_t too_long;  /* frames whose content has above 1,032 octets */
    uint64_t aborted;   /* frames that an escape before the closing flag aborted */
    uint64_t stray;     /* frames of another address, or of a kind that isn't expected now */
} euroradio_counts;

/* Why an end was released, as one number: EURORADIO_WHY(deeds.reason, deeds.sub) is one of those below, where the end or
 * a peer of this kind did it. The peer's DI may have any two octets. */
#define EURORADIO_WHY(reason, sub) ((reason) * 256 + (sub))

#define EURORADIO_REASON_USER 0 /* the reason of a user's release; the sub-reason is the user's own */
#define EURORADIO_WHY_SET_UP_UNANSWERED EURORADIO_WHY(1, 1) /* the set-up of the link was not answered */
#define EURORADIO_WHY_NO_PROGRESS EURORADIO_WHY(1, 2) /* no progress on the link: T1 expired too often in a row */
#define EURORADIO_WHY_FRAME_ERROR EURORADIO_WHY(1, 3) /* a frame that the link may not get */
#define EURORADIO_WHY_PEER_DISCONNECTED EURORADIO_WHY(1, 4) /* the link was disconnected: DISC, DM or FRMR */
#define EURORADIO_WHY_LINE_ENDED EURORADIO_WHY(1, 5) /* the line ended */
#define EURORADIO_WHY_LINE_FAILED EURORADIO_WHY(1, 6) /* the line failed */
#define EURORADIO_WHY_LINE_STALLED EURORADIO_WHY(1, 7) /* the line stalled: too much waited to be sent */
#define EURORADIO_WHY_DISCONNECT_WITHOUT_DI EURORADIO_WHY(2, 1) /* a DR without the DI of its sender */
#define EURORADIO_WHY_TPDU_REFUSED EURORADIO_WHY(2, 2) /* a TPDU that is faulty or may not come now */
#define EURORADIO_WHY_MESSAGE_TOO_LONG EURORADIO_WHY(2, 3) /* a message above 1,032 octets */
#define EURORADIO_WHY_BLOCK_REFUSED EURORADIO_WHY(2, 4) /* a faulty network block */
#define EURORADIO_WHY_NO_KEY EURORADIO_WHY(3, 1) /* no key of this engine holds at the radio block centre */
#define EURORADIO_WHY_AU2_MAC_WRONG EURORADIO_WHY(3, 2) /* the MAC of AU2 is wrong: the keys of both ends differ */
#define EURORADIO_WHY_AU3_MAC_WRONG EURORADIO_WHY(3, 3) /* the MAC of AU3 is wrong */
#define EURORADIO_WHY_AR_MAC_WRONG EURORADIO_WHY(3, 4) /* the MAC of AR is wrong */
#define EURORADIO_WHY_OTHER_RESPONDER EURORADIO_WHY(3, 5) /* another radio block centre answered than was called */
#define EURORADIO_WHY_OTHER_FEATURE EURORADIO_WHY(3, 6) /* the safety feature is unknown */
#define EURORADIO_WHY_DT_MAC_WRONG EURORADIO_WHY(4, 1) /* the MAC of a DT is wrong */
#define EURORADIO_WHY_WRONG_DIRECTION EURORADIO_WHY(4, 2) /* a SaPDU with the direction flag of its receiver */
#define EURORADIO_WHY_UNEXPECTED EURORADIO_WHY(5, 1) /* a SaPDU that is not expected now */
#define EURORADIO_WHY_MALFORMED EURORADIO_WHY(5, 2) /* octets that are no SaPDU */
#define EURORADIO_WHY_SET_UP_TIME_SPENT EURORADIO_WHY(6, 1) /* the time for the set-up was spent */

/* Why a key file is refused, by its first fault. What a kind doesn't have is 0. */
typedef struct euroradio_key_fault {
    uint32_t kind;  /* EURORADIO_KEY_DOCUMENT to EURORADIO_KEY_TWICE; 0: there is none */
    uint32_t field; /* the field, EURORADIO_KEY_FIELD_VERSION to EURORADIO_KEY_FIELD_TO; 0: the kind has none */
    size_t entry;   /* the entry at fault, counted from 1; 0: the document itself */
    size_t other;   /* the earlier entry with which it has a pair and a moment in common */
} euroradio_key_fault;

#define EURORADIO_KEY_DOCUMENT 1 /* the text is no TOML document */
#define EURORADIO_KEY_VERSION 2  /* the version is neither 1 nor 2 */
#define EURORADIO_KEY_FIELD 3    /* a field of an entry is missing or of another type */
#define EURORADIO_KEY_HEX 4      /* the KMAC of an entry is not 48 hexadecimal digits */
#define EURORADIO_KEY_NUMBER 5   /* a number of an entry is out of its range */
#define EURORADIO_KEY_RANGE 6    /* the first moment of an entry is behind its last one */
#define EURORADIO_KEY_TWICE 7    /* two entries of one pair have a moment in common */

#define EURORADIO_KEY_FIELD_VERSION 1 /* `version`, of the document */
#define EURORADIO_KEY_FIELD_KEY 2     /* `key`, the document's list of entries */
#define EURORADIO_KEY_FIELD_ENGINE 3  /* `engine`, and so on of an entry */
#define EURORADIO_KEY_FIELD_RBC 4
#define EURORADIO_KEY_FIELD_KMAC 5
#define EURORADIO_KEY_FIELD_FROM 6
#define EURORADIO_KEY_FIELD_TO 7

/* The version of the library: see VERSIONS. It is EURORADIO_VERSION where header and library are of one version. */
uint32_t euroradio_version(void);

/* Makes of the 24 octets of a KMAC, as key management hands them over, the three numbers that the calls below take: of
 * each eight octets one number, the first octet the most significant. Octets that are all zero are refused, and nothing
 * is written: memory that nobody filled. Answers OK, KEYS. */
int32_t euroradio_kmac(const uint8_t octets[24], uint64_t key[3]);

/* Judges the text of a key file as euroradio_answer does, and makes no end: where that would answer KEYS, *fault says
 * why. At any other answer *fault is all zero. Answers OK, KEYS, MEMORY. Allocates, and gives all back. */
int32_t euroradio_key_file(const uint8_t *keys, size_t keys_length, euroradio_key_fault *fault);

/* Makes an end that calls: the engine `me` calls the radio block centre `peer`. `kmac` is their KMAC, three DES keys,
 * of each the first octet the most significant; `rb` is a random number of 64 bits, new for each end and not to be
 * guessed. The time for the set-up runs from now on. Nothing is sent until euroradio_start.
 * Answers OK, OPEN, MOMENT, NUMBER, SETTING, MEMORY. Allocates. */
int32_t euroradio_call(euroradio_end *end, const euroradio_settings *settings, uint32_t me, uint32_t peer,
                       const uint64_t kmac[3], uint64_t rb, uint64_t now);

/* Makes an end that answers: the radio block centre `me`. `keys` is the text of a key file of version 1 or 2, of
 * which the end keeps a copy of its own; `ra` is a random number of 64 bits, new for each end and not to be guessed.
 * The time for the set-up runs from now on. Answers OK, OPEN, MOMENT, NUMBER, SETTING, KEYS (euroradio_key_file tells
 * why), MEMORY. Allocates. */
int32_t euroradio_answer(euroradio_end *end, const euroradio_settings *settings, uint32_t me, const uint8_t *keys,
                         size_t keys_length, uint64_t ra, uint64_t now);

/* The same with an array of keys, which is copied. KEYS where one is out of its ranges or two of one pair have a
 * moment in common. Answers OK, OPEN, MOMENT, NUMBER, SETTING, KEYS, MEMORY. Allocates. */
int32_t euroradio_answer_keys(euroradio_end *end, const euroradio_settings *settings, uint32_t me,
                              const euroradio_key *keys, size_t keys_count, uint64_t ra, uint64_t now);

/* Gives an end's memory back. The handle holds none then; one that holds none stays so. It sends nothing: release
 * first, and write what the release sends. The pointer isn't null. */
void euroradio_end_free(euroradio_end *end);

/* The same; where the pointer is null nothing is done. */
static inline void euroradio_free(euroradio_end *end) {
    if (end)
        euroradio_end_free(end);
}

/* An end that calls begins: call it once, before all other events. A second start, and one of an end that answers, are
 * faults; a start that was answered with MOMENT is none. Answers OK, CLOSED, MOMENT, START. */
int32_t euroradio_start(euroradio_end *end, uint64_t now, euroradio_deeds *deeds);

/* Octets come from the line. They are used up to the first that closes a frame, all where none does: do what *deeds
 * says, then call again with the rest, until deeds->used of each call together are all of them. Of a piece that isn't
 * empty at least one octet is used; of an empty one none, and the call is an event all the same. Answers OK, CLOSED,
 * MOMENT. */
int32_t euroradio_octets(euroradio_end *end, uint64_t now, const uint8_t *piece, size_t length, euroradio_deeds *deeds);

/* The user sends a message of 1 to 1,023 octets. Where it is refused the end is as it was; of several reasons the first
 * in this order is told. Answers OK, RELEASED, NOT_CONNECTED, LENGTH, FULL; CLOSED, MOMENT. */
int32_t euroradio_send(euroradio_end *end, uint64_t now, const uint8_t *text, size_t length, euroradio_deeds *deeds);

/* The user takes the oldest message that waits: fetch it by euroradio_taken before the next event. Only what was taken
 * is acknowledged to the peer's transport, so take each message soon: a program that doesn't stops its peer. Also from
 * a released end. Answers OK, NONE; CLOSED, MOMENT. */
int32_t euroradio_take(euroradio_end *end, uint64_t now, euroradio_deeds *deeds);

/* The user releases with this sub-reason (the reason is 0). What deeds->out says is still to be written to the line.
 * Answers OK, CLOSED, MOMENT. */
int32_t euroradio_release(euroradio_end *end, uint64_t now, uint8_t sub, euroradio_deeds *deeds);

/* The moment has come: T1 may expire, then the time for the set-up. Call it at each deadline; more often does no harm.
 * Answers OK, CLOSED, MOMENT. */
int32_t euroradio_tick(euroradio_end *end, uint64_t now, euroradio_deeds *deeds);

/* The line ended (its peer closed it), failed, or takes no more octets: the end is released with 1.5, 1.6 or 1.7.
 * Answers OK, CLOSED. */
int32_t euroradio_ended(euroradio_end *end, euroradio_deeds *deeds);
int32_t euroradio_fault(euroradio_end *end, euroradio_deeds *deeds);
int32_t euroradio_stalled(euroradio_end *end, euroradio_deeds *deeds);

/* Copies octets that the last event sent, those from the index `from` on, as many as fit: how many. All of them go to
 * the line, in order; the next event (not this call, nor those below) takes their place. A send that is refused and a
 * call that answers a fault are no events: behind them the octets of the event before are copied still, and to write
 * them again would be wrong. So pass deeds->out of the call before as the room, or copy only where it isn't 0. No
 * reader of a lock: see THREADS. */
size_t euroradio_out(euroradio_end *end, size_t from, uint8_t *into, size_t room);

/* Copies the message that the last event accepted, as many octets as fit: how many, 0 where it accepted none. It still
 * waits to be taken. No reader of a lock: see THREADS. */
size_t euroradio_accepted(euroradio_end *end, uint8_t *into, size_t room);

/* Copies the message that the last event, a take, took, as many octets as fit: how many, 0 where it took none. No
 * reader of a lock: see THREADS. */
size_t euroradio_taken(euroradio_end *end, uint8_t *into, size_t room);

/* The moment at which a tick is wanted. Where none is, *moment stays as it was. It is told anew after each event. No
 * reader of a lock: see THREADS. Answers OK, NONE; CLOSED. */
int32_t euroradio_deadline(euroradio_end *end, uint64_t *moment);

/* How many accepted messages wait to be taken, at most EURORADIO_WAITING_MOST; 0 where the handle holds no end. No
 * reader of a lock: see THREADS. */
size_t euroradio_waiting(euroradio_end *end);

/* How many messages wait to be sent: the last segment of each wasn't handed down to the link yet, since the peer granted
 * no credit for it or the window is full. At most EURORADIO_UNSENT_MOST; while so many wait, and only then, a send is
 * refused as FULL: a program that asks first can leave its own messages where they are, and those that it relays
 * untaken. It falls as octets come. A message that isn't among them was handed down, and may be lost with the link all
 * the same. At most 16. Behind a release it stays as it is: so many never went. 0 where the handle holds no end. No
 * reader of a lock: see THREADS. Since version 2.1. */
size_t euroradio_unsent(euroradio_end *end);

/* Whether and why the end is released, at any time: at OK deeds->released is 1, deeds->reason, sub and by_peer say
 * why, and all else is zero; at NONE it isn't released. No reader of a lock: see THREADS. Answers OK, NONE; CLOSED. */
int32_t euroradio_released(euroradio_end *end, euroradio_deeds *deeds);

/* Whether the safe connection stands, and with whom, at any time: at OK *peer is the peer's ETCS number; at NONE the
 * connection doesn't stand yet, or the end is released, and *peer stays as it was. No reader of a lock: see THREADS.
 * Answers OK, NONE; CLOSED. */
int32_t euroradio_connected(euroradio_end *end, uint32_t *peer);

/* Copies what a reason and a sub-reason of a release mean, in words of ASCII for people, at most 64 octets, as many
 * as fit: how many. No zero stands behind them; euroradio_reason_text of euroradio_text.h gives the same as a string. */
size_t euroradio_reason(uint8_t reason, uint8_t sub, uint8_t *into, size_t room);

/* The frames that the station ignored so far. No reader of a lock: see THREADS. Answers OK; CLOSED, where *counts is
 * all zero. */
int32_t euroradio_counted(euroradio_end *end, euroradio_counts *counts);

#ifdef __cplusplus
}
#endif
#endif
