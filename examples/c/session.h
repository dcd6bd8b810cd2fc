/*
 * session.h - one end over one TCP connection, for POSIX systems: what train.c and centre.c share. It waits until
 * octets come, the socket takes octets or the end's deadline is up, gives the end its events, writes what the end
 * sends, and prints a recording of all of it. One struct is one connection, whose number in the recording is 1.
 */
#ifndef SESSION_H
#define SESSION_H

#include "euroradio.h"

/* Octets that may wait for the socket: all that one event sends, and as much again as a peer leaves unread for a
 * while. */
#define SESSION_ROOM (2 * EURORADIO_OUT_MOST)

struct session {
    euroradio_end end; /* made by the program */
    int socket;        /* connected */
    uint64_t now;      /* the moment of the event that is being given */
    size_t from;       /* octets that wait for the socket: those of `waiting` from here .. */
    size_t to;         /* .. to here */
    uint8_t waiting[SESSION_ROOM];
};

/* What the program does behind each event: it reads the deeds and may call session_send, session_take and
 * session_release. */
typedef void session_user(struct session *session, const euroradio_deeds *deeds);

/* A connected socket: to this address and port, or of the first peer that connects there. -1 where there is none. */
int session_dial(const char *address, const char *port);
int session_take_one(const char *address, const char *port);

/* The moment, of a clock that isn't set back. */
uint64_t session_now(void);

/* Fills `number` with 64 bits of the system's random source: 0, or -1 where it has none. */
int session_random(uint64_t *number);

/* An event's deeds: recorded, and its octets queued for the socket. For the start of an end that calls. */
void session_did(struct session *session, const euroradio_deeds *deeds);

/* The user's events. session_take copies the message: its octets, or 0 where none waits. */
void session_send(struct session *session, const uint8_t *text, size_t length);
size_t session_take(struct session *session, uint8_t text[EURORADIO_MESSAGE_MOST]);
void session_release(struct session *session, uint8_t sub);

/* Runs until the end is released and all that it sent was written, or can't be. */
void session_run(struct session *session, session_user *user);

#endif
