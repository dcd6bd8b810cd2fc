/* session.c - see session.h. */
#define _POSIX_C_SOURCE 200809L

#include "session.h"

#include "recording.h"

#include <errno.h>
#include <fcntl.h>
#include <netdb.h>
#include <netinet/in.h>
#include <netinet/tcp.h>
#include <poll.h>
#include <string.h>
#include <sys/socket.h>
#include <time.h>
#include <unistd.h>

#define CONN 1

/* ---- the outside: sockets, clock, random numbers */

static int ready(int socket) {
    int one = 1;
    int flags = fcntl(socket, F_GETFL);
    (void)setsockopt(socket, IPPROTO_TCP, TCP_NODELAY, &one, sizeof one);
    if (flags < 0 || fcntl(socket, F_SETFL, flags | O_NONBLOCK) < 0) {
        (void)close(socket);
        return -1;
    }
    return socket;
}

static struct addrinfo *found(const char *address, const char *port) {
    struct addrinfo hints;
    struct addrinfo *list;
    memset(&hints, 0, sizeof hints);
    hints.ai_socktype = SOCK_STREAM;
    return getaddrinfo(address, port, &hints, &list) == 0 ? list : NULL;
}

int session_dial(const char *address, const char *port) {
    struct addrinfo *list = found(address, port);
    int dialled;
    if (list == NULL)
        return -1;
    dialled = socket(list->ai_family, list->ai_socktype, list->ai_protocol);
    if (dialled >= 0 && connect(dialled, list->ai_addr, list->ai_addrlen) < 0) {
        (void)close(dialled);
        dialled = -1;
    }
    freeaddrinfo(list);
    return dialled < 0 ? -1 : ready(dialled);
}

int session_take_one(const char *address, const char *port) {
    struct addrinfo *list = found(address, port);
    int listener;
    int taken = -1;
    int one = 1;
    if (list == NULL)
        return -1;
    listener = socket(list->ai_family, list->ai_socktype, list->ai_protocol);
    if (listener >= 0) {
        (void)setsockopt(listener, SOL_SOCKET, SO_REUSEADDR, &one, sizeof one);
        if (bind(listener, list->ai_addr, list->ai_addrlen) == 0 && listen(listener, 1) == 0)
            taken = accept(listener, NULL, NULL);
        (void)close(listener);
    }
    freeaddrinfo(list);
    return taken < 0 ? -1 : ready(taken);
}

uint64_t session_now(void) {
    struct timespec now;
    (void)clock_gettime(CLOCK_MONOTONIC, &now);
    return (uint64_t)now.tv_sec * 1000 + (uint64_t)now.tv_nsec / 1000000;
}

int session_random(uint64_t *number) {
    int source = open("/dev/urandom", O_RDONLY);
    ssize_t count;
    if (source < 0)
        return -1;
    count = read(source, number, sizeof *number);
    (void)close(source);
    return count == (ssize_t)sizeof *number ? 0 : -1;
}

/* ---- the end's events */

/* The octets that the last event sent wait for the socket. Where there is no room for them, the line has stalled. */
static void queue(struct session *session, const euroradio_deeds *deeds) {
    if (session->from > 0) {
        memmove(session->waiting, session->waiting + session->from, session->to - session->from);
        session->to -= session->from;
        session->from = 0;
    }
    if (deeds->out > SESSION_ROOM - session->to) {
        euroradio_deeds stalled;
        (void)euroradio_stalled(&session->end, &stalled);
        recording_event(session->now, CONN, "stalled");
        recording_deeds(CONN, &session->end, &stalled);
        return;
    }
    session->to += euroradio_out(&session->end, 0, session->waiting + session->to, deeds->out);
}

void session_did(struct session *session, const euroradio_deeds *deeds) {
    recording_deeds(CONN, &session->end, deeds);
    queue(session, deeds);
}

void session_send(struct session *session, const uint8_t *text, size_t length) {
    euroradio_deeds deeds;
    int32_t status = euroradio_send(&session->end, session->now, text, length, &deeds);
    recording_octets(session->now, CONN, "send", text, length);
    recording_sent(CONN, &session->end, status, length, &deeds);
    queue(session, &deeds);
}

size_t session_take(struct session *session, uint8_t text[EURORADIO_MESSAGE_MOST]) {
    euroradio_deeds deeds;
    int32_t status = euroradio_take(&session->end, session->now, &deeds);
    size_t length = euroradio_taken(&session->end, text, EURORADIO_MESSAGE_MOST);
    recording_event(session->now, CONN, "take");
    recording_taken(CONN, &session->end, status, &deeds);
    queue(session, &deeds);
    return length;
}

void session_release(struct session *session, uint8_t sub) {
    euroradio_deeds deeds;
    (void)euroradio_release(&session->end, session->now, sub, &deeds);
    recording_event(session->now, CONN, "release %u", (unsigned)sub);
    session_did(session, &deeds);
}

/* An event that the user hears of. */
static void heard(struct session *session, session_user *user, const euroradio_deeds *deeds) {
    session_did(session, deeds);
    user(session, deeds);
}

/* Octets came: each call uses those up to the first that closes a frame, so it is called until all are used. */
static void came(struct session *session, session_user *user, const uint8_t *octets, size_t length) {
    size_t used = 0;
    while (used < length) {
        euroradio_deeds deeds;
        (void)euroradio_octets(&session->end, session->now, octets + used, length - used, &deeds);
        recording_octets(session->now, CONN, "octets", octets + used, deeds.used);
        used += deeds.used;
        heard(session, user, &deeds);
    }
}

static void broke(struct session *session, session_user *user, int has_ended) {
    euroradio_deeds deeds;
    if (has_ended)
        (void)euroradio_ended(&session->end, &deeds);
    else
        (void)euroradio_fault(&session->end, &deeds);
    recording_event(session->now, CONN, has_ended ? "ended" : "fault");
    heard(session, user, &deeds);
}

/* ---- the loop */

static int is_released(struct session *session) {
    euroradio_deeds why;
    return euroradio_released(&session->end, &why) == EURORADIO_OK;
}

static int has_failed(ssize_t count) {
    return count < 0 && errno != EAGAIN && errno != EWOULDBLOCK && errno != EINTR;
}

static void tick(struct session *session, session_user *user) {
    uint64_t deadline;
    euroradio_deeds deeds;
    if (euroradio_deadline(&session->end, &deadline) != EURORADIO_OK || deadline > session->now)
        return;
    (void)euroradio_tick(&session->end, session->now, &deeds);
    recording_event(session->now, CONN, "tick");
    heard(session, user, &deeds);
}

/* Milliseconds until the deadline, for poll: -1 where there is none. */
static int patience(struct session *session) {
    uint64_t deadline;
    if (euroradio_deadline(&session->end, &deadline) != EURORADIO_OK)
        return -1;
    return deadline <= session->now ? 0 : (int)(deadline - session->now);
}

/* Writes what waits: whether the socket is still good. */
static int flush(struct session *session, session_user *user) {
    ssize_t count;
    if (session->from == session->to)
        return 1;
    count = send(session->socket, session->waiting + session->from, session->to - session->from, MSG_NOSIGNAL);
    if (has_failed(count)) {
        session->from = session->to;
        if (!is_released(session))
            broke(session, user, 0);
        return 0;
    }
    if (count > 0)
        session->from += (size_t)count;
    return 1;
}

static void receive(struct session *session, session_user *user) {
    uint8_t octets[4096];
    ssize_t count = recv(session->socket, octets, sizeof octets, 0);
    if (count > 0)
        came(session, user, octets, (size_t)count);
    else if (count == 0 || has_failed(count))
        broke(session, user, count == 0);
}

void session_run(struct session *session, session_user *user) {
    for (;;) {
        struct pollfd wanted;
        session->now = session_now();
        tick(session, user);
        if (!flush(session, user) || (is_released(session) && session->from == session->to))
            return;
        wanted.fd = session->socket;
        wanted.events = (short)((is_released(session) ? 0 : POLLIN) | (session->from < session->to ? POLLOUT : 0));
        wanted.revents = 0;
        if (poll(&wanted, 1, patience(session)) < 0 && errno != EINTR)
            return;
        session->now = session_now();
        if (wanted.revents & (POLLIN | POLLHUP | POLLERR)) {
            if (is_released(session))
                return; /* nobody reads what still waits */
            receive(session, user);
        }
    }
}
