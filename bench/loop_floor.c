// The least that a server over sockets does: it reads what waits at a socket and writes it back. A floor for the readiness loop.
//   loop_floor serve PORT                           echoes at the loopback address until it is told to stop
//   loop_floor call PORT COUNT ATONCE TIMES OCTETS  COUNT connections, so many at once; each sends a piece of so many octets and reads it back, so
//                                                   many times, all that are open in turn, and then closes
#include <arpa/inet.h>
#include <netinet/in.h>
#include <stdio.h>
#include <stdlib.h>
#include <string.h>
#include <sys/epoll.h>
#include <sys/socket.h>
#include <unistd.h>

enum { MOST = 4096, EVENTS = 256 };

static void die(const char *what) {
    perror(what);
    exit(1);
}

static struct sockaddr_in here(const char *port) {
    struct sockaddr_in address;
    memset(&address, 0, sizeof address);
    address.sin_family = AF_INET;
    address.sin_addr.s_addr = htonl(INADDR_LOOPBACK);
    address.sin_port = htons((unsigned short)atoi(port));
    return address;
}

static void watch(int poll, int socket) {
    struct epoll_event event = {.events = EPOLLIN, .data.fd = socket};
    if (epoll_ctl(poll, EPOLL_CTL_ADD, socket, &event) != 0)
        die("epoll_ctl");
}

static void echo(int socket) {
    char octets[MOST];
    ssize_t count = read(socket, octets, sizeof octets);
    if (count <= 0 || write(socket, octets, (size_t)count) != count)
        close(socket);
}

static _Noreturn void serve(const char *port) {
    struct sockaddr_in address = here(port);
    int on = 1, listener = socket(AF_INET, SOCK_STREAM, 0), poll = epoll_create1(0);
    setsockopt(listener, SOL_SOCKET, SO_REUSEADDR, &on, sizeof on);
    if (bind(listener, (struct sockaddr *)&address, sizeof address) != 0 || listen(listener, 1024) != 0)
        die("listen");
    watch(poll, listener);
    puts("listens");
    fflush(stdout);
    for (;;) {
        struct epoll_event events[EVENTS];
        int count = epoll_wait(poll, events, EVENTS, -1);
        for (int k = 0; k < count; k++) {
            if (events[k].data.fd != listener) {
                echo(events[k].data.fd);
                continue;
            }
            int peer = accept(listener, NULL, NULL);
            if (peer >= 0)
                watch(poll, peer);
        }
    }
}

static void send_back(int socket, const char *piece, size_t octets) {
    char back[MOST];
    if (write(socket, piece, octets) != (ssize_t)octets)
        die("write");
    for (size_t got = 0; got < octets;) {
        ssize_t count = read(socket, back, octets - got);
        if (count <= 0)
            die("read");
        got += (size_t)count;
    }
}

static int call(const char *port, size_t count, size_t at_once, size_t times, size_t octets) {
    struct sockaddr_in address = here(port);
    char piece[MOST];
    int *sockets = calloc(at_once, sizeof *sockets);
    if (sockets == NULL || octets > sizeof piece)
        return 2;
    memset(piece, 0x55, sizeof piece);
    for (size_t done = 0; done < count; done += at_once) {
        for (size_t k = 0; k < at_once; k++) {
            sockets[k] = socket(AF_INET, SOCK_STREAM, 0);
            if (connect(sockets[k], (struct sockaddr *)&address, sizeof address) != 0)
                die("connect");
        }
        for (size_t n = 0; n < times; n++)
            for (size_t k = 0; k < at_once; k++)
                send_back(sockets[k], piece, octets);
        for (size_t k = 0; k < at_once; k++)
            close(sockets[k]);
    }
    free(sockets);
    return 0;
}

int main(int words, char **word) {
    if (words == 3 && strcmp(word[1], "serve") == 0)
        serve(word[2]);
    if (words == 7 && strcmp(word[1], "call") == 0)
        return call(word[2], strtoul(word[3], NULL, 10), strtoul(word[4], NULL, 10), strtoul(word[5], NULL, 10), strtoul(word[6], NULL, 10));
    fprintf(stderr, "usage: loop_floor serve PORT | loop_floor call PORT COUNT ATONCE TIMES OCTETS\n");
    return 2;
}
