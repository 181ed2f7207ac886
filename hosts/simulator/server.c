#define _GNU_SOURCE
#include "server.h"
#include "client.h"
#include <errno.h>
#include <signal.h>
#include <stdio.h>
#include <stdlib.h>
#include <sys/epoll.h>
#include <sys/resource.h>
#include <sys/socket.h>
#include <unistd.h>

/* The number of descriptors reserved for the devices; the time for which no client is accepted
   after the system refused one; and the maximum number of sockets that are served in one turn. */
enum { FILES_LEFT = 8, MILLISECONDS_TO_NEXT_TRY = 1000, MOST_IN_A_TURN = 64 };

/* The source of an event: either a listener, which has a number, or a client. */
struct source {
    struct client *client;
    /* The client's device. */
    struct board *board;
    size_t number;
    /* The events on the client's socket for which the server waits. */
    uint32_t events;
    /* The next client, and the pointer to this one. */
    struct source *next, **place;
};

struct server {
    const struct listeners *listeners;
    struct board *boards;
    int epoll;
    struct source of_listeners[MOST_LISTENERS];
    /* The list of the sources that are clients. */
    struct source *of_clients;
    /* Whether the server temporarily accepts no clients. */
    bool is_full;
};

static volatile sig_atomic_t is_over;
static sigset_t signals_before;

static void end_by_signal(int number) {
    (void)number;
    is_over = 1;
}

bool server_take_signals(struct reason *reason) {
    struct sigaction action = {.sa_handler = end_by_signal};
    sigset_t taken;
    sigemptyset(&taken);
    sigaddset(&taken, SIGTERM);
    sigaddset(&taken, SIGINT);
    return (sigprocmask(SIG_BLOCK, &taken, &signals_before) == 0 &&
            sigaction(SIGTERM, &action, NULL) == 0 && sigaction(SIGINT, &action, NULL) == 0) ||
           refuse(reason, "the simulator", NULL, "cannot take signals", errno);
}

static bool watch(const struct server *server, int how, int socket, uint32_t events,
                  struct source *source) {
    struct epoll_event event = {.events = events, .data.ptr = source};
    return epoll_ctl(server->epoll, how, socket, &event) == 0;
}

/* ---- clients that come and go */

/* Returns whether too few descriptors are left. The number of a new socket shows this, because it
 * is the lowest free number. */
static bool is_one_too_many(int socket) {
    struct rlimit most;
    return getrlimit(RLIMIT_NOFILE, &most) == 0 && most.rlim_cur != RLIM_INFINITY &&
           (rlim_t)socket + FILES_LEFT >= most.rlim_cur;
}

/* Makes a client for a socket, and waits for its input. */
static bool add_client(struct server *server, int socket, size_t listener) {
    struct source *source = calloc(1, sizeof *source);
    if (!source) return false;
    source->board = &server->boards[listener / 2];
    source->events = EPOLLIN;
    if (watch(server, EPOLL_CTL_ADD, socket, EPOLLIN, source))
        source->client = client_of(socket, source->board, listener % 2 == 1);
    if (!source->client) {
        free(source);
        return false;
    }
    source->place = &server->of_clients;
    source->next = server->of_clients;
    if (source->next) source->next->place = &source->next;
    server->of_clients = source;
    return true;
}

/* Removes a client from the list. */
static void remove_client(struct source *source) {
    *source->place = source->next;
    if (source->next) source->next->place = source->place;
    client_end(source->client);
    free(source);
}

/* Changes the events for which the server waits to those that the client needs next. */
static bool wait_for(const struct server *server, struct source *source) {
    uint32_t events = client_writes(source->client) ? EPOLLOUT : EPOLLIN;
    if (events == source->events) return true;
    source->events = events;
    return watch(server, EPOLL_CTL_MOD, client_socket(source->client), events, source);
}

/* ---- devices that fail */

static size_t count_of_boards(const struct server *server) { return server->listeners->count / 2; }

/* Reports why a device has failed. With several devices, the line also has the device's number. */
static void fail_board(const struct server *server, struct board *board, const struct reason *reason) {
    board->has_failed = true;
    if (count_of_boards(server) == 1)
        fprintf(stderr, "tpmsim-simulator: %s\n", reason->text);
    else
        fprintf(stderr, "tpmsim-simulator: device %zu is no longer served: %s\n",
                (size_t)(board - server->boards), reason->text);
}

/* Closes the connections of all clients whose device has failed. */
static void remove_clients_of_failed(struct server *server) {
    for (struct source *source = server->of_clients, *next; source; source = next) {
        next = source->next;
        if (source->board->has_failed) remove_client(source);
    }
}

/* Whether at least one device has not failed. */
static bool any_serves(const struct server *server) {
    for (size_t i = 0; i < count_of_boards(server); i++)
        if (!server->boards[i].has_failed) return true;
    return false;
}

/* Serves a client. If it stops the simulator, it is not removed before the simulator ends. If its
 * device fails, it is removed at the end of the turn, with the device's other clients. */
static enum outcome serve_client(struct server *server, struct source *source) {
    struct reason reason;
    if (source->board->has_failed) return GOES_ON;
    enum outcome outcome = client_go_on(source->client, &reason);
    if (outcome == FAILS) {
        fail_board(server, source->board, &reason);
        return GOES_ON;
    }
    if (outcome == GOES_ON && !wait_for(server, source)) outcome = ENDS;
    if (outcome == ENDS) remove_client(source);
    return outcome;
}

/* ---- listeners */

/* Returns whether an error of `accept` concerns only one client, so that others can connect. */
static bool is_of_client(int error) {
    return error == EINTR || error == ECONNABORTED || error == EAGAIN || error == EWOULDBLOCK;
}

/* Accepts a client. If its device has failed, or there is no room for it, closes its connection. */
static void accept_client(struct server *server, size_t listener) {
    int socket =
        accept4(server->listeners->sockets[listener], NULL, NULL, SOCK_NONBLOCK | SOCK_CLOEXEC);
    if (socket >= 0) {
        if (server->boards[listener / 2].has_failed || is_one_too_many(socket) ||
            !add_client(server, socket, listener))
            close(socket);
    } else if (!is_of_client(errno)) {
        server->is_full = true;
    }
}

/* Starts or stops waiting for clients at all ports. */
static bool wait_for_clients(struct server *server, int how, uint32_t events) {
    for (size_t i = 0; i < server->listeners->count; i++) {
        server->of_listeners[i] = (struct source){.number = i};
        if (!watch(server, how, server->listeners->sockets[i], events, &server->of_listeners[i]))
            return false;
    }
    return true;
}

/* ---- turns */

static enum outcome serve_source(struct server *server, struct source *source) {
    if (source->client) return serve_client(server, source);
    accept_client(server, source->number);
    return GOES_ON;
}

static enum outcome fail(const char *said, struct reason *reason) {
    refuse(reason, "the simulator", NULL, said, errno);
    return FAILS;
}

/* Performs one turn: waits, and serves the sockets that are ready. */
static enum outcome turn(struct server *server, struct reason *reason) {
    struct epoll_event events[MOST_IN_A_TURN];
    bool was_full = server->is_full;
    if (was_full && !wait_for_clients(server, EPOLL_CTL_MOD, 0)) return fail("cannot pause", reason);
    int found = epoll_pwait(server->epoll, events, MOST_IN_A_TURN,
                            was_full ? MILLISECONDS_TO_NEXT_TRY : -1, &signals_before);
    if (found < 0 && errno != EINTR) return fail("cannot wait for clients", reason);
    enum outcome outcome = GOES_ON;
    for (int i = 0; i < found && outcome < STOPS; i++)
        outcome = serve_source(server, events[i].data.ptr);
    remove_clients_of_failed(server);
    if (was_full) {
        server->is_full = false;
        if (!wait_for_clients(server, EPOLL_CTL_MOD, EPOLLIN)) return fail("cannot go on", reason);
    }
    return outcome;
}

struct server *server_of(const struct listeners *listeners, struct board *boards,
                         struct reason *reason) {
    struct server *server = calloc(1, sizeof *server);
    if (server) {
        server->listeners = listeners;
        server->boards = boards;
        server->epoll = epoll_create1(EPOLL_CLOEXEC);
        if (server->epoll >= 0 && wait_for_clients(server, EPOLL_CTL_ADD, EPOLLIN)) return server;
    }
    refuse(reason, "the simulator", NULL, "cannot wait for clients", errno);
    server_end(server);
    return NULL;
}

bool server_run(struct server *server, struct reason *reason) {
    enum outcome outcome = GOES_ON;
    while (!is_over && outcome < STOPS && any_serves(server)) outcome = turn(server, reason);
    return outcome != FAILS;
}

void server_end(struct server *server) {
    if (!server) return;
    while (server->of_clients) remove_client(server->of_clients);
    if (server->epoll >= 0) close(server->epoll);
    free(server);
}
