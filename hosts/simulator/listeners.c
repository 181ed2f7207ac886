#define _GNU_SOURCE
#include "listeners.h"
#include <arpa/inet.h>
#include <errno.h>
#include <stdio.h>
#include <string.h>
#include <sys/socket.h>
#include <unistd.h>

/* The maximum number of clients that wait to be accepted, and the maximum number of
 * attempts to find two free ports. */
enum { MOST_WAITING = 100, TRIES = 100 };

union address {
    struct sockaddr any;
    struct sockaddr_in four;
    struct sockaddr_in6 six;
};

static socklen_t address_of(const char *text, uint16_t port, union address *address) {
    memset(address, 0, sizeof *address);
    if (inet_pton(AF_INET, text, &address->four.sin_addr) == 1) {
        address->four.sin_family = AF_INET;
        address->four.sin_port = htons(port);
        return sizeof address->four;
    }
    inet_pton(AF_INET6, text, &address->six.sin6_addr);
    address->six.sin6_family = AF_INET6;
    address->six.sin6_port = htons(port);
    return sizeof address->six;
}

/* Both kinds of addresses have the port at the same offset. */
static uint16_t port_of(const union address *address) {
    return ntohs(address->any.sa_family == AF_INET ? address->four.sin_port : address->six.sin6_port);
}

/* Returns a listening socket, and sets `port` to its port. On failure, returns -1 and
 * sets errno. */
static int listen_at(const char *text, uint16_t *port) {
    union address address;
    socklen_t size = address_of(text, *port, &address);
    int on = 1;
    int made = socket(address.any.sa_family, SOCK_STREAM | SOCK_CLOEXEC | SOCK_NONBLOCK, 0);
    if (made < 0) return -1;
    setsockopt(made, SOL_SOCKET, SO_REUSEADDR, &on, sizeof on);
    if (bind(made, &address.any, size) == 0 && listen(made, MOST_WAITING) == 0 &&
        getsockname(made, &address.any, &size) == 0) {
        *port = port_of(&address);
        return made;
    }
    int error = errno;
    close(made);
    errno = error;
    return -1;
}

/* Opens two sockets with consecutive ports. On failure, returns false and sets errno. */
static bool listen_at_two(const char *text, uint16_t port, int sockets[2]) {
    uint16_t first = port;
    sockets[0] = listen_at(text, &first);
    if (sockets[0] < 0) return false;
    uint16_t second = (uint16_t)(first + 1);
    sockets[1] = first == UINT16_MAX ? -1 : listen_at(text, &second);
    if (sockets[1] >= 0) return true;
    int error = errno;
    close(sockets[0]);
    errno = error;
    return false;
}

/* Like listen_at_two, but if the port is 0, opens two consecutive free ports. */
static bool open_pair(const char *text, uint16_t port, int sockets[2]) {
    int tries = port == 0 ? TRIES : 1;
    for (int i = 0; i < tries; i++)
        if (listen_at_two(text, port, sockets)) return true;
    return false;
}

bool listeners_open(struct listeners *listeners, const struct options *options,
                    struct reason *reason) {
    for (size_t i = 0; i < 2 * options->devices; i += 2) {
        uint16_t port = options->port == 0 ? 0 : (uint16_t)(options->port + i);
        if (!open_pair(options->address, port, listeners->sockets + i)) {
            char said[64];
            snprintf(said, sizeof said, "is not listened at, port %u or the next", port);
            return refuse(reason, options->address, NULL, said, errno);
        }
        listeners->count = i + 2;
    }
    return true;
}

static bool tell_one(int listener) {
    union address address;
    socklen_t size = sizeof address;
    char text[INET6_ADDRSTRLEN];
    if (getsockname(listener, &address.any, &size) != 0) return false;
    const void *number = address.any.sa_family == AF_INET ? (const void *)&address.four.sin_addr
                                                          : (const void *)&address.six.sin6_addr;
    return inet_ntop(address.any.sa_family, number, text, sizeof text) &&
           printf("%s %u\n", text, port_of(&address)) > 0;
}

bool listeners_tell(const struct listeners *listeners, struct reason *reason) {
    bool is_told = true;
    for (size_t i = 0; i < listeners->count; i += 2)
        is_told = is_told && tell_one(listeners->sockets[i]);
    return (is_told && fflush(stdout) == 0) ||
           refuse(reason, "standard output", NULL, "cannot be written", errno);
}

void listeners_close(struct listeners *listeners) {
    for (size_t i = 0; i < listeners->count; i++) close(listeners->sockets[i]);
    listeners->count = 0;
}
