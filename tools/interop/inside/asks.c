/* Lets sweep_own.py refuse a command of a program that contains libtpmsim. tpmsim_execute and tpmsim_complete first
   send the device's state and the command to the socket TPMSIM_ASKED. The answer is empty; or another state, which
   the device then gets; or a response, and then the command is not executed. Afterwards they send the response and
   the new state. Without the variable they only execute the command. */
#include <stdint.h>
#include <stdio.h>
#include <stdlib.h>
#include <string.h>
#include <sys/socket.h>
#include <sys/un.h>
#include <unistd.h>

#include "tpmsim.h"

typedef uint8_t executes(tpmsim *, const uint8_t *, size_t, uint8_t, uint32_t, const uint8_t *, uint8_t *,
                         tpmsim_answered *);
executes own_tpmsim_execute, own_tpmsim_complete;

enum { ON = 0, ANOTHER_STATE = 1, RESPONSE = 2, MOST = 65536 };

static int asked = -1;

static void need(int holds, const char *what) {
    if (holds) return;
    perror(what);
    abort();
}

static void put(const void *bytes, size_t size) {
    for (const uint8_t *at = bytes; size > 0;) {
        const ssize_t done = send(asked, at, size, MSG_NOSIGNAL);
        need(done > 0, "send");
        at += done;
        size -= (size_t)done;
    }
}

static void get(void *bytes, size_t size) {
    for (uint8_t *at = bytes; size > 0;) {
        const ssize_t done = recv(asked, at, size, 0);
        need(done > 0, "recv");
        at += done;
        size -= (size_t)done;
    }
}

static void put_sized(const void *bytes, size_t size) {
    const uint32_t sent = (uint32_t)size;
    put(&sent, sizeof sent);
    put(bytes, size);
}

static int is_asked(void) {
    const char *path = getenv("TPMSIM_ASKED");
    struct sockaddr_un place = {.sun_family = AF_UNIX};
    if (!path) return 0;
    if (asked >= 0) return 1;
    need(strlen(path) < sizeof place.sun_path, "the path");
    strcpy(place.sun_path, path);
    asked = socket(AF_UNIX, SOCK_STREAM | SOCK_CLOEXEC, 0);
    need(asked >= 0 && connect(asked, (struct sockaddr *)&place, sizeof place) == 0, "connect");
    return 1;
}

static void put_state(tpmsim *device) {
    static _Thread_local uint8_t text[TPMSIM_STATE_SIZE];
    put_sized(text, tpmsim_snapshot(device, text, sizeof text));
}

static uint8_t asking(executes *execute, uint8_t completes, tpmsim *device, const uint8_t *buffer, size_t size,
                      uint8_t locality, uint32_t elapsed, const uint8_t *random, uint8_t *response,
                      tpmsim_answered *answered) {
    static _Thread_local uint8_t given[MOST];
    uint32_t kind = ON, given_size = 0;
    uint8_t done = TPMSIM_DONE;
    if (!is_asked()) return execute(device, buffer, size, locality, elapsed, random, response, answered);
    put_state(device);
    put_sized(buffer, size);
    put(&locality, 1);
    put(&completes, 1);
    put(&elapsed, sizeof elapsed);
    put(random, 256);
    get(&kind, sizeof kind);
    get(&given_size, sizeof given_size);
    need(given_size <= sizeof given, "the size");
    get(given, given_size);
    if (kind == ANOTHER_STATE) need(tpmsim_restore(device, given, given_size) == TPMSIM_DONE, "the state");
    if (kind == RESPONSE) {
        memcpy(response, given, given_size);
        memset(answered, 0, sizeof *answered);
        answered->size = given_size;
        answered->code = size < 10 ? 0 : (uint32_t)(buffer[6] << 24 | buffer[7] << 16 | buffer[8] << 8 | buffer[9]);
        answered->check = 1; /* any check: the device did not refuse it */
    } else {
        done = execute(device, buffer, size, locality, elapsed, random, response, answered);
    }
    put_sized(response, answered->size);
    put(&answered->check, 1);
    put_state(device);
    return done;
}

uint8_t tpmsim_execute(tpmsim *device, const uint8_t *buffer, size_t size, uint8_t locality, uint32_t elapsed,
                       const uint8_t random[256], uint8_t response[4096], tpmsim_answered *answered) {
    return asking(own_tpmsim_execute, 0, device, buffer, size, locality, elapsed, random, response, answered);
}

uint8_t tpmsim_complete(tpmsim *device, const uint8_t *buffer, size_t size, uint8_t locality, uint32_t elapsed,
                        const uint8_t random[256], uint8_t response[4096], tpmsim_answered *answered) {
    return asking(own_tpmsim_complete, 1, device, buffer, size, locality, elapsed, random, response, answered);
}
