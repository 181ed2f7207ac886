/* tpmsim-simulator: serves devices with the protocol of Microsoft's simulator. */
#define _GNU_SOURCE
#include "board.h"
#include "listeners.h"
#include "options.h"
#include "server.h"
#include <stdio.h>

enum { GOOD = 0, WRONG_WORDS = 2, FAULT = 3 };

static bool open_devices(struct board *boards, const struct options *options,
                         struct reason *reason) {
    for (unsigned i = 0; i < options->devices; i++) {
        boards[i].device = device_open(options, i, reason);
        if (!boards[i].device) return false;
    }
    return true;
}

/* Closes all devices. If a device cannot be saved that has not failed before, returns false, and
 * sets `reason` to the reason for the first such device. */
static bool close_devices(struct board *boards, unsigned count, struct reason *reason) {
    bool is_done = true;
    struct reason one;
    for (unsigned i = 0; i < count; i++) {
        bool is_closed = device_close(boards[i].device, &one) || boards[i].has_failed;
        boards[i].device = NULL;
        if (is_done && !is_closed) *reason = one;
        is_done = is_done && is_closed;
    }
    return is_done;
}

static bool any_has_failed(const struct board *boards, unsigned count) {
    for (unsigned i = 0; i < count; i++)
        if (boards[i].has_failed) return true;
    return false;
}

/* Reports why the simulator ends, and returns its status. */
static int fault(const struct reason *reason) {
    fprintf(stderr, "tpmsim-simulator: %s\n", reason->text);
    return FAULT;
}

/* Serves clients until the simulator ends. Then closes the devices, and finally closes all
 * connections. */
static bool serve(struct board *boards, const struct options *options,
                  const struct listeners *listeners, struct reason *reason) {
    struct server *server = server_of(listeners, boards, reason);
    struct reason other;
    bool is_done = server && listeners_tell(listeners, reason) && server_run(server, reason);
    is_done = close_devices(boards, options->devices, is_done ? reason : &other) && is_done;
    server_end(server);
    return is_done;
}

/* Returns the simulator's status. */
static int run(const struct options *options) {
    static struct listeners listeners;
    static struct board boards[MOST_DEVICES];
    struct reason reason;
    bool is_done = open_devices(boards, options, &reason) &&
                   listeners_open(&listeners, options, &reason) && server_take_signals(&reason) &&
                   serve(boards, options, &listeners, &reason);
    int status = any_has_failed(boards, options->devices) ? FAULT : GOOD;
    if (!is_done) status = fault(&reason);
    struct reason unused;
    close_devices(boards, options->devices, &unused);
    listeners_close(&listeners);
    return status;
}

int main(int count, char **words) {
    static struct options options;
    enum options_read read = options_read(&options, count, words);
    if (read != OPTIONS_GOOD) return read == OPTIONS_SHOWN ? GOOD : WRONG_WORDS;
    return run(&options);
}
