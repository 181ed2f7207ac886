/* The ports at which clients connect: two for each device. */
#ifndef LISTENERS_H
#define LISTENERS_H
#include "options.h"
#include "reason.h"
#include <netinet/in.h>

enum { MOST_LISTENERS = 2 * MOST_DEVICES };

struct listeners {
    /* Two open sockets for each device, one for commands and one for the platform. */
    int sockets[MOST_LISTENERS];
    size_t count;
};

/* Listens on all ports. On failure, returns false and sets `reason`. */
bool listeners_open(struct listeners *listeners, const struct options *options,
                    struct reason *reason);

/* Writes each device's address and command port to standard output, one line per device. On
   failure, returns false and sets the reason. */
bool listeners_tell(const struct listeners *listeners, struct reason *reason);

void listeners_close(struct listeners *listeners);

#endif
