/* The options on the simulator's command line. */
#ifndef OPTIONS_H
#define OPTIONS_H
#include "kept.h"
#include <stdbool.h>
#include <stddef.h>
#include <stdint.h>

enum { SEED_BYTES = 256, MOST_DEVICES = 1000 };

struct options {
    /* The port for the first device's commands. If it is 0, each device gets two free ports. */
    uint16_t port;
    /* A numeric address. */
    const char *address;
    unsigned devices;
    /* The folder in which the device is kept. If it is NULL, the device is in memory. */
    const char *folder;
    /* The file to which the image of a device in memory is saved, or NULL. */
    const char *image;
    /* The folder for the journals of a device in memory, one for each power-on, or NULL. */
    const char *record;
    /* The seed for all random bytes, for reproducible runs. If it is empty, the system's random
     * bytes are used. */
    uint8_t seed[SEED_BYTES];
    size_t seed_size;
    /* A value of tpmsim_force. */
    uint8_t force;
    unsigned keep;
    /* Whether the completing layer is on. */
    bool completes;
    /* Whether no time passes between commands. */
    bool is_timeless;
};

enum options_read { OPTIONS_GOOD, OPTIONS_SHOWN, OPTIONS_WRONG };

/* Reads the command line. Returns OPTIONS_SHOWN if help or the version was requested and has been
   printed. Returns OPTIONS_WRONG if the command line is invalid, after printing a message to
   standard error. */
enum options_read options_read(struct options *options, int count, char **words);

#endif
