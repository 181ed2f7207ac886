/* A device that is kept in a folder, based on the library libtpmsim.
 *
 * FOLDER/journal contains the device's state at the start of the journal, followed by a record of
 * each command since then: the command, the random bytes that it drew, its time and its locality.
 * Opening the device executes these commands again. A command's record is in the file before its
 * response is released. Therefore no answered command is lost, even if a process is killed at any
 * moment. FOLDER/lock is locked while a command is executed. Several processes may use the device
 * at once: each of them executes the commands that the others have added before it executes its
 * own. The library's keeper decides which task comes next, and keeping.c performs it.
 *
 * A call that fails returns false or NULL, and sets `reason` to a sentence that names the path.
 * Only one call at a time may use a `struct kept`. There are no global variables, and no call ends
 * the process. */
#ifndef KEPT_H
#define KEPT_H
#include "reason.h"
#include "tpmsim.h"
#include <stdbool.h>
#include <stddef.h>
#include <stdint.h>

/* The caller's options. If all are zero, a new device is made in memory, with the system's random
 * bytes. */
struct kept_options {
    /* The folder. If it is NULL, the device is in memory, and is lost at kept_close. */
    const char *folder;
    /* The file with the image of a new device. If it is NULL, a new device is manufactured. */
    const char *image;
    /* For reproducible runs: 1 to 256 bytes, repeated to 256, which each command gets as its
     * random bytes. If the size is 0, the system's random bytes are used. */
    const uint8_t *random;
    size_t random_size;
    /* A value of tpmsim_force, which determines when the journal is synced to the disk. This
     * matters if the host's power may fail. */
    uint8_t force;
    /* The number of past journals to keep in the folder, 0 to PAST_MOST of past.h. */
    unsigned keep;
    /* Whether `keep` is a default. Then a file system without hard links keeps none. */
    bool keeps_by_default;
    /* Whether the completing layer is on. */
    bool completes;
    /* If true, a folder without a device is a fault. Otherwise a new device is made there. */
    bool is_there;
    /* If true, a damaged journal is cut off at its first damage. Otherwise it is refused. */
    bool cuts;
    /* If true, a journal of another version, whose commands this library answers otherwise, is
     * replaced with its head, and all its commands are dropped. Otherwise it is refused. */
    bool takes_head;
    /* Called with a sentence when something was cut from a journal; may be NULL. */
    void (*tell)(const char *sentence);
};

struct kept;

/* Opens a device. On failure, returns NULL and sets `reason`. */
struct kept *kept_open(const struct kept_options *options, struct reason *reason);

/* Like tpmsim_execute, executes a command and writes its response. If this fails, there is no
 * response, and the next call executes the commands in the journal again. */
/*@ requires \valid_read(buffer + (0 .. size - 1)) && \valid(response + (0 .. 4095));
  @ requires \valid(answered) && \valid(reason);
  @ assigns device_state, response[0 .. 4095], *answered, *reason;
  @ ensures \result ==> 10 <= answered->size <= 4096;
  @*/
bool kept_execute(struct kept *kept, const uint8_t *buffer, size_t size, uint8_t locality,
                  uint8_t response[4096], tpmsim_answered *answered, struct reason *reason);

/* Power-cycles the device, for every process that uses it. */
bool kept_power(struct kept *kept, struct reason *reason);

/* Writes the state text of the device, and the text's size. */
bool kept_snapshot(struct kept *kept, uint8_t text[TPMSIM_STATE_SIZE], size_t *size,
                   struct reason *reason);

/* Replaces the device with the one in a state text, for every process that uses it. If the bytes
 * are not a state text, the device is unchanged. */
bool kept_restore(struct kept *kept, const uint8_t *text, size_t size, struct reason *reason);

/* Turns the completing layer on or off for the commands of this process. */
void kept_complete(struct kept *kept, bool completes);

/* Returns a sentence that describes what the last call cut from the journal; empty if it cut
 * nothing. */
const char *kept_notice(const struct kept *kept);

/* Closes the device, which may be NULL. */
void kept_close(struct kept *kept);

#endif
