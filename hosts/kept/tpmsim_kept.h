/* libtpmsim-kept: a TPM 2.0 that is kept in a folder, which several processes may use at once.

   The record of each command is in the folder's journal before the command's response is returned.
   Therefore no answered command is lost, even if a process is killed at any moment.
   docs/SERVE.md describes what may be lost if the host crashes.

   tpmsim_kept_device kept = {0};
   tpmsim_kept_options options = {.folder = "state", .force = TPMSIM_FORCE_POWER};
   char reason[TPMSIM_KEPT_REASON_SIZE];
   uint8_t response[4096];
   tpmsim_answered answered;

   if (tpmsim_kept_open(&kept, &options, reason) != TPMSIM_DONE)
   return 1;
   tpmsim_kept_execute(&kept, startup, sizeof startup, 0, 0, response, &answered, reason);
   tpmsim_kept_close(&kept);

   A call returns TPMSIM_DONE, or another number after writing a sentence to `reason`. The sentence
   ends with a 0, names the path, and includes the system's error if there is one. A call that
   failed returned no response. The next call starts from the journal, which may contain the command
   of the failed call.

   The caller must meet these conditions, which nothing checks:

   - A handle is initialized with zeros and is not copied, and its last call is tpmsim_kept_close.
   Only one call at a time uses it. A forked child may use its parent's handle.
   - No pointer is NULL unless stated otherwise, and no buffers overlap.
   - At least 128 KB of stack are free at each call. No call is made from a signal handler, nor in a
   forked child of a process with threads.

   No call ends the process, keeps a pointer that it was passed, or leaves a signal blocked. */
#ifndef TPMSIM_KEPT_H
#define TPMSIM_KEPT_H

#include "tpmsim.h"

#ifdef __cplusplus
extern "C" {
#endif

/* A handle. Its member is private to the library, and is NULL if the handle has no device. */
typedef struct tpmsim_kept_device {
    void *private_;
} tpmsim_kept_device;

/* The size of a buffer for a reason, which is large enough for every sentence. */
enum { TPMSIM_KEPT_REASON_SIZE = 4608 };

/* The result of a call if a file, the clock or random bytes are not available. All other results
   are values of tpmsim_told, which concern the journal, the image or the state text. */
enum { TPMSIM_KEPT_FAILED = 32 };

/* The options of tpmsim_kept_open. */
typedef struct tpmsim_kept_options {
    /* The folder. */
    const char *folder;
    /* The file with the image of a new device. If it is NULL, a new device is manufactured. */
    const char *image;
    /* For reproducible runs: bytes, repeated to 256, which each command gets as its random bytes.
       If it is NULL and the size is 0, the system's random bytes are used. */
    const uint8_t *random;
    /* 0 to 256. */
    uint32_t random_size;
    /* The number of past journals to keep in the folder, 0 to 99: journal.1, the newest, to
       journal.99. */
    uint32_t keep;
    /* A value of tpmsim_force, which determines when the journal is synced to the disk. */
    uint8_t force;
    /* If not 0, a folder without a device is a fault. Otherwise the folder is made if it is
       missing, and a new device is made in it. */
    uint8_t is_there;
    /* If not 0, a damaged journal is cut off at its first damage. Otherwise it is refused. */
    uint8_t cuts;
} tpmsim_kept_options;

/* Opens a device. If that succeeds, the handle's previous device is closed.

   TPMSIM_NO_WORD: a number in the options is out of range. TPMSIM_IMAGE_SHORT to
   TPMSIM_STATE_BODY: the image in the file, or the image or the state text in the journal's head,
   is invalid. */
uint8_t tpmsim_kept_open(tpmsim_kept_device *kept, const tpmsim_kept_options *options,
                         char reason[TPMSIM_KEPT_REASON_SIZE]);

/* Executes a command like tpmsim_journal_execute, with the completing layer if `completes` is
   not 0. The time is the host's clock, and the random bytes are the system's unless the options
   contain some. */
uint8_t tpmsim_kept_execute(tpmsim_kept_device *kept, const uint8_t *buffer, size_t size,
                            uint8_t locality, uint8_t completes, uint8_t response[4096],
                            tpmsim_answered *answered, char reason[TPMSIM_KEPT_REASON_SIZE]);

/* Power-cycles the device, for every process that uses it. */
uint8_t tpmsim_kept_power(tpmsim_kept_device *kept, char reason[TPMSIM_KEPT_REASON_SIZE]);

/* Writes the state text of the device, with the completing layer, to the beginning of the buffer,
   and its size in bytes to `size`. */
uint8_t tpmsim_kept_snapshot(tpmsim_kept_device *kept, uint8_t text[TPMSIM_STATE_SIZE],
                             size_t *size, char reason[TPMSIM_KEPT_REASON_SIZE]);

/* Replaces the device with the one in a state text, for every process that uses it.
   TPMSIM_STATE_SHORT to TPMSIM_STATE_BODY: the bytes are not a state text, and the device is
   unchanged. */
uint8_t tpmsim_kept_restore(tpmsim_kept_device *kept, const uint8_t *text, size_t size,
                            char reason[TPMSIM_KEPT_REASON_SIZE]);

/* Writes a zero-terminated sentence that describes what the last call cut from the journal. The
   sentence is empty if the call cut nothing. */
void tpmsim_kept_notice(const tpmsim_kept_device *kept, char notice[TPMSIM_KEPT_REASON_SIZE]);

/* Closes the device, if there is one. The handle is then empty, and may be reused. */
void tpmsim_kept_close(tpmsim_kept_device *kept);

#ifdef __cplusplus
}
#endif

#endif
