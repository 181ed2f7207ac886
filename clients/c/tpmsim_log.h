/* A log of a device's commands, from which tpmsim-explain says why a command was refused. Three calls:

       FILE *log = fopen("tpm.log", "w");
       tpmsim_log_begin(log, &device);
       tpmsim_log_execute(log, &device, 0, buffer, size, 0, 0, random, response, &answered);
       fclose(log);

   Then run `tpmsim-explain tpm.log`. Use tpmsim_log_execute for each command instead of tpmsim_execute and
   tpmsim_complete, and tpmsim_log_power instead of tpmsim_power_cycle. The log contains all secrets. If a line cannot
   be written, ferror(log) says so. These functions are tested, not proved; they call only the proved library. */
#ifndef TPMSIM_LOG_H
#define TPMSIM_LOG_H

#include "tpmsim.h"
#include <stdio.h>

/* Writes a word and bytes in hex. */
static inline void tpmsim_log_bytes(FILE *log, const char *word, const uint8_t *bytes, size_t size) {
    size_t at;

    fputs(word, log);
    for (at = 0; at < size; at++)
        fprintf(log, "%02x", bytes[at]);
    fputc('\n', log);
}

/* Begins a log, or begins it again after tpmsim_open or tpmsim_restore: writes the state of the device. Returns
   what tpmsim_snapshot returns, which is 0 without a device. Needs 40 KB of stack more than a call. */
static inline size_t tpmsim_log_begin(FILE *log, tpmsim *device) {
    uint8_t text[TPMSIM_STATE_SIZE];
    size_t size = tpmsim_snapshot(device, text, sizeof text);

    if (size)
        tpmsim_log_bytes(log, "# state ", text, size);
    return size;
}

/* Adds a command that was executed: by the completing layer if `completes` is not 0, from this locality, after this
   time. `random` begins with the random bytes that the command drew. */
static inline void tpmsim_log_command(FILE *log, uint8_t completes, const uint8_t *buffer, size_t size,
                                      uint8_t locality, uint32_t elapsed_ms, const uint8_t *random,
                                      const uint8_t *response, const tpmsim_answered *answered) {
    if (completes)
        fputs("# completed\n", log);
    if (locality)
        fprintf(log, "loc %u\n", (unsigned)locality);
    if (elapsed_ms)
        fprintf(log, "wait %lu\n", (unsigned long)elapsed_ms);
    if (answered->drawn)
        tpmsim_log_bytes(log, "entropy ", random, answered->drawn);
    tpmsim_log_bytes(log, "cmd ", buffer, size);
    tpmsim_log_bytes(log, "# ", response, answered->size);
    if (locality)
        fputs("loc 0\n", log);
}

/* Executes a command like tpmsim_execute or, if `completes` is not 0, like tpmsim_complete, and adds it. */
static inline uint8_t tpmsim_log_execute(FILE *log, tpmsim *device, uint8_t completes, const uint8_t *buffer,
                                         size_t size, uint8_t locality, uint32_t elapsed_ms, const uint8_t *random,
                                         uint8_t *response, tpmsim_answered *answered) {
    uint8_t told = completes ? tpmsim_complete(device, buffer, size, locality, elapsed_ms, random, response, answered)
                             : tpmsim_execute(device, buffer, size, locality, elapsed_ms, random, response, answered);

    if (told == TPMSIM_DONE)
        tpmsim_log_command(log, completes, buffer, size, locality, elapsed_ms, random, response, answered);
    return told;
}

/* Power-cycles the device like tpmsim_power_cycle, and adds this. */
static inline uint8_t tpmsim_log_power(FILE *log, tpmsim *device) {
    uint8_t told = tpmsim_power_cycle(device);

    if (told == TPMSIM_DONE)
        fputs("power\n", log);
    return told;
}

#endif
