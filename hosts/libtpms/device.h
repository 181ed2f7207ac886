/* The only device of this process. */
#ifndef DEVICE_H
#define DEVICE_H

#include <stdbool.h>
#include <stddef.h>
#include <stdint.h>
#include <tpmsim.h>

enum { RESPONSE_BYTES = 4096 };

struct response {
    size_t size;
    uint8_t bytes[RESPONSE_BYTES];
};

/* The device, for calls that do not execute a command. */
tpmsim *the_device(void);

/* Whether there is a device. */
bool device_is_on(void);

/* Switches the completing layer on or off for all later commands. */
void let_device_complete(bool completes);

/* Powers the device on, which has just been opened from its permanent state. This starts its clock
   and its record. If this device was on before in this process, its completing layer goes on.
   Otherwise the layer starts again. */
bool begin_device(void);

/* Continues a device whose last command was executed when the host's clock showed this time, and
   begins its record. */
bool resume_device(uint64_t time);

/* The time that the host's clock showed at the last command. */
uint64_t time_of_device(void);

/* Executes a command from a locality of 0 to 4. Writes its record if recording was requested, and
   the permanent state if it changed. If the record or the state cannot be written, the reason is
   reported, there is no response, and no other command is executed until both are written. */
bool execute(const uint8_t *buffer, size_t size, uint8_t locality, struct response *response);

/* Whether everything has been written: the last command's record if it was requested, and the
 * permanent state if it changed. */
bool last_was_written(void);

/* Writes the record and the permanent state if they have not been written yet. Reports the reason
   for a failure. */
bool write_last(void);

/* Powers the device off. With the completing layer, the device stays in memory, for begin_device. */
void free_device(void);

#endif
