/* One device of the simulator. It is either kept in a folder, or in memory. A device in memory may
   save its image to a file, and record its commands. */
#ifndef DEVICE_H
#define DEVICE_H
#include "options.h"
#include "reason.h"
#include <stdbool.h>
#include <stddef.h>
#include <stdint.h>

enum { COMMAND_MOST = 4096, RESPONSE_MOST = 4096 };

struct response {
    size_t size;
    uint8_t bytes[RESPONSE_MOST];
};

struct device;

/* Opens the device with this number, 0 or more. On failure, returns NULL and sets `reason`. The
   options must exist as long as the device. */
struct device *device_open(const struct options *options, unsigned number, struct reason *reason);

/* Executes a command from a locality of 0 to 4. When this returns, the effects of the command are
   saved, if they have to be. If there is no response, returns false and sets `reason`. */
bool device_execute(struct device *device, const uint8_t *buffer, size_t size, uint8_t locality,
                    struct response *response, struct reason *reason);

/* Power-cycles the device. If this fails, returns false and sets `reason`. */
bool device_cycle_power(struct device *device, struct reason *reason);

/* Closes the device, which may be NULL. If the device has an image, this also saves the current
 * clock to it. If this fails, returns false and sets `reason`. */
bool device_close(struct device *device, struct reason *reason);

#endif
