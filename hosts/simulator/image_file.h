/* The file with the image of a device in memory. The file is replaced as a whole: a new one,
   FILE.new, is written next to it, synced to the disk, and renamed. While the file is in use,
   FILE.lock is locked, as it is by `tpmsim run --image`, so that only one program at a time
   uses the image. */
#ifndef IMAGE_FILE_H
#define IMAGE_FILE_H
#include "reason.h"
#include "tpmsim.h"
#include <stdbool.h>
#include <stddef.h>
#include <stdint.h>

struct image_file {
    const char *path;
    int lock;
    /* The permanent state that was last written, except its clock. */
    uint8_t *kept;
    size_t kept_size;
    /* Memory for the current value of that state, and for an image. */
    uint8_t *now;
    uint8_t *image;
};

/* Locks the file. Sets `is_there` to whether the file contains an image. On failure, returns
 * false and sets `reason`. */
bool image_file_open(struct image_file *file, const char *path, bool *is_there,
                     struct reason *reason);

/* Writes the image if the device's permanent state differs from the last written one, or if
   `always` is true. On failure, returns false and sets `reason`. */
bool image_file_keep(struct image_file *file, tpmsim *device, bool always, struct reason *reason);

void image_file_close(struct image_file *file);

#endif
