/* The image of an existing device, from which a new device in a folder is made. */
#ifndef IMAGE_H
#define IMAGE_H
#include "reason.h"
#include "tpmsim.h"

/* The size of a buffer for an image, larger than any image. */
enum { IMAGE_ROOM = 64 * 1024 };

/* Reads the image from a file that belongs to the user, into a buffer of IMAGE_ROOM bytes. The
 * caller clears the buffer and frees it. On failure, returns NULL and sets `reason`. */
uint8_t *image_read(const char *path, size_t *size, struct reason *reason);

/* Opens the device from the image in a file. */
bool image_open(tpmsim *device, const char *path, struct reason *reason);

#endif
