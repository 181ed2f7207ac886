#define _GNU_SOURCE
#include "image.h"
#include "secret.h"
#include "standing.h"
#include "told.h"
#include "transfer.h"
#include <errno.h>
#include <fcntl.h>
#include <stdlib.h>
#include <unistd.h>

/* Opens the file if the user may read it. Otherwise returns -1 and sets
 * `reason`. */
static int open_file(const char *path, struct reason *reason) {
    struct stat status;
    if (fstatat(AT_FDCWD, path, &status, AT_SYMLINK_NOFOLLOW) != 0) {
        refuse(reason, path, NULL, "cannot be looked at", errno);
        return -1;
    }
    if (!standing_is_file(&status, path, NULL, reason)) return -1;
    int file = open(path, O_RDONLY | O_NOFOLLOW | O_NONBLOCK | O_NOCTTY | O_CLOEXEC);
    if (file < 0) refuse(reason, path, NULL, "cannot be opened", errno);
    return file;
}

/* Reads an image from a file, and opens its device. */
static bool read_device(tpmsim *device, int file, const char *path, uint8_t *room, size_t *size,
                        struct reason *reason) {
    struct stat status;
    if (fstat(file, &status) != 0)
        return refuse(reason, path, NULL, "cannot be looked at", errno);
    if (!standing_is_file(&status, path, NULL, reason)) return false;
    ssize_t got = transfer_read(file, room, IMAGE_ROOM, 0);
    if (got < 0) return refuse(reason, path, NULL, "cannot be read", errno);
    *size = (size_t)got;
    uint8_t told = tpmsim_open(device, room, *size);
    return told == TPMSIM_DONE || refuse_told(reason, path, NULL, told);
}

/* Returns the bytes of an image file, and opens the device in it. */
static uint8_t *open_bytes(tpmsim *device, const char *path, size_t *size, struct reason *reason) {
    int file = open_file(path, reason);
    if (file < 0) return NULL;
    uint8_t *room = calloc(1, IMAGE_ROOM);
    bool is_open = room ? read_device(device, file, path, room, size, reason)
                        : refuse_told(reason, path, NULL, TPMSIM_NO_MEMORY);
    close(file);
    if (is_open) return room;
    secret_free(room, IMAGE_ROOM);
    return NULL;
}

uint8_t *image_read(const char *path, size_t *size, struct reason *reason) {
    tpmsim device = {0};
    uint8_t *bytes = open_bytes(&device, path, size, reason);
    tpmsim_free(&device);
    return bytes;
}

bool image_open(tpmsim *device, const char *path, struct reason *reason) {
    size_t size;
    uint8_t *bytes = open_bytes(device, path, &size, reason);
    secret_free(bytes, IMAGE_ROOM);
    return bytes != NULL;
}
