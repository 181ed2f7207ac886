#define _GNU_SOURCE
#include "image_file.h"
#include "image.h"
#include "secret.h"
#include "standing.h"
#include "told.h"
#include "transfer.h"
#include <errno.h>
#include <fcntl.h>
#include <libgen.h>
#include <limits.h>
#include <stdio.h>
#include <stdlib.h>
#include <string.h>
#include <sys/file.h>
#include <unistd.h>

/* Appends `end` to the path. Returns false if the result is too long. */
static bool path_with(char room[PATH_MAX], const char *path, const char *end,
                      struct reason *reason) {
    int size = snprintf(room, PATH_MAX, "%s%s", path, end);
    return (size > 0 && size < PATH_MAX) ||
           refuse(reason, "the path of the image", NULL, "is too long", 0);
}

static bool lock(struct image_file *file, struct reason *reason) {
    char path[PATH_MAX];
    struct stat status;
    if (!path_with(path, file->path, ".lock", reason)) return false;
    file->lock = open(path, O_RDWR | O_CREAT | O_NOFOLLOW | O_CLOEXEC, 0600);
    if (file->lock < 0) return refuse(reason, path, NULL, "cannot be opened", errno);
    if (fstat(file->lock, &status) != 0)
        return refuse(reason, path, NULL, "cannot be looked at", errno);
    if (!standing_is_file(&status, path, NULL, reason)) return false;
    if (fchmod(file->lock, 0600) != 0)
        return refuse(reason, path, NULL, "cannot be given its mode", errno);
    while (flock(file->lock, LOCK_EX | LOCK_NB) != 0) {
        if (errno == EINTR) continue;
        if (errno == EWOULDBLOCK)
            return refuse(reason, file->path, NULL, "is the image of another program that runs", 0);
        return refuse(reason, path, NULL, "cannot be locked", errno);
    }
    return true;
}

static bool take_memory(struct image_file *file, struct reason *reason) {
    file->kept = malloc(IMAGE_ROOM);
    file->now = malloc(IMAGE_ROOM);
    file->image = malloc(IMAGE_ROOM);
    return (file->kept && file->now && file->image) ||
           refuse(reason, file->path, NULL, told_words(TPMSIM_NO_MEMORY), 0);
}

bool image_file_open(struct image_file *file, const char *path, bool *is_there,
                     struct reason *reason) {
    struct stat status;
    *file = (struct image_file){.path = path, .lock = -1};
    if (!take_memory(file, reason) || !lock(file, reason)) return false;
    *is_there = lstat(path, &status) == 0;
    return *is_there || errno == ENOENT ||
           refuse(reason, path, NULL, "cannot be looked at", errno);
}

/* Writes the whole new file, and syncs it to the disk. */
static bool write_new(const char *path, const uint8_t *image, size_t size, struct reason *reason) {
    if (unlink(path) != 0 && errno != ENOENT)
        return refuse(reason, path, NULL, "cannot be removed", errno);
    int made = open(path, O_WRONLY | O_CREAT | O_EXCL | O_NOFOLLOW | O_CLOEXEC, 0600);
    if (made < 0) return refuse(reason, path, NULL, "cannot be made", errno);
    bool is_written = fchmod(made, 0600) == 0 && transfer_write(made, image, size, 0) &&
                      fsync(made) == 0;
    if (!is_written) refuse(reason, path, NULL, "cannot be written", errno);
    close(made);
    return is_written;
}

/* Syncs the folder of the file to the disk. */
static bool force_folder(const char *path, struct reason *reason) {
    char copy[PATH_MAX];
    if (!path_with(copy, path, "", reason)) return false;
    int folder = open(dirname(copy), O_RDONLY | O_DIRECTORY | O_CLOEXEC);
    bool is_forced = folder >= 0 && fsync(folder) == 0;
    if (!is_forced) refuse(reason, path, NULL, "is in a folder that cannot be forced", errno);
    if (folder >= 0) close(folder);
    return is_forced;
}

static bool write_image(struct image_file *file, size_t size, struct reason *reason) {
    char path[PATH_MAX];
    if (!path_with(path, file->path, ".new", reason) ||
        !write_new(path, file->image, size, reason))
        return false;
    if (rename(path, file->path) != 0)
        return refuse(reason, path, NULL, "cannot take the image's place", errno);
    return force_folder(file->path, reason);
}

bool image_file_keep(struct image_file *file, tpmsim *device, bool always, struct reason *reason) {
    size_t size = tpmsim_kept(device, file->now, IMAGE_ROOM);
    bool is_same = size == file->kept_size && memcmp(file->now, file->kept, size) == 0;
    if (is_same && !always) return true;
    if (!write_image(file, tpmsim_save(device, file->image, IMAGE_ROOM), reason)) return false;
    uint8_t *before = file->kept;
    file->kept = file->now;
    file->kept_size = size;
    file->now = before;
    return true;
}

void image_file_close(struct image_file *file) {
    secret_free(file->kept, IMAGE_ROOM);
    secret_free(file->now, IMAGE_ROOM);
    secret_free(file->image, IMAGE_ROOM);
    if (file->lock >= 0) close(file->lock);
    *file = (struct image_file){.lock = -1};
}
