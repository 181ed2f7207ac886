#define _GNU_SOURCE
#include "folder.h"
#include "standing.h"
#include "told.h"
#include <errno.h>
#include <fcntl.h>
#include <limits.h>
#include <stdlib.h>
#include <string.h>
#include <sys/file.h>
#include <sys/syscall.h>
#include <unistd.h>

enum { MODE = 0700, FCHMODAT2 = 452 };

bool is_same_file(const struct stat *one, const struct stat *other) {
    return one->st_dev == other->st_dev && one->st_ino == other->st_ino;
}

int close_file(int file) {
    int error = errno;
    if (file >= 0) close(file);
    errno = error;
    return -1;
}

/* Copies a path without the slashes at its end, because a path that ends with a slash follows a
 * link. */
static char *copy_path(const char *path) {
    size_t size = strlen(path);
    while (size > 1 && path[size - 1] == '/') size--;
    return strndup(path, size);
}

/* Sets the mode of a folder by its path, without following a link. The first attempt is the
 * system call, which glibc before 2.39 does not use. The second is glibc's function, which uses
 * /proc on kernels before Linux 6.6. */
static bool set_mode_by_path(const char *path) {
    return syscall(FCHMODAT2, AT_FDCWD, path, MODE, AT_SYMLINK_NOFOLLOW) == 0 ||
           fchmodat(AT_FDCWD, path, MODE, AT_SYMLINK_NOFOLLOW) == 0;
}

/* Sets the mode of the new folder, because the umask may have removed bits. Opening the folder
 * follows no link and needs no /proc. If the umask denies the folder to its own user, the folder
 * cannot be opened, and the path is used instead. */
static bool set_mode(const char *path) {
    int made = open(path, O_RDONLY | O_DIRECTORY | O_NOFOLLOW | O_CLOEXEC);
    if (made < 0) return errno == EACCES && set_mode_by_path(path);
    bool is_set = fchmod(made, MODE) == 0;
    close_file(made);
    return is_set;
}

/* Makes the folder if it is missing. */
static bool make(struct folder *folder, struct reason *reason) {
    if (mkdir(folder->path, MODE) == 0)
        return set_mode(folder->path) ||
               refuse(reason, folder->path, NULL, "cannot be given its mode", errno);
    return errno == EEXIST || refuse(reason, folder->path, NULL, "cannot be made", errno);
}

static bool open_descriptor(struct folder *folder, struct reason *reason) {
    struct stat status;
    if (fstatat(AT_FDCWD, folder->path, &status, AT_SYMLINK_NOFOLLOW) != 0)
        return refuse(reason, folder->path, NULL, "cannot be looked at", errno);
    if (!standing_is_folder(&status, folder->path, reason)) return false;
    folder->descriptor = open(folder->path, O_RDONLY | O_DIRECTORY | O_NOFOLLOW | O_CLOEXEC);
    if (folder->descriptor < 0)
        return refuse(reason, folder->path, NULL, "cannot be opened", errno);
    if (fstat(folder->descriptor, &status) != 0)
        return refuse(reason, folder->path, NULL, "cannot be looked at", errno);
    return standing_is_folder(&status, folder->path, reason);
}

bool folder_open(struct folder *folder, const char *path, bool makes, struct reason *reason) {
    *folder = (struct folder){.descriptor = -1, .lock = -1};
    fork_mark_begin(&folder->mark);
    if (strlen(path) >= PATH_MAX)
        return refuse(reason, "the path of the folder", NULL, "is too long", 0);
    folder->path = copy_path(path);
    if (!folder->path) return refuse_told(reason, path, NULL, TPMSIM_NO_MEMORY);
    return (!makes || make(folder, reason)) && open_descriptor(folder, reason);
}

void folder_close(struct folder *folder) {
    close_file(folder->lock);
    close_file(folder->descriptor);
    fork_mark_end(&folder->mark);
    free(folder->path);
    *folder = (struct folder){.descriptor = -1, .lock = -1};
}

int folder_look(const struct folder *folder, const char *name, struct stat *status,
                struct reason *reason) {
    if (fstatat(folder->descriptor, name, status, AT_SYMLINK_NOFOLLOW) != 0) {
        if (errno == ENOENT) return 0;
        refuse(reason, folder->path, name, "cannot be looked at", errno);
        return -1;
    }
    return standing_is_file(status, folder->path, name, reason) ? 1 : -1;
}

bool folder_has(const struct folder *folder, const char *name, const struct stat *opened,
                struct stat *status) {
    return fstatat(folder->descriptor, name, status, AT_SYMLINK_NOFOLLOW) == 0 &&
           is_same_file(opened, status);
}

int folder_open_file(const struct folder *folder, const char *name, struct stat *status,
                     struct reason *reason) {
    int there = folder_look(folder, name, status, reason);
    if (there == 0) refuse(reason, folder->path, name, "is not there", 0);
    if (there != 1) return -1;
    int file = openat(folder->descriptor, name,
                      O_RDWR | O_NOFOLLOW | O_NONBLOCK | O_NOCTTY | O_CLOEXEC);
    if (file < 0)
        refuse(reason, folder->path, name, "cannot be opened", errno);
    else if (fstat(file, status) != 0)
        refuse(reason, folder->path, name, "cannot be looked at", errno);
    else if (standing_is_file(status, folder->path, name, reason))
        return file;
    return close_file(file);
}

int folder_make_file(const struct folder *folder, const char *name, struct reason *reason) {
    int file = openat(folder->descriptor, name,
                      O_RDWR | O_CREAT | O_EXCL | O_NOFOLLOW | O_CLOEXEC, 0600);
    if (file >= 0 && fchmod(file, 0600) == 0) return file;
    refuse(reason, folder->path, name, file < 0 ? "cannot be made" : "cannot be given its mode",
           errno);
    if (file >= 0) unlinkat(folder->descriptor, name, 0);
    return close_file(file);
}

/* Opens the lock file, and makes it if it is missing. It is not a fault if another process makes
 * the file after this one found that it was missing. */
/*@ requires is_folder(folder) && \valid(reason) && lock_holder == -1;
  @ requires \separated(folder, folder->mark.page, reason, &lock_holder, &__fc_errno);
  @ assigns folder->lock, folder->lock_status, *folder->mark.page, *reason, lock_holder, __fc_errno;
  @ ensures is_folder(folder) && lock_holder == -1;
  @ ensures \result ==> folder->lock >= 0;
  @*/
static bool open_lock(struct folder *folder, struct reason *reason) {
    if (folder_look(folder, LOCK_NAME, &folder->lock_status, reason) == 0) {
        int made = folder_make_file(folder, LOCK_NAME, reason);
        if (made < 0 && errno != EEXIST) return false;
        close_file(made);
    }
    folder->lock = folder_open_file(folder, LOCK_NAME, &folder->lock_status, reason);
    if (folder->lock < 0) return false;
    fork_mark_set(&folder->mark);
    *reason->text = 0;
    return true;
}

/*@ requires is_folder(folder) && (lock_holder == -1 || lock_holder == folder->lock);
  @ requires \separated(folder, &lock_holder, &__fc_errno);
  @ assigns folder->lock, lock_holder, __fc_errno;
  @ ensures folder->lock == -1 && lock_holder == -1 && __fc_errno == \old(__fc_errno);
  @*/
static void close_lock(struct folder *folder) { folder->lock = close_file(folder->lock); }

/* Waits until no other open file holds the lock, and acquires it. */
/*@ requires lock >= 0 && lock_holder == -1;
  @ assigns lock_holder, __fc_errno;
  @ ensures lock_holder == (\result ? lock : -1);
  @*/
static bool wait_for(int lock) {
    /*@ loop invariant lock_holder == -1;
      @ loop assigns lock_holder, __fc_errno;
      @*/
    while (flock(lock, LOCK_EX) != 0)
        if (errno != EINTR) return false;
    return true;
}

bool folder_lock(struct folder *folder, struct reason *reason) {
    enum { TRIES = 100 };
    if (!fork_mark_is_here(&folder->mark)) close_lock(folder);
    /*@ loop invariant 0 <= i <= TRIES && is_folder(folder) && lock_holder == -1;
      @ loop assigns i, folder->lock, folder->lock_status, *folder->mark.page, *reason, lock_holder,
      @     __fc_errno;
      @ loop variant TRIES - i;
      @*/
    for (int i = 0; i < TRIES; i++) {
        struct stat status;
        if (folder->lock < 0 && !open_lock(folder, reason)) return false;
        bool is_locked = wait_for(folder->lock);
        if (is_locked && folder_has(folder, LOCK_NAME, &folder->lock_status, &status)) return true;
        close_lock(folder);
        if (!is_locked) return false;
    }
    return refuse(reason, folder->path, LOCK_NAME, "is replaced again and again", 0);
}

void folder_unlock(struct folder *folder) {
    if (folder->lock >= 0 && flock(folder->lock, LOCK_UN) != 0) close_lock(folder);
}

/* Syncs the parent folder. If the user may not read the parent, or the file system does not sync
 * folders, syncs the whole file system of this folder instead. */
static bool force_name(const struct folder *folder, struct reason *reason) {
    int above = openat(folder->descriptor, "..", O_RDONLY | O_DIRECTORY | O_CLOEXEC);
    int error = above < 0 || fsync(above) != 0 ? errno : 0;
    if (above >= 0) close(above);
    if (error == EACCES || error == EINVAL)
        error = syncfs(folder->descriptor) == 0 ? 0 : errno;
    return error == 0 ||
           refuse(reason, folder->path, "..", "cannot be forced to the disk", error);
}

bool folder_force(struct folder *folder, struct reason *reason) {
    if (fsync(folder->descriptor) != 0)
        return refuse(reason, folder->path, NULL, "cannot be forced to the disk", errno);
    folder->name_is_forced = folder->name_is_forced || force_name(folder, reason);
    return folder->name_is_forced;
}
