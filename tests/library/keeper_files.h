/* A folder of the file system, and how a host accesses it. Each call opens the lock file again, so
 * that a forked process has its own lock. */
#ifndef KEEPER_FILES_H
#define KEEPER_FILES_H
#include "keeper_host.h"
#include <errno.h>
#include <fcntl.h>
#include <sys/file.h>
#include <sys/stat.h>
#include <unistd.h>

/* The descriptors of the folder, of the lock file while the lock is held, of the journal, and of
 * the new journal; -1 if there is none. The journal is the `number`th journal that the host has
 * opened. */
typedef struct files {
    int folder, lock, journal, fresh;
    uint64_t number;
    uint8_t part[4096];
} files;

static inline void files_close(int *file) {
    if (*file >= 0) close(*file);
    *file = -1;
}

static inline int files_lock(files *it) {
    files_close(&it->lock);
    it->lock = openat(it->folder, "lock", O_RDWR | O_CREAT | O_CLOEXEC, 0600);
    if (it->lock >= 0 && flock(it->lock, LOCK_EX) == 0) return 1;
    files_close(&it->lock);
    return 0;
}

/* Opens the file `journal`, unless it is open already. */
static inline seen files_look(files *it) {
    struct stat named, open;
    if (fstatat(it->folder, "journal", &named, 0) != 0)
        return (seen){errno == ENOENT ? TPMSIM_GOT_GONE : TPMSIM_GOT_FAILED, 0, 0, it->part, 0};
    if (it->journal < 0 || fstat(it->journal, &open) != 0 || open.st_ino != named.st_ino ||
        open.st_dev != named.st_dev) {
        files_close(&it->journal);
        it->journal = openat(it->folder, "journal", O_RDWR | O_CLOEXEC);
        it->number++;
    }
    if (it->journal < 0 || fstat(it->journal, &open) != 0)
        return (seen){TPMSIM_GOT_FAILED, 0, 0, it->part, 0};
    return (seen){TPMSIM_GOT_DONE, it->number, (uint64_t)open.st_size, it->part, 0};
}

static inline seen files_read(files *it, uint64_t at) {
    ssize_t size = pread(it->journal, it->part, sizeof it->part, (off_t)at);
    if (size < 0) return (seen){TPMSIM_GOT_FAILED, 0, 0, it->part, 0};
    return (seen){TPMSIM_GOT_DONE, 0, 0, it->part, (size_t)size};
}

static inline int files_write(int file, const uint8_t *text, size_t size, uint64_t at) {
    while (size > 0) {
        ssize_t count = pwrite(file, text, size, (off_t)at);
        if (count <= 0) return 0;
        text += count, at += (uint64_t)count, size -= (size_t)count;
    }
    return 1;
}

static inline int files_put(files *it, const tpmsim_ask *ask, const uint8_t *text) {
    struct stat open;
    if (fstat(it->journal, &open) != 0) return 0;
    if ((uint64_t)open.st_size > ask->cut && ftruncate(it->journal, (off_t)ask->cut) != 0) return 0;
    return files_write(it->journal, text, ask->size, ask->at);
}

static inline int files_make(files *it, const tpmsim_ask *ask, const uint8_t *text) {
    files_close(&it->fresh);
    if (unlinkat(it->folder, "journal.new", 0) != 0 && errno != ENOENT) return 0;
    it->fresh = openat(it->folder, "journal.new", O_RDWR | O_CREAT | O_EXCL | O_CLOEXEC, 0600);
    return it->fresh >= 0 && files_write(it->fresh, text, ask->size, 0) && fsync(it->fresh) == 0;
}

static inline int files_name(files *it) {
    if (renameat(it->folder, "journal.new", it->folder, "journal") != 0) return 0;
    files_close(&it->journal);
    it->journal = it->fresh;
    it->fresh = -1;
    it->number++;
    return 1;
}

static inline seen files_do(host *by, const tpmsim_ask *ask, const uint8_t *text) {
    files *it = by->folder;
    int is_done = 0;
    switch (ask->task) {
    case TPMSIM_TASK_LOCK: is_done = files_lock(it); break;
    case TPMSIM_TASK_LOOK: return files_look(it);
    case TPMSIM_TASK_READ: return files_read(it, ask->at);
    case TPMSIM_TASK_PUT: is_done = files_put(it, ask, text); break;
    case TPMSIM_TASK_FORCE: is_done = fdatasync(it->journal) == 0; break;
    case TPMSIM_TASK_MAKE: is_done = files_make(it, ask, text); break;
    case TPMSIM_TASK_NAME: is_done = files_name(it); break;
    case TPMSIM_TASK_SETTLE: is_done = fsync(it->folder) == 0; break;
    case TPMSIM_TASK_UNLOCK: files_close(&it->lock), is_done = 1; break;
    }
    return (seen){is_done ? TPMSIM_GOT_DONE : TPMSIM_GOT_FAILED, it->number, 0, text, 0};
}

/* Closes the files of a host that is killed, as the operating system does for a process. */
static inline void files_leave(host *by) {
    files *it = by->folder;
    files_close(&it->lock), files_close(&it->journal), files_close(&it->fresh);
}

static inline void files_host(host *it, files *in, uint8_t force, uint64_t limit) {
    it->folder = in;
    it->does = files_do;
    it->leaves = files_leave;
    host_starts(it, force, limit);
}
#endif
