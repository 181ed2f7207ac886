/* A layer between the host in C and the C library, linked with --wrap. The call with a chosen
 * number fails or transfers half of its bytes, or the process is killed before it. */
#ifndef CALLS_H
#define CALLS_H
#include "common.h"
#include <errno.h>
#include <signal.h>
#include <stdarg.h>
#include <sys/file.h>
#include <sys/mman.h>
#include <sys/random.h>
#include <sys/stat.h>
#include <time.h>

/* The fault of the chosen call: the call fails with EIO; it fails with EINTR; it transfers half of
 * its bytes; it fails to allocate memory; or the process is killed before it. */
enum fault { NO_FAULT, FAILS, IS_INTERRUPTED, MOVES_HALF, HAS_NO_MEMORY, IS_KILLED };

static enum fault fault;
static unsigned counted, number;
static const char *name_of_it;

/* The numbers of syncs of files and folders, with fsync and with fdatasync. */
static unsigned forced, forced_data;

/* A function that is called for each file or folder that is synced, or NULL. */
static void (*when_forced)(int file);

/* The number of pages that are currently mapped. */
static int mapped;

/* Counts a call if it is of a counted kind. Returns whether this call must fail. */
static bool is_the_one(const char *name, bool is_counted) {
    if (fault == NO_FAULT || !is_counted || ++counted != number) return false;
    name_of_it = name;
    if (fault == IS_KILLED) kill(getpid(), SIGKILL);
    return true;
}

/* Returns whether a system call must fail; `again` says whether the call can fail with EINTR. */
static bool fails(const char *name, bool again) {
    bool is_counted = fault == FAILS || fault == IS_KILLED;
    if (!is_the_one(name, is_counted || (fault == IS_INTERRUPTED && again))) return false;
    errno = fault == FAILS ? EIO : EINTR;
    return true;
}

static bool has_none(const char *name) { return is_the_one(name, fault == HAS_NO_MEMORY); }

static size_t moved(const char *name, size_t size) {
    return is_the_one(name, fault == MOVES_HALF && size > 1) ? size / 2 : size;
}

#define WRAPPED(type, name, words, values, again)                                                  \
    type __real_##name words;                                                                      \
    type __wrap_##name words;                                                                      \
    type __wrap_##name words {                                                                     \
        if (fails(#name, again)) return -1;                                                        \
        return __real_##name values;                                                               \
    }

#define WRAPPED_MOVE(name, words, values)                                                          \
    ssize_t __real_##name words;                                                                   \
    ssize_t __wrap_##name words;                                                                   \
    ssize_t __wrap_##name words {                                                                  \
        if (fails(#name, true)) return -1;                                                         \
        size = moved(#name, size);                                                                 \
        return __real_##name values;                                                               \
    }

#define WRAPPED_MEMORY(type, name, words, values)                                                  \
    type __real_##name words;                                                                      \
    type __wrap_##name words;                                                                      \
    type __wrap_##name words { return has_none(#name) ? NULL : __real_##name values; }

WRAPPED(int, mkdir, (const char *path, mode_t mode), (path, mode), false)
WRAPPED(int, fchmod, (int file, mode_t mode), (file, mode), false)
WRAPPED(int, fchmodat, (int folder, const char *path, mode_t mode, int flags),
        (folder, path, mode, flags), false)
WRAPPED(int, fstat, (int file, struct stat *status), (file, status), false)
WRAPPED(int, fstatat, (int folder, const char *path, struct stat *status, int flags),
        (folder, path, status, flags), false)
WRAPPED(int, flock, (int file, int operation), (file, operation), operation == LOCK_EX)
WRAPPED(int, ftruncate, (int file, off_t size), (file, size), true)
WRAPPED(int, unlinkat, (int folder, const char *path, int flags), (folder, path, flags), false)
WRAPPED(int, renameat, (int folder, const char *path, int into, const char *name),
        (folder, path, into, name), false)
WRAPPED(int, madvise, (void *page, size_t size, int advice), (page, size, advice), false)
WRAPPED(int, clock_gettime, (clockid_t clock, struct timespec *now), (clock, now), false)
WRAPPED_MOVE(pread, (int file, void *room, size_t size, off_t place), (file, room, size, place))
WRAPPED_MOVE(pwrite, (int file, const void *room, size_t size, off_t place),
             (file, room, size, place))
WRAPPED_MOVE(getrandom, (void *room, size_t size, unsigned flags), (room, size, flags))
WRAPPED_MEMORY(void *, malloc, (size_t size), (size))
WRAPPED_MEMORY(void *, calloc, (size_t count, size_t size), (count, size))
WRAPPED_MEMORY(char *, strndup, (const char *text, size_t size), (text, size))

void *__real_mmap(void *at, size_t size, int protection, int flags, int file, off_t place);
void *__wrap_mmap(void *at, size_t size, int protection, int flags, int file, off_t place);
void *__wrap_mmap(void *at, size_t size, int protection, int flags, int file, off_t place) {
    if (fails("mmap", false) || has_none("mmap")) return MAP_FAILED;
    mapped++;
    return __real_mmap(at, size, protection, flags, file, place);
}

int __real_munmap(void *page, size_t size);
int __wrap_munmap(void *page, size_t size);
int __wrap_munmap(void *page, size_t size) {
    mapped--;
    return __real_munmap(page, size);
}

int __real_open(const char *path, int flags, ...);
int __wrap_open(const char *path, int flags, ...);
int __wrap_open(const char *path, int flags, ...) {
    va_list words;
    va_start(words, flags);
    mode_t mode = flags & O_CREAT ? va_arg(words, mode_t) : 0;
    va_end(words);
    return fails("open", false) ? -1 : __real_open(path, flags, mode);
}

int __real_openat(int folder, const char *path, int flags, ...);
int __wrap_openat(int folder, const char *path, int flags, ...);
int __wrap_openat(int folder, const char *path, int flags, ...) {
    va_list words;
    va_start(words, flags);
    mode_t mode = flags & O_CREAT ? va_arg(words, mode_t) : 0;
    va_end(words);
    return fails("openat", false) ? -1 : __real_openat(folder, path, flags, mode);
}

int __real_fsync(int file);
int __wrap_fsync(int file);
int __wrap_fsync(int file) {
    forced++;
    if (fails("fsync", false) || __real_fsync(file) != 0) return -1;
    if (when_forced) when_forced(file);
    return 0;
}

int __real_fdatasync(int file);
int __wrap_fdatasync(int file);
int __wrap_fdatasync(int file) {
    forced_data++;
    if (fails("fdatasync", false) || __real_fdatasync(file) != 0) return -1;
    if (when_forced) when_forced(file);
    return 0;
}

/* Pretends to the device that another user owns its files. */
uid_t __real_geteuid(void);
uid_t __wrap_geteuid(void);
uid_t __wrap_geteuid(void) { return __real_geteuid() + (fails("geteuid", false) ? 1 : 0); }

#endif
