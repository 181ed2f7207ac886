/* Replaces the functions of the C library with which a host (a program or module that keeps a
 * device in a folder) changes the folder, and logs each change. The environment variable DISK_LOG
 * names the log. For each change, this library adds a line with the path and the inode number to
 * the log. LD_PRELOAD loads this library. A program with a host in the same process calls
 * disk_logs to switch the log on and off. */
#define _GNU_SOURCE
#include <errno.h>
#include <fcntl.h>
#include <stdarg.h>
#include <stdio.h>
#include <stdlib.h>
#include <string.h>
#include <sys/stat.h>
#include <sys/syscall.h>
#include <unistd.h>

enum { PATH_BYTES = 4096, LINE_BYTES = 3 * PATH_BYTES };

static char log_path[PATH_BYTES];

void disk_logs(const char *path);
void disk_logs(const char *path) { snprintf(log_path, sizeof log_path, "%s", path); }

__attribute__((constructor)) static void begins(void) {
    const char *told = getenv("DISK_LOG");
    if (told) disk_logs(told);
}

/* Adds a line to the log, followed by these bytes in hex. */
static void note(const char *line, const unsigned char *bytes, size_t size) {
    int error = errno, file;
    char *hex = malloc(2 * size + 2);
    if (!hex) abort();
    for (size_t i = 0; i < size; i++) sprintf(hex + 2 * i, "%02x", bytes[i]);
    strcpy(hex + 2 * size, "\n");
    file = (int)syscall(SYS_openat, AT_FDCWD, log_path, O_WRONLY | O_CREAT | O_APPEND, 0600);
    if (file < 0 || syscall(SYS_write, file, line, strlen(line)) < 0 ||
        syscall(SYS_write, file, hex, 2 * size + 1) < 0)
        abort();
    syscall(SYS_close, file);
    free(hex);
    errno = error;
}

/* Adds the caller's own line to the log. */
void disk_marks(const char *line);
void disk_marks(const char *line) { note(line, NULL, 0); }

/* Logs a change of an open file, if the change succeeded. */
static void note_file(long done, const char *what, int file, long number,
                      const unsigned char *bytes, size_t size) {
    char link[64], path[PATH_BYTES], line[LINE_BYTES];
    struct stat status;
    if (done < 0 || !log_path[0]) return;
    snprintf(link, sizeof link, "/proc/self/fd/%d", file);
    ssize_t length = syscall(SYS_readlinkat, AT_FDCWD, link, path, sizeof path - 1);
    if (length < 0 || path[0] != '/' || syscall(SYS_fstat, file, &status) != 0) return;
    if (!S_ISREG(status.st_mode) && !S_ISDIR(status.st_mode)) return;
    path[length] = 0;
    snprintf(line, sizeof line, "%s %s %lu %ld ", what, path, (unsigned long)status.st_ino, number);
    note(line, bytes, size);
}

/* Writes the full path of a name that is relative to an open folder or to the working folder. */
static void path_of(int folder, const char *name, char path[PATH_BYTES]) {
    char link[64];
    if (name[0] == '/') {
        snprintf(path, PATH_BYTES, "%s", name);
        return;
    }
    if (folder == AT_FDCWD) snprintf(link, sizeof link, "/proc/self/cwd");
    else snprintf(link, sizeof link, "/proc/self/fd/%d", folder);
    ssize_t length = syscall(SYS_readlinkat, AT_FDCWD, link, path, PATH_BYTES / 2);
    if (length < 0) abort();
    snprintf(path + length, PATH_BYTES - (size_t)length, "/%s", name);
}

static void note_names(long done, const char *what, int folder, const char *name, int into,
                       const char *other) {
    char path[PATH_BYTES], new_path[PATH_BYTES] = "", line[LINE_BYTES];
    if (done < 0 || !log_path[0]) return;
    path_of(folder, name, path);
    if (other) path_of(into, other, new_path);
    snprintf(line, sizeof line, "%s %s %s", what, path, new_path);
    note(line, NULL, 0);
}

#define LARGE(type, name, words) type large_##name words __asm__(#name "64");
LARGE(ssize_t, pwrite, (int file, const void *bytes, size_t size, off_t at))
LARGE(int, ftruncate, (int file, off_t size))
LARGE(int, open, (const char *path, int flags, ...))
LARGE(int, openat, (int folder, const char *path, int flags, ...))

ssize_t pwrite(int file, const void *bytes, size_t size, off_t at) {
    ssize_t done = syscall(SYS_pwrite64, file, bytes, size, at);
    note_file(done, "write", file, at, bytes, done < 0 ? 0 : (size_t)done);
    return done;
}
ssize_t large_pwrite(int file, const void *bytes, size_t size, off_t at) {
    return pwrite(file, bytes, size, at);
}

ssize_t write(int file, const void *bytes, size_t size) {
    off_t at = file < 3 ? 0 : lseek(file, 0, SEEK_CUR);
    ssize_t done = syscall(SYS_write, file, bytes, size);
    if (file >= 3) note_file(done, "write", file, at, bytes, done < 0 ? 0 : (size_t)done);
    return done;
}
ssize_t __write(int file, const void *bytes, size_t size) { return write(file, bytes, size); }

int ftruncate(int file, off_t size) {
    long done = syscall(SYS_ftruncate, file, size);
    note_file(done, "cut", file, size, NULL, 0);
    return (int)done;
}
int large_ftruncate(int file, off_t size) { return ftruncate(file, size); }

int fsync(int file) {
    long done = syscall(SYS_fsync, file);
    note_file(done, "force", file, 0, NULL, 0);
    return (int)done;
}

int fdatasync(int file) {
    long done = syscall(SYS_fdatasync, file);
    note_file(done, "force", file, 0, NULL, 0);
    return (int)done;
}

static int opened(int folder, const char *path, int flags, mode_t mode) {
    int file = (int)syscall(SYS_openat, folder, path, flags, mode);
    int is_new = (flags & (O_CREAT | O_EXCL)) == (O_CREAT | O_EXCL) || flags & O_TRUNC;
    if (flags & (O_RDWR | O_WRONLY)) note_file(file, "open", file, is_new, NULL, 0);
    return file;
}

#define OPEN(name, folder, words)                                                                  \
    int name words {                                                                               \
        va_list rest;                                                                              \
        va_start(rest, flags);                                                                     \
        mode_t mode = flags & (O_CREAT | O_TMPFILE) ? va_arg(rest, mode_t) : 0;                    \
        va_end(rest);                                                                              \
        return opened(folder, path, flags, mode);                                                  \
    }

OPEN(open, AT_FDCWD, (const char *path, int flags, ...))
OPEN(large_open, AT_FDCWD, (const char *path, int flags, ...))
OPEN(openat, folder, (int folder, const char *path, int flags, ...))
OPEN(large_openat, folder, (int folder, const char *path, int flags, ...))

int renameat(int folder, const char *path, int into, const char *name) {
    long done = syscall(SYS_renameat2, folder, path, into, name, 0);
    note_names(done, "rename", folder, path, into, name);
    return (int)done;
}
int rename(const char *path, const char *name) { return renameat(AT_FDCWD, path, AT_FDCWD, name); }

int linkat(int folder, const char *path, int into, const char *name, int flags) {
    long done = syscall(SYS_linkat, folder, path, into, name, flags);
    note_names(done, "link", folder, path, into, name);
    return (int)done;
}
int link(const char *path, const char *name) { return linkat(AT_FDCWD, path, AT_FDCWD, name, 0); }

int unlinkat(int folder, const char *path, int flags) {
    long done = syscall(SYS_unlinkat, folder, path, flags);
    note_names(done, "unlink", folder, path, 0, NULL);
    return (int)done;
}
int unlink(const char *path) { return unlinkat(AT_FDCWD, path, 0); }

int mkdirat(int folder, const char *path, mode_t mode) {
    long done = syscall(SYS_mkdirat, folder, path, mode);
    note_names(done, "mkdir", folder, path, 0, NULL);
    return (int)done;
}
int mkdir(const char *path, mode_t mode) { return mkdirat(AT_FDCWD, path, mode); }
