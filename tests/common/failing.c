/* Replaces the functions of the C library with which a program or module accesses files, the clock,
 * random bytes and memory. One call, chosen by its number, has one of the faults below. LD_PRELOAD
 * loads this library. The environment variable FAILING is `NUMBER ACT ERROR REPORT`. A program with
 * a host of a device in the same process calls failing_begins instead, and failing_goes_on before
 * and after the calls that count. The name of the call with the fault is written to the file
 * REPORT. If FAILING_CLOCK is set, the clock jumps by at most a day. If FAILING_IN is set, a call
 * counts only if it is on a path in this folder or on an open file there.
 *
 * If FAILING_CALLS is set, calls on sockets, on standard input and output and on all clocks count
 * too, and numbers do not depend on the fault. Each call appends a line to the file FAILING_CALLS:
 * the name of the function, and of the file that it accesses. */
#define _GNU_SOURCE
#include <errno.h>
#include <fcntl.h>
#include <link.h>
#include <signal.h>
#include <stdarg.h>
#include <stdio.h>
#include <stdlib.h>
#include <string.h>
#include <sys/random.h>
#include <sys/socket.h>
#include <sys/stat.h>
#include <sys/syscall.h>
#include <time.h>
#include <unistd.h>

/* FAILS_ON: this call and all later calls of the same function fail. STORMS: this call and two
 * later calls that can be interrupted fail with EINTR. AWAITS: this call first waits until the file
 * REPORT exists. */
enum act {
    PASSES,
    FAILS,
    FAILS_ON,
    STORMS,
    DOES_AND_FAILS,
    DOES_HALF,
    IS_KILLED,
    DOES_AND_IS_KILLED,
    DOES_HALF_AND_IS_KILLED,
    AWAITS
};

/* Calls of the kind OUTER count only if FAILING_CALLS is set. */
enum kind { OTHER = 0, MOVES = 1, WAITS = 2, CLOSES = 4, IS_MEMORY = 8, OUTER = 16 };
enum { STORM = 3, JUMP_SECONDS = 86400, WAIT_MICROSECONDS = 1000 };

static enum act act;
static int error, is_on, jumps;
static long number, counted;
static char report[512], met[32], object[64];
static const char *within, *calls;
/* The address range of a loaded object. Only allocations by this object count. */
static char *object_begins, *object_ends;

static int is_object(struct dl_phdr_info *info, size_t size, void *unused) {
    (void)size, (void)unused;
    if (object[0] ? !strstr(info->dlpi_name, object) : info->dlpi_name[0] != 0) return 0;
    for (int i = 0; i < info->dlpi_phnum; i++) {
        const ElfW(Phdr) *part = &info->dlpi_phdr[i];
        char *begins = (char *)info->dlpi_addr + part->p_vaddr;
        if (part->p_type != PT_LOAD) continue;
        if (!object_begins) object_begins = begins;
        object_ends = begins + part->p_memsz;
    }
    return 1;
}

void failing_goes_on(int goes_on);
void failing_goes_on(int goes_on) { is_on = goes_on; }

/* Sets whether the clock jumps. Only a program with a host in the same process calls this
 * function. */
void failing_jumps(int does_jump);
void failing_jumps(int does_jump) { jumps = does_jump; }

/* Sets the fault of call number `at`. `from` is a part of the name of the object whose allocations
 * count; "" means the program. */
void failing_begins(long at, int how, int with, const char *path, const char *from);
void failing_begins(long at, int how, int with, const char *path, const char *from) {
    number = at;
    act = (enum act)how;
    error = with;
    counted = 0;
    met[0] = 0;
    object_begins = NULL;
    snprintf(report, sizeof report, "%s", path);
    snprintf(object, sizeof object, "%s", from);
    dl_iterate_phdr(is_object, NULL);
}

__attribute__((constructor)) static void begins(void) {
    const char *told = getenv("FAILING");
    char path[512];
    long at;
    int how, with;
    jumps = getenv("FAILING_CLOCK") != NULL;
    within = getenv("FAILING_IN");
    calls = getenv("FAILING_CALLS");
    if (!told || sscanf(told, "%ld %d %d %511s", &at, &how, &with, path) != 4) return;
    failing_begins(at, how, with, path, "");
    is_on = 1;
}

/* Appends a line with the name of a call and of the file that it accesses to a file. */
static void note(const char *path, const char *name, const char *of) {
    char line[600];
    int size = snprintf(line, sizeof line, "%s %s\n", name, of ? of : "");
    int file = (int)syscall(SYS_openat, AT_FDCWD, path, O_WRONLY | O_CREAT | O_APPEND, 0600);
    if (file < 0 || syscall(SYS_write, file, line, size) != size) abort();
    syscall(SYS_close, file);
}

/* Returns whether a call of this kind may have the chosen fault. */
static int may_meet(int kind, const void *caller) {
    int halves = act == DOES_HALF || act == DOES_HALF_AND_IS_KILLED;
    if (kind & IS_MEMORY)
        return (act == FAILS || act == FAILS_ON) && error == ENOMEM &&
               (const char *)caller >= object_begins && (const char *)caller < object_ends;
    if (calls) return !(kind & CLOSES);
    if (kind & OUTER) return 0;
    if (halves) return kind & MOVES;
    if (act == STORMS) return kind & WAITS;
    return !(kind & CLOSES && (act == FAILS || act == FAILS_ON));
}

/* Returns the path of an open file if FAILING_IN is set, or its name or kind if FAILING_CALLS is set,
 * or else "". */
static const char *path_of(int file) {
    static char path[512];
    char link[32];
    if (!within && !calls) return "";
    if (calls && file < 2) return file ? "output" : "input";
    snprintf(link, sizeof link, "/proc/self/fd/%d", file);
    long size = syscall(SYS_readlinkat, AT_FDCWD, link, path, sizeof path - 1);
    path[size < 0 ? 0 : size] = 0;
    if (within) return path;
    const char *slash = strrchr(path, '/');
    return strncmp(path, "socket:", 7) == 0 ? "connection" : slash ? slash + 1 : path;
}

static int is_within(const char *path) {
    size_t size = within ? strlen(within) : 0;
    return !within || (strncmp(path, within, size) == 0 && (path[size] == '/' || !path[size]));
}

/* Counts this call if it may have the fault, and returns its fault. */
static enum act meets(const char *name, int kind, const char *of, const void *caller) {
    if (!is_on || act == PASSES || !may_meet(kind, caller) || !is_within(of)) return PASSES;
    long at = ++counted;
    if (calls) note(calls, name, of);
    int again = (act == FAILS_ON && at > number && strcmp(name, met) == 0) ||
                (act == STORMS && at > number && at < number + STORM);
    if (at != number && !again) return PASSES;
    while (act == AWAITS && syscall(SYS_faccessat, AT_FDCWD, report, F_OK) != 0)
        usleep(WAIT_MICROSECONDS);
    if (at == number) {
        note(report, name, of);
        snprintf(met, sizeof met, "%s", name);
    }
    if (act == IS_KILLED) raise(SIGKILL);
    errno = act == STORMS ? EINTR : error;
    return act;
}

static int is_refused(enum act how) { return how == FAILS || how == FAILS_ON || how == STORMS; }

static long after(enum act how, long result) {
    if (how == DOES_AND_IS_KILLED || how == DOES_HALF_AND_IS_KILLED) raise(SIGKILL);
    if (how != DOES_AND_FAILS) return result;
    errno = error;
    return -1;
}

static size_t half(enum act how, size_t size) {
    return (how == DOES_HALF || how == DOES_HALF_AND_IS_KILLED) && size > 1 ? size / 2 : size;
}

#define MET(type, label, kind, of, real)                                                           \
    {                                                                                              \
        enum act how = meets(label, kind, of, NULL);                                               \
        if (is_refused(how)) return -1;                                                            \
        return (type)after(how, real);                                                             \
    }

#define CALL(type, name, kind, of, words, real) type name words MET(type, #name, kind, of, real)

/* Defines a function twice: with its own name, and with its name for large files. The header
   declares the latter with other types. */
#define CALL_TWICE(type, name, kind, of, words, real)                                              \
    CALL(type, name, kind, of, words, real)                                                        \
    type large_##name words __asm__(#name "64");                                                   \
    type large_##name words MET(type, #name, kind, of, real)

CALL_TWICE(ssize_t, pread, MOVES | WAITS, path_of(file),
           (int file, void *bytes, size_t size, off_t at),
           syscall(SYS_pread64, file, bytes, half(how, size), at))
CALL_TWICE(ssize_t, pwrite, MOVES | WAITS, path_of(file),
           (int file, const void *bytes, size_t size, off_t at),
           syscall(SYS_pwrite64, file, bytes, half(how, size), at))
CALL_TWICE(int, ftruncate, WAITS, path_of(file), (int file, off_t size),
           syscall(SYS_ftruncate, file, size))
CALL_TWICE(int, fstat, OTHER, path_of(file), (int file, struct stat *status),
           syscall(SYS_newfstatat, file, "", status, AT_EMPTY_PATH))
CALL_TWICE(int, fstatat, OTHER, path,
           (int folder, const char *path, struct stat *status, int flags),
           syscall(SYS_newfstatat, folder, path, status, flags))
CALL_TWICE(int, stat, OTHER, path, (const char *path, struct stat *status),
           syscall(SYS_newfstatat, AT_FDCWD, path, status, 0))
CALL_TWICE(int, lstat, OTHER, path, (const char *path, struct stat *status),
           syscall(SYS_newfstatat, AT_FDCWD, path, status, AT_SYMLINK_NOFOLLOW))
CALL(int, statx, OTHER, *path ? path : path_of(folder),
     (int folder, const char *path, int flags, unsigned mask, struct statx *told),
     syscall(SYS_statx, folder, path, flags, mask, told))
CALL(int, fsync, WAITS, path_of(file), (int file), syscall(SYS_fsync, file))
CALL(int, fdatasync, WAITS, path_of(file), (int file), syscall(SYS_fdatasync, file))
CALL(int, syncfs, OTHER, path_of(file), (int file), syscall(SYS_syncfs, file))
CALL(int, flock, WAITS, path_of(file), (int file, int how_locked),
     syscall(SYS_flock, file, how_locked))
CALL(int, close, CLOSES, path_of(file), (int file), syscall(SYS_close, file))
CALL(int, fchmod, OTHER, path_of(file), (int file, mode_t mode),
     syscall(SYS_fchmod, file, mode))
CALL(int, chmod, OTHER, path, (const char *path, mode_t mode),
     syscall(SYS_fchmodat, AT_FDCWD, path, mode))
CALL(int, fchmodat, OTHER, path, (int folder, const char *path, mode_t mode, int flags),
     flags ? (errno = ENOTSUP, -1) : syscall(SYS_fchmodat, folder, path, mode))
CALL(int, mkdir, OTHER, path, (const char *path, mode_t mode),
     syscall(SYS_mkdirat, AT_FDCWD, path, mode))
CALL(int, mkdirat, OTHER, path, (int folder, const char *path, mode_t mode),
     syscall(SYS_mkdirat, folder, path, mode))
CALL(int, unlink, OTHER, path, (const char *path), syscall(SYS_unlinkat, AT_FDCWD, path, 0))
CALL(int, rmdir, OUTER, path, (const char *path),
     syscall(SYS_unlinkat, AT_FDCWD, path, AT_REMOVEDIR))
CALL(int, unlinkat, OTHER, path, (int folder, const char *path, int flags),
     syscall(SYS_unlinkat, folder, path, flags))
CALL(int, remove, OTHER, path, (const char *path), syscall(SYS_unlinkat, AT_FDCWD, path, 0))
CALL(int, rename, OTHER, path, (const char *path, const char *name),
     syscall(SYS_renameat2, AT_FDCWD, path, AT_FDCWD, name, 0))
CALL(int, renameat, OTHER, path, (int folder, const char *path, int into, const char *name),
     syscall(SYS_renameat2, folder, path, into, name, 0))
CALL(int, link, OTHER, name, (const char *path, const char *name),
     syscall(SYS_linkat, AT_FDCWD, path, AT_FDCWD, name, 0))
CALL(int, linkat, OTHER, name,
     (int folder, const char *path, int into, const char *name, int flags),
     syscall(SYS_linkat, folder, path, into, name, flags))
CALL(ssize_t, getrandom, MOVES | WAITS, "", (void *bytes, size_t size, unsigned flags),
     syscall(SYS_getrandom, bytes, half(how, size), flags))
CALL(int, madvise, OTHER, "", (void *page, size_t size, int advice),
     syscall(SYS_madvise, page, size, advice))

CALL(int, socket, OUTER, "", (int domain, int type, int protocol),
     syscall(SYS_socket, domain, type, protocol))
CALL(int, bind, OUTER, "", (int file, const struct sockaddr *address, socklen_t size),
     syscall(SYS_bind, file, address, size))
CALL(int, connect, OUTER, "", (int file, const struct sockaddr *address, socklen_t size),
     syscall(SYS_connect, file, address, size))
CALL(int, listen, OUTER, "", (int file, int length), syscall(SYS_listen, file, length))
CALL(int, accept4, OUTER, "",
     (int file, struct sockaddr *address, socklen_t *size, int flags),
     syscall(SYS_accept4, file, address, size, flags))
CALL(ssize_t, recv, OUTER | MOVES, path_of(file),
     (int file, void *bytes, size_t size, int flags),
     syscall(SYS_recvfrom, file, bytes, half(how, size), flags, NULL, NULL))
CALL(ssize_t, send, OUTER | MOVES, path_of(file),
     (int file, const void *bytes, size_t size, int flags),
     syscall(SYS_sendto, file, bytes, half(how, size), flags, NULL, 0))

/* The standard streams belong to the calling program. Calls on standard error never count. */
static enum act meets_at(const char *name, int file) {
    if (file == 2) return PASSES;
    return meets(name, file < 2 ? MOVES | OUTER : MOVES | WAITS, path_of(file), NULL);
}

ssize_t read(int file, void *bytes, size_t size) {
    enum act how = meets_at("read", file);
    if (is_refused(how)) return -1;
    return after(how, syscall(SYS_read, file, bytes, half(how, size)));
}

ssize_t write(int file, const void *bytes, size_t size) {
    enum act how = meets_at("write", file);
    if (is_refused(how)) return -1;
    return after(how, syscall(SYS_write, file, bytes, half(how, size)));
}

ssize_t __write(int file, const void *bytes, size_t size) { return write(file, bytes, size); }

#define OPEN(name, folder, words)                                                                  \
    int name words {                                                                               \
        va_list rest;                                                                              \
        va_start(rest, flags);                                                                     \
        mode_t mode = flags & (O_CREAT | O_TMPFILE) ? va_arg(rest, mode_t) : 0;                    \
        va_end(rest);                                                                              \
        enum act how = meets(#name, WAITS, path, NULL);                                            \
        if (is_refused(how)) return -1;                                                            \
        long made = syscall(SYS_openat, folder, path, flags, mode);                                \
        if (how == DOES_AND_FAILS && made >= 0) syscall(SYS_close, (int)made);                     \
        return (int)after(how, made);                                                              \
    }

OPEN(open, AT_FDCWD, (const char *path, int flags, ...))
OPEN(open64, AT_FDCWD, (const char *path, int flags, ...))
OPEN(openat, folder, (int folder, const char *path, int flags, ...))
OPEN(openat64, folder, (int folder, const char *path, int flags, ...))

int clock_gettime(clockid_t clock, struct timespec *now) {
    enum act how = meets("clock_gettime", clock == CLOCK_REALTIME ? OTHER : OUTER, "", NULL);
    if (is_refused(how)) return -1;
    long done = syscall(SYS_clock_gettime, clock, now);
    if (jumps && clock == CLOCK_REALTIME)
        now->tv_sec += random() % (2 * JUMP_SECONDS) - JUMP_SECONDS;
    return (int)after(how, done);
}

void *__libc_malloc(size_t size);
void *__libc_calloc(size_t count, size_t size);
void *__libc_realloc(void *old, size_t size);

#define MEMORY(name, words, real)                                                                  \
    void *name words {                                                                             \
        enum act how = meets(#name, IS_MEMORY, "", __builtin_return_address(0));                   \
        return is_refused(how) ? NULL : real;                                                      \
    }

MEMORY(malloc, (size_t size), __libc_malloc(size))
MEMORY(calloc, (size_t count, size_t size), __libc_calloc(count, size))
MEMORY(realloc, (void *old, size_t size), __libc_realloc(old, size))
