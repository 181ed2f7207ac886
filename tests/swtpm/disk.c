/* Simulates the disk to which a library writes its record. The functions of this file replace those
   of the C library. */
#include "caller.h"

#include <errno.h>
#include <string.h>
#include <sys/syscall.h>
#include <unistd.h>

static int is_full, is_broken;

void tell_disk(const char *state) {
    is_broken = strcmp(state, "breaks") == 0;
    is_full = is_broken || strcmp(state, "fills") == 0;
}

/* If the disk is full, a write stores all bytes except the last. */
ssize_t pwrite(int descriptor, const void *bytes, size_t size, off_t at) {
    size_t taken = is_full ? size - (size > 0) : size;
    if (taken > 0 || size == 0) return syscall(SYS_pwrite64, descriptor, bytes, taken, at);
    errno = ENOSPC;
    return -1;
}

int ftruncate(int descriptor, off_t size) {
    if (!is_broken) return (int)syscall(SYS_ftruncate, descriptor, size);
    errno = EIO;
    return -1;
}
