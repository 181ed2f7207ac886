#define _GNU_SOURCE
#include "transfer.h"
#include <errno.h>
#include <unistd.h>

bool transfer_write(int file, const uint8_t *bytes, size_t size, off_t place) {
    size_t all = 0;
    /*@ loop invariant 0 <= all <= size;
      @ loop invariant \forall integer i; place <= i < place + all ==>
      @     on_disk[i] == bytes[i - place];
      @ loop assigns all, __fc_errno, on_disk[place .. place + size - 1];
      @*/
    while (all < size) {
        ssize_t moved = pwrite(file, bytes + all, size - all, place + (off_t)all);
        if (moved < 0 && errno == EINTR) continue;
        if (moved == 0) errno = EIO;
        if (moved <= 0) return false;
        all += (size_t)moved;
    }
    return true;
}

ssize_t transfer_read(int file, uint8_t *room, size_t size, off_t place) {
    size_t all = 0;
    /*@ loop invariant 0 <= all <= size;
      @ loop invariant \forall integer i; place <= i < place + all ==>
      @     room[i - place] == on_disk[i];
      @ loop assigns all, __fc_errno, room[0 .. size - 1];
      @*/
    while (all < size) {
        ssize_t moved = pread(file, room + all, size - all, place + (off_t)all);
        if (moved < 0 && errno == EINTR) continue;
        if (moved < 0) return -1;
        if (moved == 0) break;
        all += (size_t)moved;
    }
    return (ssize_t)all;
}
