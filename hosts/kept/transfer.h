/* Reads and writes any number of bytes at an offset of a file. */
#ifndef TRANSFER_H
#define TRANSFER_H
#include <stdbool.h>
#include <stddef.h>
#include <stdint.h>
#include <sys/types.h>

/*@ predicate within(integer place, integer size) = 0 <= place && place + size <= DISK_MOST; */

/* Writes all bytes at an offset, with one system call if the system accepts them all. On failure,
   returns false and sets errno. */
/*@ requires \valid_read(bytes + (0 .. size - 1)) && within(place, size);
  @ requires \separated(bytes + (0 .. size - 1), on_disk + (0 .. DISK_MOST - 1), &__fc_errno);
  @ assigns __fc_errno, on_disk[place .. place + size - 1];
  @ ensures \result ==> \forall integer i; place <= i < place + size ==>
  @     on_disk[i] == bytes[i - place];
  @*/
bool transfer_write(int file, const uint8_t *bytes, size_t size, off_t place);

/* Reads this many bytes, or up to the end of the file. Returns the number of bytes read. On
 * failure, returns -1 and sets errno. */
/*@ requires \valid(room + (0 .. size - 1)) && within(place, size);
  @ requires \separated(room + (0 .. size - 1), on_disk + (0 .. DISK_MOST - 1), &__fc_errno);
  @ assigns __fc_errno, room[0 .. size - 1];
  @ ensures -1 <= \result <= size;
  @ ensures \forall integer i; place <= i < place + \result ==> room[i - place] == on_disk[i];
  @*/
ssize_t transfer_read(int file, uint8_t *room, size_t size, off_t place);

#endif
