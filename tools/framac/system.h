/* What the hosts' functions call, for Frama-C's plug-in WP: the system and the library, with the contracts that they are
 * trusted to keep. prove.sh includes this header before each source. The contracts say what the manuals and tpmsim.h
 * say. Variables stand for what is not in the memory of the process, or not in one variable of C. */
#ifndef SYSTEM_H
#define SYSTEM_H
#include "tpmsim.h"
#include <errno.h>
#include <fcntl.h>
#include <stdbool.h>
#include <stddef.h>
#include <stdint.h>
#include <string.h>
#include <sys/file.h>
#include <sys/random.h>
#include <sys/socket.h>
#include <sys/types.h>
#include <unistd.h>

#ifndef O_DIRECTORY
#define O_DIRECTORY 0200000
#endif

/* The bytes of the only open file. */
enum { DISK_MOST = 1 << 30 };
extern uint8_t on_disk[DISK_MOST];

/* The memory that malloc returns. */
enum { HEAP_MOST = 1 << 30 };
extern uint8_t on_heap[HEAP_MOST];
/*@ predicate is_block(uint8_t *block, integer size) =
  @     \exists integer at; 0 <= at && at + size <= HEAP_MOST && block == on_heap + at;
  @*/

/*@ requires \valid_read(bytes + (0 .. size - 1)) && 0 <= place && place + size <= DISK_MOST;
  @ requires \separated(bytes + (0 .. size - 1), on_disk + (0 .. DISK_MOST - 1), &__fc_errno);
  @ assigns __fc_errno, \result, on_disk[place .. place + size - 1];
  @ ensures -1 <= \result <= size;
  @ ensures \forall integer i; place <= i < place + \result ==> on_disk[i] == bytes[i - place];
  @*/
ssize_t system_pwrite(int file, const uint8_t *bytes, size_t size, off_t place);
#define pwrite system_pwrite

/*@ requires \valid(bytes + (0 .. size - 1)) && 0 <= place && place + size <= DISK_MOST;
  @ requires \separated(bytes + (0 .. size - 1), on_disk + (0 .. DISK_MOST - 1), &__fc_errno);
  @ assigns __fc_errno, \result, bytes[0 .. size - 1];
  @ ensures -1 <= \result <= size;
  @ ensures \forall integer i; place <= i < place + \result ==> bytes[i - place] == on_disk[i];
  @*/
ssize_t system_pread(int file, uint8_t *bytes, size_t size, off_t place);
#define pread system_pread

/*@ axiomatic Random {
  @     predicate random_from_system{L}(uint8_t *bytes, integer size) reads bytes[0 .. size - 1];
  @     axiom no_bytes{L}: \forall uint8_t *bytes; random_from_system(bytes, 0);
  @ }
  @*/

/*@ requires \valid(bytes + (0 .. size - 1));
  @ assigns __fc_errno, \result, bytes[0 .. size - 1];
  @ ensures -1 <= \result <= size;
  @ ensures \result == size ==> random_from_system(bytes, size);
  @*/
ssize_t system_getrandom(uint8_t *bytes, size_t size, unsigned flags);
#define getrandom system_getrandom

/*@ requires \valid(to + (0 .. size - 1)) && \valid_read(from + (0 .. size - 1));
  @ requires \separated(to + (0 .. size - 1), from + (0 .. size - 1));
  @ assigns to[0 .. size - 1];
  @ ensures \forall integer i; 0 <= i < size ==> to[i] == from[i];
  @*/
void system_copy(uint8_t *to, const uint8_t *from, size_t size);
#define memcpy system_copy

/* Stands for the device, its memory and its files. */
extern int device_state;

/* The descriptor with which this process holds the lock; -1 if it does not hold it. */
extern int lock_holder;

/*@ requires file >= 0;
  @ assigns lock_holder, __fc_errno, \result;
  @ ensures \result == 0 || (\result == -1 && lock_holder == \old(lock_holder));
  @ ensures \result == 0 && operation == LOCK_EX ==> lock_holder == file;
  @ ensures \result == 0 && operation == LOCK_UN ==> lock_holder == -1;
  @*/
int system_flock(int file, int operation);
#define flock system_flock

/*@ requires file >= 0;
  @ assigns lock_holder, __fc_errno, \result;
  @ ensures lock_holder == (file == \old(lock_holder) ? -1 : \old(lock_holder));
  @*/
int system_close(int file);
#define close system_close

/* The task that the keeper has asked for and that has no result yet; the task that the host did last, with its
 * result; and the fault with which the keeper ended the call. */
enum { NO_TASK = -1 };
extern int asked_task, done_task, task_result, call_fault;

/*@ requires \valid(ask) && asked_task == NO_TASK;
  @ assigns *ask, asked_task, call_fault;
  @ ensures asked_task == ask->task && call_fault == ask->fault;
  @*/
void tpmsim_keeper_ask(tpmsim_keeper *keeper, tpmsim_ask *ask);

/*@ requires asked_task != NO_TASK && asked_task != TPMSIM_TASK_NOTHING;
  @ requires done_task == asked_task && got == task_result;
  @ requires \valid_read(bytes + (0 .. size - 1));
  @ assigns asked_task;
  @ ensures asked_task == NO_TASK;
  @*/
void tpmsim_keeper_next(tpmsim_keeper *keeper, uint8_t got, uint64_t file, uint64_t file_size,
                        const uint8_t *bytes, size_t size);

/* The last command of which a board was asked, its locality, and the response. */
extern const uint8_t *asked_command;
extern size_t asked_size, answered_size;
extern uint8_t asked_locality, answered[4096];

/* The callbacks of swtpm, and what they last stored. */
extern int swtpm_called;
extern const unsigned char *stored_bytes;
extern size_t stored_size;

/*@ requires \valid(data) && \valid(length);
  @ assigns *data, *length, swtpm_called, \result;
  @ ensures \result == 0 && *data != \null ==> is_block(*data, *length);
  @*/
unsigned swtpm_load(unsigned char **data, uint32_t *length, uint32_t number, const char *name);

/*@ requires \valid_read(data + (0 .. length - 1)) && number == 0;
  @ assigns swtpm_called, stored_bytes, stored_size, \result;
  @ ensures \result == 0 ==> stored_bytes == data && stored_size == length;
  @*/
unsigned swtpm_store(const unsigned char *data, uint32_t length, uint32_t number, const char *name);

/* The text that was last written to a record; the states of permanent.c and randomness.c. */
extern const uint8_t *written_text;
extern size_t written_size;
extern int permanent_state, random_state;

/* 1 after what the device keeps without power was stored. */
/*@ ghost extern int permanent_is_kept; */

/* What the device keeps without power, except its clock. */
extern uint8_t device_kept[32768];
extern size_t device_kept_size;

/*@ requires \valid(device) && \valid(buffer + (0 .. size - 1));
  @ assigns buffer[0 .. size - 1];
  @ ensures \result == device_kept_size;
  @ ensures \result <= size ==> \forall integer i; 0 <= i < \result ==> buffer[i] == device_kept[i];
  @*/
size_t tpmsim_kept(tpmsim *device, uint8_t *buffer, size_t size);

/*@ requires \valid(device) && \valid(buffer + (0 .. size - 1));
  @ assigns buffer[0 .. size - 1];
  @ ensures \result <= 28361;
  @*/
size_t tpmsim_save(tpmsim *device, uint8_t *buffer, size_t size);

/*@ requires \valid_read(one + (0 .. size - 1)) && \valid_read(other + (0 .. size - 1));
  @ assigns \nothing;
  @ ensures \result == 0 <==> (\forall integer i; 0 <= i < size ==> one[i] == other[i]);
  @*/
int system_compare(const uint8_t *one, const uint8_t *other, size_t size);
#define memcmp system_compare

/*@ predicate is_executable(tpmsim *device, uint8_t *buffer, integer size, uint8_t *random, uint8_t *response,
  @     tpmsim_answered *answered) = \valid(device) && \valid_read(buffer + (0 .. size - 1)) &&
  @     \valid_read(random + (0 .. 255)) && \valid(response + (0 .. 4095)) && \valid(answered);
  @*/

/*@ requires is_executable(device, buffer, size, random, response, answered);
  @ assigns *device, device_state, response[0 .. 4095], *answered;
  @ ensures \result == TPMSIM_DONE ==> 10 <= answered->size <= 4096 && answered->drawn <= 256;
  @*/
uint8_t tpmsim_execute(tpmsim *device, const uint8_t *buffer, size_t size, uint8_t locality,
                       uint32_t elapsed_ms, const uint8_t random[256], uint8_t response[4096],
                       tpmsim_answered *answered);

/*@ requires is_executable(device, buffer, size, random, response, answered);
  @ assigns *device, device_state, response[0 .. 4095], *answered;
  @ ensures \result == TPMSIM_DONE ==> 10 <= answered->size <= 4096 && answered->drawn <= 256;
  @*/
uint8_t tpmsim_complete(tpmsim *device, const uint8_t *buffer, size_t size, uint8_t locality,
                        uint32_t elapsed_ms, const uint8_t random[256], uint8_t response[4096],
                        tpmsim_answered *answered);

/*@ requires is_executable(device, buffer, size, random, response, answered);
  @ requires \valid(record + (0 .. TPMSIM_RECORD_ROOM - 1)) && \valid(record_size);
  @ assigns *device, device_state, response[0 .. 4095], *answered, record[0 .. TPMSIM_RECORD_ROOM - 1], *record_size;
  @ ensures \result == TPMSIM_DONE ==> 10 <= answered->size <= 4096 && answered->drawn <= 256;
  @ ensures \result == TPMSIM_DONE ? *record_size <= TPMSIM_RECORD_ROOM : *record_size == \old(*record_size);
  @*/
uint8_t tpmsim_journal_execute(tpmsim *device, const uint8_t *buffer, size_t size, uint8_t locality,
                               uint64_t now_ms, uint8_t completes, const uint8_t random[256],
                               uint8_t response[4096], tpmsim_answered *answered,
                               uint8_t record[TPMSIM_RECORD_ROOM], size_t *record_size);

/*@ requires \valid(to + (0 .. size - 1)) && \valid_read(from + (0 .. size - 1));
  @ assigns to[0 .. size - 1];
  @*/
void system_move(uint8_t *to, const uint8_t *from, size_t size);
#define memmove system_move

/*@ requires \valid_read(bytes + (0 .. size - 1));
  @ assigns __fc_errno, \result;
  @ ensures -1 <= \result <= size;
  @*/
ssize_t system_send(int socket, const uint8_t *bytes, size_t size, int flags);
#define send system_send

/*@ requires \valid(bytes + (0 .. size - 1));
  @ assigns __fc_errno, \result, bytes[0 .. size - 1];
  @ ensures -1 <= \result <= size;
  @*/
ssize_t system_recv(int socket, uint8_t *bytes, size_t size, int flags);
#define recv system_recv
#endif
