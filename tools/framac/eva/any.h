/* What the hosts call, for Frama-C's plug-in Eva: the system, the library, and swtpm. alarms.sh includes this header
 * before each source. A call has any result that its manual or tpmsim.h allows: it fails, or moves fewer bytes, or
 * returns any bytes. A condition that the caller must meet is a contract. */
#ifndef ANY_H
#define ANY_H
#define _GNU_SOURCE
#include "__fc_builtin.h"
#include "tpmsim.h"
#include <errno.h>
#include <fcntl.h>
#include <limits.h>
#include <stdarg.h>
#include <stdbool.h>
#include <stddef.h>
#include <stdint.h>
#include <stdio.h>
#include <stdlib.h>
#include <string.h>
#include <sys/file.h>
#include <sys/mman.h>
#include <sys/random.h>
#include <sys/socket.h>
#include <sys/stat.h>
#include <sys/types.h>
#include <time.h>
#include <unistd.h>

#ifndef MADV_WIPEONFORK
#define MADV_WIPEONFORK 18
#endif
#ifndef O_DIRECTORY
#define O_DIRECTORY 0200000
#endif
#ifndef SOCK_CLOEXEC
#define SOCK_CLOEXEC 02000000
#endif
#ifndef SOCK_NONBLOCK
#define SOCK_NONBLOCK 04000
#endif
#ifndef CLOCK_BOOTTIME
#define CLOCK_BOOTTIME 7
#endif

/* Any number in a range, and whether something happens. */
#define ANY(least, most) Frama_C_interval(least, most)
#define MAY Frama_C_interval(0, 1)

/*@ predicate is_read(char *bytes, integer size) = \valid_read(bytes + (0 .. size - 1)) &&
  @     \initialized(bytes + (0 .. size - 1));
  @ predicate is_written(char *bytes, integer size) = \valid(bytes + (0 .. size - 1));
  @*/

/*@ requires valid_read_string(text); assigns \nothing; */
void reads_text(const char *text);
void any_bytes(void *bytes, size_t size);
/*@ requires is_written(text, size); */
int any_text(char *text, size_t size);
extern char formatted[64];

/* The text that is formatted is any text; its arguments are checked. */
#define snprintf(text, size, ...)                                                                                  \
    ((void)snprintf(formatted, sizeof formatted, __VA_ARGS__), any_text((text), (size)))
#define vsnprintf(text, size, format, words) any_text((text), (size))
#define dprintf(file, ...) ((void)snprintf(formatted, sizeof formatted, __VA_ARGS__), ANY(-1, INT_MAX))
#define fprintf(stream, ...) ((void)snprintf(formatted, sizeof formatted, __VA_ARGS__))
#define printf(...) ((void)snprintf(formatted, sizeof formatted, __VA_ARGS__), ANY(-1, INT_MAX))
#define fputs(text, stream) (reads_text(text), ANY(-1, INT_MAX))
#define fflush(stream) ANY(-1, 0)

/* Calls that Frama-C's own headers do not declare, or declare without a condition: then a second declaration would add
 * none, so the call gets another name. */
/*@ requires is_read((char *)bytes, size); */
ssize_t any_pwrite(int file, const void *bytes, size_t size, off_t place);
#define pwrite any_pwrite
/*@ requires is_written((char *)bytes, size); */
ssize_t any_pread(int file, void *bytes, size_t size, off_t place);
#define pread any_pread
/*@ requires is_written((char *)bytes, size); */
ssize_t any_getrandom(void *bytes, size_t size, unsigned flags);
#define getrandom any_getrandom
/*@ requires valid_read_string(path); */
int any_open(const char *path, int flags, ...);
#define open any_open
/*@ requires valid_read_string(path); */
int any_openat(int folder, const char *path, int flags, ...);
#define openat any_openat
/*@ requires valid_read_string(path); */
int any_mkdir(const char *path, mode_t mode);
#define mkdir any_mkdir
/*@ requires valid_read_string(path); */
int any_unlink(const char *path);
#define unlink any_unlink
/*@ requires valid_read_string(path); */
int any_unlinkat(int folder, const char *path, int flags);
#define unlinkat any_unlinkat
/*@ requires valid_read_string(path); */
int any_fchmodat(int folder, const char *path, mode_t mode, int flags);
#define fchmodat any_fchmodat
/*@ requires valid_read_string(path) && valid_read_string(name); */
int any_rename(const char *path, const char *name);
#define rename any_rename
/*@ requires valid_read_string(path) && valid_read_string(name); */
int any_renameat(int folder, const char *path, int into, const char *name);
#define renameat any_renameat
/*@ requires valid_read_string(path) && valid_read_string(name); */
int any_linkat(int folder, const char *path, int into, const char *name, int flags);
#define linkat any_linkat
/*@ requires \valid(status); */
int any_fstat(int file, struct stat *status);
#define fstat any_fstat
/*@ requires valid_read_string(path) && \valid(status); */
int any_fstatat(int folder, const char *path, struct stat *status, int flags);
#define fstatat any_fstatat
/*@ requires valid_read_string(path) && \valid(status); */
int any_lstat(const char *path, struct stat *status);
#define lstat any_lstat
/*@ requires \valid(now); */
int any_clock_gettime(clockid_t clock, struct timespec *now);
#define clock_gettime any_clock_gettime
/*@ requires valid_read_string(text); */
char *any_strdup(const char *text);
#define strdup any_strdup
/*@ requires valid_read_string(text); */
char *any_strndup(const char *text, size_t most);
#define strndup any_strndup
/*@ requires is_read((char *)value, size); */
int any_setsockopt(int socket, int level, int name, const void *value, socklen_t size);
#define setsockopt any_setsockopt
int flock(int file, int operation);
int fdatasync(int file);
int syncfs(int file);
int madvise(void *page, size_t size, int advice);
long syscall(long number, ...);
const char *strerrordesc_np(int number);
/*@ requires is_written((char *)bytes, size); */
void explicit_bzero(void *bytes, size_t size);
void any_fork(void);
/*@ requires is_read((char *)bytes, size); */
ssize_t any_send(int socket, const void *bytes, size_t size, int flags);
#define send any_send
/*@ requires is_written((char *)bytes, size); */
ssize_t any_recv(int socket, void *bytes, size_t size, int flags);
#define recv any_recv
int any_socket(int family, int type, int protocol);
#define socket any_socket
/*@ requires is_read((char *)address, size); */
int any_bind(int socket, const struct sockaddr *address, socklen_t size);
#define bind any_bind
int any_listen(int socket, int most);
#define listen any_listen
/*@ requires \valid(size) && \initialized(size) && is_written((char *)address, *size); */
int any_getsockname(int socket, struct sockaddr *address, socklen_t *size);
#define getsockname any_getsockname
int any_accept(int socket, struct sockaddr *address, socklen_t *size, int flags);
#define accept4 any_accept
/*@ requires valid_read_string(text); requires is_written((char *)address, family == AF_INET ? 4 : 16); */
int any_inet_pton(int family, const char *text, void *address);
#define inet_pton any_inet_pton
/*@ requires is_read((char *)address, family == AF_INET ? 4 : 16) && is_written(text, size); */
const char *any_inet_ntop(int family, const void *address, char *text, socklen_t size);
#define inet_ntop any_inet_ntop
FILE *any_open_memstream(char **text, size_t *size);
#define open_memstream any_open_memstream
int any_fclose(FILE *stream);
#define fclose any_fclose
struct option;
int any_getopt_long(int count, char *const words[], const char *letters, const struct option *options, int *found);
#define getopt_long any_getopt_long
extern char *any_optarg;
extern int any_optind;
#define optarg any_optarg
#define optind any_optind

/* tpmsim.h: the conditions that the caller must meet. */
extern char some_device, some_keeper;
/*@ predicate is_device(tpmsim *device) = \valid(device) && \initialized(&device->private_) &&
  @     (device->private_ == \null || device->private_ == &some_device);
  @ predicate is_keeper(tpmsim_keeper *keeper) = \valid(keeper) && \initialized(&keeper->private_) &&
  @     (keeper->private_ == \null || keeper->private_ == &some_keeper);
  @ predicate is_text(uint8_t *text, integer size) = text != \null && is_read((char *)text, size);
  @ predicate is_buffer(uint8_t *buffer, integer size) = buffer != \null && is_written((char *)buffer, size);
  @*/
/*@ requires is_device(device); requires is_text(random, 256); */
uint8_t tpmsim_manufacture(tpmsim *device, const uint8_t random[256]);
/*@ requires is_device(device); requires is_text(buffer, size); requires is_text(random, 256);
  @ requires is_buffer(response, 4096); requires \valid(answered); */
uint8_t tpmsim_execute(tpmsim *device, const uint8_t *buffer, size_t size, uint8_t locality, uint32_t elapsed_ms,
                       const uint8_t random[256], uint8_t response[4096], tpmsim_answered *answered);
/*@ requires is_device(device); requires is_text(buffer, size); requires is_text(random, 256);
  @ requires is_buffer(response, 4096); requires \valid(answered); */
uint8_t tpmsim_complete(tpmsim *device, const uint8_t *buffer, size_t size, uint8_t locality, uint32_t elapsed_ms,
                        const uint8_t random[256], uint8_t response[4096], tpmsim_answered *answered);
/*@ requires is_device(device); requires is_text(buffer, size); requires is_text(random, 256);
  @ requires is_buffer(response, 4096); requires \valid(answered);
  @ requires is_buffer(record, TPMSIM_RECORD_ROOM); requires \valid(record_size); */
uint8_t tpmsim_journal_execute(tpmsim *device, const uint8_t *buffer, size_t size, uint8_t locality, uint64_t now_ms,
                               uint8_t completes, const uint8_t random[256], uint8_t response[4096],
                               tpmsim_answered *answered, uint8_t record[TPMSIM_RECORD_ROOM], size_t *record_size);
/*@ requires is_device(device); */
uint8_t tpmsim_power_cycle(tpmsim *device);
/*@ requires is_device(device); requires is_buffer(buffer, size); */
size_t tpmsim_save(tpmsim *device, uint8_t *buffer, size_t size);
/*@ requires is_device(device); requires is_buffer(buffer, size); */
size_t tpmsim_kept(tpmsim *device, uint8_t *buffer, size_t size);
/*@ requires is_device(device); requires is_buffer(buffer, size); */
size_t tpmsim_snapshot(tpmsim *device, uint8_t *buffer, size_t size);
/*@ requires is_device(device); requires is_buffer(buffer, size); */
size_t tpmsim_journal_begin(tpmsim *device, uint64_t now_ms, uint8_t *buffer, size_t size);
/*@ requires is_device(device); requires is_buffer(buffer, size); */
size_t tpmsim_journal_checkpoint(tpmsim *device, uint64_t now_ms, uint8_t *buffer, size_t size);
/*@ requires is_device(device); requires is_text(image, size); */
uint8_t tpmsim_open(tpmsim *device, const uint8_t *image, size_t size);
/*@ requires is_device(device); requires is_text(text, size); */
uint8_t tpmsim_restore(tpmsim *device, const uint8_t *text, size_t size);
/*@ requires is_device(device); requires is_text(text, size); requires \valid(taken); */
uint8_t tpmsim_journal_open(tpmsim *device, const uint8_t *text, size_t size, size_t *taken);
/*@ requires is_device(device); */
void tpmsim_free(tpmsim *device);
/*@ requires is_keeper(keeper); */
uint8_t tpmsim_keeper_new(tpmsim_keeper *keeper, uint8_t force, uint64_t limit);
/*@ requires is_keeper(keeper); */
uint8_t tpmsim_keeper_cuts(tpmsim_keeper *keeper, uint8_t cuts);
/*@ requires is_keeper(keeper); requires is_text(text, size); */
uint8_t tpmsim_keeper_begin(tpmsim_keeper *keeper, uint8_t job, const uint8_t *text, size_t size);
/*@ requires is_keeper(keeper); requires is_text(buffer, size); requires is_text(random, 256); */
uint8_t tpmsim_keeper_execute(tpmsim_keeper *keeper, const uint8_t *buffer, size_t size, uint8_t locality,
                              uint64_t now_ms, uint8_t completes, const uint8_t random[256]);
/*@ requires is_keeper(keeper); */
uint8_t tpmsim_keeper_power(tpmsim_keeper *keeper, uint64_t now_ms, uint64_t start);
/*@ requires is_keeper(keeper); requires is_text(content, size); */
uint8_t tpmsim_keeper_seed(tpmsim_keeper *keeper, uint8_t seed, uint64_t now_ms, uint64_t start,
                           const uint8_t *content, size_t size);
/*@ requires is_keeper(keeper); requires is_text(state, size); */
uint8_t tpmsim_keeper_restore(tpmsim_keeper *keeper, uint64_t now_ms, uint64_t start, const uint8_t *state,
                              size_t size);
/*@ requires is_keeper(keeper); requires is_buffer(buffer, size); */
size_t tpmsim_keeper_state(tpmsim_keeper *keeper, uint8_t *buffer, size_t size);
/*@ requires is_keeper(keeper); requires \valid(ask); */
void tpmsim_keeper_ask(tpmsim_keeper *keeper, tpmsim_ask *ask);
/*@ requires is_keeper(keeper); requires is_buffer(buffer, size); */
size_t tpmsim_keeper_text(tpmsim_keeper *keeper, uint8_t *buffer, size_t size);
/*@ requires is_keeper(keeper); requires is_buffer(response, 4096); requires \valid(answered); */
uint8_t tpmsim_keeper_answer(tpmsim_keeper *keeper, uint8_t response[4096], tpmsim_answered *answered);
/*@ requires is_keeper(keeper); requires is_text(bytes, size); */
void tpmsim_keeper_next(tpmsim_keeper *keeper, uint8_t got, uint64_t file, uint64_t file_size, const uint8_t *bytes,
                        size_t size);
/*@ requires is_written(buffer, size); */
size_t tpmsim_fault_text(uint8_t fault, char *buffer, size_t size);
/*@ requires is_keeper(keeper); */
void tpmsim_keeper_free(tpmsim_keeper *keeper);
#endif
