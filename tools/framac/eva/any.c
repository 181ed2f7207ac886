/* The results of the calls in any.h. */
#include "any.h"
#include <getopt.h>
#include <signal.h>
#include <sys/epoll.h>
#include <sys/resource.h>
#undef snprintf

char formatted[64], some_device, some_keeper;

/* ---- the system */

void any_bytes(void *bytes, size_t size) {
    if (size > 0) Frama_C_make_unknown(bytes, size);
}

int any_text(char *text, size_t size) {
    any_bytes(text, size);
    if (size > 0) text[size - 1] = 0;
    return ANY(0, INT_MAX);
}

static int fails(void) {
    errno = ANY(1, 200);
    return -1;
}

static int is_done(void) { return MAY ? 0 : fails(); }

static int file_or_failure(void) { return MAY ? ANY(0, INT_MAX) : fails(); }

static ssize_t moved(size_t size) {
    if (MAY) return fails();
    return (ssize_t)Frama_C_size_t_interval(0, size < SSIZE_MAX ? size : SSIZE_MAX);
}

static ssize_t moved_into(void *bytes, size_t size) {
    ssize_t count = moved(size);
    if (count > 0) any_bytes(bytes, (size_t)count);
    return count;
}

ssize_t pwrite(int file, const void *bytes, size_t size, off_t place) { return moved(size); }
ssize_t pread(int file, void *bytes, size_t size, off_t place) { return moved_into(bytes, size); }
ssize_t getrandom(void *bytes, size_t size, unsigned flags) { return moved_into(bytes, size); }
int fsync(int file) { return is_done(); }
int fdatasync(int file) { return is_done(); }
int syncfs(int file) { return is_done(); }
int flock(int file, int operation) { return is_done(); }
int ftruncate(int file, off_t size) { return is_done(); }
int fchmod(int file, mode_t mode) { return is_done(); }
int close(int file) { return is_done(); }

int open(const char *path, int flags, ...) { return file_or_failure(); }
int openat(int folder, const char *path, int flags, ...) { return file_or_failure(); }
int mkdir(const char *path, mode_t mode) { return is_done(); }
int unlink(const char *path) { return is_done(); }
int unlinkat(int folder, const char *path, int flags) { return is_done(); }
int fchmodat(int folder, const char *path, mode_t mode, int flags) { return is_done(); }
long syscall(long number, ...) { return is_done(); }
int rename(const char *path, const char *name) { return is_done(); }
int renameat(int folder, const char *path, int into, const char *name) { return is_done(); }
int linkat(int folder, const char *path, int into, const char *name, int flags) { return is_done(); }

int fstat(int file, struct stat *status) {
    if (MAY) return fails();
    any_bytes(status, sizeof *status);
    if (status->st_size < 0) status->st_size = 0;
    return 0;
}

int fstatat(int folder, const char *path, struct stat *status, int flags) { return fstat(folder, status); }
int lstat(const char *path, struct stat *status) { return fstat(0, status); }

int clock_gettime(clockid_t clock, struct timespec *now) {
    if (MAY) return fails();
    any_bytes(now, sizeof *now);
    now->tv_nsec = ANY(0, 999999999);
    return 0;
}

/* Some pages, one for each mark; a fork clears some. */
static unsigned char pages[4];

void *mmap(void *at, size_t size, int protection, int flags, int file, off_t place) {
    if (MAY) return MAP_FAILED;
    unsigned char *page = pages + ANY(0, 3);
    *page = 0;
    return page;
}

int munmap(void *page, size_t size) { return 0; }
int madvise(void *page, size_t size, int advice) { return is_done(); }

void any_fork(void) {
    for (int i = 0; i < 4; i++)
        if (MAY) pages[i] = 0;
}

static char sentence[64], variable[256];

const char *strerrordesc_np(int number) {
    if (MAY) return NULL;
    any_text(sentence, sizeof sentence);
    return sentence;
}

char *strerror(int number) {
    any_text(sentence, sizeof sentence);
    return sentence;
}

static char program_name[256] = "a";
char *program_invocation_short_name = program_name;

char *getenv(const char *name) {
    reads_text(name);
    if (MAY) return NULL;
    any_text(variable, sizeof variable);
    return variable;
}

void explicit_bzero(void *bytes, size_t size) { memset(bytes, 0, size); }

char *strdup(const char *text) {
    size_t size = strlen(text);
    char *copy = malloc(size + 1);
    if (copy) memcpy(copy, text, size + 1);
    return copy;
}

char *strndup(const char *text, size_t most) {
    size_t size = strnlen(text, most);
    char *copy = malloc(size + 1);
    if (!copy) return NULL;
    memcpy(copy, text, size);
    copy[size] = 0;
    return copy;
}

int setsockopt(int socket, int level, int name, const void *value, socklen_t size) { return is_done(); }
ssize_t recv(int socket, void *bytes, size_t size, int flags) { return moved_into(bytes, size); }
ssize_t send(int socket, const void *bytes, size_t size, int flags) { return moved(size); }

int any_socket(int family, int type, int protocol) { return file_or_failure(); }
int any_bind(int socket, const struct sockaddr *address, socklen_t size) { return is_done(); }
int any_listen(int socket, int most) { return is_done(); }
int any_accept(int socket, struct sockaddr *address, socklen_t *size, int flags) { return file_or_failure(); }

/* A name may be longer than the buffer. Then the size is that of the name. */
int any_getsockname(int socket, struct sockaddr *address, socklen_t *size) {
    if (MAY) return fails();
    any_bytes(address, *size);
    *size = (socklen_t)ANY(0, 128);
    return 0;
}

int any_inet_pton(int family, const char *text, void *address) {
    if (MAY) return 0;
    any_bytes(address, family == AF_INET ? 4 : 16);
    return 1;
}

const char *any_inet_ntop(int family, const void *address, char *text, socklen_t size) {
    if (MAY) return NULL;
    any_text(text, size);
    return text;
}

/* The only open stream, whose text is allocated when it is closed. */
static char **stream_text;
static FILE stream;

FILE *any_open_memstream(char **text, size_t *size) {
    if (MAY) return NULL;
    stream_text = text;
    return &stream;
}

int any_fclose(FILE *closed) {
    *stream_text = malloc(64);
    if (!*stream_text) return -1;
    any_text(*stream_text, 64);
    return MAY ? 0 : -1;
}

int getrlimit(int resource, struct rlimit *most) {
    if (MAY) return fails();
    any_bytes(most, sizeof *most);
    return 0;
}

char *any_optarg;
int any_optind = 1;
static char option_word[64];
enum { OPTIONS_MOST = 16 };

/* Any of the options, with its word if it needs one; no option, or one that is not in the list. */
int any_getopt_long(int count, char *const words[], const char *letters, const struct option *options, int *found) {
    any_optind = ANY(1, count);
    any_optarg = NULL;
    for (int i = 0; i < OPTIONS_MOST && options[i].name; i++) {
        if (MAY) continue;
        any_text(option_word, sizeof option_word);
        if (options[i].has_arg == required_argument) any_optarg = option_word;
        return options[i].val;
    }
    return MAY ? -1 : '?';
}

int sigprocmask(int how, const sigset_t *set, sigset_t *before) {
    if (MAY) return fails();
    any_bytes(before, sizeof *before);
    return 0;
}

int sigaction(int number, const struct sigaction *action, struct sigaction *before) { return is_done(); }

/* What was given with a socket that is watched. A socket is no longer watched after it is closed. */
enum { SOCKETS = 3 };
static void *watched[SOCKETS];

int epoll_create1(int flags) { return file_or_failure(); }

int epoll_ctl(int epoll, int how, int socket, struct epoll_event *event) {
    if (MAY) return fails();
    watched[ANY(0, SOCKETS - 1)] = event->data.ptr;
    return 0;
}

int epoll_pwait(int epoll, struct epoll_event *events, int most, int milliseconds, const sigset_t *mask) {
    if (MAY) return fails();
    int found = ANY(0, most);
    for (int i = 0; i < found; i++) events[i].data.ptr = watched[ANY(0, SOCKETS - 1)];
    return found;
}

/* ---- the library */

static uint8_t opened(tpmsim *device) {
    if (MAY) return (uint8_t)ANY(3, 21);
    device->private_ = &some_device;
    return TPMSIM_DONE;
}

static void answer(uint8_t *response, tpmsim_answered *answered) {
    any_bytes(answered, sizeof *answered);
    answered->size = Frama_C_size_t_interval(10, 4096);
    answered->drawn = Frama_C_size_t_interval(0, 256);
    any_bytes(response, 10);
    any_bytes(response, answered->size);
}

static uint8_t executed(tpmsim *device, uint8_t locality, uint8_t *response, tpmsim_answered *answered) {
    if (!device->private_) return TPMSIM_NO_DEVICE;
    if (locality > 4) return TPMSIM_NO_LOCALITY;
    answer(response, answered);
    return TPMSIM_DONE;
}

/* A text of the device, if it has one and the text fits. */
static size_t text_of(const tpmsim *device, uint8_t *buffer, size_t size, size_t most) {
    if (!device->private_) return 0;
    size_t written = Frama_C_size_t_interval(42, most);
    if (written <= size) any_bytes(buffer, written);
    return written;
}

uint8_t tpmsim_manufacture(tpmsim *device, const uint8_t random[256]) {
    if (MAY) return TPMSIM_NO_MEMORY;
    device->private_ = &some_device;
    return TPMSIM_DONE;
}

uint8_t tpmsim_execute(tpmsim *device, const uint8_t *buffer, size_t size, uint8_t locality, uint32_t elapsed_ms,
                       const uint8_t random[256], uint8_t response[4096], tpmsim_answered *answered) {
    return executed(device, locality, response, answered);
}

uint8_t tpmsim_complete(tpmsim *device, const uint8_t *buffer, size_t size, uint8_t locality, uint32_t elapsed_ms,
                        const uint8_t random[256], uint8_t response[4096], tpmsim_answered *answered) {
    return executed(device, locality, response, answered);
}

uint8_t tpmsim_journal_execute(tpmsim *device, const uint8_t *buffer, size_t size, uint8_t locality, uint64_t now_ms,
                               uint8_t completes, const uint8_t random[256], uint8_t response[4096],
                               tpmsim_answered *answered, uint8_t record[TPMSIM_RECORD_ROOM], size_t *record_size) {
    uint8_t told = executed(device, locality, response, answered);
    if (told != TPMSIM_DONE) return told;
    *record_size = Frama_C_size_t_interval(1, TPMSIM_RECORD_ROOM);
    any_bytes(record, *record_size);
    return told;
}

uint8_t tpmsim_power_cycle(tpmsim *device) { return device->private_ ? TPMSIM_DONE : TPMSIM_NO_DEVICE; }
size_t tpmsim_save(tpmsim *device, uint8_t *buffer, size_t size) { return text_of(device, buffer, size, 28361); }
size_t tpmsim_kept(tpmsim *device, uint8_t *buffer, size_t size) { return text_of(device, buffer, size, 28319); }

size_t tpmsim_snapshot(tpmsim *device, uint8_t *buffer, size_t size) {
    return text_of(device, buffer, size, TPMSIM_STATE_SIZE);
}

size_t tpmsim_journal_begin(tpmsim *device, uint64_t now_ms, uint8_t *buffer, size_t size) {
    return text_of(device, buffer, size, 56802);
}

size_t tpmsim_journal_checkpoint(tpmsim *device, uint64_t now_ms, uint8_t *buffer, size_t size) {
    return text_of(device, buffer, size, 73940);
}

uint8_t tpmsim_open(tpmsim *device, const uint8_t *image, size_t size) {
    return size < 42 ? TPMSIM_IMAGE_SHORT : opened(device);
}

uint8_t tpmsim_restore(tpmsim *device, const uint8_t *text, size_t size) {
    return size < 42 ? TPMSIM_STATE_SHORT : opened(device);
}

uint8_t tpmsim_journal_open(tpmsim *device, const uint8_t *text, size_t size, size_t *taken) {
    *taken = Frama_C_size_t_interval(0, size);
    return opened(device);
}

void tpmsim_free(tpmsim *device) { device->private_ = NULL; }

uint8_t tpmsim_keeper_new(tpmsim_keeper *keeper, uint8_t force, uint64_t limit) {
    if (MAY) return TPMSIM_NO_MEMORY;
    keeper->private_ = &some_keeper;
    return TPMSIM_DONE;
}

static uint8_t begun(const tpmsim_keeper *keeper) {
    return keeper->private_ ? (uint8_t)ANY(0, 21) : TPMSIM_NO_DEVICE;
}

uint8_t tpmsim_keeper_cuts(tpmsim_keeper *keeper, uint8_t cuts) { return begun(keeper); }

uint8_t tpmsim_keeper_begin(tpmsim_keeper *keeper, uint8_t job, const uint8_t *text, size_t size) {
    return begun(keeper);
}

uint8_t tpmsim_keeper_execute(tpmsim_keeper *keeper, const uint8_t *buffer, size_t size, uint8_t locality,
                              uint64_t now_ms, uint8_t completes, const uint8_t random[256]) {
    return begun(keeper);
}

uint8_t tpmsim_keeper_power(tpmsim_keeper *keeper, uint64_t now_ms, uint64_t start) { return begun(keeper); }

uint8_t tpmsim_keeper_seed(tpmsim_keeper *keeper, uint8_t seed, uint64_t now_ms, uint64_t start,
                           const uint8_t *content, size_t size) {
    return begun(keeper);
}

/* Asks for any task. */
void tpmsim_keeper_ask(tpmsim_keeper *keeper, tpmsim_ask *ask) {
    any_bytes(ask, sizeof *ask);
    ask->task = keeper->private_ ? (uint8_t)ANY(0, 9) : TPMSIM_TASK_NOTHING;
    ask->fault = keeper->private_ ? (uint8_t)ANY(0, 15) : TPMSIM_FAULT_NO_KEEPER;
    ask->drops = (uint8_t)MAY;
}

size_t tpmsim_keeper_text(tpmsim_keeper *keeper, uint8_t *buffer, size_t size) {
    any_bytes(buffer, size);
    return size;
}

uint8_t tpmsim_keeper_answer(tpmsim_keeper *keeper, uint8_t response[4096], tpmsim_answered *answered) {
    answer(response, answered);
    return TPMSIM_DONE;
}

uint8_t tpmsim_keeper_restore(tpmsim_keeper *keeper, uint64_t now_ms, uint64_t start, const uint8_t *state,
                              size_t size) {
    return begun(keeper);
}

size_t tpmsim_keeper_state(tpmsim_keeper *keeper, uint8_t *buffer, size_t size) {
    size_t written = Frama_C_size_t_interval(42, TPMSIM_STATE_SIZE);
    if (written <= size) any_bytes(buffer, written);
    return written;
}

void tpmsim_keeper_next(tpmsim_keeper *keeper, uint8_t got, uint64_t file, uint64_t file_size, const uint8_t *bytes,
                        size_t size) {}

size_t tpmsim_fault_text(uint8_t fault, char *buffer, size_t size) {
    size_t written = Frama_C_size_t_interval(0, 100);
    if (written <= size) any_bytes(buffer, written);
    return written;
}

void tpmsim_keeper_free(tpmsim_keeper *keeper) { keeper->private_ = NULL; }
