/* Uses one device in a process with the process ID 1 and in its forked child, which also has the
 * process ID 1, in another namespace. Tests this with a page that the kernel wipes at a fork, and
 * without such a page. The argument is the file with the expected PCR values. */
#include "common.h"
#include <errno.h>
#include <poll.h>
#include <sched.h>
#include <sys/mman.h>
#include <sys/wait.h>

/* WITHIN_MS: the number of milliseconds for which the parent pauses within a command, so that its
 * child begins a command. */
enum { EXTENDS = 500, RANDOM_BYTES = 64, WITHIN_MS = 100 };

static const char FOLDER[] = "state";

/* TPM2_GetRandom of RANDOM_BYTES bytes, more than GET_RANDOM draws. */
static const uint8_t GET_MORE[] = {0x80, 0x01, 0, 0, 0, 12, 0, 0, 0x01, 0x7b, 0, RANDOM_BYTES};

/* Whether the host may use a page that the kernel wipes at a fork. If not, madvise fails. */
static bool wipes;

/* The pipes with which a parent and its child wait for each other, and whether the parent waits for
 * the child before its next record. */
static int go[2], told[2];
static bool is_to_wait;

int __real_madvise(void *page, size_t size, int advice);
int __wrap_madvise(void *page, size_t size, int advice);
int __wrap_madvise(void *page, size_t size, int advice) {
    if (wipes) return __real_madvise(page, size, advice);
    errno = EINVAL;
    return -1;
}

/* Lets the child execute a command, and checks that the child has to wait until this process has
 * written its record. */
ssize_t __real_pwrite(int file, const void *bytes, size_t size, off_t place);
ssize_t __wrap_pwrite(int file, const void *bytes, size_t size, off_t place);
ssize_t __wrap_pwrite(int file, const void *bytes, size_t size, off_t place) {
    struct pollfd answer = {.fd = told[0], .events = POLLIN};
    if (is_to_wait) {
        is_to_wait = false;
        must(write(go[1], "x", 1) == 1, "nothing was written");
        must(poll(&answer, 1, WITHIN_MS) == 0, "two commands were executed at once");
    }
    return __real_pwrite(file, bytes, size, place);
}

/* Forks a child that has the process ID 1. */
static pid_t forked(void) {
    fflush(stdout);
    must(unshare(CLONE_NEWPID) == 0, "there is no namespace of numbers");
    pid_t child = fork();
    must(child >= 0, "there is no process");
    must(child > 0 || getpid() == 1, "a process has another number than 1");
    return child;
}

static void must_end_well(pid_t child) {
    int status;
    must(waitpid(child, &status, 0) == child && status == 0, "a process ended with a fault");
}

static void draw(struct kept *kept, uint8_t room[RANDOM_BYTES]) {
    uint8_t response[RESPONSE_BYTES];
    accepted(kept, GET_MORE, sizeof GET_MORE, response);
    memcpy(room, response + 12, RANDOM_BYTES);
}

/* Starts a device, and draws random bytes. The host then has a supply of random bytes for the next
   commands. */
static void start_and_draw(struct kept *kept) {
    uint8_t response[RESPONSE_BYTES];
    start(kept);
    accepted(kept, GET_RANDOM, sizeof GET_RANDOM, response);
}

/* The child's work. It draws random bytes from the device in memory. When the parent is within a
 * command, the child draws from the device in the folder, and extends its PCR. */
static void use(struct kept *memory, struct kept *kept) {
    uint8_t own[RANDOM_BYTES];
    char byte;
    draw(memory, own);
    must(write(told[1], own, sizeof own) == sizeof own, "nothing was written");
    must(read(go[0], &byte, 1) == 1, "nothing was read");
    draw(kept, own);
    must(write(told[1], own, sizeof own) == sizeof own, "nothing was written");
    for (int i = 0; i < EXTENDS; i++) extend(kept);
    _exit(0);
}

/* Draws random bytes, and prints whether the child has drawn the same ones. */
static void compare_draws(struct kept *kept, const char *label) {
    uint8_t own[RANDOM_BYTES], others[RANDOM_BYTES];
    size_t half = RANDOM_BYTES / 2;
    draw(kept, own);
    must(read(told[0], others, sizeof others) == sizeof others, "nothing was read");
    printf("%s: %s random bytes\n", label,
           memcmp(own + half, others + half, half) ? "other" : "THE SAME");
    fflush(stdout);
}

/* The work of the first process with the process ID 1. It opens the devices, forks the second
   process, and then does the same as the second process. */
static void open_and_fork(const struct values *values) {
    struct kept_options in_memory = {.folder = NULL};
    struct kept *memory = kept_open(&in_memory, &(struct reason){0}), *kept = opened(FOLDER);
    must(memory != NULL, "there is no device in memory");
    start_and_draw(memory);
    start_and_draw(kept);
    must(pipe(go) == 0 && pipe(told) == 0, "there is no pipe");
    pid_t child = forked();
    if (child == 0) use(memory, kept);
    compare_draws(memory, "    in memory");
    is_to_wait = true;
    compare_draws(kept, "    in a folder");
    for (int i = 0; i < EXTENDS; i++) extend(kept);
    must_end_well(child);
    printf("    %ld extends of %d\n", extends_of(kept, values), 2 * EXTENDS);
    must(kept_power(kept, &(struct reason){0}), "the power cycle failed");
    fflush(stdout);
    _exit(0);
}

int main(int count, char **words) {
    must(count == 2, "usage: pids VALUES");
    struct values values = values_of(words[1]);
    for (int i = 0; i < 2; i++) {
        wipes = i == 0;
        puts(wipes ? "a page that a fork wipes" : "no such page");
        fflush(stdout);
        pid_t outer = fork();
        must(outer >= 0, "there is no process");
        if (outer == 0) {
            pid_t first = forked();
            if (first == 0) open_and_fork(&values);
            must_end_well(first);
            _exit(0);
        }
        must_end_well(outer);
    }
    free(values.bytes);
    return 0;
}
