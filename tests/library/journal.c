/* Begins a journal, executes two commands and appends their records, opens and follows the journal,
 * and restarts it with a checkpoint. Prints each result, and whether each call stays within the
 * stack limit of tpmsim.h. */
#define _GNU_SOURCE
#include "common.h"
#include "tpmsim.h"
#include <pthread.h>
#include <sys/mman.h>

/* MOST_STACK is the limit that the header documents. */
enum { STACK_BYTES = 512 * 1024, MOST_STACK = 96 * 1024, CLOCK = 1000, WAITED = 250 };

static tpmsim device;
static uint8_t text[96 * 1024], record[TPMSIM_RECORD_ROOM], random_bytes[256], response[4096];
static uint8_t state[TPMSIM_STATE_SIZE], other[TPMSIM_STATE_SIZE];
static tpmsim_answered answered;
static size_t text_size, record_size, size_taken, command_size, state_size;
static const uint8_t *command;
static uint64_t now = CLOCK;
static uint8_t completes, told;

static void *nothing(void *unused) { return unused; }

static void *begin(void *unused) {
    text_size = tpmsim_journal_begin(&device, now, text, sizeof text);
    return unused;
}

/* Writes a checkpoint when the host's time differs greatly from the journal's time. */
static void *checkpoint(void *unused) {
    text_size = tpmsim_journal_checkpoint(&device, now + 1000 * WAITED, text, sizeof text);
    told = TPMSIM_DONE;
    return unused;
}

static void *execute(void *unused) {
    now += WAITED;
    told = tpmsim_journal_execute(&device, command, command_size, 0, now, completes, random_bytes,
                                  response, &answered, record, &record_size);
    return unused;
}

static void *open_journal(void *unused) {
    told = tpmsim_journal_open(&device, text, text_size, &size_taken);
    return unused;
}

static void *follow(void *unused) {
    told = tpmsim_journal_follow(&device, record, record_size, &size_taken);
    return unused;
}

/* Runs a call in a separate thread, and returns the number of bytes of stack that it uses. */
static size_t stack_of(void *(*call)(void *)) {
    pthread_attr_t attributes;
    pthread_t thread;
    uint8_t *stack =
        mmap(NULL, STACK_BYTES, PROT_READ | PROT_WRITE, MAP_PRIVATE | MAP_ANONYMOUS, -1, 0);
    must(stack != MAP_FAILED, "there is no memory");
    memset(stack, FILLED, STACK_BYTES);
    must(pthread_attr_init(&attributes) == 0 &&
             pthread_attr_setstack(&attributes, stack, STACK_BYTES) == 0 &&
             pthread_create(&thread, &attributes, call, NULL) == 0 &&
             pthread_join(thread, NULL) == 0,
         "there is no thread");
    size_t at = 0;
    while (at < STACK_BYTES && stack[at] == FILLED) at++;
    munmap(stack, STACK_BYTES);
    return STACK_BYTES - at;
}

/* Runs a call, and prints whether it uses more than `most` bytes of stack. */
static void run(const char *name, void *(*call)(void *), size_t most) {
    size_t took = stack_of(call), least = stack_of(nothing);
    printf("%s: told %u, %s\n", name, told, took - least <= most ? "within its stack" : "TOO MUCH STACK");
}

static void run_command(const char *name, const uint8_t *buffer, size_t size) {
    command = buffer;
    command_size = size;
    run(name, execute, MOST_STACK);
}

static void add_record(void) {
    memcpy(text + text_size, record, record_size);
    text_size += record_size;
}

static void remember(void) { state_size = tpmsim_snapshot(&device, state, sizeof state); }

static void compare(const char *name) {
    size_t size = tpmsim_snapshot(&device, other, sizeof other);
    int is_same = size == state_size && memcmp(state, other, size) == 0;
    printf("%s: %s\n", name, is_same ? "the same device" : "ANOTHER DEVICE");
}

/* Prints whether the journal's head contains the expected clock. The clock follows the first words
 * of the head. */
static void show_clock(const char *name, uint64_t wanted) {
    char digits[17] = "";
    memcpy(digits, text + strlen("# tpmsim journal 2 "), sizeof digits - 1);
    printf("%s: %s\n", name, strtoull(digits, NULL, 16) == wanted ? "its clock" : digits);
}

static void check_small(void) {
    size_t size = tpmsim_journal_checkpoint(&device, now, text, 100);
    must(tpmsim_journal_checkpoint(&device, now, text, size - 1) == size && text[0] == FILLED,
         "a head that does not fit is written");
    compare("a checkpoint that does not fit");
}

/* Opens a device from a checkpoint. It must have the same state as before, and continue in the same
 * way. */
static void check_checkpoints(void) {
    memset(text, FILLED, sizeof text);
    remember();
    check_small();
    run("checkpoint", checkpoint, MOST_STACK);
    show_clock("of a journal", now);
    compare("after a checkpoint");
    run_command("random bytes", GET_RANDOM, sizeof GET_RANDOM);
    add_record();
    remember();
    run("open a checkpoint", open_journal, MOST_STACK);
    printf("%s\n", size_taken == text_size ? "all is taken" : "NOT ALL IS TAKEN");
    compare("what was opened");
    must(tpmsim_restore(&device, state, state_size) == TPMSIM_DONE, "no state is restored");
    run("checkpoint of what was restored", checkpoint, MOST_STACK);
    show_clock("of what has no journal", now + 1000 * WAITED);
    run("open it", open_journal, MOST_STACK);
    compare("what was restored");
}

int main(void) {
    for (size_t i = 0; i < sizeof random_bytes; i++) random_bytes[i] = (uint8_t)i;
    must(tpmsim_manufacture(&device, random_bytes) == TPMSIM_DONE, "no device is made");
    run("begin", begin, MOST_STACK);
    run_command("startup", STARTUP, sizeof STARTUP);
    add_record();
    run("open", open_journal, MOST_STACK);
    printf("%s\n", size_taken == text_size ? "all is taken" : "NOT ALL IS TAKEN");
    run_command("random bytes", GET_RANDOM, sizeof GET_RANDOM);
    printf("%zu bytes drawn\n", answered.drawn);
    run("open before them", open_journal, MOST_STACK);
    run("follow", follow, MOST_STACK);
    printf("%s\n", size_taken == record_size ? "the record is taken" : "THE RECORD IS NOT TAKEN");
    text[text_size - 2] ^= 1;
    run("open, a byte turned", open_journal, MOST_STACK);
    record[record_size - 2] ^= 1;
    run("follow, a byte turned", follow, MOST_STACK);
    text[0] ^= 1;
    run("open, no head", open_journal, MOST_STACK);
    completes = 1;
    run_command("with the completing layer", GET_RANDOM, sizeof GET_RANDOM);
    check_checkpoints();
    tpmsim_free(&device);
    run("follow, no device", follow, MOST_STACK);
    printf("a checkpoint, no device: %zu bytes\n", tpmsim_journal_checkpoint(&device, now, text, 0));
    return 0;
}
