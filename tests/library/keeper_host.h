/* A host of a keeper: a loop that calls a function for each task. Other functions here write the
 * texts of commands and seeds, and kill a host in the middle of a call. */
#ifndef KEEPER_HOST_H
#define KEEPER_HOST_H
#include "common.h"

/* The maximum size of a text; the result of a call in which the host was killed; and a number that
 * is not the number of any task. */
enum { TEXT_BYTES = 128 * 1024, KILLED = 255, NEVER = -1 };

/* What a host reports to the keeper after a task. */
typedef struct seen {
    uint8_t got;
    uint64_t file, file_size;
    const uint8_t *bytes;
    size_t size;
} seen;

/* How much of a task a host does before it is killed: nothing, a part, or all. */
typedef enum extent { NOTHING, A_PART, ALL } extent;

/* A host: the function that performs a task in the host's folder, and the function that releases
 * the files when the host is killed. A test can kill the host at one task of a call, or have it
 * report one task as failed. */
typedef struct host host;
struct host {
    tpmsim_keeper keeper;
    void *folder;
    seen (*does)(host *, const tpmsim_ask *, const uint8_t *text);
    void (*leaves)(host *);
    int killed_at;
    extent killed_after;
    int fails_at;
    uint64_t clock;
    /* The last call. `tasks` has one letter for each task. If a new journal was made, `whole` is
     * the size of the part of the old journal that the device executed. The report and the response
     * follow. */
    char tasks[64];
    uint64_t whole;
    uint8_t report[TPMSIM_REPORT_SIZE];
    uint8_t response[TEXT_BYTES];
    size_t response_size;
};

static uint8_t host_text[TEXT_BYTES];

/* Performs nothing, a part, or all of a task, and then kills the host. */
static inline void host_dies(host *it, tpmsim_ask *ask, extent how_much) {
    int is_writing = ask->task == TPMSIM_TASK_PUT || ask->task == TPMSIM_TASK_MAKE;
    if (how_much == A_PART) ask->size /= 2;
    if (how_much == ALL || (how_much == A_PART && is_writing)) it->does(it, ask, host_text);
    tpmsim_keeper_free(&it->keeper);
    it->leaves(it);
}

/* Runs a host's loop until the call is done. Returns a number of tpmsim_fault (0 on success), or
 * KILLED. */
static inline uint8_t host_finishes(host *it) {
    tpmsim_ask ask;
    for (int count = 0;; count++) {
        tpmsim_keeper_ask(&it->keeper, &ask);
        it->tasks[count] = "-LKRPFMNSU"[ask.task];
        it->tasks[count + 1] = 0;
        if (ask.task == TPMSIM_TASK_NOTHING) break;
        if (ask.task == TPMSIM_TASK_MAKE) it->whole = ask.cut;
        must(tpmsim_keeper_text(&it->keeper, host_text, sizeof host_text) == ask.size,
             "a text's size");
        if (count == it->killed_at) return host_dies(it, &ask, it->killed_after), KILLED;
        seen saw = it->does(it, &ask, host_text);
        if (count == it->fails_at) saw.got = TPMSIM_GOT_FAILED;
        tpmsim_keeper_next(&it->keeper, saw.got, saw.file, saw.file_size, saw.bytes, saw.size);
    }
    it->response_size = tpmsim_keeper_response(&it->keeper, it->response, sizeof it->response);
    must(it->response_size == ask.size, "a response's size");
    return ask.fault;
}

/* Runs a job with its text. Returns the same as host_finishes. */
static inline uint8_t host_run(host *it, uint8_t job, const uint8_t *text, size_t size) {
    if (tpmsim_keeper_begin(&it->keeper, job, text, size) != TPMSIM_DONE)
        return TPMSIM_FAULT_MEMORY;
    return host_finishes(it);
}

/* Starts a host in the state of a new process: its keeper has not looked at the folder yet. */
static inline void host_starts(host *it, uint8_t force, uint64_t limit) {
    it->killed_at = it->fails_at = NEVER;
    must(tpmsim_keeper_new(&it->keeper, force, limit) == TPMSIM_DONE, "there is no keeper");
}

static inline uint8_t *put_number(uint8_t *at, uint64_t number) {
    for (int i = 7; i >= 0; i--) *at++ = (uint8_t)(number >> 8 * i);
    return at;
}

/* Writes a seed: its kind, the clock, the layer's start number, and the content. */
static inline size_t put_seed(uint8_t *text, uint8_t kind, const uint8_t *content, size_t size) {
    uint8_t *at = text;
    *at++ = kind;
    at = put_number(put_number(at, 1000), 7);
    memcpy(at, content, size);
    return (size_t)(at - text) + size;
}

/* Makes a device from random bytes, or opens an existing one. */
static inline uint8_t host_begins(host *it) {
    uint8_t random[RANDOM_BYTES], text[512];
    count_up(random, 1);
    return host_run(it, TPMSIM_JOB_BEGIN, text, put_seed(text, 0, random, sizeof random));
}

/* Moves the report from the beginning of the response to `report`. */
static inline void host_takes_report(host *it) {
    must(it->response_size >= TPMSIM_REPORT_SIZE, "a response without a report");
    memcpy(it->report, it->response, TPMSIM_REPORT_SIZE);
    it->response_size -= TPMSIM_REPORT_SIZE;
    memmove(it->response, it->response + TPMSIM_REPORT_SIZE, it->response_size);
}

/* Executes a TPM command. The text of the request contains the kind and the time already. This
 * function appends the locality, the flag of the completing layer, 256 random bytes, and the
 * command. */
static inline uint8_t host_gives(host *it, uint8_t *text, uint8_t *at, const uint8_t *command,
                                 size_t size) {
    *at++ = 0;
    *at++ = 1;
    count_up(at, (uint8_t)it->clock);
    at += RANDOM_BYTES;
    memcpy(at, command, size);
    uint8_t fault = host_run(it, TPMSIM_JOB_EXECUTE, text, (size_t)(at - text) + size);
    if (fault == TPMSIM_FAULT_NONE) host_takes_report(it);
    return fault;
}

/* Executes a TPM command at the time of the host's clock. The request is kind 0, the clock and the
 * command. */
static inline uint8_t host_executes(host *it, const uint8_t *command, size_t size) {
    uint8_t text[4096] = {0};
    return host_gives(it, text, put_number(text + 1, it->clock += 10), command, size);
}

/* Executes a TPM command some milliseconds after the previous one. The request is kind 3, the
   milliseconds in four bytes, and the command. */
static inline uint8_t host_waits(host *it, uint32_t elapsed, const uint8_t *command, size_t size) {
    uint8_t text[4096] = {3}, number[8];
    put_number(number, elapsed);
    memcpy(text + 1, number + 4, 4);
    return host_gives(it, text, text + 5, command, size);
}

/* Cycles the power. The request is kind 1, the clock, and the layer's new start number. */
static inline uint8_t host_cycles(host *it) {
    uint8_t text[17] = {1};
    it->clock += 10;
    put_number(put_number(text + 1, it->clock), it->clock);
    return host_run(it, TPMSIM_JOB_EXECUTE, text, sizeof text);
}

/* Restores a state text. The request is kind 2 and a seed. */
static inline uint8_t host_restores(host *it, const uint8_t *state, size_t size) {
    static uint8_t text[TEXT_BYTES];
    text[0] = 2;
    return host_run(it, TPMSIM_JOB_EXECUTE, text, 1 + put_seed(text + 1, 2, state, size));
}
#endif
