/* The device and its record. Each command is recorded before it is answered. */
#include "device.h"

#include "host_clock.h"
#include "permanent.h"
#include "randomness.h"
#include "record.h"
#include "report.h"

#include <string.h>

/* The head of a journal is at most 73,940 bytes long. */
enum { HEAD_MOST = 73 * 1024 };

static tpmsim device;
/* The device that was on before, without its power, if it was on with the completing layer. */
static tpmsim previous;
/* Whether the device has been on, with its clock and record. */
static bool is_begun;
static uint8_t completing;
static uint64_t latest;
/* The record of the last command until it is written. */
static uint8_t record[TPMSIM_RECORD_ROOM];
static size_t record_size;
/* Whether writing the record or the permanent state has failed. */
static bool is_behind;

tpmsim *the_device(void) { return &device; }

bool device_is_on(void) { return device.private_ != NULL; }

void let_device_complete(bool completes) { completing = completes; }

uint64_t time_of_device(void) { return latest; }

/* The head of the device's journal, with which a record begins. */
static uint8_t head[HEAD_MOST];

static bool begin_with_head(size_t size) {
    is_begun = begin_record(head, size);
    explicit_bzero(head, size);
    return is_begun;
}

/* Makes a handle hold a copy of the device of another one. A state text does not contain the
   journal's time, so no time passes for the copy until its journal starts. */
static bool copy_device(tpmsim *from, tpmsim *to) {
    size_t size = tpmsim_snapshot(from, head, sizeof head);
    uint8_t told = tpmsim_restore(to, head, size);
    explicit_bzero(head, size);
    if (told != TPMSIM_DONE) report("the device is not continued: %s", words_of_told(told));
    return told == TPMSIM_DONE;
}

/* Starts the journal of a device whose power has come on. Writes its head and returns the size of
   the head; 0 if that fails. The completing layer of the previous device goes on, so that contexts
   of objects load after a TPM Resume: the previous device differs only in Clock and in the layer,
   which the permanent state does not contain. The layer of another device starts again. */
static size_t start_journal(void) {
    bool is_same = previous.private_ != NULL && is_permanent(&previous);
    if (is_same && !copy_device(&previous, &device)) return 0;
    tpmsim_free(&previous);
    if (is_same) return tpmsim_journal_checkpoint(&device, latest, head, sizeof head);
    return tpmsim_journal_begin(&device, latest, head, sizeof head);
}

bool begin_device(void) {
    latest = time_of_day();
    begin_host_clock(latest);
    size_t size = start_journal();
    return size > 0 && begin_with_head(size);
}

bool resume_device(uint64_t time) {
    uint64_t now = time_of_day();
    begin_host_clock(now > time ? now : time);
    latest = time;
    tpmsim_free(&previous);
    return begin_with_head(tpmsim_journal_checkpoint(&device, latest, head, sizeof head));
}

bool last_was_written(void) { return !is_behind; }

/*@ requires record_size <= TPMSIM_RECORD_ROOM;
  @ assigns is_behind, record_size, written_text, written_size, permanent_state, permanent_is_kept, swtpm_called,
  @     stored_bytes, stored_size, __fc_errno;
  @ ensures \result <==> !is_behind;
  @ ensures \result ==> permanent_is_kept == 1;
  @ ensures \result ==> written_text == &record[0] && written_size == \old(record_size) &&
  @     record_size == 0;
  @ ensures record_size == 0 || record_size == \old(record_size);
  @*/
bool write_last(void) {
    is_behind = true;
    if (!write_record(record, record_size)) return false;
    record_size = 0;
    is_behind = !keep_permanent(&device);
    return !is_behind;
}

/* Executes a command, with the completing layer if it is on. If recording was requested, also makes
   the command's record. */
/*@ requires \valid_read(buffer + (0 .. size - 1)) && \valid_read(random + (0 .. 255));
  @ requires \valid(response + (0 .. 4095)) && \valid(answered) &&
  @     record_size <= TPMSIM_RECORD_ROOM;
  @ requires \separated(response + (0 .. 4095), answered, &record_size,
  @     record + (0 .. TPMSIM_RECORD_ROOM - 1));
  @ assigns device, device_state, response[0 .. 4095], *answered, record_size,
  @     record[0 .. TPMSIM_RECORD_ROOM - 1];
  @ ensures record_size <= TPMSIM_RECORD_ROOM;
  @ ensures \result == TPMSIM_DONE ==> 10 <= answered->size <= 4096 && answered->drawn <= 256;
  @*/
static uint8_t run(const uint8_t *buffer, size_t size, uint8_t locality, uint32_t elapsed,
                   const uint8_t *random, uint8_t *response, tpmsim_answered *answered) {
    if (is_recorded())
        return tpmsim_journal_execute(&device, buffer, size, locality, latest + elapsed, completing, random,
                                      response, answered, record, &record_size);
    if (completing)
        return tpmsim_complete(&device, buffer, size, locality, elapsed, random, response, answered);
    return tpmsim_execute(&device, buffer, size, locality, elapsed, random, response, answered);
}

/*@ requires \valid_read(buffer + (0 .. size - 1)) && \valid(response) && record_size <= TPMSIM_RECORD_ROOM;
  @ requires \separated(response, on_heap + (0 .. HEAP_MOST - 1),
  @     record + (0 .. TPMSIM_RECORD_ROOM - 1), &record_size, &is_behind, &latest, &stored_size, &stored_bytes, &written_size,
  @     &written_text, &__fc_errno);
  @ ensures record_size <= TPMSIM_RECORD_ROOM;
  @ ensures \result ==> !is_behind && permanent_is_kept == 1 && record_size == 0 && 10 <= response->size <= 4096;
  @*/
bool execute(const uint8_t *buffer, size_t size, uint8_t locality, struct response *response) {
    const uint8_t *random = random_bytes();
    if (random == NULL || (is_behind && !write_last())) return false;
    tpmsim_answered answered = {0};
    uint64_t waited = host_clock() - latest;
    uint32_t elapsed = waited < UINT32_MAX ? (uint32_t)waited : UINT32_MAX;
    uint8_t told = run(buffer, size, locality, elapsed, random, response->bytes, &answered);
    if (told != TPMSIM_DONE) {
        report("a command is not executed: %s", words_of_told(told));
        return false;
    }
    latest += elapsed;
    random_bytes_were_drawn(answered.drawn);
    response->size = answered.size;
    return write_last();
}

/* Keeps the device without its power, for the case that its power comes on again. */
static void keep_previous(void) {
    tpmsim_free(&previous);
    tpmsim_power_cycle(&device);
    (void)copy_device(&device, &previous);
}

void free_device(void) {
    if (is_begun && completing) keep_previous();
    is_begun = false;
    tpmsim_free(&device);
    end_record();
    explicit_bzero(record, sizeof record);
    record_size = 0;
    is_behind = false;
}
