#define _GNU_SOURCE
#include "keeping.h"
#include "past.h"
#include "secret.h"
#include "told.h"
#include "transfer.h"
#include "written.h"
#include <errno.h>
#include <inttypes.h>
#include <stdio.h>
#include <stdlib.h>
#include <string.h>
#include <unistd.h>

#define NEW_NAME "journal.new"

/* A journal is restarted when it has at least this size; tpmsim_keeper_new has the exact
   condition. */
enum { LIMIT = 256 * 1024 };

const char *keeping_name(const struct keeping *keeping) {
    return keeping->folder.path ? keeping->folder.path : "the device in memory";
}

/*@ requires \valid(reason);
  @ assigns *reason;
  @ ensures !\result;
  @*/
static bool refuse_file(const struct keeping *keeping, const char *name, const char *said,
                        struct reason *reason) {
    return refuse(reason, keeping->folder.path, name, said, errno);
}

/* Makes the buffer at least this large. If the buffer grows, its contents are lost. */
/*@ requires is_keeping(keeping) && \valid(reason);
  @ assigns keeping->buffer, keeping->buffer_size, *reason;
  @ ensures is_keeping(keeping) && (\result ==> keeping->buffer_size >= size);
  @*/
static bool reserve(struct keeping *keeping, size_t size, struct reason *reason) {
    if (keeping->buffer_size >= size) return true;
    uint8_t *buffer = malloc(size);
    if (!buffer) return refuse_told(reason, keeping_name(keeping), NULL, TPMSIM_NO_MEMORY);
    secret_free(keeping->buffer, keeping->buffer_size);
    keeping->buffer = buffer;
    keeping->buffer_size = size;
    return true;
}

/* If a task cuts something from the journal, describes that in a sentence. */
/*@ assigns keeping->notice; */
static void note_cut(struct keeping *keeping, const tpmsim_ask *ask) {
    char said[128], place[32] = "last whole record";
    if (keeping->size <= ask->cut) return;
    if (ask->drops) snprintf(place, sizeof place, "first %" PRIu64, ask->cut);
    snprintf(said, sizeof said, "%" PRIu64 " bytes after the %s were %s", keeping->size - ask->cut,
             place, ask->drops ? "dropped" : "cut off");
    refuse(&keeping->notice, keeping->folder.path, JOURNAL_NAME ":", said, 0);
}

/* ---- the tasks. A task that fails may set the reason. Otherwise, the reason is made later from
   the keeper's fault and errno. */

static uint8_t look(struct keeping *keeping, struct reason *reason) {
    const struct folder *folder = &keeping->folder;
    struct stat status;
    keeping->size = 0;
    if (keeping->journal < 0 ||
        !folder_has(folder, JOURNAL_NAME, &keeping->journal_status, &status)) {
        keeping->journal = close_file(keeping->journal);
        int there = folder_look(folder, JOURNAL_NAME, &status, reason);
        if (there != 1) return there == 0 ? TPMSIM_GOT_GONE : TPMSIM_GOT_FAILED;
        keeping->journal = folder_open_file(folder, JOURNAL_NAME, &status, reason);
        if (keeping->journal < 0) return TPMSIM_GOT_FAILED;
        keeping->number++;
    }
    keeping->journal_status = status;
    keeping->size = (uint64_t)status.st_size;
    return TPMSIM_GOT_DONE;
}

/* Reads the journal from an offset to its end. */
/*@ requires is_keeping(keeping) && \valid(reason) && is_apart(reason, keeping);
  @ requires at <= keeping->size && keeping->size <= DISK_MOST;
  @ ensures is_keeping(keeping);
  @ ensures \result ==> keeping->read == keeping->size - at;
  @ ensures \result ==> \forall integer i; at <= i < keeping->size ==>
  @     keeping->buffer[i - at] == on_disk[i];
  @*/
static bool read_from(struct keeping *keeping, uint64_t at, struct reason *reason) {
    size_t size = (size_t)(keeping->size - at);
    if (!reserve(keeping, size, reason)) return false;
    ssize_t got = transfer_read(keeping->journal, keeping->buffer, size, (off_t)at);
    if (got < 0) return refuse_file(keeping, JOURNAL_NAME, "cannot be read", reason);
    keeping->read = (size_t)got;
    return keeping->read == size ||
           refuse(reason, keeping->folder.path, JOURNAL_NAME, "was shortened while it was read", 0);
}

/* Truncates the journal to this size. */
/*@ assigns __fc_errno; */
static bool cut(const struct keeping *keeping, uint64_t size) {
    while (ftruncate(keeping->journal, (off_t)size) != 0)
        if (errno != EINTR) return false;
    return true;
}

/*@ requires is_keeping(keeping) && \valid(reason) && is_apart(reason, keeping);
  @ requires ask->at + ask->size <= DISK_MOST && ask->size <= keeping->buffer_size &&
  @     \valid_read(ask);
  @ requires \separated(ask, keeping, reason, on_disk + (0 .. DISK_MOST - 1), &__fc_errno);
  @ assigns keeping->notice, *reason, __fc_errno, on_disk[ask->at .. ask->at + ask->size - 1];
  @ ensures \result ==> \forall integer i; ask->at <= i < ask->at + ask->size ==>
  @     on_disk[i] == keeping->buffer[i - ask->at];
  @*/
static bool put(struct keeping *keeping, const tpmsim_ask *ask, struct reason *reason) {
    if (keeping->size > ask->cut && !cut(keeping, ask->cut))
        return refuse_file(keeping, JOURNAL_NAME, "cannot be cut to whole records", reason);
    note_cut(keeping, ask);
    if (transfer_write(keeping->journal, keeping->buffer, ask->size, (off_t)ask->at)) return true;
    int error = errno;
    cut(keeping, ask->cut);
    errno = error;
    return false;
}

/* Removes the new journal file, and preserves errno. */
static void remove_new(struct keeping *keeping) {
    int error = errno;
    unlinkat(keeping->folder.descriptor, NEW_NAME, 0);
    keeping->fresh = close_file(keeping->fresh);
    errno = error;
}

/* Writes the new journal file and syncs it. Returns NULL or, on failure, the words that describe
 * it. */
static const char *write_new(struct keeping *keeping, size_t size) {
    if (!transfer_write(keeping->fresh, keeping->buffer, size, 0)) return "cannot be written";
    if (fsync(keeping->fresh) != 0) return "cannot be forced to the disk";
    return fstat(keeping->fresh, &keeping->fresh_status) == 0 ? NULL : "cannot be looked at";
}

/* Makes the new journal file. First removes one that a killed process may have left. */
static bool make(struct keeping *keeping, const tpmsim_ask *ask, struct reason *reason) {
    struct stat status;
    int there = folder_look(&keeping->folder, NEW_NAME, &status, reason);
    if (there < 0) return false;
    if (there == 1) remove_new(keeping);
    keeping->fresh = folder_make_file(&keeping->folder, NEW_NAME, reason);
    if (keeping->fresh < 0) return false;
    keeping->made = *ask;
    const char *failed = write_new(keeping, ask->size);
    if (!failed) return true;
    remove_new(keeping);
    return refuse_file(keeping, NEW_NAME, failed, reason);
}

static bool name(struct keeping *keeping, struct reason *reason) {
    int folder = keeping->folder.descriptor;
    if (!past_keep(&keeping->folder, keeping->keep, keeping->keeps_by_default, reason) ||
        renameat(folder, NEW_NAME, folder, JOURNAL_NAME) != 0) {
        remove_new(keeping);
        return false;
    }
    note_cut(keeping, &keeping->made);
    close_file(keeping->journal);
    keeping->journal = keeping->fresh;
    keeping->journal_status = keeping->fresh_status;
    keeping->fresh = -1;
    keeping->number++;
    return true;
}

/* Performs a task for a device in memory. If the keeper dropped the device for lack of memory, the
   device is lost. */
static uint8_t do_in_memory(struct keeping *keeping, const tpmsim_ask *ask) {
    switch (ask->task) {
    case TPMSIM_TASK_LOOK: return keeping->number ? TPMSIM_GOT_DONE : TPMSIM_GOT_GONE;
    case TPMSIM_TASK_READ: return TPMSIM_GOT_FAILED;
    case TPMSIM_TASK_PUT: keeping->size = ask->at + ask->size; break;
    case TPMSIM_TASK_MAKE: keeping->size = ask->size; break;
    case TPMSIM_TASK_NAME: keeping->number++; break;
    }
    return TPMSIM_GOT_DONE;
}

/* Fills the buffer with the keeper's text, performs the task, and returns a value of tpmsim_got. */
/*@ requires is_keeping(keeping) && \valid_read(ask) && \valid(reason) && asked_task == ask->task;
  @ assigns *keeping, *reason, on_heap[0 .. HEAP_MOST - 1], on_disk[0 .. DISK_MOST - 1],
  @     lock_holder, __fc_errno, done_task, task_result;
  @ ensures is_keeping(keeping) && done_task == asked_task && task_result == \result;
  @*/
static uint8_t do_task(struct keeping *keeping, const tpmsim_ask *ask, struct reason *reason) {
    bool is_done = true;
    if (!keeping->folder.path) return do_in_memory(keeping, ask);
    if (!reserve(keeping, ask->size, reason)) return TPMSIM_GOT_FAILED;
    tpmsim_keeper_text(&keeping->keeper, keeping->buffer, ask->size);
    switch (ask->task) {
    case TPMSIM_TASK_LOCK: is_done = folder_lock(&keeping->folder, reason); break;
    case TPMSIM_TASK_LOOK: return look(keeping, reason);
    case TPMSIM_TASK_READ: is_done = read_from(keeping, ask->at, reason); break;
    case TPMSIM_TASK_PUT: is_done = put(keeping, ask, reason); break;
    case TPMSIM_TASK_FORCE: is_done = fdatasync(keeping->journal) == 0; break;
    case TPMSIM_TASK_MAKE: is_done = make(keeping, ask, reason); break;
    case TPMSIM_TASK_NAME: is_done = name(keeping, reason); break;
    case TPMSIM_TASK_SETTLE: is_done = folder_force(&keeping->folder, reason); break;
    case TPMSIM_TASK_UNLOCK: folder_unlock(&keeping->folder); break;
    }
    return is_done ? TPMSIM_GOT_DONE : TPMSIM_GOT_FAILED;
}

/* ---- the loop */

/* Returns why these first bytes of the journal, which was read, cannot be opened. */
static uint8_t why_refused(const struct keeping *keeping, size_t size) {
    tpmsim device = {0};
    size_t taken;
    uint8_t told = tpmsim_journal_open(&device, keeping->buffer, size, &taken);
    tpmsim_free(&device);
    return told;
}

/* Returns the number of commands after the head of the journal, which was read. */
static size_t commands_after_head(const struct keeping *keeping) {
    size_t head = written_head(keeping->buffer, keeping->read);
    return written_commands(keeping->buffer + head, keeping->read - head);
}

/* Sets the reason for a journal whose commands this library answers otherwise. */
static bool refuse_otherwise(struct keeping *keeping, struct reason *reason) {
    char by[WRITTEN_ROOM], said[512];
    written_by(keeping->buffer, keeping->read, by);
    snprintf(said, sizeof said,
             "%s %s of the library, which answers otherwise than this one, and stays as it is: "
             "power-cycle the device with the tpmsim-power of that version, or drop all %zu "
             "commands since the last power cycle or checkpoint with tpmsim-power --cut",
             "was written by", by, commands_after_head(keeping));
    refuse(reason, keeping->folder.path, JOURNAL_NAME, said, 0);
    reason->told = TPMSIM_OTHERWISE;
    return false;
}

/* Reads the whole journal to find out why it cannot be opened, and sets the reason. */
static bool refuse_damage(struct keeping *keeping, struct reason *reason) {
    if (!read_from(keeping, 0, reason)) return false;
    uint8_t told = why_refused(keeping, keeping->read);
    if (told == TPMSIM_OTHERWISE) return refuse_otherwise(keeping, reason);
    /* Another process may have cut the journal in the meantime */
    if (told == TPMSIM_DONE) told = TPMSIM_DAMAGED;
    return refuse_told(reason, keeping->folder.path, JOURNAL_NAME, told);
}

/*@ requires is_keeping(keeping) && \valid(reason);
  @ assigns *keeping, *reason, on_heap[0 .. HEAP_MOST - 1], __fc_errno;
  @ ensures !\result;
  @*/
/* Unless a task has already set the reason, sets it to the keeper's text for the fault. */
static bool refuse_fault(struct keeping *keeping, uint8_t fault, int error, struct reason *reason) {
    char said[128] = "";
    const char *file = fault == TPMSIM_FAULT_LOCK   ? LOCK_NAME
                       : fault == TPMSIM_FAULT_NAME ? NEW_NAME
                                                    : JOURNAL_NAME;
    if (*reason->text) return false;
    if (fault == TPMSIM_FAULT_DAMAGED && keeping->folder.path)
        return refuse_damage(keeping, reason);
    tpmsim_fault_text(fault, said, sizeof said - 1);
    refuse(reason, keeping_name(keeping), keeping->folder.path ? file : NULL, said, error);
    if (fault == TPMSIM_FAULT_MEMORY) reason->told = TPMSIM_NO_MEMORY;
    return false;
}

bool keeping_run(struct keeping *keeping, uint8_t told, struct reason *reason) {
    int error = 0;
    *keeping->notice.text = *reason->text = 0;
    if (told != TPMSIM_DONE) return refuse_told(reason, keeping_name(keeping), NULL, told);
    /*@ loop invariant is_keeping(keeping) && asked_task == NO_TASK;
      @ loop assigns error, *keeping, *reason, on_heap[0 .. HEAP_MOST - 1],
      @     on_disk[0 .. DISK_MOST - 1],
      @     lock_holder, __fc_errno, asked_task, done_task, task_result, call_fault;
      @*/
    for (;;) {
        tpmsim_ask ask;
        tpmsim_keeper_ask(&keeping->keeper, &ask);
        if (ask.task == TPMSIM_TASK_NOTHING)
            return ask.fault == TPMSIM_FAULT_NONE ||
                   refuse_fault(keeping, ask.fault, error, reason);
        errno = 0;
        keeping->read = 0;
        uint8_t got = do_task(keeping, &ask, reason);
        if (got == TPMSIM_GOT_FAILED) error = errno;
        tpmsim_keeper_next(&keeping->keeper, got, keeping->number, keeping->size, keeping->buffer,
                           keeping->read);
    }
}

/* Replaces the journal, which was read, with its head. */
static bool begin_with_head(struct keeping *keeping, struct reason *reason) {
    char said[128];
    size_t commands = commands_after_head(keeping);
    tpmsim_ask ask = {.size = written_head(keeping->buffer, keeping->read),
                      .cut = keeping->size};
    if (why_refused(keeping, ask.size) != TPMSIM_DONE)
        return refuse_told(reason, keeping->folder.path, JOURNAL_NAME, TPMSIM_DAMAGED);
    if (!make(keeping, &ask, reason)) return false;
    if (!name(keeping, reason)) {
        if (!*reason->text)
            refuse_file(keeping, NEW_NAME, "cannot take the journal's place", reason);
        return false;
    }
    keeping->size = ask.size;
    snprintf(said, sizeof said, "all %zu commands since the last power cycle or checkpoint were "
             "dropped", commands);
    refuse(&keeping->notice, keeping->folder.path, JOURNAL_NAME ":", said, 0);
    return folder_force(&keeping->folder, reason);
}

bool keeping_take_head(struct keeping *keeping, struct reason *reason) {
    *keeping->notice.text = *reason->text = 0;
    if (!folder_lock(&keeping->folder, reason)) return false;
    bool is_done = look(keeping, reason) == TPMSIM_GOT_DONE && read_from(keeping, 0, reason);
    /* Another process may have replaced the journal in the meantime. */
    if (is_done && why_refused(keeping, keeping->read) == TPMSIM_OTHERWISE)
        is_done = begin_with_head(keeping, reason);
    folder_unlock(&keeping->folder);
    if (!is_done && !*reason->text)
        refuse(reason, keeping->folder.path, JOURNAL_NAME, "is not there", 0);
    return is_done;
}

bool keeping_open(struct keeping *keeping, const struct kept_options *options,
                  struct reason *reason) {
    keeping->journal = keeping->fresh = keeping->folder.descriptor = keeping->folder.lock = -1;
    keeping->keep = options->keep;
    keeping->keeps_by_default = options->keeps_by_default;
    if (options->folder &&
        !folder_open(&keeping->folder, options->folder, !options->is_there, reason))
        return false;
    if (!reserve(keeping, 1, reason)) return false;
    uint8_t told = tpmsim_keeper_new(&keeping->keeper, options->force, LIMIT);
    if (told == TPMSIM_DONE) told = tpmsim_keeper_cuts(&keeping->keeper, options->cuts);
    return told == TPMSIM_DONE || refuse_told(reason, keeping_name(keeping), NULL, told);
}

void keeping_close(struct keeping *keeping) {
    tpmsim_keeper_free(&keeping->keeper);
    close_file(keeping->journal);
    close_file(keeping->fresh);
    secret_free(keeping->buffer, keeping->buffer_size);
    folder_close(&keeping->folder);
}
