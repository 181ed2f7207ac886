/* Performs the keeper's tasks with the files of a folder. The keeper of the library decides what is
 * locked, read, written, synced and renamed, and when a response may be released; tpmsim.h defines
 * each task. */
#ifndef KEEPING_H
#define KEEPING_H
#include "folder.h"
#include "kept.h"
#include <stdint.h>

#define JOURNAL_NAME "journal"

struct keeping {
    tpmsim_keeper keeper;
    /* The folder. If it has no path, the device is in memory and has no journal file. */
    struct folder folder;
    /* The descriptors of the journal, and of the new journal file before it is renamed; -1 if it is
     * not open. */
    int journal, fresh;
    struct stat journal_status, fresh_status;
    /* The number of the current journal file, counted from 1 among the files that were opened; and
     * its size. */
    uint64_t number, size;
    /* The task that requested the new journal file. */
    tpmsim_ask made;
    /* The number of past journals to keep, and whether it is a default. */
    unsigned keep;
    bool keeps_by_default;
    /* The bytes to write, or the bytes that were read; `read` is their number. */
    uint8_t *buffer;
    size_t buffer_size, read;
    /* A sentence that describes what the last call cut from the journal; empty if it cut
     * nothing. */
    struct reason notice;
};

/* is_keeping: the buffer is on the heap, and has at least as many bytes as were read. is_apart: a
   reason is not part of the state. */
/*@ predicate is_keeping(struct keeping *keeping) = \valid(keeping) &&
  @     is_block(keeping->buffer, keeping->buffer_size) &&
  @     keeping->read <= keeping->buffer_size && is_folder(&keeping->folder) &&
  @     \separated(keeping, on_heap + (0 .. HEAP_MOST - 1), on_disk + (0 .. DISK_MOST - 1),
  @                &lock_holder, &__fc_errno, &asked_task, &done_task, &task_result, &call_fault);
  @ predicate is_apart(struct reason *reason, struct keeping *keeping) = \valid(reason) &&
  @     \separated(reason, keeping, on_heap + (0 .. HEAP_MOST - 1),
  @                on_disk + (0 .. DISK_MOST - 1), &lock_holder, &__fc_errno, &asked_task, &done_task, &task_result, &call_fault);
  @*/

/* Makes a keeper, and opens the folder if the options name one. */
bool keeping_open(struct keeping *keeping, const struct kept_options *options,
                  struct reason *reason);

/* Returns the subject for a sentence: the folder, or "the device in memory". */
/*@ assigns \nothing; */
const char *keeping_name(const struct keeping *keeping);

/* Performs the tasks of the call that the keeper has begun. `told` is the value of tpmsim_told that
 * the beginning of the call returned. If it is not TPMSIM_DONE, no task is performed. */
/*@ requires is_keeping(keeping) && is_apart(reason, keeping) && asked_task == NO_TASK;
  @ ensures \result ==> told == TPMSIM_DONE;
  @ ensures \result ==> asked_task == TPMSIM_TASK_NOTHING && call_fault == TPMSIM_FAULT_NONE;
  @ ensures told != TPMSIM_DONE ==> asked_task == NO_TASK && done_task == \old(done_task);
  @*/
bool keeping_run(struct keeping *keeping, uint8_t told, struct reason *reason);

/* If this library answers a command of the journal otherwise than the version that wrote it,
 * replaces the journal with its head, and describes in the notice what was dropped. */
bool keeping_take_head(struct keeping *keeping, struct reason *reason);

void keeping_close(struct keeping *keeping);

#endif
