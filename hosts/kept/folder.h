/* The folder in which a device is kept, with its files and its lock.
 *
 * Only regular files that belong to the user of the process are opened. Links are not followed.
 * Only the user can access the files and folders that are made here, whatever the umask is. */
#ifndef FOLDER_H
#define FOLDER_H
#include "fork_mark.h"
#include "reason.h"
#include <stdbool.h>
#include <sys/stat.h>
#include <sys/types.h>

struct folder {
    char *path;
    /* The descriptors of the folder and of the lock file; -1 if it is not open. */
    int descriptor;
    int lock;
    struct stat lock_status;
    /* Set by the process that opened the lock file. A forked child must open the file again,
     * because it would share the lock. */
    struct fork_mark mark;
    /* Whether this process has synced the folder's own name to the disk. */
    bool name_is_forced;
};

#define LOCK_NAME "lock"

/*@ predicate is_folder(struct folder *folder) = \valid(folder) && folder->lock >= -1; */

/* Closes a file, if it is open. Returns -1, and preserves errno. */
/*@ assigns __fc_errno, lock_holder;
  @ ensures \result == -1 && __fc_errno == \old(__fc_errno);
  @ ensures lock_holder == (file >= 0 && file == \old(lock_holder) ? -1 : \old(lock_holder));
  @*/
int close_file(int file);

/* Whether both statuses belong to the same file. */
bool is_same_file(const struct stat *one, const struct stat *other);

/* Opens a folder. If it is missing and `makes` is true, makes it first. */
bool folder_open(struct folder *folder, const char *path, bool makes, struct reason *reason);
void folder_close(struct folder *folder);

/* Looks up a name. Returns 1 for a regular file of the user, and 0 if the name does not exist.
 * For anything else, returns -1 and sets `reason`. */
/*@ assigns *status, *reason, __fc_errno;
  @ ensures -1 <= \result <= 1;
  @*/
int folder_look(const struct folder *folder, const char *name, struct stat *status,
                struct reason *reason);

/* Whether the name still refers to the file that had the status `opened` when it was opened. Also
 * writes the current status. */
/*@ assigns *status, __fc_errno; */
bool folder_has(const struct folder *folder, const char *name, const struct stat *opened,
                struct stat *status);

/* Opens a file for reading and writing, and writes its status. On failure, returns -1 and sets
 * `reason`. */
/*@ assigns *status, *reason, __fc_errno;
  @ ensures \result == -1 || (\result >= 0 && \result != lock_holder);
  @*/
int folder_open_file(const struct folder *folder, const char *name, struct stat *status,
                     struct reason *reason);

/* Makes a missing file. On failure, returns -1, and sets `reason` and errno. */
/*@ assigns *reason, __fc_errno;
  @ ensures \result == -1 || (\result >= 0 && \result != lock_holder);
  @*/
int folder_make_file(const struct folder *folder, const char *name, struct reason *reason);

/* Waits until no other process holds the lock, and acquires it. On failure, returns false and
 * sets `reason`, or errno if the file cannot be locked. */
/*@ requires is_folder(folder) && \valid(reason) && lock_holder == -1;
  @ requires \separated(folder, folder->mark.page, reason, &lock_holder, &__fc_errno);
  @ assigns folder->lock, folder->lock_status, *folder->mark.page, *reason, lock_holder, __fc_errno;
  @ ensures is_folder(folder);
  @ ensures lock_holder == (\result ? folder->lock : -1);
  @ ensures \result ==> lock_holder >= 0;
  @*/
bool folder_lock(struct folder *folder, struct reason *reason);

/* Releases the lock, if this process holds it. */
/*@ requires is_folder(folder) && (lock_holder == -1 || lock_holder == folder->lock);
  @ requires \separated(folder, &lock_holder, &__fc_errno);
  @ assigns folder->lock, lock_holder, __fc_errno;
  @ ensures is_folder(folder) && lock_holder == -1;
  @*/
void folder_unlock(struct folder *folder);

/* Syncs the names in the folder to the disk. The first time, also syncs the folder's own name. */
bool folder_force(struct folder *folder, struct reason *reason);

#endif
