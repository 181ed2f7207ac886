/* libtpmsim: a TPM 2.0 in this process.

   A `tpmsim` is the handle of a device. Initialize it with zeros, `tpmsim device = {0};`. It then
   holds no device, and every call accepts it. A process may have any number of devices, and they
   share nothing: the library has no variable data, starts no thread and takes no lock.

       tpmsim device = {0};
       uint8_t random[256], response[4096];
       tpmsim_answered answered;

       getrandom(random, sizeof random, 0);
       if (tpmsim_manufacture(&device, random) != TPMSIM_DONE)
           return 1;
       getrandom(random, sizeof random, 0);
       tpmsim_execute(&device, startup, sizeof startup, 0, 0, random, response, &answered);
       tpmsim_free(&device);

   The caller must meet these conditions, which the library does not check. If one is violated, the
   behaviour is undefined:

   - Only one call at a time uses a handle. Calls on different handles may run at the same time, in
     any threads. A thread may pass a handle to another one, with proper synchronization.
   - A handle is not copied: a copy of its bytes is not another device. Only these calls change it.
     The last call is tpmsim_free; without it the memory is lost.
   - No pointer is NULL, not even with a size of 0. The memory at a pointer has the stated size, needs
     to exist only during the call, and does not overlap the memory at another pointer or the handle.
   - At least 96 KB of stack are free at each call.
   - malloc, realloc and free are the C library's, or those of another allocator with the same
     guarantees. A device allocates about 82 KB, once.
   - No call is made from a signal handler, or in a forked child of a process with threads.

   Numbers are in the byte order of the machine; commands, responses and images are byte strings. */
#ifndef TPMSIM_H
#define TPMSIM_H

#include <stddef.h>
#include <stdint.h>

#ifdef __cplusplus
extern "C" {
#endif

/* The version of this header, encoded as in tpmsim_version: 65,536 * major + 256 * minor + patch. */
#define TPMSIM_VERSION_NUMBER 0x000100

/* A handle. Its member is private to the library, and is NULL if the handle has no device. */
typedef struct tpmsim {
    void *private_;
} tpmsim;

/* The result of a call. On any result but TPMSIM_DONE the call had no effect: the handle still holds
   its device, unchanged, and nothing was written. */
enum tpmsim_told {
    TPMSIM_DONE = 0,
    /* The handle has no device, or no keeper. */
    TPMSIM_NO_DEVICE = 1,
    /* The locality is not 0 to 4. */
    TPMSIM_NO_LOCALITY = 2,
    /* Out of memory: malloc failed. */
    TPMSIM_NO_MEMORY = 3,
    /* The next six results say why bytes are not an image. The checks are made in this order. */
    /* There are fewer than 42 bytes. */
    TPMSIM_IMAGE_SHORT = 4,
    /* The bytes begin neither with TPMI nor with TPMC. */
    TPMSIM_IMAGE_MAGIC = 5,
    /* The version of the image is not 1 or 2; after TPMC, it is not 1. */
    TPMSIM_IMAGE_VERSION = 6,
    /* The length field does not match the number of bytes. */
    TPMSIM_IMAGE_LENGTH = 7,
    /* The last 32 bytes are not the SHA-256 of the bytes before them. */
    TPMSIM_IMAGE_DIGEST = 8,
    /* The body does not encode a state within the limits of the version. */
    TPMSIM_IMAGE_BODY = 9,
    /* The text does not begin with the head of a journal. */
    TPMSIM_NO_JOURNAL = 10,
    /* A record of the journal has its full length, but its bytes do not encode a record. */
    TPMSIM_DAMAGED = 11,
    /* The device's response to the last executed record differs from the recorded response. */
    TPMSIM_OTHERWISE = 12,
    /* The next six results say why bytes are not a state text. The checks are made in this order. */
    /* There are fewer than 42 bytes. */
    TPMSIM_STATE_SHORT = 13,
    /* The bytes do not begin with TPMS. */
    TPMSIM_STATE_MAGIC = 14,
    /* The version of the state text is not 1, 2 or 3. */
    TPMSIM_STATE_VERSION = 15,
    /* The length field does not match the number of bytes. */
    TPMSIM_STATE_LENGTH = 16,
    /* The last 32 bytes are not the SHA-256 of the bytes before them. */
    TPMSIM_STATE_DIGEST = 17,
    /* The body does not encode a state. */
    TPMSIM_STATE_BODY = 18,
    /* An argument is not a number of tpmsim_force or of tpmsim_job. */
    TPMSIM_NO_WORD = 19,
    /* The keeper has no response to a TPM command. */
    TPMSIM_NO_ANSWER = 20,
    /* The state text has version 1, which is no longer read. */
    TPMSIM_STATE_EARLIER = 21
};

/* A buffer size that is enough for every state text. */
enum { TPMSIM_STATE_SIZE = 36930 };

/* A buffer size that is enough for every record of a journal. */
enum { TPMSIM_RECORD_ROOM = 9216 };

/* What a call reports about a command, in addition to its response. */
typedef struct tpmsim_answered {
    /* The size of the response in bytes, 10 to 4,096. */
    size_t size;
    /* The number of random bytes that the command drew, counted from the beginning of the 256; 0 if
       the command was refused. The bytes after these were not used, and may be passed again. */
    size_t drawn;
    /* The command code, TPM_CC; 0 if the buffer contains none that the device serves. */
    uint32_t code;
    /* The check that refused the command, as a number: n for the general check Gn, 20 + n for the
       command's own check An, 255 if memory was exhausted (which never happens here), and 0 if no
       check refused. */
    uint8_t check;
} tpmsim_answered;

/* Writes the name of a check of tpmsim_answered to `text`, and returns `text`. The name is "G9", "A3" or
   "M", as in traces and docs/table, or "ok" if no check refused. */
static inline char *tpmsim_check_text(uint8_t check, char text[5]);
static inline char *tpmsim_check_text(uint8_t check, char text[5]) {
    unsigned number = check > 20 ? check - 20u : check;
    char *end = text;
    if (check == 0) {
        *end++ = 'o';
        *end++ = 'k';
    } else if (check == 255) {
        *end++ = 'M';
    } else {
        *end++ = check > 20 ? 'A' : 'G';
        if (number > 99) *end++ = (char)('0' + number / 100);
        if (number > 9) *end++ = (char)('0' + number / 10 % 10);
        *end++ = (char)('0' + number % 10);
    }
    *end = 0;
    return text;
}

/* Returns the version of the library. */
uint32_t tpmsim_version(void);

/* Makes a new device, with these random bytes as its seeds and proofs. The handle's previous device is
   freed. The new device expects TPM2_Startup. The same bytes always make the same device: if its
   secrets must be secret, pass random bytes from the system.

   Returns TPMSIM_DONE or TPMSIM_NO_MEMORY. */
uint8_t tpmsim_manufacture(tpmsim *device, const uint8_t random[256]);

/* Executes a command: any `size` bytes at `buffer`, from a locality of 0 to 4, `elapsed_ms`
   milliseconds after the previous command. For a buffer of more than 4,096 bytes, the response is
   the one for a bad command size.

   `random` contains the random bytes that the command may draw. Pass new ones for each command;
   `drawn` says how many it drew. Passing the same bytes again produces the same nonces.

   The response is written to the front of `response`; the other bytes there are unchanged. `answered`
   contains its size. A command that the device refuses also has a response, and the call returns
   TPMSIM_DONE.

   Returns TPMSIM_DONE, TPMSIM_NO_LOCALITY or TPMSIM_NO_DEVICE. */
uint8_t tpmsim_execute(tpmsim *device, const uint8_t *buffer, size_t size, uint8_t locality,
                       uint32_t elapsed_ms, const uint8_t random[256], uint8_t response[4096],
                       tpmsim_answered *answered);

/* Executes a command like tpmsim_execute, with the completing layer above the device.
   tpmsim_journal_execute describes the layer. This call writes no record, so a journal would lack the
   command: for a device with a journal use tpmsim_journal_execute. A snapshot includes the layer's
   memory.

   Returns TPMSIM_DONE, TPMSIM_NO_LOCALITY or TPMSIM_NO_DEVICE. */
uint8_t tpmsim_complete(tpmsim *device, const uint8_t *buffer, size_t size, uint8_t locality,
                        uint32_t elapsed_ms, const uint8_t random[256], uint8_t response[4096],
                        tpmsim_answered *answered);

/* Power-cycles the device: it retains only what it keeps while it has no power, and expects
   TPM2_Startup. The completing layer loses its sequences.

   Returns TPMSIM_DONE or TPMSIM_NO_DEVICE. */
uint8_t tpmsim_power_cycle(tpmsim *device);

/* Saves the device: writes its image, which contains everything that it keeps while it has no
   power, to the front of `buffer` if all of it fits; otherwise writes nothing. The device is
   unchanged.

   Returns the size of the image, written or not, at most 28,361; 0 if there is no device. If the result
   is greater than `size`, it is the size that the buffer needs. */
size_t tpmsim_save(tpmsim *device, uint8_t *buffer, size_t size);

/* Writes what the device keeps while it has no power, except Clock, to the front of `buffer` if all
   of it fits; otherwise writes nothing. The device is unchanged. The text changes only if something
   in the image changes other than Clock and the digest. So save the device again when this text has
   changed.

   Returns the size of the text, written or not, at most 28,319; 0 if there is no device. */
size_t tpmsim_kept(tpmsim *device, uint8_t *buffer, size_t size);

/* Opens the device from an image, in the state after a power cycle. The handle's previous device is
 * freed.

   Returns TPMSIM_DONE; TPMSIM_IMAGE_SHORT to TPMSIM_IMAGE_BODY if the bytes are not an image;
   TPMSIM_NO_MEMORY only if they are one. */
uint8_t tpmsim_open(tpmsim *device, const uint8_t *image, size_t size);

/* Writes the state text of the device to the front of `buffer` if all of it fits; otherwise writes
   nothing. The text is the whole state: what the device keeps while it has no power, its PCRs,
   sessions, transient objects and times, and the completing layer's memory. The device is
   unchanged, and the call allocates no memory. The text contains the device's secrets, in the
   clear.

   Returns the size of the text, written or not, at most TPMSIM_STATE_SIZE; 0 without a device. */
size_t tpmsim_snapshot(tpmsim *device, uint8_t *buffer, size_t size);

/* Restores a device from its state text, with its sessions and the completing layer. The handle's
   previous device is freed. The device is not power-cycled, and no time passes. If the text contains no
   completing layer, the layer is new. The device has no journal: start one with
   tpmsim_journal_checkpoint or, with a power cycle, with tpmsim_journal_begin. Before that,
   tpmsim_journal_execute counts the host's whole clock, up to 49.7 days, as elapsed time.

   A state text does not show whether it is the newest of its device. Restoring an older text rolls back
   counters, failed tries and nonces.

   Returns TPMSIM_DONE; TPMSIM_STATE_SHORT to TPMSIM_STATE_BODY if the bytes are not a state text;
   TPMSIM_STATE_EARLIER if it has version 1; or, whatever the bytes are, TPMSIM_NO_MEMORY. */
uint8_t tpmsim_restore(tpmsim *device, const uint8_t *text, size_t size);

/* Power-cycles the device, and writes the head of its new journal to the front of `buffer`, if all of it
   fits; otherwise does nothing.

   Returns the size of the head, written or not, at most 56,802; 0 if there is no device. */
size_t tpmsim_journal_begin(tpmsim *device, uint64_t now_ms, uint8_t *buffer, size_t size);

/* Starts a new journal from the current state: writes its head to the front of `buffer` if all of it
   fits; otherwise does nothing. The head contains the whole state of the device, as tpmsim_snapshot
   writes it. The device is not power-cycled; the device and the completing layer are unchanged. The
   head contains the time of the journal, so that the time since the last command still counts. `now_ms`
   is used only if the device has no journal yet, for example after tpmsim_restore.

   Returns the size of the head, written or not, at most 73,940; 0 without a device. */
size_t tpmsim_journal_checkpoint(tpmsim *device, uint64_t now_ms, uint8_t *buffer, size_t size);

/* Opens the device from a journal. The handle's previous device is freed. `taken` is the size of
   the head and the complete records. After them there may be a record that a crash cut off: the
   front of a record, followed by zeros or nothing. The caller removes it before adding a record.

   Returns TPMSIM_DONE, TPMSIM_NO_JOURNAL, TPMSIM_DAMAGED, TPMSIM_OTHERWISE or TPMSIM_NO_MEMORY;
   TPMSIM_IMAGE_SHORT to TPMSIM_IMAGE_BODY if the image in the head is invalid; TPMSIM_STATE_SHORT to
   TPMSIM_STATE_BODY if the state text in the head is invalid; TPMSIM_STATE_EARLIER if it has version 1. */
uint8_t tpmsim_journal_open(tpmsim *device, const uint8_t *text, size_t size, size_t *taken);

/* Executes the complete records of a later part of the journal: the text after the records that this
   device has executed. On every result but TPMSIM_NO_DEVICE, the device has executed the records in the
   first `taken` bytes.

   Returns TPMSIM_DONE, TPMSIM_DAMAGED, TPMSIM_OTHERWISE or TPMSIM_NO_DEVICE. */
uint8_t tpmsim_journal_follow(tpmsim *device, const uint8_t *text, size_t size, size_t *taken);

/* Executes a command like tpmsim_execute, but at a given time of the host's clock, in milliseconds, and
   also writes the command's record. The caller adds the record to the journal before it releases the
   response. A buffer of more than 4,097 bytes is truncated to 4,097 bytes, which are refused in the same
   way.

   If `completes` is not 0, the completing layer is above the device for this command, and the record
   says so. The device answers first. The layer then answers what the device by design does not
   support: TPM2_ContextSave, TPM2_ContextLoad, TPM2_StirRandom, more of TPM2_GetCapability, and the
   command with which firmware looks for a TPM 1.2. TPM2_ContextLoad of an object's context puts the
   object into a free slot. `code` and `check` are the device's own. The layer's memory belongs to
   the journal: it is empty after each head except that of a checkpoint.

   Returns TPMSIM_DONE, TPMSIM_NO_LOCALITY or TPMSIM_NO_DEVICE. */
uint8_t tpmsim_journal_execute(tpmsim *device, const uint8_t *buffer, size_t size,
                               uint8_t locality, uint64_t now_ms, uint8_t completes,
                               const uint8_t random[256], uint8_t response[4096],
                               tpmsim_answered *answered, uint8_t record[TPMSIM_RECORD_ROOM],
                               size_t *record_size);

/* ---- the keeper of a device in a folder

   A keeper decides how a host keeps a device in a folder, which several processes may use: what to lock,
   read, write, sync to the disk and rename, and when to release the response. After any kill, failure
   or crash the device is still the one that executed the answered commands. A keeper itself does no
   input or output. clients/c/README.md shows a host's loop, and the encodings of commands and seeds.

   Use a handle of a keeper like one of a device: initialize it with zeros, `tpmsim_keeper keeper = {0};`.
   It then has no keeper. */
typedef struct tpmsim_keeper {
    void *private_;
} tpmsim_keeper;

/* When written data are synced to the disk. NEVER: only when a new journal is made. POWER: also when a
   journal is restarted, for example at a power cycle; the folder is synced too. ALWAYS: also before each
   response. */
enum tpmsim_force { TPMSIM_FORCE_NEVER = 0, TPMSIM_FORCE_POWER = 1, TPMSIM_FORCE_ALWAYS = 2 };

/* The size of the report at the start of a response to a command of the standard. */
enum { TPMSIM_REPORT_SIZE = 7 };

/* What a host can ask a keeper to do. */
enum tpmsim_job {
    /* Execute the command in the text. */
    TPMSIM_JOB_EXECUTE = 0,
    /* Restart the journal, in the same state. The text is ignored. */
    TPMSIM_JOB_RENEW = 1,
    /* Return the head of a journal that starts in this state. The text is ignored. */
    TPMSIM_JOB_SHOW = 2,
    /* Check that there is a device, or make one from the seed in the text. */
    TPMSIM_JOB_BEGIN = 3,
    /* Remove damage: restart a damaged journal with the device that its head and the records before
       the damage result in. Nothing else changes. If the keeper had opened the device before the
       damage, this call ends with TPMSIM_FAULT_DAMAGED, and the next call removes the damage. The
       text is ignored. */
    TPMSIM_JOB_CUT = 4
};

/* What the host has to do next. */
enum tpmsim_task {
    /* Nothing: the call has ended. */
    TPMSIM_TASK_NOTHING = 0,
    /* Take the folder's lock, with an open file that belongs to this process. If that fails, close the
       file. */
    TPMSIM_TASK_LOCK = 1,
    /* Open the file that is named journal, unless it is already open, and report its number and size. */
    TPMSIM_TASK_LOOK = 2,
    /* Read the file from offset `at` on: any number of bytes, but at least one. */
    TPMSIM_TASK_READ = 3,
    /* Truncate the file to `cut` bytes, if it is longer, and write the keeper's text at `at`. */
    TPMSIM_TASK_PUT = 4,
    /* Sync the file to the disk, through the open file that was written. */
    TPMSIM_TASK_FORCE = 5,
    /* Write the keeper's whole text to a new file, and sync that file to the disk. */
    TPMSIM_TASK_MAKE = 6,
    /* Rename the new file to the journal's name, and report its number. */
    TPMSIM_TASK_NAME = 7,
    /* Sync the folder to the disk. */
    TPMSIM_TASK_SETTLE = 8,
    /* Release the lock. If that fails, close the lock's file. */
    TPMSIM_TASK_UNLOCK = 9
};

/* The reason why a call failed. */
enum tpmsim_fault {
    TPMSIM_FAULT_NONE = 0,
    /* No call was begun, or the call was abandoned. */
    TPMSIM_FAULT_IDLE = 1,
    /* The host failed to do the task with the same name; FAULT_WRITE is about TPMSIM_TASK_PUT. */
    TPMSIM_FAULT_LOCK = 2,
    TPMSIM_FAULT_LOOK = 3,
    TPMSIM_FAULT_READ = 4,
    TPMSIM_FAULT_WRITE = 5,
    TPMSIM_FAULT_FORCE = 6,
    TPMSIM_FAULT_MAKE = 7,
    TPMSIM_FAULT_NAME = 8,
    TPMSIM_FAULT_SETTLE = 9,
    /* There is no journal. */
    TPMSIM_FAULT_ABSENT = 10,
    /* A new device cannot be made from the passed content. */
    TPMSIM_FAULT_UNREADABLE = 11,
    /* The text to execute is not a command. */
    TPMSIM_FAULT_NO_COMMAND = 12,
    /* The file is not a journal, or is damaged. It is unchanged. */
    TPMSIM_FAULT_DAMAGED = 13,
    /* Out of memory: malloc failed. */
    TPMSIM_FAULT_MEMORY = 14,
    /* The handle has no keeper. */
    TPMSIM_FAULT_NO_KEEPER = 15
};

/* The next task. A field that a task does not use is 0. */
typedef struct tpmsim_ask {
    /* For PUT: the size to which the file is truncated first. For MAKE: the size of the part of the old
       journal that the device has executed, 0 if there is no old journal. The new journal contains nothing
       of the bytes after that part. */
    uint64_t cut;
    /* For READ and PUT: the offset in the file. */
    uint64_t at;
    /* For PUT and MAKE: the size of what tpmsim_keeper_text writes. For NOTHING: the size of what
       tpmsim_keeper_response writes. */
    size_t size;
    /* A number of tpmsim_task. */
    uint8_t task;
    /* For NOTHING: a number of tpmsim_fault, 0 if the call is done and the response may be released. */
    uint8_t fault;
    /* For MAKE: 1 if the old journal is damaged after its first `cut` bytes, which are all that the new
       one keeps; else 0. */
    uint8_t drops;
} tpmsim_ask;

/* The result of a task. DONE: the host did all of it. GONE, only for LOOK: there is no journal. FAILED:
   the task failed, or it is not certain that it was completed. Any other number counts as FAILED. */
enum tpmsim_got { TPMSIM_GOT_DONE = 0, TPMSIM_GOT_GONE = 1, TPMSIM_GOT_FAILED = 2 };

/* Makes a new keeper. The handle's previous keeper is freed. A journal is restarted when it has at least
   `limit` bytes and at least twice the size that it would have after the restart.

   Returns TPMSIM_DONE, TPMSIM_NO_WORD or TPMSIM_NO_MEMORY. */
uint8_t tpmsim_keeper_new(tpmsim_keeper *keeper, uint8_t force, uint64_t limit);

/* Sets whether later calls cut damage. If `cuts` is not 0, a call that finds a damaged journal does the job
   of TPMSIM_JOB_CUT, and then begins again. Otherwise the call ends with TPMSIM_FAULT_DAMAGED.
   After tpmsim_keeper_new, calls do not cut damage.

   Returns TPMSIM_DONE or TPMSIM_NO_DEVICE. */
uint8_t tpmsim_keeper_cuts(tpmsim_keeper *keeper, uint8_t cuts);

/* Begins a call. If the host abandoned the previous call, that call is dropped. Such a host, or a
   forked child of it, first closes its lock file. If the result is not TPMSIM_DONE, nothing has
   changed, and the host does no task.

   Returns TPMSIM_DONE, TPMSIM_NO_WORD, TPMSIM_NO_DEVICE or TPMSIM_NO_MEMORY. */
uint8_t tpmsim_keeper_begin(tpmsim_keeper *keeper, uint8_t job, const uint8_t *text, size_t size);

/* Begins the execution of a TPM command at this time of the host's clock, with the completing layer if
   `completes` is not 0. The command may draw the random bytes. tpmsim_keeper_answer writes the response.

   Returns TPMSIM_DONE, TPMSIM_NO_LOCALITY, TPMSIM_NO_DEVICE or TPMSIM_NO_MEMORY. */
uint8_t tpmsim_keeper_execute(tpmsim_keeper *keeper, const uint8_t *buffer, size_t size, uint8_t locality,
                              uint64_t now_ms, uint8_t completes, const uint8_t random[256]);

/* Begins a power cycle. `start` has no effect: the completing layer keeps its start and its count of contexts,
   so that contexts of objects load after a TPM Resume.

   Returns TPMSIM_DONE, TPMSIM_NO_DEVICE or TPMSIM_NO_MEMORY. */
uint8_t tpmsim_keeper_power(tpmsim_keeper *keeper, uint64_t now_ms, uint64_t start);

/* What a new device is made from: 256 random bytes; an image, as after a power cycle; or a state text. */
enum tpmsim_seed { TPMSIM_SEED_RANDOM = 0, TPMSIM_SEED_IMAGE = 1, TPMSIM_SEED_STATE = 2 };

/* Begins the call that checks whether there is a device and, if not, makes one from the content.
   `seed` is a number of tpmsim_seed. If it is another number, or if the content does not fit it,
   the call ends with TPMSIM_FAULT_UNREADABLE when it has to make a device.

   Returns TPMSIM_DONE, TPMSIM_NO_DEVICE or TPMSIM_NO_MEMORY. */
uint8_t tpmsim_keeper_seed(tpmsim_keeper *keeper, uint8_t seed, uint64_t now_ms, uint64_t start,
                           const uint8_t *content, size_t size);

/* Begins the call that replaces the device with the one in a state text. If the journal is damaged,
   it is cut first. The response is one byte: 1, or 0 if the text is not a state text; then the
   device is unchanged. `start` is the number of the completing layer's start. No earlier start of
   the layer may have had this number, so that contexts that were made before the call do not load.

   Returns TPMSIM_DONE, TPMSIM_NO_DEVICE or TPMSIM_NO_MEMORY. */
uint8_t tpmsim_keeper_restore(tpmsim_keeper *keeper, uint64_t now_ms, uint64_t start, const uint8_t *state,
                              size_t size);

/* Writes the host's next task to `ask`. Without a keeper the task is NOTHING, with
   TPMSIM_FAULT_NO_KEEPER. */
void tpmsim_keeper_ask(tpmsim_keeper *keeper, tpmsim_ask *ask);

/* Writes the text for PUT or MAKE to the front of a buffer if all of it fits; otherwise writes nothing.
   Returns its size, written or not; 0 for every other task, and without a keeper. */
size_t tpmsim_keeper_text(tpmsim_keeper *keeper, uint8_t *buffer, size_t size);

/* Writes the response of a call that is done to the front of a buffer if all of it fits; otherwise writes
   nothing. Returns its size, written or not; 0 before the call is done, and without a keeper. For a
   command of the standard it starts with TPMSIM_REPORT_SIZE bytes: the command's code (4, big-endian),
   the check that refused it, as in tpmsim_answered (1), and how many random bytes it drew (2). */
size_t tpmsim_keeper_response(tpmsim_keeper *keeper, uint8_t *buffer, size_t size);

/* Writes the response to a TPM command to the start of the buffer, after the call has ended. The rest of
   the buffer stays unchanged.

   Returns TPMSIM_DONE or TPMSIM_NO_DEVICE; or TPMSIM_NO_ANSWER if the last call executed no TPM command or
   has not ended. */
uint8_t tpmsim_keeper_answer(tpmsim_keeper *keeper, uint8_t response[4096], tpmsim_answered *answered);

/* Writes the device's state text to the start of the buffer if all of it fits, after a call of
   TPMSIM_JOB_SHOW has ended; otherwise writes nothing. Returns the size of the text, written or not, at most
   TPMSIM_STATE_SIZE. Returns 0 after another call, before the call has ended, and without a keeper. */
size_t tpmsim_keeper_state(tpmsim_keeper *keeper, uint8_t *buffer, size_t size);

/* Passes the result of the task to the keeper. For LOOK and NAME pass the number of the file, which no
   other file ever has; for LOOK also pass its size; for READ pass the bytes. The other arguments are not
   read. */
void tpmsim_keeper_next(tpmsim_keeper *keeper, uint8_t got, uint64_t file, uint64_t file_size,
                        const uint8_t *bytes, size_t size);

/* Writes the message of a fault to the front of a buffer if all of it fits; otherwise writes nothing. It
   is ASCII without a terminating 0, to be printed after a path: "is damaged, and stays as it is". Returns
   its size, written or not; 0 for TPMSIM_FAULT_NONE, TPMSIM_FAULT_NO_KEEPER and unknown numbers. */
size_t tpmsim_fault_text(uint8_t fault, char *buffer, size_t size);

/* Frees the keeper and its device, if there is one. The handle is then empty, and may be reused. */
void tpmsim_keeper_free(tpmsim_keeper *keeper);

/* Frees the device, if there is one. The handle is then empty, and may be reused. */
void tpmsim_free(tpmsim *device);

#ifdef __cplusplus
}
#endif

#endif
