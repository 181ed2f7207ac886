/* Makes a journal in memory, with the library. Like a journal of an earlier version, it begins with
 * an image, and is never restarted, however long it is. */
#ifndef OLD_JOURNAL_H
#define OLD_JOURNAL_H
#include "common.h"

/* The bytes of a journal, with the end offsets of its head and of each of its records. */
struct old_journal {
    uint8_t *bytes;
    size_t size, *ends;
};

/* Adds a command, and returns the end offset of its record. */
static inline size_t add_to_old(struct old_journal *journal, tpmsim *device, const uint8_t *buffer,
                                size_t buffer_size) {
    static const uint8_t random[256] = {1};
    uint8_t response[RESPONSE_BYTES];
    tpmsim_answered answered;
    size_t size;
    must(tpmsim_journal_execute(device, buffer, buffer_size, 0, 1000, 0, random, response, &answered,
                                journal->bytes + journal->size, &size) == TPMSIM_DONE,
         "a command is not executed");
    journal->size += size;
    return journal->size;
}

/* Returns the journal of a new device that was started. Its PCR was extended this many times. */
static inline struct old_journal old_journal_of(size_t extends) {
    enum { HEAD_MOST = 64 * 1024, RECORD_MOST = 1024 };
    static const uint8_t random[256] = {2};
    tpmsim device = {0};
    struct old_journal journal = {0};
    journal.bytes = malloc(HEAD_MOST + (extends + 1) * RECORD_MOST + TPMSIM_RECORD_ROOM);
    journal.ends = malloc((extends + 2) * sizeof *journal.ends);
    must(journal.bytes && journal.ends, "there is no memory");
    must(tpmsim_manufacture(&device, random) == TPMSIM_DONE, "there is no device");
    journal.size = tpmsim_journal_begin(&device, 1000, journal.bytes, HEAD_MOST);
    journal.ends[0] = journal.size;
    journal.ends[1] = add_to_old(&journal, &device, STARTUP, sizeof STARTUP);
    for (size_t i = 0; i < extends; i++)
        journal.ends[i + 2] = add_to_old(&journal, &device, EXTEND, sizeof EXTEND);
    tpmsim_free(&device);
    return journal;
}

#endif
