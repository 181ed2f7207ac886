/* A folder in memory, and how a host accesses it. */
#ifndef KEEPER_MEMORY_H
#define KEEPER_MEMORY_H
#include "keeper_host.h"

/* PART is the maximum size of one read, in bytes. */
enum { FILE_BYTES = 512 * 1024, PART = 1000 };

typedef struct memory_file {
    size_t size;
    uint8_t bytes[FILE_BYTES];
} memory_file;

/* `number` is the number of the current journal, or 0 if there is no journal. */
typedef struct memory {
    uint64_t number;
    int is_locked;
    memory_file journal, fresh;
} memory;

static inline seen memory_seen(const memory *folder) {
    if (folder->number == 0) return (seen){TPMSIM_GOT_GONE, 0, 0, host_text, 0};
    return (seen){TPMSIM_GOT_DONE, folder->number, folder->journal.size, host_text, 0};
}

static inline seen memory_reads(const memory_file *file, uint64_t at) {
    must(at <= file->size, "a read behind the end");
    size_t size = file->size - at < PART ? file->size - at : PART;
    return (seen){TPMSIM_GOT_DONE, 0, 0, file->bytes + at, size};
}

static inline void memory_puts(memory_file *file, const tpmsim_ask *ask, const uint8_t *text) {
    must(ask->at <= ask->cut && ask->cut <= file->size, "a gap, or a cut of nothing");
    must(ask->at + ask->size <= FILE_BYTES, "a file that is too large");
    file->size = ask->cut;
    memcpy(file->bytes + ask->at, text, ask->size);
    if (file->size < ask->at + ask->size) file->size = ask->at + ask->size;
}

static inline void memory_makes(memory_file *file, const tpmsim_ask *ask, const uint8_t *text) {
    must(ask->size <= FILE_BYTES, "a file that is too large");
    file->size = ask->size;
    memcpy(file->bytes, text, ask->size);
}

static inline void memory_locks(memory *folder, int is_locked) {
    must(folder->is_locked != is_locked, "a lock that is taken twice, or given back twice");
    folder->is_locked = is_locked;
}

static inline seen memory_does(host *it, const tpmsim_ask *ask, const uint8_t *text) {
    memory *folder = it->folder;
    must(ask->task == TPMSIM_TASK_LOCK || folder->is_locked, "a task without the lock");
    switch (ask->task) {
    case TPMSIM_TASK_LOCK: memory_locks(folder, 1); break;
    case TPMSIM_TASK_LOOK: return memory_seen(folder);
    case TPMSIM_TASK_READ: return memory_reads(&folder->journal, ask->at);
    case TPMSIM_TASK_PUT: memory_puts(&folder->journal, ask, text); break;
    case TPMSIM_TASK_MAKE: memory_makes(&folder->fresh, ask, text); break;
    case TPMSIM_TASK_NAME:
        folder->journal = folder->fresh;
        folder->number++;
        return memory_seen(folder);
    case TPMSIM_TASK_UNLOCK: memory_locks(folder, 0); break;
    default: break; /* there is nothing to sync */
    }
    return (seen){TPMSIM_GOT_DONE, 0, 0, text, 0};
}

static inline void memory_leaves(host *it) { ((memory *)it->folder)->is_locked = 0; }

static inline void memory_host(host *it, memory *folder, uint8_t force, uint64_t limit) {
    it->folder = folder;
    it->does = memory_does;
    it->leaves = memory_leaves;
    host_starts(it, force, limit);
}
#endif
