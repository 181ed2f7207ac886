/* The folder that specs/World.antt of tpm_keeping defines, in memory that forked processes share.
 * It consists of the files as all processes see them, and the contents that may remain after a
 * crash of the host. */
#ifndef KEEPER_FOLDER_H
#define KEEPER_FOLDER_H
#include "keeper_host.h"
#include <sys/mman.h>

/* The definition allows any number of earlier contents and files. Here at most PAST contents and
 * OLDER files are stored; after that, each new one replaces a random one. COMMANDS is the maximum
 * length of the history. */
enum { PAST = 4, OLDER = 4, CONTENT_BYTES = 192 * 1024, COMMANDS = 2000, ARENA_BYTES = 4 << 20 };

/* `commands` counts the commands of the history up to the last one whose entry is complete in this
 * content. */
typedef struct content {
    size_t size;
    int commands;
    uint8_t bytes[CONTENT_BYTES];
} content;

/* `before` is the number of commands that were executed before the head was written. `ends` are the
 * end offsets of the entries of later commands. The first `forced` bytes are on the disk. */
typedef struct file {
    uint64_t number;
    int before;
    size_t forced, ends[COMMANDS];
    int is_dropped, pasts;
    content now, past[PAST];
} file;

/* A command of the history and its response. Both are stored in the arena. */
typedef struct executed {
    const uint8_t *text;
    const uint8_t *response;
    size_t size, response_size;
} executed;

/* files[names[0]] is the journal. The other elements of `names` refer to files that had the
 * journal's name since the last sync of the folder. */
typedef struct world {
    file files[1 + OLDER];
    int names[1 + OLDER], olders;
    uint64_t next;
    content fresh;
    size_t fresh_forced;
    int is_locked, locker;
    executed history[COMMANDS];
    int commands, promised, is_lasting;
    /* The length of the history when a holder with force=always last answered. */
    int always;
    /* The seed of the device, and the number of seeds used so far. */
    const uint8_t *seed;
    size_t seed_size;
    int origin;
    uint64_t clock, draws;
    size_t used;
    uint8_t arena[ARENA_BYTES];
} world;

static world *all;

/* Returns the generator's next random number, which is less than the bound. */
static inline unsigned rolled(unsigned bound) {
    all->draws ^= all->draws << 13;
    all->draws ^= all->draws >> 7;
    all->draws ^= all->draws << 17;
    return (unsigned)(all->draws >> 33) % bound;
}

static inline file *journal(void) { return &all->files[all->names[0]]; }

static inline const uint8_t *stored(const uint8_t *bytes, size_t size) {
    uint8_t *at = all->arena + all->used;
    must(all->used + size <= ARENA_BYTES, "the arena is full");
    memcpy(at, bytes, size);
    all->used += size;
    return at;
}

static inline void copy_content(content *to, const content *from) {
    to->size = from->size;
    to->commands = from->commands;
    memcpy(to->bytes, from->bytes, from->size);
}

/* Makes a world without a journal. */
static inline void world_begins(uint64_t seed) {
    if (!all) {
        all = mmap(NULL, sizeof *all, PROT_READ | PROT_WRITE, MAP_SHARED | MAP_ANONYMOUS, -1, 0);
        must(all != MAP_FAILED, "there is no memory");
    }
    for (int i = 0; i <= OLDER; i++) {
        all->names[i] = i;
        all->files[i].number = 0;
        all->files[i].before = all->files[i].pasts = all->files[i].is_dropped = 0;
        all->files[i].forced = 0;
        all->files[i].now.size = 0, all->files[i].now.commands = 0;
    }
    all->olders = all->commands = all->promised = all->is_lasting = all->always = 0;
    all->is_locked = 0;
    all->next = 1;
    all->fresh.size = all->fresh_forced = all->used = 0;
    all->clock = 1000;
    all->origin++;
    all->draws = seed * 0x9e3779b97f4a7c15u + 1;
}

/* Stores the current content as an earlier one, which a crash may leave on the disk. */
static inline void remember(file *it) {
    int at = it->pasts < PAST ? it->pasts++ : (int)rolled(PAST);
    copy_content(&it->past[at], &it->now);
}

/* Adds a command to the history. */
static inline void history_adds(const uint8_t *command, size_t size) {
    must(all->commands < COMMANDS, "the history is full");
    all->history[all->commands++] = (executed){stored(command, size), NULL, size, 0};
}

/* Cuts the file to `cut` bytes, then writes the first `count` bytes of a text of `size` bytes at
 * the offset `at`. If the whole text was written, and it begins at or before the end of the synced
 * bytes, then it replaces any bytes that were dropped. `adds` says whether the text ends with a
 * command's entry. */
static inline void file_puts(file *it, size_t cut, size_t at, const uint8_t *text, size_t count,
                             size_t size, int adds) {
    content *now = &it->now;
    must(at <= cut && cut <= now->size, "a gap, or a cut of nothing");
    must(at + count <= CONTENT_BYTES, "a file that is too large");
    remember(it);
    now->size = cut;
    memcpy(now->bytes + at, text, count);
    if (now->size < at + count) now->size = at + count;
    if (it->forced > cut) it->forced = cut;
    if (count == size && at <= it->forced) it->is_dropped = 0;
    if (adds && count == size) it->ends[now->commands++ - it->before] = at + count;
}

/* Records that the whole file is on the disk, unless a part of it was dropped. */
static inline void file_forced(file *it) {
    if (it->is_dropped) return;
    it->pasts = 0;
    it->forced = it->now.size;
}

/* Gives the journal's name to the new file. Its head contains the state after all commands. If
 * `whole` is 1, the head contains the state before the last command instead, and that command's
 * entry follows. */
static inline void file_named(int whole) {
    int last = all->olders < OLDER ? ++all->olders : 1 + (int)rolled(OLDER);
    int place = all->names[last];
    memmove(all->names + 1, all->names, (size_t)last * sizeof *all->names);
    all->names[0] = place;
    file *it = journal();
    it->number = all->next++;
    it->before = all->commands - whole;
    it->is_dropped = it->pasts = 0;
    it->forced = all->fresh_forced;
    copy_content(&it->now, &all->fresh);
    it->now.commands = all->commands;
    it->ends[0] = it->now.size;
}

/* Returns the number of commands whose entries are complete in the first `size` bytes of a
 * content. */
static inline int whole_in(const file *it, const content *from, size_t size) {
    int count = 0, most = from->commands - it->before;
    while (count < most && it->ends[count] <= size) count++;
    return it->before + count;
}

/* Crashes the host. One of the files remains, with one of its contents. That content is truncated
 * somewhere after its synced bytes, and zeros may follow. */
static inline void world_crashes(void) {
    int place = all->names[rolled((unsigned)all->olders + 1)];
    file *it = &all->files[place];
    unsigned which = rolled((unsigned)it->pasts + 1);
    content *left = which < (unsigned)it->pasts ? &it->past[which] : &it->now;
    size_t most = left->size, count = rolled(2) ? most : rolled((unsigned)most + 1);
    if (count < it->forced) count = it->forced;
    if (count > most) count = most;
    int commands = whole_in(it, left, count);
    if (left != &it->now) copy_content(&it->now, left);
    it->now.size = count;
    it->now.commands = commands;
    if (it->number && rolled(2)) {
        size_t zeros = 1 + rolled(4096);
        memset(it->now.bytes + count, 0, zeros);
        it->now.size += zeros;
    }
    it->pasts = it->is_dropped = 0;
    it->forced = it->now.size;
    for (int i = 0; i <= OLDER; i++)
        if (all->names[i] == place) all->names[i] = all->names[0];
    all->names[0] = place;
    all->olders = all->is_locked = 0;
    all->fresh.size = all->fresh_forced = 0;
    all->commands = commands;
}
#endif
