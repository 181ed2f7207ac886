/* The content of the disk: the synced bytes of the device's files. A crash of the host replaces the
 * folder with this content. The processes of a test share this memory. */
#ifndef DISK_H
#define DISK_H
#include "calls.h"

static const char FOLDER[] = "state", JOURNAL[] = "state/journal";

enum { FILES = 2, FILE_MOST = 1 << 20 };

struct disk {
    bool has_folder;
    /* The inode of the journal in the folder on the disk; 0 if the folder has no journal. */
    ino_t journal;
    struct disk_file {
        ino_t inode;
        size_t size;
        uint8_t bytes[FILE_MOST];
    } files[FILES];
};

static struct disk *disk;

/* Allocates zeroed memory, which forked processes share. */
static inline void *shared(size_t size) {
    void *made =
        __real_mmap(NULL, size, PROT_READ | PROT_WRITE, MAP_SHARED | MAP_ANONYMOUS, -1, 0);
    must(made != MAP_FAILED, "there is no memory");
    return made;
}

static inline void remove_state(void) {
    unlink(JOURNAL);
    unlink("state/journal.new");
    unlink("state/lock");
    rmdir(FOLDER);
    must(access(FOLDER, F_OK) != 0, "there is more in the folder than a state");
}

/* Returns the entry of a file on the disk. If the file has no entry, returns a free one, or reuses
   the entry of a file that is not the journal. */
static inline struct disk_file *disk_file_of(ino_t inode) {
    struct disk_file *free_one = NULL;
    for (int i = 0; i < FILES; i++) {
        if (disk->files[i].inode == inode) return &disk->files[i];
        if (disk->files[i].inode != disk->journal || disk->journal == 0) free_one = &disk->files[i];
    }
    must(free_one != NULL, "there is no place for a file");
    free_one->inode = inode;
    free_one->size = 0;
    return free_one;
}

static inline void force_folder(const struct stat *status) {
    struct stat folder, journal;
    if (stat(FOLDER, &folder) != 0) return;
    if (status->st_ino != folder.st_ino) {
        disk->has_folder = true;
        return;
    }
    disk->journal = stat(JOURNAL, &journal) == 0 ? journal.st_ino : 0;
}

/* Copies synced bytes to the disk. */
static void put_on_disk(int file) {
    struct stat status;
    enum fault before = fault;
    fault = NO_FAULT;
    must(fstat(file, &status) == 0 && status.st_size <= FILE_MOST, "a file is too long");
    if (S_ISDIR(status.st_mode)) {
        force_folder(&status);
    } else {
        struct disk_file *there = disk_file_of(status.st_ino);
        there->size = (size_t)status.st_size;
        must(pread(file, there->bytes, there->size, 0) == (ssize_t)there->size, "a file is short");
    }
    fault = before;
}

/* At random, adds zeros to the file on the disk, at the offsets where the file itself has bytes
 * that were not synced. */
static inline void add_zeros_by_chance(struct disk_file *there) {
    size_t more = rand() % 2 ? (size_t)rand() % (FILE_MOST - there->size) : 0;
    memset(there->bytes + there->size, 0, more);
    there->size += more;
}

/* At random, adds some unsynced bytes of the file to the disk, and perhaps zeros after them. A
 * system may write bytes to the disk before a sync. */
static inline void add_by_chance(struct disk_file *there) {
    size_t size;
    struct stat status;
    if (stat(JOURNAL, &status) != 0 || status.st_ino != there->inode) return;
    uint8_t *bytes = bytes_of(JOURNAL, &size);
    if (size > there->size && memcmp(bytes, there->bytes, there->size) == 0) {
        size_t more = (size_t)rand() % (size - there->size + 1);
        memcpy(there->bytes + there->size, bytes + there->size, more);
        there->size += more;
        add_zeros_by_chance(there);
    }
    free(bytes);
}

/* Replaces the folder with the content of the disk, as a crash of the host does. */
static inline void crash(void) {
    struct stat status;
    struct disk_file *there = disk->journal ? disk_file_of(disk->journal) : NULL;
    if (there) add_by_chance(there);
    remove_state();
    if (!disk->has_folder) {
        disk->journal = 0;
        return;
    }
    must(mkdir(FOLDER, 0700) == 0, "there is no folder");
    if (!there) return;
    put_bytes(JOURNAL, there->bytes, there->size);
    must(stat(JOURNAL, &status) == 0, "there is no journal");
    for (int i = 0; i < FILES; i++) disk->files[i].inode = 0;
    there->inode = disk->journal = status.st_ino;
}

/* Empties the disk. */
static inline void wipe_disk(void) {
    remove_state();
    disk->has_folder = false;
    disk->journal = 0;
    for (int i = 0; i < FILES; i++) disk->files[i].inode = 0;
}

#endif
