#define _GNU_SOURCE
#include "record_file.h"
#include "transfer.h"
#include <errno.h>
#include <fcntl.h>
#include <limits.h>
#include <stdio.h>
#include <unistd.h>

enum { MOST_FILES = 1000 * 1000 };

struct record_file record_file_of(const char *folder) {
    return (struct record_file){.folder = folder, .file = -1};
}

void record_file_end(struct record_file *record) {
    if (record->file >= 0) close(record->file);
    record->file = -1;
    record->size = 0;
}

/* Creates the file with the first free number. On failure, returns -1 and sets
 * errno. */
static int make_file(const char *folder) {
    char path[PATH_MAX];
    for (int number = 1; number <= MOST_FILES; number++) {
        int size = snprintf(path, sizeof path, "%s/boot-%d.tpm", folder, number);
        if (size < 0 || (size_t)size >= sizeof path) {
            errno = ENAMETOOLONG;
            return -1;
        }
        int made = open(path, O_WRONLY | O_CREAT | O_EXCL | O_NOFOLLOW | O_CLOEXEC, 0600);
        if (made >= 0 || errno != EEXIST) return made;
    }
    return -1;
}

bool record_file_begin(struct record_file *record, const uint8_t *head, size_t size,
                       struct reason *reason) {
    record_file_end(record);
    if (!record->folder) return true;
    record->file = make_file(record->folder);
    if (record->file < 0)
        return refuse(reason, record->folder, NULL, "cannot get another file boot-N.tpm", errno);
    return record_file_add(record, head, size, reason);
}

bool record_file_add(struct record_file *record, const uint8_t *text, size_t size,
                     struct reason *reason) {
    if (record->file < 0) return true;
    if (transfer_write(record->file, text, size, (off_t)record->size)) {
        record->size += size;
        return true;
    }
    int error = errno;
    if (ftruncate(record->file, (off_t)record->size) != 0)
        return refuse(reason, "the record", NULL, "ends with part of a command", errno);
    return refuse(reason, "the record", NULL, "is not written", error);
}
