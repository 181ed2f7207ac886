#define _GNU_SOURCE
#include "past.h"
#include <errno.h>
#include <fcntl.h>
#include <stdio.h>
#include <unistd.h>

static const char JOURNAL[] = "journal", LAST[] = "journal.1";

/* Writes the file name of a past journal; number 1 is the newest. */
static const char *name_of(unsigned number, char name[32]) {
    snprintf(name, 32, "journal.%u", number);
    return name;
}

/* Returns the lowest number that no past journal has, or `count` if that number is not below
 * `count`. */
static unsigned free_number(const struct folder *folder, unsigned count) {
    struct stat status;
    char name[32];
    for (unsigned number = 1; number < count; number++)
        if (fstatat(folder->descriptor, name_of(number, name), &status, AT_SYMLINK_NOFOLLOW) != 0 &&
            errno == ENOENT)
            return number;
    return count;
}

/* Increments the number of each past journal below the lowest free number, so that journal.1 is
 * free. If the process is killed halfway, one number stays free, and the next call uses it without
 * losing a journal. */
static bool move_on(const struct folder *folder, unsigned count, struct reason *reason) {
    char name[32], next[32];
    if (count == 1 && unlinkat(folder->descriptor, LAST, 0) != 0 && errno != ENOENT)
        return refuse(reason, folder->path, LAST, "cannot get the next number", errno);
    for (unsigned number = free_number(folder, count) - 1; number > 0; number--)
        if (renameat(folder->descriptor, name_of(number, name), folder->descriptor,
                     name_of(number + 1, next)) != 0)
            return refuse(reason, folder->path, name, "cannot get the next number", errno);
    return true;
}

/* Whether this error means that the file system has no hard links, or may not have this one. */
static bool lacks_links(int error) {
    return error == EPERM || error == EOPNOTSUPP || error == ENOSYS || error == EMLINK;
}

bool past_keep(const struct folder *folder, unsigned count, bool is_default,
               struct reason *reason) {
    struct stat journal, last;
    if (count == 0) return true;
    int there = folder_look(folder, JOURNAL, &journal, reason);
    if (there != 1) return there == 0;
    int is_last = folder_look(folder, LAST, &last, reason);
    if (is_last < 0) return false;
    /* An earlier process may have been killed after it linked the journal. */
    if (is_last == 1 && is_same_file(&journal, &last)) return true;
    if (!move_on(folder, count, reason)) return false;
    return linkat(folder->descriptor, JOURNAL, folder->descriptor, LAST, 0) == 0 ||
           (is_default && lacks_links(errno)) ||
           refuse(reason, folder->path, LAST, "cannot be made", errno);
}
