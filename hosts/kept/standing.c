#define _GNU_SOURCE
#include "standing.h"
#include <stddef.h>
#include <unistd.h>

static const char LINK[] = "is a link, which is not followed";

/* Whether the file belongs to the user of the process; sets the reason if not. */
static bool is_own(const struct stat *status, const char *path, const char *name,
                   struct reason *reason) {
    return status->st_uid == geteuid() || refuse(reason, path, name, "belongs to another user", 0);
}

bool standing_is_folder(const struct stat *status, const char *path, struct reason *reason) {
    if (S_ISLNK(status->st_mode)) return refuse(reason, path, NULL, LINK, 0);
    if (!S_ISDIR(status->st_mode)) return refuse(reason, path, NULL, "is no folder", 0);
    return is_own(status, path, NULL, reason);
}

bool standing_is_file(const struct stat *status, const char *path, const char *name,
                      struct reason *reason) {
    if (S_ISLNK(status->st_mode)) return refuse(reason, path, name, LINK, 0);
    if (!S_ISREG(status->st_mode)) return refuse(reason, path, name, "is no regular file", 0);
    return is_own(status, path, name, reason);
}
