/* Checks what is at a path, and whether a device that is kept in a folder may use it. */
#ifndef STANDING_H
#define STANDING_H
#include "reason.h"
#include <stdbool.h>
#include <sys/stat.h>

/* Whether the status is that of a folder that belongs to the user of the process; sets the reason
   if not. */
bool standing_is_folder(const struct stat *status, const char *path, struct reason *reason);

/* Whether the status is that of a regular file of this user; sets the reason if not. `name` may be
   NULL. */
bool standing_is_file(const struct stat *status, const char *path, const char *name,
                      struct reason *reason);

#endif
