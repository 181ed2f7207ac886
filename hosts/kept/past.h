/* Past journals, which stay in the folder: journal.1 is the newest, journal.2 the one before it. */
#ifndef PAST_H
#define PAST_H
#include "folder.h"

enum { PAST_MOST = 99 };

/* Links the current journal, which is about to be replaced, as journal.1. First increments the
 * numbers of the past journals up to the lowest free number, so that at most `count` journals
 * stay. With `is_default` the user has not asked for it: then it is no failure if the file system
 * has no hard links. */
bool past_keep(const struct folder *folder, unsigned count, bool is_default,
               struct reason *reason);

#endif
