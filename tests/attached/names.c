/* Checks which names are synced to the disk before a command is answered: the journal's name in its
 * folder, and the folder's name in the parent folder. Other processes are killed after mkdir, or
 * between the rename and the sync of the folder. */
#include "common.h"
#include <errno.h>
#include <signal.h>
#include <sys/stat.h>
#include <sys/wait.h>

static const char FOLDER[] = "state";

/* The call after which this process is killed, if any. */
static enum { NOWHERE, BEHIND_MKDIR, BEHIND_RENAME } killed_at;

/* The numbers of syncs of the folder, its parent folder, other files and whole file systems; and
   whether the parent folder can be synced. */
static unsigned folders, above, others, systems;
static bool above_is_forced = true;

static void be_killed_at(int where) {
    if ((int)killed_at == where) kill(getpid(), SIGKILL);
}

int __real_mkdir(const char *path, mode_t mode);
int __wrap_mkdir(const char *path, mode_t mode);
int __wrap_mkdir(const char *path, mode_t mode) {
    int result = __real_mkdir(path, mode);
    be_killed_at(BEHIND_MKDIR);
    return result;
}

int __real_renameat(int from, const char *path, int into, const char *name);
int __wrap_renameat(int from, const char *path, int into, const char *name);
int __wrap_renameat(int from, const char *path, int into, const char *name) {
    int result = __real_renameat(from, path, into, name);
    be_killed_at(BEHIND_RENAME);
    return result;
}

/* Returns whether an open file is the file at a path. */
static bool is_at(int file, const char *path) {
    struct stat open, there;
    must(fstat(file, &open) == 0 && stat(path, &there) == 0, "there is no status");
    return open.st_dev == there.st_dev && open.st_ino == there.st_ino;
}

int __real_fsync(int file);
int __wrap_fsync(int file);
int __wrap_fsync(int file) {
    bool is_above = is_at(file, ".");
    if (is_above && !above_is_forced) {
        errno = EINVAL;
        return -1;
    }
    if (is_above) above++;
    else if (is_at(file, FOLDER)) folders++;
    else others++;
    return __real_fsync(file);
}

int __real_syncfs(int file);
int __wrap_syncfs(int file);
int __wrap_syncfs(int file) {
    must(is_at(file, FOLDER), "another file system is forced");
    systems++;
    return __real_syncfs(file);
}

static void remove_state(void) {
    unlink("state/journal");
    unlink("state/journal.new");
    unlink("state/lock");
    rmdir(FOLDER);
    must(access(FOLDER, F_OK) != 0, "there is more in the folder than a state");
}

static struct kept *opened_with(uint8_t force) {
    struct kept_options options = {.folder = FOLDER, .force = force};
    struct reason reason;
    struct kept *kept = kept_open(&options, &reason);
    must(kept != NULL, kept ? "" : reason.text);
    return kept;
}

/* Has another process open the device. That process is killed after the given call, while it opens
 * the device or cycles the power. */
static void kill_another(uint8_t force, int where) {
    int status;
    pid_t child = fork();
    must(child >= 0, "there is no process");
    if (child == 0) {
        struct kept *kept = NULL;
        if (access("state/journal", F_OK) == 0) kept = opened_with(force);
        killed_at = where;
        if (!kept) kept = opened_with(force);
        kept_power(kept, &(struct reason){0});
        _exit(0);
    }
    must(waitpid(child, &status, 0) == child && WIFSIGNALED(status), "a process was not killed");
}

/* Prints the numbers of syncs since they were last printed. */
static void tell(const char *label) {
    printf("    %s: folder %u, above %u", label, folders, above);
    if (systems) printf(", file system %u", systems);
    putchar('\n');
    folders = above = others = systems = 0;
}

/* Executes a command, which syncs before it responds, and then another command, which syncs
 * nothing. */
static void answer(struct kept *kept, const char *label) {
    uint8_t response[RESPONSE_BYTES];
    answered_by(kept, READ_CLOCK, sizeof READ_CLOCK, response);
    tell(label);
    answered_by(kept, READ_CLOCK, sizeof READ_CLOCK, response);
    must(folders + above + others + systems == 0, "names are forced again");
}

static void try_with(uint8_t force) {
    remove_state();
    kill_another(force, BEHIND_MKDIR);
    struct kept *kept = opened_with(force);
    answer(kept, "a folder whose maker was killed");
    kept_close(kept);
    remove_state();
    kill_another(force, BEHIND_RENAME);
    kept = opened_with(force);
    answer(kept, "a device whose maker was killed");
    struct kept *other = opened_with(force);
    tell("opened by another holder");
    must(kept_power(other, &(struct reason){0}), "the power cycle failed");
    tell("a power cycle by it");
    kept_close(other);
    answer(kept, "and a command by the first one");
    kill_another(force, BEHIND_RENAME);
    answer(kept, "a power cycle whose process was killed");
    kept_close(kept);
    above_is_forced = false;
    kept = opened_with(force);
    answer(kept, "where the folder above cannot be forced");
    kept_close(kept);
    above_is_forced = true;
}

int main(void) {
    static const char *const labels[] = {"power", "never", "always"};
    static const uint8_t forces[] = {TPMSIM_FORCE_POWER, TPMSIM_FORCE_NEVER, TPMSIM_FORCE_ALWAYS};
    for (int i = 0; i < 3; i++) {
        printf("force=%s\n", labels[i]);
        fflush(stdout);
        try_with(forces[i]);
    }
    return 0;
}
