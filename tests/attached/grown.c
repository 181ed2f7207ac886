/* Checks that a journal is restarted after it has grown, whichever process uses the device. If the
 * option `keep` is set, finished journals are kept. A long journal of an earlier version of the
 * library can be opened. The argument is the file with the expected PCR values. */
#include "old_journal.h"
#include <sys/stat.h>
#include <sys/wait.h>

enum { PROCESSES = 4, EXTENDS = 1000, LIMIT = 256 * 1024, KEEP = 3, OLD_EXTENDS = 1200 };

static const char FOLDER[] = "state", JOURNAL[] = "state/journal";

static void hear_nothing(const char *told) { must(false, told); }

static struct kept *opened_to_keep(const char *folder, unsigned keep) {
    struct kept_options options = {
        .folder = folder, .force = TPMSIM_FORCE_NEVER, .keep = keep, .tell = hear_nothing};
    struct reason reason;
    struct kept *kept = kept_open(&options, &reason);
    must(kept != NULL, kept ? "" : reason.text);
    return kept;
}

static size_t size_of(const char *path) {
    struct stat status;
    must(stat(path, &status) == 0, "a journal is not there");
    return (size_t)status.st_size;
}

/* Has several processes use the device and extend the PCR at the same time. */
static void extend_at_once(unsigned keep) {
    for (int i = 0; i < PROCESSES; i++) {
        pid_t child = fork();
        must(child >= 0, "there is no process");
        if (child > 0) continue;
        struct kept *kept = opened_to_keep(FOLDER, keep);
        for (int n = 0; n < EXTENDS; n++) {
            extend(kept);
            if (size_of(JOURNAL) > LIMIT + TPMSIM_RECORD_ROOM) _exit(1);
        }
        kept_close(kept);
        _exit(0);
    }
    int status;
    for (int i = 0; i < PROCESSES; i++)
        must(wait(&status) > 0 && status == 0, "a process ended with a fault");
}

/* Opens a copy of a journal, and returns how often its device's PCR was extended. */
static long extends_in(const char *path, const struct values *values) {
    char name[512];
    size_t size;
    uint8_t *bytes = bytes_of(path, &size);
    must(mkdir("copy", 0700) == 0, "there is no folder");
    put_bytes(path_in("copy", "journal", name), bytes, size);
    free(bytes);
    struct kept *kept = opened("copy");
    long count = extends_of(kept, values);
    kept_close(kept);
    must(unlink("copy/journal") == 0 && unlink("copy/lock") == 0 && rmdir("copy") == 0, "no copy");
    return count;
}

/* Checks that all finished journals exist, in the right order. */
static void look_at_past(const struct values *values) {
    long before = PROCESSES * EXTENDS;
    char path[512];
    for (unsigned number = 1; number <= KEEP; number++) {
        snprintf(path, sizeof path, "state/journal.%u", number);
        long count = extends_in(path, values);
        must(count > 0 && count < before, "the journals of the past have another order");
        must(size_of(path) >= LIMIT, "a journal began anew before it had grown");
        before = count;
    }
    must(access("state/journal.4", F_OK) != 0, "too many journals stay");
}

static ino_t inode_of(const char *path) {
    struct stat status;
    must(stat(path, &status) == 0, "a journal is not there");
    return status.st_ino;
}

/* Simulates a process that was killed after it renamed the finished journals, so that only number 1
 * is missing. The next process fills the gap, and loses no journal. */
static void move_on_after_a_kill(struct kept *kept) {
    must(rename("state/journal.2", "state/journal.3") == 0, "there is no journal.2");
    must(rename("state/journal.1", "state/journal.2") == 0, "there is no journal.1");
    ino_t last = inode_of("state/journal.3"), before = inode_of("state/journal.2");
    ino_t now = inode_of(JOURNAL);
    must(kept_power(kept, &(struct reason){0}), "the power cycle failed");
    must(inode_of("state/journal.1") == now, "the journal is not the first of the past");
    must(inode_of("state/journal.2") == before && inode_of("state/journal.3") == last,
         "a journal of the past is lost");
}

static void open_old(const struct values *values) {
    struct old_journal old = old_journal_of(OLD_EXTENDS);
    must(old.size > LIMIT && mkdir("old", 0700) == 0, "the journal is short");
    put_bytes("old/journal", old.bytes, old.size);
    struct kept *kept = opened_to_keep("old", 1);
    must(size_of("old/journal") == old.size, "a journal was changed before a command");
    must(extends_of(kept, values) == OLD_EXTENDS, "another device is opened");
    must(size_of("old/journal") < LIMIT / 2, "a long journal does not begin anew");
    must(extends_in("old/journal.1", values) == OLD_EXTENDS, "the old journal is another one");
    kept_close(kept);
    free(old.bytes);
    free(old.ends);
    puts("a long journal of an earlier version: opened, and begun anew by the first command");
}

int main(int count, char **words) {
    must(count == 2, "usage: grown VALUES");
    struct values values = values_of(words[1]);
    struct kept *kept = opened_to_keep(FOLDER, 0);
    start(kept);
    extend_at_once(0);
    printf("four processes: %ld extends, and the journal begins anew as it grows\n",
           extends_of(kept, &values));
    must(access("state/journal.1", F_OK) != 0, "a journal stays that nobody asked for");
    must(kept_power(kept, &(struct reason){0}), "the power cycle failed");
    start(kept);
    extend_at_once(KEEP);
    must(extends_of(kept, &values) == PROCESSES * EXTENDS, "extends are lost");
    look_at_past(&values);
    puts("keep=3: three journals of the past, in their order");
    kept_close(kept);
    kept = opened_to_keep(FOLDER, KEEP);
    move_on_after_a_kill(kept);
    puts("after a kill half-way: none of them is lost");
    kept_close(kept);
    open_old(&values);
    free(values.bytes);
    return 0;
}
