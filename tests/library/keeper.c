/* Tests hosts that keep a device in a folder, either in memory or in the file system. Prints the
 * tasks that the keeper requests from the host in each call. Checks that the device has always
 * executed exactly the answered commands, whichever host was killed. */
#define _GNU_SOURCE
#include "keeper_files.h"
#include "keeper_known.h"
#include "keeper_memory.h"
#include "keeper_stack.h"
#include <poll.h>
#include <sys/wait.h>

static memory folder, other_folder;
static files disk;
static host alive;

/* Adds zeros to the end of the journal, as a crash may. */
static void litter(void) {
    memset(folder.journal.bytes + folder.journal.size, 0, 100);
    folder.journal.size += 100;
}

/* Kills a host before, during or after each task of the command EXTEND in turn, and opens the
 * device again. */
static void kill_at_each(uint8_t force, extent how_much, int has_litter) {
    int count = 0, kills = 0;
    uint8_t fault = KILLED;
    memset(&folder, 0, sizeof folder);
    memory_host(&alive, &folder, force, FAR);
    start(&alive);
    for (int task = 0; fault == KILLED; task++) {
        alive.killed_at = task;
        alive.killed_after = how_much;
        fault = host_executes(&alive, EXTEND, sizeof EXTEND);
        memory_host(&alive, &folder, force, FAR);
        if (fault == KILLED && has_litter) litter();
        kills += fault == KILLED;
        int found = count_of(&alive, count);
        must(fault == KILLED || found == count + 1, "an answered command is gone");
        count = found;
    }
    is_done(fault, "EXTEND is not done");
    printf("killed %d times, %s it, force %u%s: %d executed\n", kills,
           how_much == NOTHING  ? "before"
           : how_much == A_PART ? "in"
                                : "after",
           force, has_litter ? ", zeros behind" : "", count);
    tpmsim_keeper_free(&alive.keeper);
}

/* Kills a host at each task of making a device. Afterwards there is either a complete device or no
 * device. If there is no device, the next host can make one. */
static void kill_beginnings(void) {
    uint8_t fault = KILLED;
    for (int task = 0; fault == KILLED; task++) {
        memset(&folder, 0, sizeof folder);
        memory_host(&alive, &folder, TPMSIM_FORCE_ALWAYS, FAR);
        alive.killed_at = task;
        alive.killed_after = task % 2 ? ALL : A_PART;
        fault = host_begins(&alive);
        memory_host(&alive, &folder, TPMSIM_FORCE_ALWAYS, FAR);
        start(&alive);
        must(count_of(&alive, 0) == 0, "another device begins");
        tpmsim_keeper_free(&alive.keeper);
    }
    is_done(fault, "no device begins");
    printf("beginnings are whole or not at all\n");
}

static void show_tasks(void) {
    for (uint8_t force = 0; force <= TPMSIM_FORCE_ALWAYS; force++) {
        memset(&folder, 0, sizeof folder);
        memory_host(&alive, &folder, force, FAR);
        is_done(host_begins(&alive), "no device begins");
        printf("force %u: begun %s", force, alive.tasks);
        executes(&alive, STARTUP, sizeof STARTUP, 0);
        printf(", executed %s", alive.tasks);
        tpmsim_keeper_free(&alive.keeper);
        memory_host(&alive, &folder, force, FAR);
        executes(&alive, EXTEND, sizeof EXTEND, 0);
        printf(", opened %s", alive.tasks);
        is_done(host_cycles(&alive), "the power is not cycled");
        printf(", cycled %s\n", alive.tasks);
        tpmsim_keeper_free(&alive.keeper);
    }
}

/* Kills a host at each task of restarting the journal. The device must stay the same. */
static void kill_renewals(extent how_much) {
    uint8_t fault = KILLED;
    memset(&folder, 0, sizeof folder);
    memory_host(&alive, &folder, TPMSIM_FORCE_POWER, FAR);
    start(&alive);
    executes(&alive, EXTEND, sizeof EXTEND, 0);
    for (int task = 0; fault == KILLED; task++) {
        alive.killed_at = task;
        alive.killed_after = how_much;
        fault = host_run(&alive, TPMSIM_JOB_RENEW, host_text, 0);
        memory_host(&alive, &folder, TPMSIM_FORCE_POWER, FAR);
        must(count_of(&alive, 1) == 1, "a new beginning changes the device");
    }
    is_done(fault, "no journal begins anew");
    tpmsim_keeper_free(&alive.keeper);
}

/* Kills a host at each task of the command EXTEND, in a folder whose journal has reached its size
 * limit. */
static void kill_at_limit(const memory *before, int count) {
    uint8_t fault = KILLED;
    int kills = 0;
    for (int task = 0; fault == KILLED; task++) {
        folder = *before;
        memory_host(&alive, &folder, TPMSIM_FORCE_POWER, 1);
        alive.killed_at = task;
        alive.killed_after = A_PART;
        fault = host_executes(&alive, EXTEND, sizeof EXTEND);
        kills += fault == KILLED;
        memory_host(&alive, &folder, TPMSIM_FORCE_POWER, 1);
        int found = count_of(&alive, count);
        must(fault == KILLED || found == count + 1, "an answered command is gone");
        tpmsim_keeper_free(&alive.keeper);
    }
    is_done(fault, "EXTEND is not done");
    printf("killed %d times at the limit\n", kills);
}

/* Checks that a restarted journal consists of the head that TPMSIM_JOB_SHOW returns. */
static void check_head(void) {
    is_done(host_run(&alive, TPMSIM_JOB_RENEW, host_text, 0), "no journal begins anew");
    printf("anew %s\n", alive.tasks);
    is_done(host_run(&alive, TPMSIM_JOB_SHOW, host_text, 0), "no head is shown");
    must(alive.response_size == folder.journal.size &&
             memcmp(alive.response, folder.journal.bytes, alive.response_size) == 0,
         "another head is shown");
}

/* Checks that a journal at its size limit is restarted, with the same state. */
static void check_limit(void) {
    int count = 0;
    memset(&folder, 0, sizeof folder);
    memory_host(&alive, &folder, TPMSIM_FORCE_POWER, 1);
    start(&alive);
    for (uint64_t first = folder.number; folder.number == first; count++) {
        must(count < EXTENDS - 2, "no journal begins anew");
        other_folder = folder;
        executes(&alive, EXTEND, sizeof EXTEND, 0);
    }
    printf("at its limit %s\n", alive.tasks);
    must(count_of(&alive, count) == count, "the device of the new journal is another");
    check_head();
    tpmsim_keeper_free(&alive.keeper);
    memory_host(&alive, &folder, TPMSIM_FORCE_POWER, FAR);
    must(count_of(&alive, count) == count, "the device of the new journal is opened as another");
    tpmsim_keeper_free(&alive.keeper);
    kill_at_limit(&other_folder, count - 1);
}

/* Changes single bytes of a journal. The keeper must refuse each changed journal, and leave it
 * unchanged. */
static void check_damage(void) {
    int refused = 0, tried = 0;
    memset(&folder, 0, sizeof folder);
    memory_host(&alive, &folder, TPMSIM_FORCE_NEVER, FAR);
    start(&alive);
    executes(&alive, READ, sizeof READ, 0);
    tpmsim_keeper_free(&alive.keeper);
    for (size_t at = 0; at < folder.journal.size / 2; at += 97) {
        folder.journal.bytes[at] ^= 1;
        other_folder = folder;
        memory_host(&alive, &folder, TPMSIM_FORCE_NEVER, FAR);
        refused += host_executes(&alive, READ, sizeof READ) == TPMSIM_FAULT_DAMAGED;
        tried++;
        must(memcmp(&folder, &other_folder, sizeof folder) == 0, "a damaged journal is written");
        tpmsim_keeper_free(&alive.keeper);
        folder.journal.bytes[at] ^= 1;
    }
    printf("damage %s\n", refused == tried ? "is refused at each byte" : "IS NOT REFUSED");
}

static void check_refusals(void) {
    static const uint8_t none[1] = {9};
    memset(&folder, 0, sizeof folder);
    tpmsim_keeper empty = {0};
    printf("no word %u", tpmsim_keeper_new(&empty, 3, FAR));
    printf(", no keeper %u", tpmsim_keeper_begin(&empty, TPMSIM_JOB_SHOW, none, 1));
    memory_host(&alive, &folder, TPMSIM_FORCE_ALWAYS, FAR);
    printf(", no job %u", tpmsim_keeper_begin(&alive.keeper, 5, none, 1));
    printf(", no device %u", host_run(&alive, TPMSIM_JOB_SHOW, none, 0));
    printf(", no seed %u", host_run(&alive, TPMSIM_JOB_BEGIN, none, 1));
    start(&alive);
    other_folder = folder;
    printf(", no command %u %s\n", host_run(&alive, TPMSIM_JOB_EXECUTE, none, 1), alive.tasks);
    must(memcmp(&folder, &other_folder, sizeof folder) == 0, "what is no command is written");
    must(count_of(&alive, 0) == 0, "what is no command changes the device");
    tpmsim_keeper_free(&alive.keeper);
}

/* Makes calls on a handle that has no keeper. */
static void check_none(void) {
    tpmsim_ask ask;
    tpmsim_keeper none = {0};
    tpmsim_keeper_ask(&none, &ask);
    tpmsim_keeper_next(&none, TPMSIM_GOT_DONE, 0, 0, host_text, 0);
    printf("without a keeper: task %u, fault %u, %zu, %zu\n", ask.task, ask.fault,
           tpmsim_keeper_text(&none, host_text, sizeof host_text),
           tpmsim_keeper_response(&none, host_text, sizeof host_text));
    tpmsim_keeper_free(&none);
}

/* Cycles the power, and restores a state. Each of these two calls restarts the journal instead of
 * adding an entry. */
static void check_leaps(void) {
    static uint8_t state[TPMSIM_STATE_SIZE];
    tpmsim device = {0};
    uint8_t response[RESPONSE_BYTES];
    memset(&folder, 0, sizeof folder);
    memory_host(&alive, &folder, TPMSIM_FORCE_ALWAYS, FAR);
    start(&alive);
    executes(&alive, EXTEND, sizeof EXTEND, 0);
    is_done(host_cycles(&alive), "the power is not cycled");
    executes(&alive, READ, sizeof READ, 0x100);
    start_new(&device, 9);
    answered_by(&device, EXTEND, sizeof EXTEND, response);
    size_t size = tpmsim_snapshot(&device, state, sizeof state);
    is_done(host_restores(&alive, state, size), "no state is restored");
    printf("restored %u %s", alive.response[0], alive.tasks);
    is_done(host_restores(&alive, state, size - 1), "what is no state is not answered");
    printf(", of no state %u %s\n", alive.response[0], alive.tasks);
    size = answered_by(&device, READ, sizeof READ, response).size;
    executes(&alive, READ, sizeof READ, 0);
    must(alive.response_size == size && memcmp(alive.response, response, size) == 0,
         "another state is restored");
    tpmsim_free(&device);
    tpmsim_keeper_free(&alive.keeper);
}

/* Makes each task of a call fail in turn. The host then discards its device in memory, and opens it
 * again. */
static void check_failures(void) {
    int count = 0;
    uint8_t fault = KILLED;
    memset(&folder, 0, sizeof folder);
    memory_host(&alive, &folder, TPMSIM_FORCE_ALWAYS, FAR);
    start(&alive);
    for (int task = 0; fault != TPMSIM_FAULT_NONE; task++) {
        alive.fails_at = task;
        fault = host_executes(&alive, EXTEND, sizeof EXTEND);
        alive.fails_at = NEVER;
        alive.leaves(&alive);
        printf("%u ", fault);
        count = count_of(&alive, count);
    }
    printf("are the faults of failed tasks\n");
    tpmsim_keeper_free(&alive.keeper);
}

/* The task of a call at which the host forks, the number of EXTEND commands executed by then, and
   the child's process ID. */
static int forked_at, expected;
static pid_t child;

/* The work of a child that is forked in the middle of a call. The child makes a call of its own,
 * with its own lock. */
static void child_goes_on(host *it) {
    files_close(&disk.lock);
    it->does = files_do;
    must(count_of(it, expected) == expected, "a parent's command is gone");
    executes(it, EXTEND, sizeof EXTEND, 0);
    _exit(0);
}

static seen files_fork(host *it, const tpmsim_ask *ask, const uint8_t *text) {
    if (forked_at-- == 0) {
        fflush(stdout);
        child = fork();
        must(child >= 0, "no process");
        if (child == 0) child_goes_on(it);
        poll(NULL, 0, 50); /* if the child did not wait for a lock of its own, it would be first */
    }
    return files_do(it, ask, text);
}

/* Forks at each task of the command EXTEND after the lock was acquired. The commands of parent and
 * child are both executed. */
static void check_forks(int count) {
    int status, forks = 0;
    alive.does = files_fork;
    do {
        forked_at = ++forks;
        child = 0;
        expected = ++count;
        executes(&alive, EXTEND, sizeof EXTEND, 0);
        if (child == 0) continue;
        must(waitpid(child, &status, 0) == child && WIFEXITED(status) && WEXITSTATUS(status) == 0,
             "a child is gone");
        count++;
    } while (child != 0 && count_of(&alive, count) == count);
    alive.does = files_do;
    must(count_of(&alive, count) == count, "a command is gone");
    printf("files: forked at %d tasks\n", forks - 1);
}

static void check_files(const char *path) {
    disk = (files){open(path, O_RDONLY | O_DIRECTORY), -1, -1, -1, 0, {0}};
    must(disk.folder >= 0, "no folder");
    files_host(&alive, &disk, TPMSIM_FORCE_ALWAYS, FAR);
    start(&alive);
    check_forks(0);
    is_done(host_cycles(&alive), "the power is not cycled");
    executes(&alive, STARTUP, sizeof STARTUP, 0);
    tpmsim_keeper_free(&alive.keeper);
    files_leave(&alive);
    files_host(&alive, &disk, TPMSIM_FORCE_NEVER, FAR);
    executes(&alive, READ, sizeof READ, 0);
    printf("files: opened again after a power cycle %s\n", alive.tasks);
    tpmsim_keeper_free(&alive.keeper);
    files_leave(&alive);
    close(disk.folder);
}

/* Makes calls of each kind, in a separate thread. */
static void *call_all(void *unused) {
    check_leaps();
    check_limit();
    return unused;
}

int main(int count, char **words) {
    must(count == 2, "usage: keeper FOLDER");
    memory_host(&alive, &other_folder, TPMSIM_FORCE_NEVER, FAR);
    learn(&alive);
    show_tasks();
    for (uint8_t force = 0; force <= TPMSIM_FORCE_ALWAYS; force++)
        for (extent how_much = NOTHING; how_much <= ALL; how_much++)
            kill_at_each(force, how_much, force == TPMSIM_FORCE_ALWAYS && how_much == A_PART);
    kill_beginnings();
    kill_renewals(A_PART);
    kill_renewals(ALL);
    check_damage();
    check_refusals();
    check_none();
    check_stack(call_all);
    check_failures();
    check_files(words[1]);
    return 0;
}
