/* Kills processes that use a device, and crashes the host. With force=always, no answered command
 * is lost. With force=power, the device is in one of the states that it had since power came on.
 * `crashes VALUES` kills a process before each system call in turn. Then the host crashes; in half
 * of the runs, another process continues before the crash. `crashes VALUES SECONDS SEED` kills
 * processes at random, also makes calls fail and forks children, and prints the counts to standard
 * error. VALUES is the file with the expected PCR values. */
#include "disk.h"
#include <stdatomic.h>
#include <sys/prctl.h>
#include <sys/wait.h>

/* Counts of the commands since the last power-on: those that were answered, and those that were
 * sent but not answered. The processes that use the device update these counts. */
static struct {
    atomic_long extends, asked;
    atomic_bool is_started, is_starting, is_cycling;
    atomic_long answers;
    /* The journal's inode when the last command was answered. */
    ino_t journal;
} *told;

/* The results of all trials. */
static struct {
    long runs, kills, faults, crashes;
} counts;

enum { AWAITS_STARTUP = -2 };

/* The value of the device's option `force`, and whether the host has crashed since the last
 * check. */
static uint8_t force = TPMSIM_FORCE_ALWAYS;
static bool has_crashed;

static struct kept *opened_so(void) {
    struct kept_options options = {.folder = FOLDER, .force = force};
    struct reason reason;
    return kept_open(&options, &reason);
}

static void note_answer(void) {
    struct stat status;
    must(stat(JOURNAL, &status) == 0, "a device answers without a journal");
    told->journal = status.st_ino;
    told->answers++;
}

/* Executes a command. Returns false if the host reported a fault instead of a response. */
static bool is_answered(struct kept *kept, const uint8_t *buffer, size_t size) {
    uint8_t response[RESPONSE_BYTES];
    tpmsim_answered answered;
    struct reason reason;
    if (!kept_execute(kept, buffer, size, 0, response, &answered, &reason)) return false;
    must(answered.size >= 10 && response[8] == 0 && response[9] == 0, "a command is refused");
    note_answer();
    return true;
}

static bool start_telling(struct kept *kept) {
    told->is_starting = true;
    if (!is_answered(kept, STARTUP, sizeof STARTUP)) return false;
    told->is_started = true;
    told->is_starting = false;
    return true;
}

static bool extend_telling(struct kept *kept) {
    told->asked++;
    if (!is_answered(kept, EXTEND, sizeof EXTEND)) return false;
    told->extends++;
    told->asked--;
    return true;
}

static bool cycle_telling(struct kept *kept) {
    struct reason reason;
    told->is_cycling = true;
    if (!kept_power(kept, &reason)) return false;
    note_answer();
    told->is_started = false;
    told->extends = told->asked = 0;
    told->is_cycling = false;
    return true;
}

/* Returns how often the PCR was extended, or AWAITS_STARTUP if the device needs TPM2_Startup. */
static long extends_there(struct kept *kept, const struct values *values) {
    uint8_t response[RESPONSE_BYTES];
    size_t size = answered_by(kept, PCR_READ, sizeof PCR_READ, response);
    if (size == 10 && response[8] == 1 && response[9] == 0) return AWAITS_STARTUP;
    return extends_of(kept, values);
}

static bool is_right(long there) {
    bool may_lose = has_crashed && force == TPMSIM_FORCE_POWER;
    if (may_lose) return there != -1 && there <= told->extends + told->asked;
    if (there == AWAITS_STARTUP) return !told->is_started || told->is_cycling;
    if (!told->is_started) return told->is_starting && there == 0;
    return there >= told->extends && there <= told->extends + told->asked;
}

/* Opens the device, and checks that it has the effects of all answered commands. */
static void check(const struct values *values, const char *label) {
    struct kept *kept = opened_so();
    must(kept != NULL, "the device does not open");
    long there = extends_there(kept, values);
    note_answer();
    if (!is_right(there)) {
        fprintf(stderr, "%s: %ld extends are there, %ld were answered and %ld asked for\n", label,
                there, told->extends, told->asked);
        must(false, "what was answered is lost");
    }
    told->is_started = there != AWAITS_STARTUP;
    told->extends = there > 0 ? there : 0;
    told->asked = 0;
    told->is_starting = told->is_cycling = has_crashed = false;
    kept_close(kept);
}

static void begin_anew(void) {
    wipe_disk();
    memset(told, 0, sizeof *told);
}

/* Crashes the host, and checks the device. */
static void crash_and_check(const struct values *values) {
    must(told->journal == 0 || told->is_cycling || disk->journal == told->journal,
         "a device that has answered is lost, or its power cycle");
    crash();
    counts.crashes++;
    has_crashed = true;
    check(values, "crashed");
}

/* Runs a function in a process with a fault, and waits until that process and its children have
 * ended. Returns whether the process was killed. */
static bool is_killed(void (*run)(void), enum fault kind, unsigned at) {
    int status, first = 0;
    pid_t child = fork();
    must(child >= 0, "there is no process");
    if (child == 0) {
        number = at;
        counted = 0;
        fault = kind;
        run();
        _exit(0);
    }
    for (pid_t ended; (ended = waitpid(-1, &status, 0)) > 0;) {
        must(WIFSIGNALED(status) ? WTERMSIG(status) == SIGKILL : status == 0, "a process failed");
        if (ended == child) first = status;
    }
    counts.runs++;
    return WIFSIGNALED(first);
}

/* Makes a device, and cycles its power. */
static void run_once(void) {
    struct kept *kept = opened_so();
    must(kept && start_telling(kept) && extend_telling(kept) && extend_telling(kept) &&
             cycle_telling(kept) && start_telling(kept) && extend_telling(kept),
         "a command is not answered");
    kept_close(kept);
}

/* Checks the device after a kill, and executes more commands. */
static void go_on(const struct values *values) {
    check(values, "killed");
    struct kept *kept = opened_so();
    must(kept && (told->is_started || start_telling(kept)) && extend_telling(kept),
         "a command is not answered");
    kept_close(kept);
}

/* Kills a process before each call in turn, and then crashes the host. In the second round, another
   process continues before the crash. */
static void kill_at_each(const struct values *values) {
    for (int goes_on = 0; goes_on < 2; goes_on++) {
        unsigned at = 1;
        for (bool was_killed = true; was_killed; at++) {
            begin_anew();
            was_killed = is_killed(run_once, IS_KILLED, at);
            if (goes_on) go_on(values);
            crash_and_check(values);
        }
        must(at > 50, "there were few calls");
        printf("killed before each call of the system, %s: nothing that was answered is lost\n",
               goes_on ? "and behind another process the host crashed" : "and the host crashed");
    }
}

/* Executes random commands until a command is not answered. Forks a child that does the same. */
static void run_at_random(void) {
    struct kept *kept = opened_so();
    if (!kept || (!told->is_started && !start_telling(kept))) return;
    bool forks = rand() % 4 == 0, goes_on = true;
    pid_t child = forks ? fork() : -1;
    for (int i = rand() % 20; goes_on && i >= 0; i--) {
        if (!forks && rand() % 8 == 0) goes_on = cycle_telling(kept) && start_telling(kept);
        else goes_on = extend_telling(kept);
    }
    if (child == 0) _exit(0);
    if (child > 0) waitpid(child, &(int){0}, 0);
    kept_close(kept);
}

static void try_at_random(const struct values *values, long seconds) {
    enum fault kinds[] = {NO_FAULT, IS_KILLED, IS_KILLED, FAILS};
    struct timespec now, begun;
    long answers = 0;
    for (clock_gettime(CLOCK_MONOTONIC, &begun), now = begun; now.tv_sec < begun.tv_sec + seconds;
         clock_gettime(CLOCK_MONOTONIC, &now)) {
        if (counts.runs % 50 == 0 || (size_t)told->extends + 100 > values->count) {
            answers += told->answers;
            begin_anew();
            force = rand() % 2 ? TPMSIM_FORCE_ALWAYS : TPMSIM_FORCE_POWER;
        }
        enum fault kind = kinds[rand() % 4];
        if (is_killed(run_at_random, kind, 1 + (unsigned)rand() % 200)) counts.kills++;
        if (kind == FAILS) counts.faults++;
        if (rand() % 2) crash_and_check(values);
        else check(values, "ended");
    }
    fprintf(stderr, "%ld runs: %ld killed, %ld with a call that fails; %ld crashes; %ld answers\n",
            counts.runs, counts.kills, counts.faults, counts.crashes, answers + told->answers);
}

int main(int count, char **words) {
    must(count == 2 || count == 4, "usage: crashes VALUES [SECONDS SEED]");
    struct values values = values_of(words[1]);
    must(prctl(PR_SET_CHILD_SUBREAPER, 1) == 0, "orphans go elsewhere");
    disk = shared(sizeof *disk);
    told = shared(sizeof *told);
    when_forced = put_on_disk;
    if (count == 2) {
        kill_at_each(&values);
    } else {
        srand((unsigned)atoi(words[3]));
        try_at_random(&values, atol(words[2]));
    }
    free(values.bytes);
    return 0;
}
