/* Runs the compiled keeper with random events, in the world that specs/World.antt of tpm_keeping
 * defines. Each process has a keeper. Processes get commands, perform the keeper's tasks, fail, are
 * killed and fork, and the host crashes. Each response is compared with that of the device that
 * executed the history according to the definition (keeper_fold.h). After each crash, the journal
 * is also compared.
 *
 *     keeper_world EVENTS SEED     this many events, with a seed
 *     keeper_world wrong EVENTS    wrong hosts; each of them has to be caught within this many events
 *
 *
 * Linked with --wrap=malloc and --wrap=realloc, to make allocations fail. */
#define _GNU_SOURCE
#include "keeper_fold.h"
#include "keeper_memory.h"
#include "keeper_wrong.h"
#include <sys/wait.h>
#include <unistd.h>

enum { PROCESSES = 5, WORLD_EVENTS = 1500, CHILD_EVENTS = 60, STATES = 8 };

/* A process. `was_hindered` is set if a task of its current call failed, or if an allocation
 * failed. */
typedef struct process {
    tpmsim_keeper keeper;
    uint8_t force, job;
    int is_busy, was_hindered;
    uint8_t command[HEAD_BYTES];
    size_t size;
    uint64_t file, file_size;
} process;

static process processes[PROCESSES];
static int is_child, refused;

static struct counts {
    long events, calls, answers, deaths, failures, forks, crashes, drops, starved, worlds;
} counts;

void *__real_malloc(size_t size);
void *__wrap_malloc(size_t size);
void *__wrap_malloc(size_t size) { return refused && --refused == 0 ? NULL : __real_malloc(size); }

void *__real_realloc(void *old, size_t size);
void *__wrap_realloc(void *old, size_t size);
void *__wrap_realloc(void *old, size_t size) {
    return refused && --refused == 0 ? NULL : __real_realloc(old, size);
}

static int chance(unsigned of) { return rolled(of) == 0; }

static void starts(process *it) {
    static const uint64_t limits[] = {1, 6000, 20000, UINT64_MAX};
    it->force = (uint8_t)rolled(3);
    it->is_busy = 0;
    it->file = 0;
    must(tpmsim_keeper_new(&it->keeper, it->force, limits[rolled(4)]) == TPMSIM_DONE,
         "there is no keeper");
}

/* ---- the jobs of a process */

static void add(process *it, const void *bytes, size_t size) {
    memcpy(it->command + it->size, bytes, size);
    it->size += size;
}

static void add_number(process *it, uint64_t number) {
    put_number(it->command + it->size, number);
    it->size += 8;
}

static void add_random(process *it, size_t size) {
    while (size--) it->command[it->size++] = (uint8_t)rolled(256);
}

/* Appends the time of the host's clock, which may go back. */
static void add_clock(process *it) {
    all->clock += rolled(2000);
    if (chance(50)) all->clock -= rolled((unsigned)all->clock);
    add_number(it, all->clock);
}

static void add_seed(process *it) {
    static uint8_t state[TPMSIM_STATE_SIZE];
    int has_device = journal()->number && fold.origin == all->origin;
    uint8_t kind = (uint8_t)(has_device ? rolled(3) : 0);
    add(it, &kind, 1);
    add_clock(it);
    add_number(it, rolled(1u << 31));
    if (kind == 0) add_random(it, RANDOM_BYTES);
    if (kind == 1) add(it, state, tpmsim_save(&fold.device, state, sizeof state));
    if (kind == 2) add(it, state, tpmsim_snapshot(&fold.device, state, sizeof state));
    if (chance(8)) it->size -= rolled(200);
}

static void add_standard(process *it, uint8_t kind) {
    static const struct {
        size_t size;
        const char *bytes;
    } buffers[] = {
        {12, "\x80\x01\0\0\0\x0c\0\0\x01\x44\0\0"},
        {65, "\x80\x02\0\0\0\x41\0\0\x01\x82\0\0\0\x10\0\0\0\x09\x40\0\0\x09\0\0\0\0\0\0\0\0\0\x01"
             "\0\x0bZZZZZZZZZZZZZZZZZZZZZZZZZZZZZZZ"},
        {20, "\x80\x01\0\0\0\x14\0\0\x01\x7e\0\0\0\x01\0\x0b\x03\0\0\x01"},
        {12, "\x80\x01\0\0\0\x0c\0\0\x01\x7b\0\x10"},
        {10, "\x80\x01\0\0\0\x0a\0\0\x01\x81"},
        {45, "\x80\x02\0\0\0\x2d\0\0\x01\x2a\x40\0\0\x01\0\0\0\x09\x40\0\0\x09\0\0\x01\0\0\0\0\0"
             "\x0e\x01\0\0\x02\0\x0b\0\x02\0\x12\0\0\0\x08"},
        {31, "\x80\x02\0\0\0\x1f\0\0\x01\x34\x40\0\0\x01\x01\0\0\x02\0\0\0\x09\x40\0\0\x09\0\0\x01"
             "\0\0"},
        {43, "\x80\x01\0\0\0\x2b\0\0\x01\x76\x40\0\0\x07\x40\0\0\x07\0\x10\0\0\0\0\0\0\0\0\0\0\0\0"
             "\0\0\0\0\0\0\0\0\x10\0\x0b"},
        {14, "\x80\x01\0\0\0\x0e\0\0\x01\x62\x02\0\0\0"},
        {14, "\x80\x01\0\0\0\x0e\0\0\x01\x65\x02\0\0\0"},
        {22, "\x80\x01\0\0\0\x16\0\0\x01\x7a\0\0\0\x01\x02\0\0\0\0\0\0\x05"},
    };
    uint8_t told[2] = {(uint8_t)(chance(8) ? rolled(5) : 0), (uint8_t)rolled(2)};
    if (kind == BY_CLOCK) add_clock(it);
    if (kind == BY_ELAPSED) add_random(it, 4), it->command[it->size - 4] = (uint8_t)rolled(2);
    add(it, told, sizeof told);
    add_random(it, RANDOM_BYTES);
    if (chance(12)) return add_random(it, rolled(600));
    unsigned which = rolled(sizeof buffers / sizeof *buffers);
    if (chance(3)) which = rolled(2);
    add(it, buffers[which].bytes, buffers[which].size);
}

static void add_command(process *it) {
    unsigned roll = rolled(100);
    uint8_t kind = roll < 90 ? BY_CLOCK : roll < 95 ? CYCLE : roll < 98 ? RESTORING : NO_KIND;
    if (roll < 20) kind = BY_ELAPSED;
    add(it, &kind, 1);
    if (kind == BY_CLOCK || kind == BY_ELAPSED) add_standard(it, kind);
    if (kind == CYCLE) add_clock(it), add_number(it, rolled(1u << 31));
    if (kind == RESTORING) add_seed(it);
}

static void asks(process *it) {
    unsigned roll = rolled(100);
    it->size = 0;
    it->was_hindered = 0;
    it->is_busy = 1;
    it->job = roll < 84   ? TPMSIM_JOB_EXECUTE
              : roll < 90 ? TPMSIM_JOB_SHOW
              : roll < 94 ? TPMSIM_JOB_RENEW
              : roll < 98 ? TPMSIM_JOB_BEGIN
                          : TPMSIM_JOB_CUT;
    if (journal()->number == 0 && !chance(8)) it->job = TPMSIM_JOB_BEGIN;
    if (it->job == TPMSIM_JOB_BEGIN) add_seed(it);
    if (it->job == TPMSIM_JOB_EXECUTE) add_command(it);
    must(tpmsim_keeper_begin(&it->keeper, it->job, it->command, it->size) == TPMSIM_DONE,
         "a call is not begun");
    counts.calls++;
}

/* ---- the effects of a task */

static int is_entered(const process *it) {
    return it->job == TPMSIM_JOB_EXECUTE &&
           (*it->command == BY_CLOCK || *it->command == BY_ELAPSED);
}

static void puts_text(process *it, const tpmsim_ask *ask, size_t count) {
    int whole = count == ask->size && is_entered(it);
    size_t cut = ask->cut, at = ask->at;
    file *to = journal();
    if (is_wrong(CUTS_NOT)) cut = to->now.size;
    if (is_wrong(CUTS_RECORDS) && whole && to->now.commands > to->before)
        cut = at = to->ends[to->now.commands - to->before - 1] - 1;
    if (is_wrong(PUTS_INTO_OLD) && all->olders) to = &all->files[all->names[1]];
    if (whole) history_adds(it->command, it->size);
    file_puts(to, cut, at, host_text, count, ask->size, is_entered(it));
}

static void makes(const tpmsim_ask *ask, size_t count) {
    must(count <= CONTENT_BYTES, "a file that is too large");
    all->fresh.size = count;
    memcpy(all->fresh.bytes, host_text, count);
    all->fresh_forced = count == ask->size && !is_wrong(MAKES_UNFORCED) ? count : 0;
}

static void names(process *it) {
    if (journal()->number == 0) {
        all->seed = stored(it->command, it->size);
        all->seed_size = it->size;
        all->origin++;
    }
    if (it->job == TPMSIM_JOB_EXECUTE) history_adds(it->command, it->size);
    file_named(is_entered(it));
    all->fresh.size = 0;
}

/* Performs nothing, a part, or all of a task. */
static void acts(process *it, const tpmsim_ask *ask, extent much) {
    size_t count = much == ALL ? ask->size : rolled((unsigned)ask->size + 1);
    if (much == NOTHING) return;
    switch (ask->task) {
    case TPMSIM_TASK_PUT: puts_text(it, ask, count); break;
    case TPMSIM_TASK_FORCE:
        if (much == ALL) file_forced(journal());
        else journal()->is_dropped = 1;
        break;
    case TPMSIM_TASK_MAKE: makes(ask, count); break;
    case TPMSIM_TASK_NAME:
        if (much == ALL) names(it);
        break;
    case TPMSIM_TASK_SETTLE:
        if (much == ALL) all->olders = 0;
        break;
    default: break;
    }
}

/* Returns the host's report to the keeper after a task. */
static seen tells(process *it, const tpmsim_ask *ask) {
    const content *now = &journal()->now;
    seen told = {TPMSIM_GOT_DONE, journal()->number, now->size, host_text, 0};
    if (is_wrong(TELLS_ONE_NUMBER)) told.file = 1;
    if (ask->task == TPMSIM_TASK_LOOK) {
        if (journal()->number == 0) told.got = TPMSIM_GOT_GONE;
        if (is_wrong(TELLS_OLD_SIZE) && it->file == told.file) told.file_size = it->file_size;
        it->file = told.file;
        it->file_size = told.file_size;
    }
    if (ask->task == TPMSIM_TASK_READ) {
        must(ask->at < now->size, "a read behind the end");
        size_t most = now->size - ask->at, count = chance(2) ? most : 1 + rolled((unsigned)most);
        told.bytes = now->bytes + ask->at;
        told.size = count;
    }
    return told;
}

static void is_answered(process *it) {
    static uint8_t response[TEXT_BYTES];
    size_t size = tpmsim_keeper_response(&it->keeper, response, sizeof response);
    const uint8_t *wanted = response;
    size_t wanted_size = 0;
    fold_follows();
    if (it->job == TPMSIM_JOB_SHOW) wanted = head_text, wanted_size = fold_shows();
    if (it->job == TPMSIM_JOB_EXECUTE) {
        must(all->commands > 0, "an answer to a command that is not in the history");
        const executed *last = &all->history[all->commands - 1];
        must(last->size == it->size && memcmp(last->text, it->command, it->size) == 0,
             "an answer to a command that is not the last of the history");
        wanted = last->response, wanted_size = last->response_size;
        if (it->force == TPMSIM_FORCE_ALWAYS) all->always = all->commands;
    }
    must(size == wanted_size && memcmp(response, wanted, size) == 0, "another response");
    if (it->force != TPMSIM_FORCE_NEVER) all->is_lasting = 1;
    if (it->force == TPMSIM_FORCE_ALWAYS ||
        (it->force == TPMSIM_FORCE_POWER &&
         (it->job == TPMSIM_JOB_RENEW || (it->job == TPMSIM_JOB_EXECUTE && !is_entered(it)))))
        all->promised = all->commands;
    counts.answers++;
}

/* Returns the fault with which a call must end if all its tasks and allocations succeeded. The
 * fault may be TPMSIM_FAULT_NONE. */
static uint8_t end_of(const process *it) {
    if (journal()->number == 0)
        return it->job == TPMSIM_JOB_BEGIN ? TPMSIM_FAULT_UNREADABLE : TPMSIM_FAULT_ABSENT;
    int is_none = it->job == TPMSIM_JOB_EXECUTE && *it->command == NO_KIND;
    return is_none ? TPMSIM_FAULT_NO_COMMAND : TPMSIM_FAULT_NONE;
}

static void ends(process *it, const tpmsim_ask *ask) {
    it->is_busy = 0;
    if (ask->fault == TPMSIM_FAULT_NONE) return is_answered(it);
    must(ask->fault != TPMSIM_FAULT_DAMAGED, "a journal is damaged");
    must(it->was_hindered || ask->fault == end_of(it), "a call ends otherwise");
}

static void goes_on(process *it, const seen *told) {
    tpmsim_ask ask;
    tpmsim_keeper_next(&it->keeper, told->got, told->file, told->file_size, told->bytes,
                       told->size);
    refused = 0;
    tpmsim_keeper_ask(&it->keeper, &ask);
    if (ask.task == TPMSIM_TASK_NOTHING) ends(it, &ask);
}

/* ---- events */

/* Returns the number that identifies a process as the holder of the lock. A process and its forked
 * child have different numbers. */
static int holder_of(int number) { return is_child ? PROCESSES + number : number; }

/* Acquires the lock, unless another process holds it. */
static int locks(int number) {
    if (is_wrong(LOCKS_NOT)) return 1;
    if (all->is_locked) return 0;
    all->is_locked = 1;
    all->locker = holder_of(number);
    return 1;
}

static void unlocks(int number) {
    if (all->locker == holder_of(number)) all->is_locked = 0;
}

static void does(int number, const tpmsim_ask *ask) {
    process *it = &processes[number];
    int is_skipped = (is_wrong(ANSWERS_FIRST) && ask->task == TPMSIM_TASK_PUT) ||
                     (is_wrong(FORCES_NOT) && ask->task == TPMSIM_TASK_FORCE) ||
                     (is_wrong(SETTLES_NOT) && ask->task == TPMSIM_TASK_SETTLE);
    if (is_wrong(OPENS_NEW) && ask->task == TPMSIM_TASK_LOOK && all->fresh.size) file_named(0);
    if (ask->task == TPMSIM_TASK_LOCK && !locks(number)) return;
    if (ask->task == TPMSIM_TASK_UNLOCK ||
        (is_wrong(UNLOCKS_EARLY) && ask->task == TPMSIM_TASK_READ))
        unlocks(number);
    if (!is_skipped) acts(it, ask, ALL);
    seen told = tells(it, ask);
    if (chance(60)) refused = 1 + (int)rolled(4), it->was_hindered = 1, counts.starved++;
    goes_on(it, &told);
}

static void fails(int number, const tpmsim_ask *ask) {
    process *it = &processes[number];
    seen told = {TPMSIM_GOT_FAILED, 0, 0, host_text, 0};
    acts(it, ask, (extent)rolled(3));
    if (ask->task == TPMSIM_TASK_UNLOCK) unlocks(number);
    if (is_wrong(TELLS_DONE) || (is_wrong(FORCES_AGAIN) && ask->task == TPMSIM_TASK_FORCE))
        told = tells(it, ask);
    if (is_wrong(TELLS_GONE) && ask->task == TPMSIM_TASK_LOOK) told.got = TPMSIM_GOT_GONE;
    it->was_hindered = 1;
    counts.failures++;
    goes_on(it, &told);
}

static void dies(int number, const tpmsim_ask *ask) {
    process *it = &processes[number];
    if (ask) acts(it, ask, (extent)rolled(3));
    unlocks(number);
    starts(it);
    counts.deaths++;
}

static void happens(void);

/* Forks all processes. The children run for some events and then end, while the parents wait. */
static void forks(void) {
    int status;
    if (is_child) return;
    fflush(stdout);
    pid_t child = fork();
    must(child >= 0, "there is no process");
    if (child == 0) {
        is_child = 1;
        for (int i = 0; i < PROCESSES; i++)
            if (!is_wrong(FORK_GOES_ON)) processes[i].is_busy = 0;
        for (int i = 0; i < CHILD_EVENTS; i++) happens();
        for (int i = 0; i < PROCESSES; i++) unlocks(i);
        _exit(0);
    }
    must(waitpid(child, &status, 0) == child, "a child is gone");
    must(WIFEXITED(status) && WEXITSTATUS(status) == 0, "a child saw it");
    counts.forks++;
}

static void crashes(void) {
    if (is_child) return;
    world_crashes();
    for (int i = 0; i < PROCESSES; i++) starts(&processes[i]);
    fold_goes_back(all->commands);
    must(all->commands >= all->always, "an answer of force=always is gone");
    must(all->commands >= all->promised, "what was promised is gone");
    must(!all->is_lasting || journal()->number, "the device is gone");
    fold_compares();
    counts.crashes++;
}

static void begins_anew(uint64_t seed) {
    world_begins(seed);
    fold_forgets();
    for (int i = 0; i < PROCESSES; i++) starts(&processes[i]);
    counts.worlds++;
}

/* Returns whether a process waits for a lock that another process holds. */
static int waits(const process *it, const tpmsim_ask *ask) {
    return it->is_busy && ask->task == TPMSIM_TASK_LOCK && all->is_locked && !is_wrong(LOCKS_NOT);
}

static void moves(int number) {
    process *it = &processes[number];
    tpmsim_ask ask;
    tpmsim_keeper_ask(&it->keeper, &ask);
    if (waits(it, &ask)) return;
    counts.events++;
    if (!it->is_busy) {
        if (chance(12)) dies(number, NULL);
        else asks(it);
        return;
    }
    size_t size = tpmsim_keeper_text(&it->keeper, host_text, sizeof host_text);
    must(size <= sizeof host_text && (size == 0 || size == ask.size), "a text's size");
    unsigned roll = rolled(100);
    if (roll < 2) dies(number, &ask);
    else if (roll < 5) fails(number, &ask);
    else does(number, &ask);
}

static void happens(void) {
    static int last;
    unsigned roll = rolled(1000);
    if (roll < 6) return crashes();
    if (roll < 16) {
        if (!all->is_locked) journal()->is_dropped = 1, counts.drops++;
        return;
    }
    if (chance(2000)) return forks();
    if (chance(60) && !is_child) fold_compares();
    if (!processes[last].is_busy || chance(4)) last = (int)rolled(PROCESSES);
    moves(last);
}

static int is_used_up(void) {
    return all->commands > COMMANDS - 100 || all->used > ARENA_BYTES - (1 << 19) ||
           journal()->now.size > CONTENT_BYTES - (1 << 16);
}

static void run(long events, uint64_t seed) {
    for (counts.events = 0; counts.events < events;) {
        begins_anew(seed++);
        for (int i = 0; i < WORLD_EVENTS && !is_used_up(); i++) happens();
    }
}

/* Runs each wrong host in a separate process. The checks must detect each host's mistake. */
static void check_wrong(long events) {
    for (wrong = ANSWERS_FIRST; wrong < WRONGS; wrong++) {
        int status;
        fflush(stdout);
        pid_t child = fork();
        if (child == 0) {
            must(freopen("/dev/null", "w", stderr) != NULL, "there is no /dev/null");
            run(events, 1);
            _exit(0);
        }
        must(child > 0 && waitpid(child, &status, 0) == child, "there is no process");
        printf("a host that %s: %s\n", WRONG_NAMES[wrong],
               WIFEXITED(status) && WEXITSTATUS(status) == 1 ? "caught" : "NOT CAUGHT");
    }
}

int main(int count, char **words) {
    must(count == 3, "usage: keeper_world EVENTS SEED, or keeper_world wrong EVENTS");
    world_begins(1);
    if (strcmp(words[1], "wrong") == 0) return check_wrong(atol(words[2])), 0;
    run(atol(words[1]), (uint64_t)atol(words[2]) * 1000003);
    printf("each answer and each journal is the history's\n");
    fprintf(
        stderr,
        "%ld events in %ld worlds: %ld calls, %ld answers, %ld deaths, %ld failures, %ld forks, "
        "%ld crashes, %ld drops, %ld starved\n",
        counts.events, counts.worlds, counts.calls, counts.answers, counts.deaths, counts.failures,
        counts.forks, counts.crashes, counts.drops, counts.starved);
    return 0;
}
