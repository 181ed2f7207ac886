/* Uses one device in several processes at once. The argument is the file with the expected PCR
 * values. */
#include "common.h"
#include <sys/wait.h>

enum { PROCESSES = 4, EXTENDS = 2000 };

static const char FOLDER[] = "state";

/* Runs a function in a process of its own. */
static pid_t begun(void (*run)(void)) {
    pid_t child = fork();
    must(child >= 0, "there is no process");
    if (child > 0) return child;
    run();
    _exit(0);
}

static void must_end_well(pid_t child) {
    int status;
    must(waitpid(child, &status, 0) == child && status == 0, "a process ended with a fault");
}

static void extend_often(void) {
    struct kept *kept = opened(FOLDER);
    for (int i = 0; i < EXTENDS; i++) extend(kept);
    kept_close(kept);
}

static void power_and_start(void) {
    struct reason reason;
    struct kept *kept = opened(FOLDER);
    must(kept_power(kept, &reason), "a power cycle failed");
    start(kept);
    extend(kept);
    kept_close(kept);
}

/* Has four processes extend the PCR at the same time. */
static void extend_at_once(struct kept *kept, const struct values *values) {
    pid_t children[PROCESSES];
    for (int i = 0; i < PROCESSES; i++) children[i] = begun(extend_often);
    for (int i = 0; i < PROCESSES; i++) must_end_well(children[i]);
    printf("four processes at once: %ld extends of %d, by a device that was open before, ",
           extends_of(kept, values), PROCESSES * EXTENDS);
    struct kept *other = opened(FOLDER);
    printf("and %ld by one that was opened behind them\n", extends_of(other, values));
    kept_close(other);
}

/* Cycles the power in another process, and then extends once in this process. */
static void see_power_cycles(struct kept *kept, const struct values *values) {
    must_end_well(begun(power_and_start));
    printf("a power cycle and an extend by another process: %ld\n", extends_of(kept, values));
    extend(kept);
    must_end_well(begun(power_and_start));
    must_end_well(begun(power_and_start));
    printf("two power cycles, with an extend behind each: %ld\n", extends_of(kept, values));
}

/* Forks. The process that opened the device and its child both use it, without opening it again. */
static void use_after_fork(struct kept *kept, const struct values *values) {
    uint8_t own[RESPONSE_BYTES], others[RESPONSE_BYTES];
    int ends[2];
    must(pipe(ends) == 0, "there is no pipe");
    pid_t child = fork();
    must(child >= 0, "there is no process");
    if (child == 0) {
        for (int i = 0; i < EXTENDS; i++) extend(kept);
        accepted(kept, GET_RANDOM, sizeof GET_RANDOM, others);
        must(write(ends[1], others, 28) == 28, "nothing was written");
        _exit(0);
    }
    for (int i = 0; i < EXTENDS; i++) extend(kept);
    accepted(kept, GET_RANDOM, sizeof GET_RANDOM, own);
    must_end_well(child);
    must(read(ends[0], others, 28) == 28, "nothing was read");
    printf("a process and its forked child: %ld extends, ", extends_of(kept, values));
    puts(memcmp(own + 12, others + 12, 16) ? "and other random bytes" : "THE SAME RANDOM BYTES");
    close(ends[0]);
    close(ends[1]);
}

/* Removes the lock file while a process has the device open. Then another process opens the device,
 * and both continue at the same time. */
static void lose_the_lock(struct kept *kept, const struct values *values) {
    must(unlink("state/lock") == 0, "there was no lock");
    pid_t child = begun(extend_often);
    for (int i = 0; i < EXTENDS; i++) extend(kept);
    must_end_well(child);
    printf("a lock that was removed: %ld extends\n", extends_of(kept, values));
}

int main(int count, char **words) {
    must(count == 2, "usage: processes VALUES");
    struct values values = values_of(words[1]);
    struct kept *kept = opened(FOLDER);
    start(kept);
    extend_at_once(kept, &values);
    see_power_cycles(kept, &values);
    use_after_fork(kept, &values);
    lose_the_lock(kept, &values);
    kept_close(kept);
    free(values.bytes);
    return 0;
}
