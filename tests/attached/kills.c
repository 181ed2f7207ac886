/* Kills processes at random moments while they extend a PCR. The device keeps all answered extends,
 * and at most the one extend that was being executed. The arguments are the file with the expected
 * PCR values, and the number of kills. */
#include "common.h"
#include <signal.h>
#include <sys/wait.h>

static const char FOLDER[] = "state";

/* The maximum number of extends of a process. It is limited because the killing process may have to
 * wait for a CPU. */
enum { MOST_EXTENDS = 2000 };

/* Extends the PCR until the process is killed. Writes a byte for each response. */
static void extend_on(int told) {
    struct kept *kept = opened(FOLDER);
    for (int i = 0; i < MOST_EXTENDS; i++) {
        extend(kept);
        if (write(told, "x", 1) != 1) _exit(1);
    }
    for (;;) pause();
}

/* Cycles the power until the process is killed. Writes a byte for each cycle. */
static void cycle_on(int told) {
    struct kept *kept = opened(FOLDER);
    struct reason reason;
    for (;;) {
        must(kept_power(kept, &reason), "a power cycle failed");
        start(kept);
        extend(kept);
        if (write(told, "x", 1) != 1) _exit(1);
    }
}

/* Returns the number of bytes in a pipe after its writer has ended. */
static long drain(int file) {
    char room[4096];
    long all = 0;
    for (ssize_t got; (got = read(file, room, sizeof room)) > 0;) all += got;
    return all;
}

/* Kills a process some microseconds after it began or, if `answers` is true, after its first
 * report. Returns the number of its reports. */
static long killed_after(void (*run)(int told), unsigned microseconds, bool answers) {
    int ends[2], status;
    char first;
    must(pipe(ends) == 0, "there is no pipe");
    pid_t child = fork();
    must(child >= 0, "there is no process");
    if (child == 0) {
        close(ends[0]);
        run(ends[1]);
    }
    close(ends[1]);
    if (answers) must(read(ends[0], &first, 1) == 1, "a process did not answer");
    usleep(microseconds);
    kill(child, SIGKILL);
    must(waitpid(child, &status, 0) == child && WIFSIGNALED(status), "a process ended by itself");
    long answered = drain(ends[0]) + answers;
    close(ends[0]);
    return answered;
}

/* Resets the PCR, because the file contains its values only up to a limited number of extends. */
static void begin_anew(struct kept *kept) {
    struct reason reason;
    must(kept_power(kept, &reason), "the power cycle failed");
    start(kept);
}

/* Kills processes that cycle the power. Each of them leaves a complete journal. Its device either
 * needs TPM2_Startup or was started and extended at most once. */
static void kill_cycles(struct kept *kept, const struct values *values, int rounds) {
    uint8_t response[RESPONSE_BYTES];
    for (int i = 0; i < rounds; i++) {
        killed_after(cycle_on, (unsigned)(rand() % 2000), true);
        answered_by(kept, STARTUP, sizeof STARTUP, response);
        long there = extends_of(kept, values);
        must(there == 0 || there == 1, "a device of two power cycles is there");
        struct kept *other = opened(FOLDER);
        must(extends_of(other, values) == there, "another device is there");
        kept_close(other);
    }
    printf("killed %d times at power cycles\n", rounds);
}

int main(int count, char **words) {
    must(count == 3, "usage: kills VALUES COUNT");
    struct values values = values_of(words[1]);
    must(values.count > 2 * MOST_EXTENDS, "there are too few values");
    int rounds = atoi(words[2]);
    struct kept *kept = opened(FOLDER);
    start(kept);
    long before = 0, answered = 0, lost = 0, ahead = 0;
    srand(1);
    for (int i = 0; i < rounds; i++) {
        long told = killed_after(extend_on, (unsigned)(rand() % 4000), i % 2);
        long there = extends_of(kept, &values);
        must(there >= 0, "the PCR has a value of no count of extends");
        if (there < before + told) lost++;
        must(there <= before + told + 1, "an extend was done that nobody asked for");
        ahead += there - before - told;
        answered += told;
        before = there;
        if ((size_t)before + MOST_EXTENDS < values.count) continue;
        begin_anew(kept);
        before = 0;
    }
    printf("killed %d times, answers lost: %ld\n", rounds, lost);
    must(answered >= rounds / 2, "too few commands were answered");
    kill_cycles(kept, &values, rounds / 3);
    kept_close(kept);
    free(values.bytes);
    fprintf(stderr, "%ld answered, %ld more were done than answered\n", answered, ahead);
    return lost != 0;
}
