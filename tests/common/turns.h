/* The common part of the shims that run a program many times. Each run is called a turn. The
 * process stops before its `main`, and reads the parameters of each turn from a socket. The
 * environment variable TURNS has the number of the socket. For each turn the process forks. The
 * child continues with `main`, and the process reports how the child ended. This halves the time of
 * a run. */
#include <stdlib.h>
#include <sys/mman.h>
#include <sys/socket.h>
#include <sys/wait.h>
#include <unistd.h>

/* The maximum duration of a run, in seconds. */
enum { AT_MOST = 600 };

/* The parameters of a run: two numbers, whose meaning depends on the shim, and the last argument of
 * the command line, if it differs between runs. */
static struct {
    long first, second;
    char word[1 << 16];
} turn;

/* The status of a run that has ended, as waitpid reports it, and whether the shim has marked the
 * run. */
struct report {
    int status, is_marked;
};

static struct report *report;

/* Waits until a run has ended, and reports it. */
static void report_end(int turns, pid_t run) {
    if (run < 0 || waitpid(run, &report->status, 0) != run) abort();
    if (send(turns, report, sizeof *report, 0) != sizeof *report) abort();
}

__attribute__((constructor)) static void take_turns(int count, char **words) {
    const ssize_t numbers = 2 * sizeof(long);
    int turns = atoi(getenv("TURNS"));
    report = mmap(NULL, sizeof *report, PROT_READ | PROT_WRITE, MAP_SHARED | MAP_ANONYMOUS, -1, 0);
    if (report == MAP_FAILED) abort();
    ssize_t size;
    while ((size = recv(turns, &turn, sizeof turn, 0)) >= numbers) {
        report->is_marked = 0;
        pid_t run = fork();
        if (run == 0) {
            close(turns);
            alarm(AT_MOST);
            if (size > numbers) words[count - 1] = turn.word;
            return;
        }
        report_end(turns, run);
    }
    _exit(0);
}
