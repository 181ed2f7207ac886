/* Tests faults of the system calls that a device in a folder uses for its files, the clock and
 * random bytes. Each call in turn fails, transfers only half of its bytes, or is interrupted. Each
 * allocation in turn fails. The arguments are the file with the expected PCR values, and an image.
 */
#include "calls.h"
#include <dirent.h>

/* The number of times that the PCR is extended before each trial. */
enum { EXTENDS = 2 };

static const char FOLDER[] = "state";

/* The result of a trial: whether everything succeeded, and the message if not. */
struct outcome {
    bool is_done;
    struct reason reason;
};

/* The contents of the device's files at the beginning of a trial. The journal ends with an
 * incomplete record. */
static struct {
    uint8_t *journal;
    size_t whole, size;
} kept_state;

static unsigned open_files(void) {
    unsigned count = 0;
    DIR *folder = opendir("/proc/self/fd");
    must(folder != NULL, "there is no folder of open files");
    while (readdir(folder)) count++;
    closedir(folder);
    return count;
}

static void remove_state(void) {
    static const char *const names[] = {"journal", "journal.new", "lock"};
    char path[512];
    for (int i = 0; i < 3; i++) unlink(path_in(FOLDER, names[i], path));
    rmdir(FOLDER);
    must(access(FOLDER, F_OK) != 0, "there is more in the folder than a state");
}

/* Writes the files that exist at the beginning of a trial. */
static void put_state(void) {
    remove_state();
    must(mkdir(FOLDER, 0700) == 0, "there is no folder");
    put_bytes("state/journal", kept_state.journal, kept_state.size);
    put_bytes("state/journal.new", STARTUP, sizeof STARTUP);
}

static void make_state(void) {
    size_t whole;
    struct kept *kept = opened(FOLDER);
    start(kept);
    for (int i = 0; i < EXTENDS; i++) extend(kept);
    free(bytes_of("state/journal", &whole));
    extend(kept);
    kept_close(kept);
    kept_state.journal = bytes_of("state/journal", &kept_state.size);
    kept_state.whole = whole;
    kept_state.size -= (kept_state.size - whole) / 2;
}

static bool power(struct kept *kept, struct reason *reason) { return kept_power(kept, reason); }

static bool extend_once(struct kept *kept, struct reason *reason) {
    uint8_t response[RESPONSE_BYTES];
    tpmsim_answered answered;
    return kept_execute(kept, EXTEND, sizeof EXTEND, 0, response, &answered, reason);
}

static bool nothing(struct kept *kept, struct reason *reason) {
    (void)kept;
    (void)reason;
    return true;
}

/* A kind of trial: whether a device exists and is open before it; the image of a new device; and
 * the action to try. */
struct trial {
    const char *label;
    bool has_state, is_open_before;
    const char *image;
    bool (*act)(struct kept *kept, struct reason *reason);
};

static const struct trial TRIALS[] = {
    {"a new state", false, false, NULL, nothing},
    {"a new state of an image", false, false, "image", nothing},
    {"opening, and an extend", true, false, NULL, extend_once},
    {"opening, and a power cycle", true, false, NULL, power},
    {"an extend of an open device", true, true, NULL, extend_once},
    {"a power cycle of an open device", true, true, NULL, power},
};

/* Opens the device after a trial, in a process without faults. Returns how often its PCR was
 * extended, or -2 if the device needs TPM2_Startup after a power cycle. */
static long extends_there(struct kept *kept, const struct values *values) {
    uint8_t response[RESPONSE_BYTES];
    size_t size = answered_by(kept, PCR_READ, sizeof PCR_READ, response);
    if (size == 10 && response[8] == 1 && response[9] == 0) return -2;
    return extends_of(kept, values);
}

static struct outcome outcome_of(const struct trial *trial, struct kept **kept) {
    struct outcome outcome = {0};
    struct kept_options options = {
        .folder = FOLDER, .image = trial->image, .force = TPMSIM_FORCE_ALWAYS};
    if (!*kept) *kept = kept_open(&options, &outcome.reason);
    outcome.is_done = *kept && trial->act(*kept, &outcome.reason);
    return outcome;
}

/* Returns whether the device has an expected state after a trial. If the sync of a power cycle or
 * of an extend failed, the file may still contain the change, because the device cannot know
 * whether the change reached the disk. */
static bool is_right(const struct trial *trial, const struct outcome *outcome, long there) {
    if (!trial->has_state) return there == -2;
    if (!outcome->is_done && strcmp(name_of_it, "fdatasync") == 0 && there == EXTENDS + 1)
        return true;
    if (trial->act == power) return there == -2 || (there == EXTENDS && !outcome->is_done);
    return there == EXTENDS + (outcome->is_done ? 1 : 0);
}

/* Checks a device after a trial, and extends its PCR once more. */
static void look(struct kept *kept, const struct trial *trial, const struct outcome *outcome,
                 const struct values *values) {
    long there = extends_there(kept, values);
    if (!is_right(trial, outcome, there)) {
        fprintf(stderr, "%s, fault %d at call %u, %s: %d, %ld extends\n", trial->label, fault,
                number, name_of_it, outcome->is_done, there);
        must(false, "the state behind a fault is another");
    }
    if (there < 0) return;
    extend(kept);
    must(extends_of(kept, values) == there + 1, "the device does not go on");
}

/* Makes one trial with one fault. Returns whether the trial reached the call that should fail. */
static bool try_one(const struct trial *trial, enum fault kind, const struct values *values,
                    struct outcome *outcome) {
    remove_state();
    if (trial->has_state) put_state();
    unsigned files = open_files();
    struct kept *kept = trial->is_open_before ? opened(FOLDER) : NULL;
    counted = 0;
    name_of_it = NULL;
    fault = kind;
    *outcome = outcome_of(trial, &kept);
    fault = NO_FAULT;
    if (!outcome->is_done)
        must(strncmp(outcome->reason.text, "state", 5) == 0 ||
                 strncmp(outcome->reason.text, "image", 5) == 0,
             "a sentence names no path");
    if (!outcome->is_done && strcmp(name_of_it, "geteuid") == 0)
        must(strstr(outcome->reason.text, "belongs to another user"), "another user is not told");
    if (kept) look(kept, trial, outcome, values);
    kept_close(kept);
    must(open_files() == files, "a file is left open");
    must(mapped == 0, "a page is left");
    kept = opened(FOLDER);
    if (trial->has_state && trial->act != power)
        must(extends_of(kept, values) >= EXTENDS, "extends are lost");
    kept_close(kept);
    return name_of_it != NULL;
}

/* Repeats a trial with a fault at each call in turn, and prints the calls whose fault had no
 * effect on the result. */
static void try_all(const struct trial *trial, enum fault kind, const struct values *values) {
    static const char *const labels[] = {"", "fails", "is interrupted", "moves half", "refused"};
    struct outcome outcome;
    unsigned told = 0, borne = 0;
    char names[512] = "";
    for (number = 1; try_one(trial, kind, values, &outcome); number++) {
        if (!outcome.is_done) told++;
        if (outcome.is_done) borne++;
        if (outcome.is_done && !strstr(names, name_of_it))
            strcat(strcat(names, " "), name_of_it);
    }
    must(outcome.is_done, "a trial without a fault fails");
    printf("%s, %s: %s%s%s\n", trial->label, labels[kind], told ? "told" : "",
           told && borne ? "; borne:" : borne ? "borne:" : "", names);
}

/* Prints how often the files were synced during an operation on the device. */
static void tell_forced(const char *label) {
    printf("; %s %u and %u", label, forced, forced_data);
    forced = forced_data = 0;
}

/* Counts the calls of fsync and of fdatasync for each value of the option `force`. */
static void count_forced(void) {
    static const char *const labels[] = {"power", "never", "always"};
    static const uint8_t forces[] = {TPMSIM_FORCE_POWER, TPMSIM_FORCE_NEVER, TPMSIM_FORCE_ALWAYS};
    for (int i = 0; i < 3; i++) {
        struct kept_options options = {.folder = FOLDER, .force = forces[i]};
        struct reason reason;
        remove_state();
        forced = forced_data = 0;
        struct kept *kept = kept_open(&options, &reason);
        must(kept != NULL, "no device is there");
        printf("force=%s", labels[i]);
        tell_forced("a new state");
        start(kept);
        extend(kept);
        tell_forced("two commands");
        must(kept_power(kept, &reason), "the power cycle failed");
        tell_forced("a power cycle");
        kept_close(kept);
        kept_close(kept_open(&options, &reason));
        tell_forced("an opening");
        putchar('\n');
    }
}

int main(int count, char **words) {
    must(count == 3, "usage: calls VALUES IMAGE");
    struct values values = values_of(words[1]);
    size_t size;
    uint8_t *image = bytes_of(words[2], &size);
    put_bytes("image", image, size);
    free(image);
    count_forced();
    make_state();
    for (size_t i = 0; i < sizeof TRIALS / sizeof *TRIALS; i++)
        for (enum fault kind = FAILS; kind <= HAS_NO_MEMORY; kind++)
            try_all(&TRIALS[i], kind, &values);
    free(kept_state.journal);
    free(values.bytes);
    return 0;
}
