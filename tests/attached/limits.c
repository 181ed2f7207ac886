/* Tests a full disk, simulated by a limit on the size of files, and a process that has no free file
 * descriptor. The argument is the file with the expected PCR values. */
#include "common.h"
#include <signal.h>
#include <sys/resource.h>
#include <sys/stat.h>

static const char FOLDER[] = "state", JOURNAL[] = "state/journal";

static void limit(int resource, rlim_t size) {
    struct rlimit there;
    must(getrlimit((__rlimit_resource_t)resource, &there) == 0, "there is no limit");
    there.rlim_cur = size < there.rlim_max ? size : there.rlim_max;
    must(setrlimit((__rlimit_resource_t)resource, &there) == 0, "no limit is set");
}

static size_t size_now(void) {
    struct stat status;
    must(stat(JOURNAL, &status) == 0, "the journal is gone");
    return (size_t)status.st_size;
}

/* Executes an extend, which must fail, and returns the message. */
static const char *failing_extend(struct kept *kept) {
    static struct reason reason;
    uint8_t response[RESPONSE_BYTES];
    tpmsim_answered answered;
    must(!kept_execute(kept, EXTEND, sizeof EXTEND, 0, response, &answered, &reason),
         "a command was answered that is not in the journal");
    return reason.text;
}

/* Makes the disk full at each byte of a record in turn. The file stays unchanged. The device
 * continues when there is space again, and also after it is opened again. */
static void fill(struct kept *kept, const struct values *values) {
    size_t before = size_now(), record;
    extend(kept);
    record = size_now() - before;
    before = size_now();
    const char *sentence = "none";
    for (size_t room = 0; room < record; room++) {
        limit(RLIMIT_FSIZE, before + room);
        sentence = failing_extend(kept);
        must(size_now() == before, "the journal is not as it was");
        limit(RLIMIT_FSIZE, RLIM_INFINITY);
        if (room % 16) continue;
        struct kept *other = opened(FOLDER);
        must(extends_of(other, values) == 1, "another device has another state");
        kept_close(other);
        must(extends_of(kept, values) == 1, "the device has another state");
        before = size_now();
    }
    printf("a disk that is full at each byte of a record: %s\n", sentence);
    extend(kept);
    printf("with room again: %ld extends\n", extends_of(kept, values));
}

/* Makes the disk full while a new journal is written. */
static void fill_heads(struct kept *kept, const struct values *values) {
    struct reason reason;
    size_t head;
    struct stat status;
    struct kept *other = opened("other");
    kept_close(other);
    must(stat("other/journal", &status) == 0, "there is no journal");
    head = (size_t)status.st_size;
    for (size_t room = 0; room < head; room += 7) {
        limit(RLIMIT_FSIZE, room);
        must(!kept_power(kept, &reason), "a journal without its head was begun");
        limit(RLIMIT_FSIZE, RLIM_INFINITY);
        must(access("state/journal.new", F_OK) != 0, "a cut journal is left");
    }
    printf("a disk that is full at a power cycle: %s\n", reason.text);
    printf("with room again: %ld extends\n", extends_of(kept, values));
    struct kept_options options = {.folder = "third", .force = TPMSIM_FORCE_POWER};
    limit(RLIMIT_FSIZE, 100);
    must(!kept_open(&options, &reason), "a device is there without a journal");
    limit(RLIMIT_FSIZE, RLIM_INFINITY);
    printf("a disk that is full before a device is there: %s\n", reason.text);
    kept = opened("third");
    start(kept);
    kept_close(kept);
}

/* Opens a device in a process that has no file descriptor left, or only a few. */
static void run_out_of_files(struct kept *kept, const struct values *values) {
    struct kept_options options = {.folder = FOLDER, .force = TPMSIM_FORCE_POWER};
    struct reason reason;
    int lowest = open("/dev/null", O_RDONLY);
    must(lowest >= 0 && close(lowest) == 0, "no file opens");
    for (int left = 0; left < 3; left++) {
        limit(RLIMIT_NOFILE, (rlim_t)(lowest + left));
        must(!kept_open(&options, &reason), "a device opens without descriptors");
        printf("%d descriptors left: %s\n", left, reason.text);
        extend(kept);
    }
    limit(RLIMIT_NOFILE, (rlim_t)(lowest + 3));
    kept_close(opened(FOLDER));
    puts("3 descriptors left: it opens");
    limit(RLIMIT_NOFILE, 65536);
    struct kept *other = opened(FOLDER);
    must(kept_power(other, &reason), "the power cycle failed");
    start(other);
    kept_close(other);
    limit(RLIMIT_NOFILE, (rlim_t)lowest);
    printf("no descriptor left, and a power cycle by another holder: %ld extends\n",
           extends_of(kept, values));
    must(!kept_power(kept, &reason), "a journal was begun without a descriptor");
    printf("a power cycle of its own: %s\n", reason.text);
    limit(RLIMIT_NOFILE, 65536);
    printf("with descriptors again: %ld extends\n", extends_of(kept, values));
}

int main(int count, char **words) {
    must(count == 2, "usage: limits VALUES");
    struct values values = values_of(words[1]);
    signal(SIGXFSZ, SIG_IGN);
    struct kept *kept = opened(FOLDER);
    start(kept);
    fill(kept, &values);
    fill_heads(kept, &values);
    run_out_of_files(kept, &values);
    kept_close(kept);
    free(values.bytes);
    return 0;
}
