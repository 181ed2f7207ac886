/* Uses a device in a folder as any program can, through the public header tpmsim_kept.h. */
#include "common.h"

#include "../common/same_state.h"
#include "tpmsim_kept.h"

static const char FOLDER[] = "state";
static char reason[TPMSIM_KEPT_REASON_SIZE];

static void done(uint8_t told) { must(told == TPMSIM_DONE, reason); }

static void refused(const char *label, uint8_t told) {
    must(told != TPMSIM_DONE, label);
    printf("%s: %u, %s\n", label, told, reason);
}

/* Executes a command that the device accepts, and returns the number of random bytes that it
   drew. */
static size_t drawn(tpmsim_kept_device *kept, const uint8_t *buffer, size_t size, uint32_t code) {
    uint8_t response[RESPONSE_BYTES];
    tpmsim_answered answered;
    done(tpmsim_kept_execute(kept, buffer, size, 0, 0, response, &answered, reason));
    must(answered.code == code && answered.check == 0, "another command is reported");
    must(answered.size >= 10 && response[8] == 0 && response[9] == 0, "a command is refused");
    return answered.drawn;
}

/* Executes a command that the device refuses, and prints what the host reports. */
static void tell_refused(tpmsim_kept_device *kept) {
    uint8_t response[RESPONSE_BYTES];
    tpmsim_answered answered;
    char check[5];
    done(tpmsim_kept_execute(kept, STARTUP, sizeof STARTUP, 0, 0, response, &answered, reason));
    printf("a second startup: code %x, check %s, %zu drawn\n", answered.code,
           tpmsim_check_text(answered.check, check), answered.drawn);
}

static void use(tpmsim_kept_device *kept) {
    static uint8_t before[TPMSIM_STATE_SIZE], after[TPMSIM_STATE_SIZE];
    size_t size, size_after;
    char notice[TPMSIM_KEPT_REASON_SIZE];
    printf("a startup draws %zu bytes, ", drawn(kept, STARTUP, sizeof STARTUP, 0x144));
    printf("and 16 random bytes draw %zu\n", drawn(kept, GET_RANDOM, sizeof GET_RANDOM, 0x17b));
    tell_refused(kept);
    done(tpmsim_kept_snapshot(kept, before, &size, reason));
    drawn(kept, EXTEND, sizeof EXTEND, 0x182);
    done(tpmsim_kept_snapshot(kept, after, &size_after, reason));
    must(size != size_after || memcmp(before, after, size) != 0, "an extend changes nothing");
    done(tpmsim_kept_restore(kept, before, size, reason));
    done(tpmsim_kept_snapshot(kept, after, &size_after, reason));
    must(size == size_after && is_same_device(before, after, size), "another device is restored");
    puts("a snapshot, restored: the same device");
    before[size - 1] ^= 1;
    refused("a snapshot with another byte", tpmsim_kept_restore(kept, before, size, reason));
    refused("no snapshot", tpmsim_kept_restore(kept, before, 3, reason));
    drawn(kept, GET_RANDOM, sizeof GET_RANDOM, 0x17b);
    tpmsim_kept_notice(kept, notice);
    must(*notice == 0, "something was cut off");
    done(tpmsim_kept_power(kept, reason));
}

/* Truncates the last record. The next command reports the cut, and the command after it does
 * not. */
static void tear(tpmsim_kept_device *kept) {
    char notice[TPMSIM_KEPT_REASON_SIZE];
    size_t size;
    drawn(kept, STARTUP, sizeof STARTUP, 0x144);
    uint8_t *journal = bytes_of("state/journal", &size);
    put_bytes("state/journal", journal, size - 5);
    free(journal);
    for (int i = 0; i < 2; i++) {
        drawn(kept, i == 0 ? STARTUP : GET_RANDOM, 12, i == 0 ? 0x144 : 0x17b);
        tpmsim_kept_notice(kept, notice);
        printf("a torn record, command %d: '%s'\n", i + 1, notice);
    }
}

int main(void) {
    tpmsim_kept_device kept = {0};
    tpmsim_kept_options options = {.folder = FOLDER, .force = TPMSIM_FORCE_NEVER, .is_there = 1};
    refused("a handle without a device", tpmsim_kept_power(&kept, reason));
    refused("no folder", tpmsim_kept_open(&kept, &options, reason));
    options.is_there = 0;
    options.force = 3;
    refused("another force", tpmsim_kept_open(&kept, &options, reason));
    options.force = TPMSIM_FORCE_NEVER;
    options.image = "/dev/null";
    refused("an image that is no file", tpmsim_kept_open(&kept, &options, reason));
    options.image = NULL;
    done(tpmsim_kept_open(&kept, &options, reason));
    use(&kept);
    done(tpmsim_kept_open(&kept, &options, reason));
    tear(&kept);
    tpmsim_kept_close(&kept);
    tpmsim_kept_close(&kept);
    refused("a handle that was closed", tpmsim_kept_power(&kept, reason));
    return 0;
}
