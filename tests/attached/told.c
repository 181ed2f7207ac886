/* Checks the messages about a damaged journal, for each return code of the library's function that
 * opens a journal. The test wraps that function. The file stays unchanged. */
#include "common.h"

static const char FOLDER[] = "state", JOURNAL[] = "state/journal";

/* The code that the wrapped function returns without opening the journal. If this is TPMSIM_DONE,
   the real function is called. */
static uint8_t opening;

uint8_t __real_tpmsim_journal_open(tpmsim *device, const uint8_t *text, size_t size, size_t *taken);
uint8_t __wrap_tpmsim_journal_open(tpmsim *device, const uint8_t *text, size_t size, size_t *taken);
uint8_t __wrap_tpmsim_journal_open(tpmsim *device, const uint8_t *text, size_t size,
                                   size_t *taken) {
    if (opening != TPMSIM_DONE) return opening;
    return __real_tpmsim_journal_open(device, text, size, taken);
}

static void must_be(const uint8_t *wanted, size_t size) {
    size_t there;
    uint8_t *bytes = bytes_of(JOURNAL, &there);
    must(there == size && memcmp(bytes, wanted, size) == 0, "the journal was changed");
    free(bytes);
}

/* Tries to open the device, and to execute a command on an open device. Both must fail in the same
   way. */
static void refuse_all(struct kept *kept, struct reason *reason) {
    struct kept_options options = {.folder = FOLDER, .force = TPMSIM_FORCE_NEVER};
    struct reason another;
    uint8_t response[RESPONSE_BYTES];
    tpmsim_answered answered;
    must(!kept_open(&options, reason), "a device opens in spite of a fault");
    must(!kept_execute(kept, EXTEND, sizeof EXTEND, 0, response, &answered, &another),
         "a command is answered in spite of a fault");
    must(strcmp(reason->text, another.text) == 0, "another sentence is said");
}

/* Damages the last record of the journal. The library then returns `number`, whose message is
 * printed. */
static void tell(struct kept *kept, size_t last, uint8_t number) {
    struct reason reason;
    size_t size;
    uint8_t *journal = bytes_of(JOURNAL, &size);
    journal[last + 20] ^= 1;
    put_bytes(JOURNAL, journal, size);
    opening = number;
    refuse_all(kept, &reason);
    opening = TPMSIM_DONE;
    must_be(journal, size);
    must(number == TPMSIM_DONE || reason.told == number, "another number is told");
    printf("%u: %s\n", number, reason.text);
    journal[last + 20] ^= 1;
    put_bytes(JOURNAL, journal, size);
    free(journal);
}

int main(int count, char **words) {
    must(count == 2, "usage: told VALUES");
    struct values values = values_of(words[1]);
    struct kept *kept = opened(FOLDER), *other = opened(FOLDER);
    start(kept);
    for (uint8_t number = TPMSIM_DONE; number <= TPMSIM_NO_WORD; number++) {
        size_t last;
        free(bytes_of(JOURNAL, &last));
        extend(other);
        tell(kept, last, number);
        must(extends_of(kept, &values) == number + 1, "the device does not go on");
    }
    kept_close(kept);
    kept_close(other);
    free(values.bytes);
    return 0;
}
