/* Opens journals in which bytes are changed or cut off, in the working folder. The argument is the
 * file with the expected PCR values. */
#include "common.h"

enum { EXTENDS = 3 };

static const char FOLDER[] = "state", JOURNAL[] = "state/journal";

/* The bytes of a journal: the original ones, or the current content of the file. */
struct text {
    uint8_t *bytes;
    size_t size;
};

static struct text text_of(void) {
    struct text text;
    text.bytes = bytes_of(JOURNAL, &text.size);
    return text;
}

static void must_be(const struct text *wanted, const char *what) {
    struct text there = text_of();
    must(there.size == wanted->size && memcmp(there.bytes, wanted->bytes, there.size) == 0, what);
    free(there.bytes);
}

/* Tries to open the device, which must fail. Counts how often each message is reported. */
static void refuse_opening(size_t counts[4]) {
    static const char *const sentences[] = {
        "state/journal is damaged, and stays as it is", "state/journal is no journal of a device",
        "state/journal was written by ",
        "state/journal holds "};
    struct kept_options options = {.folder = FOLDER, .force = TPMSIM_FORCE_NEVER};
    struct reason reason = {0};
    struct kept *kept = kept_open(&options, &reason);
    must(kept == NULL, "a damaged journal opens");
    for (int i = 0; i < 4; i++) {
        if (strncmp(reason.text, sentences[i], strlen(sentences[i])) != 0) continue;
        counts[i]++;
        return;
    }
    must(false, reason.text);
}

/* Changes each byte of the journal, first one of its bits and then all of them. */
static void turn(const struct text *whole) {
    static const uint8_t masks[] = {0x01, 0xff};
    size_t counts[4] = {0}, tried = 0;
    struct text turned = {malloc(whole->size), whole->size};
    must(turned.bytes != NULL, "there is no memory");
    for (size_t i = 0; i < sizeof masks; i++) {
        for (size_t at = 0; at < whole->size; at++, tried++) {
            memcpy(turned.bytes, whole->bytes, whole->size);
            turned.bytes[at] ^= masks[i];
            put_bytes(JOURNAL, turned.bytes, turned.size);
            refuse_opening(counts);
            must_be(&turned, "a damaged journal was changed");
        }
    }
    free(turned.bytes);
    must(tried == 2 * whole->size, "bytes were left out");
    must(counts[0] > 0 && counts[0] + counts[1] + counts[2] + counts[3] == tried, "a count is off");
    puts("each byte turned, by one bit and by all: refused, and the file is as it was");
}

/* Opens a journal that is cut within its last record. The device has the effects of the records
 * before that one. The file stays unchanged until the next command. That command leaves only whole
 * records. */
static void open_cut(const struct text *cut, const struct values *values) {
    put_bytes(JOURNAL, cut->bytes, cut->size);
    struct kept *kept = opened(FOLDER);
    must_be(cut, "a journal was changed before a command was executed");
    must(extends_of(kept, values) == EXTENDS, "a cut record was executed, or a whole one was not");
    extend(kept);
    kept_close(kept);
    kept = opened(FOLDER);
    must(extends_of(kept, values) == EXTENDS + 1, "what follows a cut record is lost");
    kept_close(kept);
}

/* Cuts the journal off at each byte of its head and of its last record. */
static void cut(const struct text *whole, size_t head, size_t before_last,
                const struct values *values) {
    size_t counts[4] = {0};
    for (size_t size = 0; size < head; size++) {
        struct text cut = {whole->bytes, size};
        put_bytes(JOURNAL, cut.bytes, cut.size);
        refuse_opening(counts);
        must_be(&cut, "a journal without its head was changed");
    }
    puts("cut at each byte of its head: refused, and the file is as it was");
    for (size_t size = before_last; size < whole->size; size++) {
        struct text cut = {whole->bytes, size};
        open_cut(&cut, values);
    }
    puts("cut at each byte of its last record: the state before that record");
}

/* Replaces the end of the last record, and what follows, with zeros. The zeros begin at each byte
   of the record in turn. */
static void clear(const struct text *whole, size_t before_last, const struct values *values) {
    struct text cleared = {malloc(2 * whole->size), 0};
    must(cleared.bytes != NULL, "there is no memory");
    for (size_t size = before_last; size < whole->size; size++) {
        cleared.size = size % 2 ? whole->size : 2 * whole->size;
        memset(cleared.bytes, 0, cleared.size);
        memcpy(cleared.bytes, whole->bytes, size);
        open_cut(&cleared, values);
    }
    free(cleared.bytes);
    puts("zeros from each byte of its last record on: the state before that record");
}

/* Removes a record in the middle, duplicates a record, and swaps two records. */
static void rearrange(const struct text *whole, size_t first, size_t second, size_t third) {
    size_t counts[4] = {0};
    struct text other = {malloc(2 * whole->size), 0};
    must(other.bytes != NULL, "there is no memory");
    const struct {
        const char *label;
        size_t parts[4][2];
    } cases[] = {
        {"left out", {{0, first}, {second, whole->size}}},
        {"doubled", {{0, second}, {first, whole->size}}},
        {"swapped", {{0, first}, {second, third}, {first, second}, {third, whole->size}}},
    };
    for (size_t i = 0; i < sizeof cases / sizeof *cases; i++) {
        other.size = 0;
        for (int part = 0; part < 4; part++) {
            size_t from = cases[i].parts[part][0], size = cases[i].parts[part][1] - from;
            memcpy(other.bytes + other.size, whole->bytes + from, size);
            other.size += size;
        }
        put_bytes(JOURNAL, other.bytes, other.size);
        refuse_opening(counts);
        must_be(&other, "a damaged journal was changed");
        printf("a record that is %s: refused, and the file is as it was\n", cases[i].label);
    }
    free(other.bytes);
}

/* Changes each byte of the last record while the device is open and has not yet executed that
 * record. The device refuses the next command, and leaves the file unchanged. When the byte is
 * restored, the device continues. */
static void turn_while_open(const struct text *whole, size_t before_last,
                            const struct values *values) {
    struct text turned = {malloc(whole->size), whole->size};
    must(turned.bytes != NULL, "there is no memory");
    put_bytes(JOURNAL, whole->bytes, before_last);
    struct kept *kept = opened(FOLDER);
    for (size_t at = before_last; at < whole->size; at++) {
        uint8_t response[RESPONSE_BYTES];
        tpmsim_answered answered;
        struct reason reason;
        memcpy(turned.bytes, whole->bytes, whole->size);
        turned.bytes[at] ^= 1;
        put_bytes(JOURNAL, turned.bytes, turned.size);
        must(!kept_execute(kept, GET_RANDOM, sizeof GET_RANDOM, 0, response, &answered, &reason),
             "a command behind a damaged record is answered");
        must_be(&turned, "a damaged journal was changed");
        put_bytes(JOURNAL, whole->bytes, before_last);
        must(extends_of(kept, values) == EXTENDS, "the device does not go on");
    }
    kept_close(kept);
    free(turned.bytes);
    puts("each byte of a record turned while the device is open: refused, and it goes on with the "
         "record as it was");
}

/* Shortens the journal of an open device. */
static void shorten_while_open(const struct text *whole, size_t before_last,
                               const struct values *values) {
    uint8_t response[RESPONSE_BYTES];
    tpmsim_answered answered;
    struct reason reason;
    put_bytes(JOURNAL, whole->bytes, whole->size);
    struct kept *kept = opened(FOLDER);
    put_bytes(JOURNAL, whole->bytes, before_last);
    must(extends_of(kept, values) == EXTENDS, "the device is not that of the journal");
    puts("shortened while the device is open: it is opened again");
    must(unlink(JOURNAL) == 0, "there is no journal");
    must(!kept_execute(kept, GET_RANDOM, sizeof GET_RANDOM, 0, response, &answered, &reason),
         "a command is answered without a journal");
    printf("removed while the device is open: %s\n", reason.text);
    must(access(JOURNAL, F_OK) != 0, "a journal is made");
    kept_close(kept);
}

/* Returns the size of the journal. */
static size_t size_now(void) {
    struct text text = text_of();
    free(text.bytes);
    return text.size;
}

int main(int count, char **words) {
    must(count == 2, "usage: damage VALUES");
    struct values values = values_of(words[1]);
    size_t sizes[EXTENDS + 2];
    struct kept *kept = opened(FOLDER);
    size_t head = size_now();
    start(kept);
    for (int i = 0; i <= EXTENDS; i++) {
        sizes[i] = size_now();
        extend(kept);
    }
    kept_close(kept);
    struct text whole = text_of();
    turn(&whole);
    cut(&whole, head, sizes[EXTENDS], &values);
    clear(&whole, sizes[EXTENDS], &values);
    rearrange(&whole, sizes[0], sizes[1], sizes[2]);
    turn_while_open(&whole, sizes[EXTENDS], &values);
    shorten_while_open(&whole, sizes[EXTENDS], &values);
    put_bytes(JOURNAL, whole.bytes, whole.size);
    kept = opened(FOLDER);
    must(extends_of(kept, &values) == EXTENDS + 1, "the journal as it was does not open");
    kept_close(kept);
    free(whole.bytes);
    free(values.bytes);
    puts("the journal as it was written: it opens");
    return 0;
}
