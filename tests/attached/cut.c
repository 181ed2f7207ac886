/* Tests journals that end with an incomplete record: the next record or the next power cycle cuts
 * it off. At the caller's request, the next call also drops damaged records, and restarts the
 * journal. A message reports each cut. The argument is the file with the expected PCR values. */
#include "old_journal.h"
#include <inttypes.h>

enum { EXTENDS = 3, MANY = 3000 };

static const char FOLDER[] = "state", JOURNAL[] = "state/journal";

/* A journal, with the end offsets of its head and of each of its records. The first record is
   TPM2_Startup. */
static struct {
    uint8_t *bytes;
    size_t size, ends[MANY + 2], records;
} whole;

/* The last reported message. */
static char sentence[512];

static void hear(const char *told) {
    must(*sentence == 0, "two sentences are told");
    snprintf(sentence, sizeof sentence, "%s", told);
}

static void must_be_told(const char *wanted) {
    if (strcmp(sentence, wanted) != 0) fprintf(stderr, "told: %s\nwanted: %s\n", sentence, wanted);
    must(strcmp(sentence, wanted) == 0, "another sentence is told");
    *sentence = 0;
}

static void must_be_dropped(size_t dropped, size_t kept) {
    char wanted[512];
    snprintf(wanted, sizeof wanted, "%s: %zu bytes after the first %zu were dropped", JOURNAL,
             dropped, kept);
    must_be_told(wanted);
}

static void must_be_cut_off(size_t dropped) {
    char wanted[512];
    snprintf(wanted, sizeof wanted, "%s: %zu bytes after the last whole record were cut off",
             JOURNAL, dropped);
    must_be_told(wanted);
}

static void must_be_there(const uint8_t *bytes, size_t size) {
    size_t there;
    uint8_t *journal = bytes_of(JOURNAL, &there);
    must(there == size && memcmp(journal, bytes, size) == 0, "the journal is another one");
    free(journal);
}

static struct kept *opened_to_cut(bool cuts, struct reason *reason) {
    struct kept_options options = {
        .folder = FOLDER, .force = TPMSIM_FORCE_NEVER, .cuts = cuts, .tell = hear};
    return kept_open(&options, reason);
}

static struct kept *cutting(void) {
    struct reason reason;
    struct kept *kept = opened_to_cut(true, &reason);
    must(kept != NULL, kept ? "" : reason.text);
    return kept;
}

/* Writes an undamaged journal with this many extends. */
static void write_whole(size_t extends) {
    struct kept *kept = opened(FOLDER);
    must(kept_power(kept, &(struct reason){0}), "the power cycle failed");
    whole.records = 0;
    for (size_t i = 0; i <= extends + 1; i++) {
        size_t size;
        free(bytes_of(JOURNAL, &size));
        whole.ends[whole.records++] = size;
        if (i == 0) start(kept);
        else if (i <= extends) extend(kept);
    }
    kept_close(kept);
    free(whole.bytes);
    whole.bytes = bytes_of(JOURNAL, &whole.size);
    must(whole.ends[whole.records - 1] == whole.size, "the sizes are wrong");
}

/* Returns the number of the record that contains the byte at offset `place`; 0 for the head. */
static size_t record_at(size_t place) {
    size_t record = 0;
    while (whole.ends[record] <= place) record++;
    return record;
}

static void must_be_refused(bool cuts) {
    struct reason reason;
    must(opened_to_cut(cuts, &reason) == NULL, "a damaged journal opens");
    must(strncmp(reason.text, JOURNAL, sizeof JOURNAL - 1) == 0, "a sentence names no path");
    must_be_told("");
}

/* Opens the device after the byte at offset `place` was changed. The device has the effects of the
 * records before the changed one. Opening it restarts its journal. */
static void cut_at(size_t place, const struct values *values) {
    size_t record = record_at(place), size = whole.ends[record - 1];
    uint8_t response[RESPONSE_BYTES];
    must_be_refused(false);
    must_be_there(whole.bytes, whole.size);
    struct kept *kept = cutting();
    must_be_dropped(whole.size - size, size);
    if (record == 1) start(kept);
    else extend(kept);
    must(extends_of(kept, values) == (record == 1 ? 0 : (long)record - 1), "another device");
    must_be_told("");
    kept_close(kept);
    kept = opened(FOLDER);
    answered_by(kept, READ_CLOCK, sizeof READ_CLOCK, response);
    kept_close(kept);
}

/* Changes each byte after the journal's head, and some bytes of the head, which is never cut. */
static void turn(const struct values *values) {
    size_t tried = 0;
    for (size_t place = 0; place < whole.size; place++, tried++) {
        whole.bytes[place] ^= 1;
        put_bytes(JOURNAL, whole.bytes, whole.size);
        if (record_at(place) == 0) must_be_refused(true);
        else cut_at(place, values);
        if (record_at(place) == 0) must_be_there(whole.bytes, whole.size);
        whole.bytes[place] ^= 1;
    }
    must(tried == whole.size, "bytes were left out");
    puts("each byte behind the head turned: cut where that is asked for, else refused");
    puts("each byte of the head turned: refused");
}

/* Writes incomplete records of each length. The next record or the next power cycle cuts them
 * off. */
static void cut_fronts(const struct values *values) {
    size_t last = whole.ends[whole.records - 2];
    for (size_t size = last + 1; size < whole.size; size++) {
        for (int cuts = 0; cuts < 2; cuts++) {
            put_bytes(JOURNAL, whole.bytes, size);
            struct kept *kept = opened_to_cut(cuts, &(struct reason){0});
            must(kept != NULL, "the front of a record is refused");
            must_be_told("");
            if (size % 2) extend(kept);
            else must(kept_power(kept, &(struct reason){0}), "the power cycle failed");
            must_be_cut_off(size - last);
            if (size % 2) must(extends_of(kept, values) == EXTENDS, "another device");
            must_be_told("");
            kept_close(kept);
        }
    }
    puts("the front of a record: cut off");
}

/* Writes a journal with this many extends, as an older version of the library did. That version
 * restarted a journal only at a power cycle. */
static void write_old(size_t extends) {
    struct old_journal old = old_journal_of(extends);
    free(whole.bytes);
    whole.bytes = old.bytes;
    whole.size = old.size;
    whole.records = extends + 2;
    memcpy(whole.ends, old.ends, whole.records * sizeof *old.ends);
    free(old.ends);
}

/* Damages a journal that is read in several parts, and a journal that is already open. */
static void cut_long(const struct values *values) {
    write_old(MANY);
    must(whole.size > 520 * 1024, "the journal has less than three parts");
    static const size_t records[] = {1, 2, 1000, 2000, MANY, MANY + 1};
    for (size_t i = 0; i < sizeof records / sizeof *records; i++) {
        size_t place = whole.ends[records[i] - 1] + 40;
        whole.bytes[place] ^= 1;
        put_bytes(JOURNAL, whole.bytes, whole.size);
        cut_at(place, values);
        put_bytes(JOURNAL, whole.bytes, whole.ends[records[i] - 1]);
        struct kept *kept = cutting();
        put_bytes(JOURNAL, whole.bytes, whole.size);
        must(kept_power(kept, &(struct reason){0}), "the power cycle failed");
        must_be_dropped(whole.size - whole.ends[records[i] - 1], whole.ends[records[i] - 1]);
        start(kept);
        must(extends_of(kept, values) == 0, "another device");
        must_be_told("");
        kept_close(kept);
        whole.bytes[place] ^= 1;
    }
    puts("a journal of several parts: cut at a record, and by a power cycle");
}

int main(int count, char **words) {
    must(count == 2, "usage: cut VALUES");
    struct values values = values_of(words[1]);
    write_whole(EXTENDS);
    turn(&values);
    cut_fronts(&values);
    cut_long(&values);
    free(whole.bytes);
    free(values.bytes);
    return 0;
}
