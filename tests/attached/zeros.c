/* Tests journals with zeros after the complete records, which a crash of the host can leave. An
 * incomplete record may precede the zeros. The next record cuts the zeros off, and a message
 * reports that. If there is a nonzero byte among the zeros, the journal is damaged. The argument is
 * the file with the expected PCR values. */
#include "common.h"

enum { EXTENDS = 2, PART = 256 * 1024 };

static const char FOLDER[] = "state", JOURNAL[] = "state/journal";

static uint8_t *whole;
static size_t whole_size, last;

/* The content of the file, with space for the longest tail. */
static uint8_t *text;
static const size_t SIZES[] = {1,        2,        100,      TPMSIM_RECORD_ROOM, PART - 1, PART,
                               PART + 1, 2 * PART, 3 * PART + 7};
enum { COUNT = sizeof SIZES / sizeof *SIZES, MOST = 4 * PART };

static char sentence[512];

static void hear(const char *told) { snprintf(sentence, sizeof sentence, "%s", told); }

static void must_be_told(size_t dropped, const char *behind) {
    char wanted[512] = "";
    if (dropped > 0)
        snprintf(wanted, sizeof wanted, "%s: %zu bytes after the %s", JOURNAL, dropped, behind);
    if (strcmp(sentence, wanted) != 0) fprintf(stderr, "told: %s\nwanted: %s\n", sentence, wanted);
    must(strcmp(sentence, wanted) == 0, "another sentence is told");
    *sentence = 0;
}

static struct kept *opened_to(bool cuts, struct reason *reason) {
    struct kept_options options = {
        .folder = FOLDER, .force = TPMSIM_FORCE_NEVER, .cuts = cuts, .tell = hear};
    return kept_open(&options, reason);
}

/* Extends the PCR of a device whose journal has this size, and checks the file. The journal may be
   restarted only if `begins` is true. */
static void extend_and_look(struct kept *kept, size_t size, const char *behind, bool begins,
                            const struct values *values) {
    extend(kept);
    must_be_told(size - last, behind);
    must(extends_of(kept, values) == EXTENDS, "another device is there");
    kept_close(kept);
    kept = opened(FOLDER);
    must(extends_of(kept, values) == EXTENDS, "another device is opened");
    kept_close(kept);
    size_t there;
    uint8_t *journal = bytes_of(JOURNAL, &there);
    must(!memchr(journal, 0, there), "zeros are left");
    must(begins || memcmp(journal, whole, last) == 0, "another journal begins");
    free(journal);
}

/* Writes zeros after the first `front` bytes of the last record: before a device is opened, while
   it is open, and before a power cycle. */
static void try_zeros(size_t front, size_t zeros, const struct values *values) {
    size_t size = last + front + zeros;
    struct reason reason;
    memcpy(text, whole, last + front);
    memset(text + last + front, 0, zeros);
    put_bytes(JOURNAL, text, size);
    struct kept *kept = opened_to(false, &reason);
    must(kept != NULL, kept ? "" : reason.text);
    size_t there;
    free(bytes_of(JOURNAL, &there));
    must(there == size, "the file was cut before a command was executed");
    extend_and_look(kept, size, "last whole record were cut off", false, values);
    put_bytes(JOURNAL, whole, last);
    kept = opened_to(false, &reason);
    must(kept != NULL, "the whole records do not open");
    put_bytes(JOURNAL, text, size);
    extend_and_look(kept, size, "last whole record were cut off", false, values);
    put_bytes(JOURNAL, text, size);
    kept = opened_to(false, &reason);
    must(kept && kept_power(kept, &reason), "the power cycle failed");
    must_be_told(size - last, "last whole record were cut off");
    kept_close(kept);
}

/* Like try_zeros, but with a nonzero byte among the zeros. */
static void try_damage(size_t front, size_t zeros, size_t place, const struct values *values) {
    size_t size = last + front + zeros, there;
    struct reason reason;
    char first[64];
    memcpy(text, whole, last + front);
    memset(text + last + front, 0, zeros);
    text[last + front + place] = 'x';
    put_bytes(JOURNAL, text, size);
    must(opened_to(false, &reason) == NULL, "damage among zeros opens");
    must(strstr(reason.text, "is damaged, and stays as it is"), reason.text);
    uint8_t *journal = bytes_of(JOURNAL, &there);
    must(there == size && memcmp(journal, text, size) == 0, "a damaged journal was changed");
    free(journal);
    must_be_told(0, "");
    struct kept *kept = opened_to(true, &reason);
    must(kept != NULL, kept ? "" : reason.text);
    snprintf(first, sizeof first, "first %zu were dropped", last);
    extend_and_look(kept, size, first, true, values);
}

static void write_whole(void) {
    struct kept *kept = opened(FOLDER);
    start(kept);
    for (int i = 0; i < EXTENDS; i++) {
        free(bytes_of(JOURNAL, &last));
        extend(kept);
    }
    kept_close(kept);
    whole = bytes_of(JOURNAL, &whole_size);
    text = malloc(whole_size + MOST);
    must(text != NULL, "there is no memory");
}

int main(int count, char **words) {
    must(count == 2, "usage: zeros VALUES");
    struct values values = values_of(words[1]);
    write_whole();
    size_t record = whole_size - last;
    const size_t fronts[] = {0, 1, 20, record / 2, record - 1};
    for (size_t i = 0; i < sizeof fronts / sizeof *fronts; i++)
        for (size_t j = 0; j < COUNT; j++) try_zeros(fronts[i], SIZES[j], &values);
    puts("zeros, alone and behind the front of a record: cut off");
    for (size_t i = 0; i < sizeof fronts / sizeof *fronts; i++)
        for (size_t j = 3; j < COUNT; j++) {
            try_damage(fronts[i], SIZES[j], 1000, &values);
            try_damage(fronts[i], SIZES[j], SIZES[j] / 2, &values);
            try_damage(fronts[i], SIZES[j], SIZES[j] - 1, &values);
        }
    puts("with another byte among them: damage");
    free(whole);
    free(text);
    free(values.bytes);
    return 0;
}
