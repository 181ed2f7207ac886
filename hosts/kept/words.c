#define _GNU_SOURCE
#include "words.h"
#include "past.h"
#include "secret.h"
#include "told.h"
#include <errno.h>
#include <string.h>

enum word { STATE, COMPLETE, DEVICE, RM, NORM, CUT, KEEP, LOCALITY, IMAGE, RANDOM, FORCE, WORDS };

static const char *const NAMES[WORDS] = {"state=", "complete",  "device", "rm",      "norm", "cut",
                                         "keep=",  "locality=", "image=", "random=", "force="};

bool words_number(const char *text, size_t size, unsigned most, unsigned *number) {
    unsigned long read = 0;
    /*@ loop invariant i <= size && all_decimal(text, i) && read <= most;
      @ loop invariant read == decimal(text, i);
      @ loop assigns i, read;
      @ loop variant size - i;
      @*/
    for (size_t i = 0; i < size; i++) {
        if (text[i] < '0' || text[i] > '9') return false;
        read = 10 * read + (unsigned long)(text[i] - '0');
        /*@ assert read == decimal(text, i + 1); */
        if (read > most) return false;
    }
    *number = (unsigned)read;
    return size > 0;
}

/* Returns the value of a hex digit in either case, or 16 for any other character. */
/*@ assigns \nothing;
  @ ensures \result == hex(digit);
  @*/
static unsigned digit_of(char digit) {
    if (digit >= '0' && digit <= '9') return (unsigned)(digit - '0');
    if (digit >= 'a' && digit <= 'f') return (unsigned)(digit - 'a' + 10);
    if (digit >= 'A' && digit <= 'F') return (unsigned)(digit - 'A' + 10);
    return 16;
}

size_t words_hex(const char *text, size_t size, uint8_t *bytes, size_t most) {
    if (size % 2 || size / 2 > most) return 0;
    /*@ loop invariant i <= size / 2;
      @ loop invariant \forall integer j; 0 <= j < 2 * i ==> hex(text[j]) < 16;
      @ loop invariant \forall integer j; 0 <= j < i ==>
      @     bytes[j] == 16 * hex(text[2 * j]) + hex(text[2 * j + 1]);
      @ loop assigns i, bytes[0 .. most - 1];
      @ loop variant size / 2 - i;
      @*/
    for (size_t i = 0; i < size / 2; i++) {
        unsigned high = digit_of(text[2 * i]), low = digit_of(text[2 * i + 1]);
        if (high > 15 || low > 15) return 0;
        bytes[i] = (uint8_t)(16 * high + low);
    }
    return size / 2;
}

bool words_force(const char *word, uint8_t *force) {
    static const char *const names[] = {[TPMSIM_FORCE_NEVER] = "never",
                                        [TPMSIM_FORCE_POWER] = "power",
                                        [TPMSIM_FORCE_ALWAYS] = "always"};
    for (uint8_t i = 0; i < sizeof names / sizeof *names; i++) {
        if (strcmp(word, names[i]) != 0) continue;
        *force = i;
        return true;
    }
    return false;
}

static bool read_locality(struct words *words, const char *value, size_t size) {
    unsigned number = 0;
    bool is_good = size == 1 && words_number(value, size, 4, &number);
    words->locality = (uint8_t)number;
    return is_good;
}

static bool read_random(struct words *words, const char *value, size_t size) {
    words->options.random = words->random;
    words->options.random_size = words_hex(value, size, words->random, sizeof words->random);
    return words->options.random_size > 0;
}

/* Reads the value that follows the name of a word such as `keep=`. A 0 follows the value. */
static bool read_value(struct words *words, enum word word, const char *value, size_t size) {
    switch (word) {
    case STATE: words->options.folder = value; return size > 0;
    case COMPLETE: return size == 0;
    case DEVICE: words->options.completes = false; return size == 0;
    case RM: words->flushes = true; return size == 0;
    case NORM: return size == 0;
    case CUT: words->options.cuts = true; return size == 0;
    case KEEP: return size <= 2 && words_number(value, size, PAST_MOST, &words->options.keep);
    case LOCALITY: return read_locality(words, value, size);
    case IMAGE: words->options.image = value; return size > 0;
    case RANDOM: return read_random(words, value, size);
    case FORCE: return words_force(value, &words->options.force);
    default: return false;
    }
}

static bool refuse_word(const char *text, const char *said, struct reason *reason) {
    return refuse(reason, *text ? text : "an empty word", NULL, said, 0);
}

/* Reads one word, which a 0 follows. `seen` marks the words that occurred before it. */
static bool read_word(struct words *words, bool seen[WORDS], const char *text, size_t size,
                      struct reason *reason) {
    for (int i = 0; i < WORDS; i++) {
        size_t name = strlen(NAMES[i]);
        if (size < name || memcmp(text, NAMES[i], name) != 0) continue;
        if (seen[i]) return refuse_word(text, "is given twice", reason);
        seen[i] = true;
        if (!read_value(words, (enum word)i, text + name, size - name)) break;
        return true;
    }
    return refuse_word(text, "is none of the words " WORDS_WANTED, reason);
}

/* If `word`, which needs a folder, occurred without state=DIR, returns false and sets
 * `reason`. */
static bool has_folder(const bool seen[WORDS], enum word word, struct reason *reason) {
    return !seen[word] || seen[STATE] ||
           refuse(reason, NAMES[word], NULL, "is allowed only with state=DIR", 0);
}

/* If two words contradict each other, returns false and sets `reason`. */
static bool is_consistent(const bool seen[WORDS], struct reason *reason) {
    if (seen[COMPLETE] && seen[DEVICE])
        return refuse(reason, NAMES[COMPLETE], NULL, "cannot be combined with device", 0);
    return !seen[RM] || !seen[NORM] ||
           refuse(reason, NAMES[RM], NULL, "cannot be combined with norm", 0);
}

/* Whether this program is one of tpm2-tools: tpm2, tpm2_createprimary and so on. */
static bool is_tool(void) {
    const char *name = program_invocation_short_name;
    return strcmp(name, "tpm2") == 0 || strncmp(name, "tpm2_", sizeof "tpm2_" - 1) == 0;
}

/* Sets what no word has set. */
static void set_defaults(struct words *words, const bool seen[WORDS]) {
    if (!seen[KEEP]) {
        words->options.keep = WORDS_KEEP;
        words->options.keeps_by_default = true;
    }
    if (!seen[RM] && !seen[NORM])
        words->flushes = seen[STATE] && words->options.completes && is_tool();
}

/* Returns the offset after the word that starts at an offset: the next comma, or the end. */
/*@ requires \valid_read(text + (0 .. size)) && at <= size;
  @ assigns \nothing;
  @ ensures at <= \result <= size && (\result == size || text[\result] == ',');
  @ ensures \forall integer i; at <= i < \result ==> text[i] != ',';
  @*/
static size_t word_end(const char *text, size_t size, size_t at) {
    /*@ loop invariant \at(at, Pre) <= at <= size;
      @ loop invariant \forall integer i; \at(at, Pre) <= i < at ==> text[i] != ',';
      @ loop assigns at;
      @ loop variant size - at;
      @*/
    while (at < size && text[at] != ',') at++;
    return at;
}

static bool read_words(struct words *words, struct reason *reason) {
    bool seen[WORDS] = {false};
    for (size_t at = 0, end; at <= words->size; at = end + 1) {
        end = word_end(words->text, words->size, at);
        words->text[end] = 0;
        if (!read_word(words, seen, words->text + at, end - at, reason)) return false;
    }
    set_defaults(words, seen);
    return is_consistent(seen, reason) && has_folder(seen, FORCE, reason) &&
           has_folder(seen, CUT, reason) && has_folder(seen, KEEP, reason) &&
           has_folder(seen, RM, reason);
}

bool words_read(struct words *words, const char *text, struct reason *reason) {
    *words = (struct words){.text = strdup(text ? text : ""),
                            .size = text ? strlen(text) : 0,
                            .options = {.force = TPMSIM_FORCE_POWER, .completes = true}};
    if (!words->text) return refuse_told(reason, "the module", NULL, TPMSIM_NO_MEMORY);
    if (words->size == 0 || read_words(words, reason)) return true;
    words_free(words);
    return false;
}

void words_free(struct words *words) {
    secret_free(words->text, words->size);
    explicit_bzero(words, sizeof *words);
}
