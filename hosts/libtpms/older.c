/* The lines of a journal show when its last command was executed, and whether a dynamic launch took
   place and has not been revoked. An empty command from locality 4 marks the start of a launch, and
   an empty command from locality 3 marks that it was revoked. */
#include "older.h"

#include "report.h"

#include <string.h>

static const char HEAD[] = "# tpmsim journal 1 ", THE_END[] = "# the end\n";

/* The bytes of a journal, or of one of its lines. */
struct text {
    const uint8_t *first;
    size_t size;
};

/* Returns the byte at an offset; 0 after the end. */
static uint8_t byte_at(struct text text, size_t at) { return at < text.size ? text.first[at] : 0; }

/* Whether this word is at an offset. */
static bool is_at(struct text text, size_t at, const char *word) {
    size_t i = 0;
    while (word[i] && byte_at(text, at + i) == (uint8_t)word[i]) i++;
    return word[i] == 0;
}

bool is_older_state(const uint8_t *text, size_t size) {
    return is_at((struct text){text, size}, 0, HEAD);
}

/* Reads a number of at most `most` digits. It ends before a byte that is no digit of this base. */
static uint64_t number_at(struct text text, size_t at, size_t base, size_t most) {
    static const char DIGITS[] = "0123456789abcdef";
    uint64_t number = 0;
    const char *digit;
    for (size_t end = at + most; at < end && (digit = memchr(DIGITS, byte_at(text, at), base)); at++)
        number = base * number + (uint64_t)(digit - DIGITS);
    return number;
}

static void read_line(struct text line, uint8_t *locality, struct moment *moment) {
    if (is_at(line, 0, "wait ")) moment->time += number_at(line, sizeof "wait " - 1, 10, 20);
    if (is_at(line, 0, "loc ")) *locality = byte_at(line, sizeof "loc " - 1);
    if (line.size != sizeof "cmd " - 1 || !is_at(line, 0, "cmd ")) return;
    if (*locality == '4') moment->was_launched = true;
    if (*locality == '3') moment->was_launched = false;
}

/* Reads the moment at which an opened journal ends. */
static struct moment moment_of(struct text journal) {
    struct moment moment = {.time = number_at(journal, sizeof HEAD - 1, 16, 16)};
    uint8_t locality = '0';
    for (size_t at = 0, end; at < journal.size; at = end + 1) {
        for (end = at; end < journal.size && byte_at(journal, end) != '\n';) end++;
        read_line((struct text){journal.first + at, end - at}, &locality, &moment);
    }
    return moment;
}

const char *open_older_state(tpmsim *device, const uint8_t *text, size_t size, struct moment *moment) {
    size_t taken = 0, length = size - (sizeof THE_END - 1);
    if (!is_at((struct text){text, size}, length, THE_END)) return "its end is missing";
    uint8_t told = tpmsim_journal_open(device, text, length, &taken);
    if (told != TPMSIM_DONE) return words_of_told(told);
    if (taken != length) return "its last record is cut off";
    *moment = moment_of((struct text){text, length});
    return NULL;
}
