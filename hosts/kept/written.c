#define _GNU_SOURCE
#include "written.h"
#include <stdio.h>
#include <string.h>

static const char VERSION[] = "# tpmsim v", COMMAND[] = "cmd ";

/* The number of hexadecimal digits of the number that encodes a version, and the factor of such
 * numbers. */
enum { VERSION_DIGITS = 8, VERSION_FACTOR = 251 };

/* Whether the bytes begin with this word. */
static int begins(const uint8_t *bytes, size_t size, const char *word) {
    return size >= strlen(word) && memcmp(bytes, word, strlen(word)) == 0;
}

/* Returns the size of the first line with its line feed; 0 if there is no line feed. */
static size_t line_of(const uint8_t *bytes, size_t size) {
    const uint8_t *end = size ? memchr(bytes, '\n', size) : NULL;
    return end ? (size_t)(end - bytes) + 1 : 0;
}

void written_by(const uint8_t *journal, size_t size, char words[WRITTEN_ROOM]) {
    unsigned number;
    char digits[VERSION_DIGITS + 1] = "";
    snprintf(words, WRITTEN_ROOM, "an earlier version");
    if (!begins(journal, size, VERSION) || size < sizeof VERSION - 1 + VERSION_DIGITS) return;
    memcpy(digits, journal + sizeof VERSION - 1, VERSION_DIGITS);
    if (sscanf(digits, "%8x", &number) != 1 || number % VERSION_FACTOR) return;
    number /= VERSION_FACTOR;
    snprintf(words, WRITTEN_ROOM, "version %u.%u.%u", number >> 16, number >> 8 & 255, number & 255);
}

size_t written_head(const uint8_t *journal, size_t size) {
    size_t mark = line_of(journal, size);
    size_t content = mark ? line_of(journal + mark, size - mark) : 0;
    return content ? mark + content : 0;
}

size_t written_commands(const uint8_t *journal, size_t size) {
    size_t commands = 0, line;
    for (; (line = line_of(journal, size)) != 0; journal += line, size -= line)
        if (begins(journal, line, COMMAND)) commands++;
    return commands;
}
