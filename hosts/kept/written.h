/* The parts of a journal that every version of the library can read: the version that wrote it, its
 * head, and the number of commands after its head. */
#ifndef WRITTEN_H
#define WRITTEN_H
#include <stddef.h>
#include <stdint.h>

/* The size of a buffer for the words of written_by. */
enum { WRITTEN_ROOM = 64 };

/* Writes the words for the version that wrote a journal, such as "version 0.1.0", or "an earlier
 * version" for a journal without a version. */
void written_by(const uint8_t *journal, size_t size, char words[WRITTEN_ROOM]);

/* Returns the size of a journal's head, which is its first two lines; 0 if it has fewer lines. */
size_t written_head(const uint8_t *journal, size_t size);

/* Returns the number of commands in the lines of a journal. */
size_t written_commands(const uint8_t *journal, size_t size);

#endif
