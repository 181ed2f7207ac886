/* The journals of a device that is not kept in a folder: a file for each power-on, FOLDER/boot-N.tpm,
   with the first unused N. The files contain secrets. Only their owner can read them. */
#ifndef RECORD_FILE_H
#define RECORD_FILE_H
#include "reason.h"
#include <stdbool.h>
#include <stddef.h>
#include <stdint.h>

struct record_file {
    /* The folder for the files, or NULL if nothing is recorded. */
    const char *folder;
    int file;
    uint64_t size;
};

/* Returns a record for which no file has been started yet. */
struct record_file record_file_of(const char *folder);

/* Starts a file with the head of a journal. On failure, returns false and sets `reason`. */
bool record_file_begin(struct record_file *record, const uint8_t *head, size_t size,
                       struct reason *reason);

/* Appends a whole text, or removes it if it was written incompletely. If the removal fails, the next
 * text overwrites it. On failure, returns false and sets `reason`. */
bool record_file_add(struct record_file *record, const uint8_t *text, size_t size,
                     struct reason *reason);

void record_file_end(struct record_file *record);

#endif
