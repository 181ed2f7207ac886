/* The record of a device: a journal since power-on, or since the device was restored from a
   volatile state. The environment variable TPMSIM_RECORD requests it, and names the folder for its
   file. */
#ifndef RECORD_H
#define RECORD_H

#include <stdbool.h>
#include <stddef.h>
#include <stdint.h>

/* If recording was requested, creates FOLDER/boot-N.tpm, with the first unused N, and writes this
 * text to it. */
bool begin_record(const uint8_t *text, size_t size);

/* Appends a whole text. If this fails, reports the reason, and removes the incomplete text. If that
 * fails too, the next call overwrites it, so the caller passes the same text again. If there is no
 * record, nothing is written. */
/*@ requires \valid_read(text + (0 .. size - 1));
  @ assigns written_text, written_size, __fc_errno;
  @ ensures \result ==> written_text == text && written_size == size;
  @*/
bool write_record(const uint8_t *text, size_t size);

/* Whether there is a record. */
/*@ assigns \nothing; */
bool is_recorded(void);

void end_record(void);

#endif
