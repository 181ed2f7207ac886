/* Declarations for a program that takes the role of swtpm: the library's functions, and the
 * callbacks that store states in files. */
#ifndef CALLER_H
#define CALLER_H

#include <libtpms/tpm_error.h>
#include <libtpms/tpm_library.h>
#include <libtpms/tpm_tis.h>
#include <stddef.h>
#include <stdint.h>
#include <stdio.h>

enum { TYPES = 3 };

/* Ends the program with a message unless a condition holds. */
void must(int condition, const char *reason);

/* Returns the bytes of a file, which the caller must free, or NULL if the file does not exist. */
unsigned char *read_file(const char *path, size_t *size);
void write_file(const char *path, const unsigned char *bytes, size_t size);

/* Returns the descriptor of a file for a library's log. The second function counts the lines of
 * that file, and empties it. */
int log_to_file(void);
size_t logged_lines(void);

struct library {
    TPM_RESULT (*register_callbacks)(struct libtpms_callbacks *);
    TPM_RESULT (*choose)(TPMLIB_TPMVersion);
    TPM_RESULT (*main_init)(void);
    void (*terminate)(void);
    TPM_RESULT (*process)(unsigned char **, uint32_t *, uint32_t *, unsigned char *, uint32_t);
    TPM_RESULT (*volatile_store)(unsigned char **, uint32_t *);
    TPM_RESULT (*cancel)(void);
    TPM_RESULT (*property)(enum TPMLIB_TPMProperty, int *);
    char *(*info)(enum TPMLIB_InfoFlags);
    TPM_RESULT (*decode_blob)(const char *, enum TPMLIB_BlobType, unsigned char **, size_t *);
    void (*set_debug_descriptor)(int);
    uint32_t (*buffer_size)(uint32_t, uint32_t *, uint32_t *);
    TPM_RESULT (*validate)(enum TPMLIB_StateType, unsigned);
    TPM_RESULT (*set_state)(enum TPMLIB_StateType, const unsigned char *, uint32_t);
    TPM_RESULT (*get_state)(enum TPMLIB_StateType, unsigned char **, uint32_t *);
    TPM_RESULT (*hash_start)(void);
    TPM_RESULT (*hash_data)(const unsigned char *, uint32_t);
    TPM_RESULT (*hash_end)(void);
    TPM_RESULT (*established)(TPM_BOOL *);
    TPM_RESULT (*reset_established)(void);
    TPM_RESULT (*set_profile)(const char *);
    TPM_BOOL (*was_manufactured)(void);
};

/* Opens a library, looks up each of its functions with the version that swtpm needs, and registers
 * the callbacks. The library writes its log to standard output. */
void open_library(struct library *library, const char *path);

/* Sets how the callbacks behave from now on. */
void tell_locality(const char *number);
void let_stores_fail(int fail);
void tell_loads(const char *state);

/* Registers callbacks again: all of them, or some that the library must refuse. */
unsigned register_again(struct library *library, const char *which);

/* Sets whether the disk for the record works, fills up while a text is written, or also fails to
 * truncate a file. */
void tell_disk(const char *state);

#endif
