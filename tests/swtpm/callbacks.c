/* Looks up the functions of a library by name and version, and defines callbacks like those that
   swtpm registers. The callbacks store states in files. */
#include "caller.h"

#include <dlfcn.h>
#include <stdlib.h>
#include <string.h>
#include <unistd.h>

enum { NO_LOCALITY = 99 };

static int stores_fail, loads_fail, loads_are_empty;
static uint32_t locality;

void must(int condition, const char *reason) {
    if (condition) return;
    fprintf(stderr, "caller: %s\n", reason);
    exit(1);
}

unsigned char *read_file(const char *path, size_t *size) {
    FILE *file = fopen(path, "rb");
    if (file == NULL) return NULL;
    must(fseek(file, 0, SEEK_END) == 0, "a file has no end");
    long end = ftell(file);
    must(end >= 0 && fseek(file, 0, SEEK_SET) == 0, "a file has no start");
    /* The block is one byte longer than the file, so that a test can add a byte to the state. */
    unsigned char *bytes = calloc(1, (size_t)end + 1);
    must(bytes != NULL && fread(bytes, 1, (size_t)end, file) == (size_t)end, "a file is not read");
    must(fclose(file) == 0, "a file is not closed");
    *size = (size_t)end;
    return bytes;
}

void write_file(const char *path, const unsigned char *bytes, size_t size) {
    FILE *file = fopen(path, "wb");
    must(file != NULL && fwrite(bytes, 1, size, file) == size && fclose(file) == 0,
         "a file is not written");
}

static int log_descriptor = -1;

int log_to_file(void) {
    char path[] = "log.XXXXXX";
    if (log_descriptor < 0) {
        log_descriptor = mkstemp(path);
        must(log_descriptor >= 0 && unlink(path) == 0, "no log is made");
    }
    return log_descriptor;
}

size_t logged_lines(void) {
    char bytes[1024];
    size_t lines = 0;
    must(lseek(log_descriptor, 0, SEEK_SET) == 0, "the log has no start");
    ssize_t size = read(log_descriptor, bytes, sizeof bytes);
    must(size >= 0 && ftruncate(log_descriptor, 0) == 0, "the log is not read");
    must(lseek(log_descriptor, 0, SEEK_SET) == 0, "the log has no start");
    for (ssize_t i = 0; i < size; i++) lines += bytes[i] == '\n';
    return lines;
}

void tell_locality(const char *number) {
    locality = strcmp(number, "none") == 0 ? NO_LOCALITY : (uint32_t)atoi(number);
}

void let_stores_fail(int fail) { stores_fail = fail; }

void tell_loads(const char *state) {
    loads_fail = strcmp(state, "fails") == 0;
    loads_are_empty = strcmp(state, "empty") == 0;
}

static TPM_RESULT load(unsigned char **data, uint32_t *length, uint32_t number, const char *name) {
    size_t size;
    if (loads_fail || number != 0) return TPM_FAIL;
    if (loads_are_empty) {
        *data = NULL;
        *length = 42;
        return TPM_SUCCESS;
    }
    *data = read_file(name, &size);
    if (*data == NULL) return TPM_RETRY;
    *length = (uint32_t)size;
    return TPM_SUCCESS;
}

static TPM_RESULT store(const unsigned char *data, uint32_t length, uint32_t number, const char *name) {
    printf("%s %s\n", stores_fail ? "not stored:" : "stored:", name);
    if (stores_fail || number != 0) return TPM_FAIL;
    write_file(name, data, length);
    return TPM_SUCCESS;
}

static TPM_RESULT locality_now(TPM_MODIFIER_INDICATOR *now, uint32_t number) {
    if (number != 0 || locality == NO_LOCALITY) return TPM_FAIL;
    *now = locality;
    return TPM_SUCCESS;
}

static struct libtpms_callbacks callbacks = {
    .sizeOfStruct = sizeof callbacks,
    .tpm_nvram_loaddata = load,
    .tpm_nvram_storedata = store,
    .tpm_io_getlocality = locality_now,
};

static void *handle;

/* Looks up a function. Copies the result of dlvsym, because C cannot convert it to a function
 * pointer. */
static void find(void *place, const char *name, const char *version) {
    void *found = dlvsym(handle, name, version);
    if (found == NULL) fprintf(stderr, "caller: %s of %s is missing\n", name, version);
    must(found != NULL, "the library is no libtpms");
    memcpy(place, &found, sizeof found);
}

void open_library(struct library *library, const char *path) {
    static const char first[] = "LIBTPMS_0.5.1", second[] = "LIBTPMS_0.6.0", tenth[] = "LIBTPMS_0.10.0";
    handle = dlopen(path, RTLD_NOW | RTLD_LOCAL);
    if (handle == NULL) fprintf(stderr, "caller: %s\n", dlerror());
    must(handle != NULL, "the library is not opened");
    find(&library->register_callbacks, "TPMLIB_RegisterCallbacks", first);
    find(&library->main_init, "TPMLIB_MainInit", first);
    find(&library->terminate, "TPMLIB_Terminate", first);
    find(&library->process, "TPMLIB_Process", first);
    find(&library->volatile_store, "TPMLIB_VolatileAll_Store", first);
    find(&library->property, "TPMLIB_GetTPMProperty", first);
    find(&library->decode_blob, "TPMLIB_DecodeBlob", first);
    find(&library->hash_start, "TPM_IO_Hash_Start", first);
    find(&library->hash_data, "TPM_IO_Hash_Data", first);
    find(&library->hash_end, "TPM_IO_Hash_End", first);
    find(&library->established, "TPM_IO_TpmEstablished_Get", first);
    find(&library->choose, "TPMLIB_ChooseTPMVersion", second);
    find(&library->cancel, "TPMLIB_CancelCommand", second);
    find(&library->info, "TPMLIB_GetInfo", second);
    find(&library->set_debug_descriptor, "TPMLIB_SetDebugFD", second);
    find(&library->buffer_size, "TPMLIB_SetBufferSize", second);
    find(&library->validate, "TPMLIB_ValidateState", second);
    find(&library->set_state, "TPMLIB_SetState", second);
    find(&library->get_state, "TPMLIB_GetState", second);
    find(&library->reset_established, "TPM_IO_TpmEstablished_Reset", second);
    find(&library->set_profile, "TPMLIB_SetProfile", tenth);
    find(&library->was_manufactured, "TPMLIB_WasManufactured", tenth);
    library->set_debug_descriptor(STDOUT_FILENO);
    must(library->register_callbacks(&callbacks) == TPM_SUCCESS, "callbacks are not taken");
}

unsigned register_again(struct library *library, const char *which) {
    struct libtpms_callbacks registered = callbacks;
    if (strcmp(which, "none") == 0) return library->register_callbacks(NULL);
    if (strcmp(which, "few") == 0) registered.tpm_nvram_storedata = NULL;
    if (strcmp(which, "cut") == 0)
        registered.sizeOfStruct = (int)offsetof(struct libtpms_callbacks, tpm_nvram_storedata) + 4;
    return library->register_callbacks(&registered);
}
