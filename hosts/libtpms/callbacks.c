/* The callbacks that swtpm registered, and what they return. */
#include "callbacks.h"

#include "report.h"

#include <libtpms/tpm_error.h>
#include <libtpms/tpm_library.h>
#include <string.h>

enum { NO_LOCALITY = 255 };

static struct libtpms_callbacks callbacks;

/* Replaces the callbacks only with others that can store states. So once there are such callbacks, there always
   are. Takes no part of a callback, if the structure ends within it. */
TPM_RESULT TPMLIB_RegisterCallbacks(struct libtpms_callbacks *registered) {
    struct libtpms_callbacks taken = {0};
    if (registered != NULL && registered->sizeOfStruct > 0) {
        size_t size = (size_t)registered->sizeOfStruct;
        if (size > sizeof taken) size = sizeof taken;
        memcpy(&taken, registered, size - size % sizeof taken.tpm_nvram_init);
    }
    if (taken.tpm_nvram_loaddata == NULL || taken.tpm_nvram_storedata == NULL) {
        report("the callbacks are refused: they keep no state");
        return TPM_FAIL;
    }
    callbacks = taken;
    return TPM_SUCCESS;
}

bool begin_callbacks(void) {
    if (callbacks.tpm_nvram_storedata == NULL) {
        report("there are no callbacks that keep a state");
        return false;
    }
    if (callbacks.tpm_nvram_init != NULL && callbacks.tpm_nvram_init() != TPM_SUCCESS) {
        report("swtpm did not prepare its folder for the state");
        return false;
    }
    if (callbacks.tpm_io_init != NULL && callbacks.tpm_io_init() != TPM_SUCCESS) {
        report("the channel of commands is not ready");
        return false;
    }
    return true;
}

/*@ requires callbacks.tpm_nvram_loaddata == \null || callbacks.tpm_nvram_loaddata == &swtpm_load; */
enum kept load_state(const char *name, uint8_t **bytes, size_t *size) {
    unsigned char *data = NULL;
    uint32_t length = 0;
    TPM_RESULT result;
    if (callbacks.tpm_nvram_loaddata == NULL) return NOT_KEPT;
    /*@ calls swtpm_load; */
    result = callbacks.tpm_nvram_loaddata(&data, &length, 0, name);
    if (result == TPM_RETRY) return NOT_KEPT;
    if (result != TPM_SUCCESS) {
        report("the state %s is not read (result %u)", name, (unsigned)result);
        return NOT_READ;
    }
    if (data == NULL) {
        report("the state %s is not read (there are no bytes)", name);
        return NOT_READ;
    }
    *bytes = data;
    *size = length;
    return KEPT;
}

/*@ requires callbacks.tpm_nvram_storedata == &swtpm_store; */
bool store_state(const char *name, const uint8_t *bytes, size_t size) {
    TPM_RESULT result;
    /*@ calls swtpm_store; */
    result = callbacks.tpm_nvram_storedata(bytes, (uint32_t)size, 0, name);
    if (result != TPM_SUCCESS)
        report("the state %s is not written (result %u)", name, (unsigned)result);
    return result == TPM_SUCCESS;
}

uint32_t locality_now(void) {
    TPM_MODIFIER_INDICATOR locality = 0;
    if (callbacks.tpm_io_getlocality == NULL) return 0;
    if (callbacks.tpm_io_getlocality(&locality, 0) != TPM_SUCCESS) return NO_LOCALITY;
    return locality;
}
