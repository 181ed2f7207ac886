/* swtpm, which calls libtpms.so.0 in any order, with any bytes. */
#include "any.h"
#include <libtpms/tpm_error.h>
#include <libtpms/tpm_library.h>
#include <libtpms/tpm_memory.h>
#include <libtpms/tpm_tis.h>

enum { MOST = 66000 };

static unsigned char bytes[MOST];

static TPM_RESULT begins(void) { return (TPM_RESULT)ANY(0, INT_MAX); }

static TPM_RESULT loads(unsigned char **data, uint32_t *length, uint32_t number, const char *name) {
    if (MAY) return (TPM_RESULT)ANY(1, INT_MAX);
    *length = (uint32_t)ANY(0, MOST);
    *data = MAY ? NULL : malloc(MOST);
    if (*data != NULL) any_bytes(*data, MOST);
    return TPM_SUCCESS;
}

/*@ requires data != \null && is_read((char *)data, length); */
static TPM_RESULT stores(const unsigned char *data, uint32_t length, uint32_t number, const char *name) {
    return (TPM_RESULT)ANY(0, INT_MAX);
}

static TPM_RESULT locality(TPM_MODIFIER_INDICATOR *now, uint32_t number) {
    if (MAY) return TPM_FAIL;
    *now = (TPM_MODIFIER_INDICATOR)ANY(0, INT_MAX);
    return TPM_SUCCESS;
}

static struct libtpms_callbacks callbacks = {.sizeOfStruct = sizeof callbacks,
                                             .tpm_nvram_init = begins,
                                             .tpm_nvram_loaddata = loads,
                                             .tpm_nvram_storedata = stores,
                                             .tpm_io_getlocality = locality};

/* Callbacks without the one that stores a state. */
static struct libtpms_callbacks few = {
    .sizeOfStruct = sizeof few, .tpm_nvram_init = begins, .tpm_nvram_loaddata = loads};

static void get_states(void) {
    unsigned char *got = NULL;
    uint32_t size = 0;
    TPMLIB_GetState((enum TPMLIB_StateType)ANY(0, 7), &got, &size);
    free(got);
    got = NULL;
    TPMLIB_VolatileAll_Store(&got, &size);
    free(got);
}

TPM_RESULT TPMLIB_SetProfile(const char *profile);

/* What does not depend on the device's state. */
static void get_facts(void) {
    unsigned char *block = NULL;
    size_t got;
    uint32_t least, most;
    int number;
    free(TPMLIB_GetInfo((enum TPMLIB_InfoFlags)ANY(0, INT_MAX)));
    TPMLIB_GetVersion();
    TPMLIB_ChooseTPMVersion((TPMLIB_TPMVersion)ANY(0, 3));
    TPMLIB_GetTPMProperty((enum TPMLIB_TPMProperty)ANY(0, 10), &number);
    TPMLIB_SetBufferSize((uint32_t)ANY(0, INT_MAX), MAY ? NULL : &least, MAY ? NULL : &most);
    TPMLIB_SetProfile(MAY ? NULL : "");
    TPMLIB_DecodeBlob("", (enum TPMLIB_BlobType)ANY(0, 5), &block, &got);
    if (TPM_Malloc(&block, (uint32_t)ANY(0, MOST)) != TPM_SUCCESS) return;
    TPM_Realloc(&block, (uint32_t)ANY(0, MOST));
    TPM_Free(block);
}

static void set_log(void) {
    TPMLIB_SetDebugFD(ANY(-1, INT_MAX));
    TPMLIB_SetDebugLevel((unsigned)ANY(0, INT_MAX));
    TPMLIB_SetDebugPrefix(MAY ? NULL : "any");
}

int main(void) {
    unsigned char *response = NULL;
    uint32_t size = 0, room = 0;
    TPM_BOOL is;
    any_bytes(bytes, sizeof bytes);
    for (;;) {
        switch (ANY(0, 16)) {
        case 0: TPMLIB_MainInit(); break;
        case 1: TPMLIB_Process(&response, &size, &room, bytes, (uint32_t)ANY(0, MOST)); break;
        case 2: TPMLIB_Terminate(); break;
        case 3:
            TPMLIB_SetState((enum TPMLIB_StateType)ANY(0, 7), MAY ? NULL : bytes, (uint32_t)ANY(0, MOST));
            break;
        case 4: get_states(); break;
        case 5: TPMLIB_ValidateState((enum TPMLIB_StateType)ANY(0, 7), 0); break;
        case 6: TPM_IO_Hash_Start(); break;
        case 7: TPM_IO_Hash_Data(bytes, (uint32_t)ANY(0, MOST)); break;
        case 8: TPM_IO_Hash_End(); break;
        case 9: TPM_IO_TpmEstablished_Get(&is); break;
        case 10: TPM_IO_TpmEstablished_Reset(); break;
        case 11: TPMLIB_RegisterCallbacks(MAY ? NULL : MAY ? &few : &callbacks); break;
        case 12: get_facts(); break;
        case 13: set_log(); break;
        case 14: TPMLIB_WasManufactured(); break;
        case 15: TPMLIB_CancelCommand(); break;
        default: free(response); return 0;
        }
    }
}
