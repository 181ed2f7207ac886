/* Properties of this TPM that do not depend on its state. */
#include "device.h"
#include "report.h"

#include <libtpms/tpm_error.h>
#include <libtpms/tpm_library.h>
#include <libtpms/tpm_memory.h>
#include <stdio.h>
#include <stdlib.h>
#include <string.h>

/* The version of libtpms whose interface this library implements. */
static const uint32_t VERSION = 10 << 8;

/* The supported flags of TPMLIB_GetInfo, in the order of the output. libtpms 0.10 has other flags,
   for which nothing is reported. */
static const struct {
    unsigned flag;
    const char *text;
} facts[] = {
    {TPMLIB_INFO_TPMSPECIFICATION,
     "\"TPMSpecification\":{\"family\":\"2.0\",\"level\":0,\"revision\":138}"},
    {TPMLIB_INFO_TPMATTRIBUTES, "\"TPMAttributes\":{\"manufacturer\":\"id:5453494D\","
                                "\"version\":\"id:00000001\",\"model\":\"tpmsim\"}"},
    {TPMLIB_INFO_TPMFEATURES, "\"TPMFeatures\":{}"},
};

uint32_t TPMLIB_GetVersion(void) { return VERSION; }

/* Reports nothing if it refuses a version: swtpm reports that itself, and tries every version when
 * it prints its capabilities. */
TPM_RESULT TPMLIB_ChooseTPMVersion(TPMLIB_TPMVersion ver) {
    return ver == TPMLIB_TPM_VERSION_2 ? TPM_SUCCESS : TPM_FAIL;
}

TPM_RESULT TPMLIB_GetTPMProperty(enum TPMLIB_TPMProperty prop, int *result) {
    if (prop != TPMPROP_TPM_BUFFER_MAX) return TPM_FAIL;
    *result = RESPONSE_BYTES;
    return TPM_SUCCESS;
}

uint32_t TPMLIB_SetBufferSize(uint32_t wanted_size, uint32_t *min_size, uint32_t *max_size) {
    (void)wanted_size;
    if (min_size != NULL) *min_size = RESPONSE_BYTES;
    if (max_size != NULL) *max_size = RESPONSE_BYTES;
    return RESPONSE_BYTES;
}

char *TPMLIB_GetInfo(enum TPMLIB_InfoFlags flags) {
    char *text = NULL;
    size_t size = 0;
    FILE *stream = open_memstream(&text, &size);
    if (stream == NULL) return NULL;
    const char *between = "{";
    for (size_t i = 0; i < sizeof facts / sizeof facts[0]; i++) {
        if (((unsigned)flags & facts[i].flag) == 0) continue;
        fprintf(stream, "%s%s", between, facts[i].text);
        between = ",";
    }
    fputs(*between == '{' ? "{}" : "}", stream);
    if (fclose(stream) == 0) return text;
    free(text);
    return NULL;
}

/* A profile selects algorithms and commands. This device supports only one selection. */
TPM_RESULT TPMLIB_SetProfile(const char *profile);
TPM_RESULT TPMLIB_SetProfile(const char *profile) {
    if (profile == NULL) return TPM_SUCCESS;
    report("there are no profiles");
    return TPM_FAIL;
}

/* Decodes a blob with the initial state of a TPM 1.2, which this library does not support. */
TPM_RESULT TPMLIB_DecodeBlob(const char *data, enum TPMLIB_BlobType type, unsigned char **result,
                             size_t *result_len) {
    (void)data;
    (void)type;
    *result = NULL;
    *result_len = 0;
    report("there is no TPM 1.2, and no blob of one");
    return TPM_FAIL;
}

TPM_RESULT TPM_Malloc(unsigned char **buffer, uint32_t size) {
    *buffer = malloc(size == 0 ? 1 : size);
    return *buffer == NULL ? TPM_SIZE : TPM_SUCCESS;
}

TPM_RESULT TPM_Realloc(unsigned char **buffer, uint32_t size) {
    unsigned char *larger = realloc(*buffer, size == 0 ? 1 : size);
    if (larger == NULL) return TPM_SIZE;
    *buffer = larger;
    return TPM_SUCCESS;
}

void TPM_Free(unsigned char *buffer) { free(buffer); }
