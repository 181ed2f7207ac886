/* Executes commands and returns their responses. */
#include "callbacks.h"
#include "device.h"
#include "report.h"

#include <libtpms/tpm_error.h>
#include <libtpms/tpm_library.h>
#include <libtpms/tpm_memory.h>
#include <stdlib.h>
#include <string.h>

enum { LOCALITIES = 5 };

/* TPM_RC_FAILURE, for a command that is not executed. */
static const uint8_t FAILURE[] = {0x80, 0x01, 0, 0, 0, 10, 0, 0, 0x01, 0x01};

/* Executes a command at the locality that swtpm reports. */
static bool execute_here(const uint8_t *command, size_t size, struct response *response) {
    uint32_t locality = locality_now();
    if (!device_is_on()) return false;
    if (locality >= LOCALITIES) {
        report("a command comes from no locality");
        return false;
    }
    return execute(command, size, (uint8_t)locality, response);
}

TPM_RESULT TPMLIB_Process(unsigned char **respbuffer, uint32_t *resp_size, uint32_t *respbufsize,
                          unsigned char *command, uint32_t command_size) {
    static struct response response;
    if (*respbuffer == NULL || *respbufsize < RESPONSE_BYTES) {
        unsigned char *larger = realloc(*respbuffer, RESPONSE_BYTES);
        if (larger == NULL) {
            report("there is no memory for a response");
            return TPM_SIZE;
        }
        *respbuffer = larger;
        *respbufsize = RESPONSE_BYTES;
    }
    if (!execute_here(command, command_size, &response)) {
        memcpy(response.bytes, FAILURE, sizeof FAILURE);
        response.size = sizeof FAILURE;
    }
    memcpy(*respbuffer, response.bytes, response.size);
    *resp_size = (uint32_t)response.size;
    return TPM_SUCCESS;
}

/* A command is complete before anything can cancel it. */
TPM_RESULT TPMLIB_CancelCommand(void) { return TPM_SUCCESS; }
