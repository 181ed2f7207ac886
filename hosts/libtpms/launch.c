/* A dynamic launch, executed as commands from locality 4: PCRs 17 to 22 are reset, and PCR 17 is
 * extended with the digests of the hashed data. */
#include "launch.h"

#include "callbacks.h"
#include "device.h"
#include "digests.h"
#include "report.h"

#include <libtpms/tpm_error.h>
#include <libtpms/tpm_tis.h>
#include <stdbool.h>
#include <string.h>

enum { HARDWARE = 4, TRUSTED_SYSTEM = 3, FIRST_PCR = 17, LAST_PCR = 22, PCR_AT = 13 };
enum { RESPONSE_CODE_AT = 6, HEAD_BYTES = 10 };

/* TPM2_PCR_Reset of a PCR with an empty password; the last byte of its handle is at PCR_AT. */
static const uint8_t RESET[] = {0x80, 0x02, 0, 0, 0, 27, 0,    0, 0x01, 0x3d, 0, 0, 0, 0,
                                0,    0,    0, 9, 0x40, 0, 0, 9, 0,    0,    0, 0, 0};
/* TPM2_PCR_Extend of PCR 17 with an empty password and two digests. */
static const uint8_t EXTEND[] = {0x80, 0x02, 0, 0, 0, 87, 0, 0, 0x01, 0x82, 0, 0, 0, FIRST_PCR, 0, 0,
                                 0,    9,    0x40, 0, 0, 9, 0, 0, 0,  0,    0, 0, 0, 0,         2};
static const uint8_t SHA1_ALGORITHM[] = {0, 0x04}, SHA256_ALGORITHM[] = {0, 0x0b};

static bool is_told, is_hashing;
static struct digests digests;

void tell_launch(bool was_launched) {
    is_told = was_launched;
    is_hashing = false;
}

bool was_launched(void) { return is_told; }

/* Executes a command from locality 4, which must succeed. */
static bool is_done(const uint8_t *command, size_t size, const char *name) {
    static struct response response;
    static const uint8_t success[HEAD_BYTES - RESPONSE_CODE_AT];
    if (!execute(command, size, HARDWARE, &response)) return false;
    const uint8_t *code = response.bytes + RESPONSE_CODE_AT;
    if (memcmp(code, success, sizeof success) == 0) return true;
    report("no dynamic launch: %s of PCR %u is answered %02x%02x%02x%02x", name, command[PCR_AT],
           code[0], code[1], code[2], code[3]);
    return false;
}

TPM_RESULT TPM_IO_Hash_Start(void) {
    uint8_t command[sizeof RESET];
    is_hashing = false;
    if (!device_is_on()) return TPM_FAIL;
    memcpy(command, RESET, sizeof RESET);
    for (uint8_t pcr = FIRST_PCR; pcr <= LAST_PCR; pcr++) {
        command[PCR_AT] = pcr;
        if (!is_done(command, sizeof command, "TPM2_PCR_Reset")) return TPM_FAIL;
    }
    begin_digests(&digests);
    is_told = true;
    is_hashing = true;
    return TPM_SUCCESS;
}

static bool hashes(void) {
    if (!is_hashing) report("no dynamic launch has begun");
    return is_hashing;
}

TPM_RESULT TPM_IO_Hash_Data(const unsigned char *data, uint32_t data_length) {
    if (!hashes()) return TPM_FAIL;
    add_to_digests(&digests, data, data_length);
    return TPM_SUCCESS;
}

TPM_RESULT TPM_IO_Hash_End(void) {
    uint8_t command[87], *place = command + sizeof EXTEND;
    if (!hashes()) return TPM_FAIL;
    is_hashing = false;
    memcpy(command, EXTEND, sizeof EXTEND);
    uint8_t *sha1 = place + sizeof SHA1_ALGORITHM, *second = sha1 + SHA1_BYTES;
    memcpy(place, SHA1_ALGORITHM, sizeof SHA1_ALGORITHM);
    memcpy(second, SHA256_ALGORITHM, sizeof SHA256_ALGORITHM);
    end_digests(&digests, sha1, second + sizeof SHA256_ALGORITHM);
    return is_done(command, sizeof command, "TPM2_PCR_Extend") ? TPM_SUCCESS : TPM_FAIL;
}

TPM_RESULT TPM_IO_TpmEstablished_Get(TPM_BOOL *tpmEstablished) {
    *tpmEstablished = is_told ? 1 : 0;
    return TPM_SUCCESS;
}

TPM_RESULT TPM_IO_TpmEstablished_Reset(void) {
    uint32_t locality = locality_now();
    if (!device_is_on()) return TPM_FAIL;
    if (locality != TRUSTED_SYSTEM && locality != HARDWARE) return TPM_BAD_LOCALITY;
    is_told = false;
    return TPM_SUCCESS;
}
