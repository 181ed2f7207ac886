#include "board.h"
#include <string.h>

enum { HARDWARE = 4, FIRST_PCR = 17, LAST_PCR = 22, PCR_AT = 13, CODE_AT = 6, CODE_BYTES = 4 };

/* TPM2_PCR_Reset of a PCR with an empty password; the last byte of its handle is at PCR_AT. */
static const uint8_t RESET[] = {0x80, 0x02, 0, 0, 0, 27, 0,    0, 0x01, 0x3d, 0, 0, 0, 0,
                                0,    0,    0, 9, 0x40, 0, 0, 9, 0,    0,    0, 0, 0};

/* TPM2_PCR_Extend of PCR 17 with an empty password; the two digests follow. */
static const uint8_t EXTEND[] = {0x80, 0x02, 0, 0, 0, 87, 0, 0, 0x01, 0x82, 0, 0, 0, FIRST_PCR, 0, 0,
                                 0,    9,    0x40, 0, 0, 9, 0, 0, 0,  0,    0, 0, 0, 0,         2};
static const uint8_t SHA1_ALGORITHM[] = {0, 0x04}, SHA256_ALGORITHM[] = {0, 0x0b};

/* The response TPM_RC_LOCALITY, without sessions. */
static const uint8_t WRONG_LOCALITY[] = {0x80, 0x01, 0, 0, 0, 10, 0, 0, 0x09, 0x07};

bool board_execute(struct board *board, const uint8_t *buffer, size_t size, uint8_t locality,
                   struct response *response, struct reason *reason) {
    response->size = 0;
    if (!board->is_powered) return true;
    if (locality <= HARDWARE)
        return device_execute(board->device, buffer, size, locality, response, reason);
    memcpy(response->bytes, WRONG_LOCALITY, sizeof WRONG_LOCALITY);
    response->size = sizeof WRONG_LOCALITY;
    return true;
}

bool board_power_on(struct board *board, struct reason *reason) {
    board->is_launching = false;
    if (board->is_powered) return true;
    board->is_powered = true;
    return device_cycle_power(board->device, reason);
}

void board_power_off(struct board *board) { board->is_powered = board->is_launching = false; }

bool board_reset(struct board *board, struct reason *reason) {
    board->is_launching = false;
    return !board->is_powered || device_cycle_power(board->device, reason);
}

/* Executes a command from the locality of the hardware, and reports whether the command
 * succeeded. */
static bool execute_from_hardware(struct board *board, const uint8_t *command, size_t size,
                                  bool *succeeded, struct reason *reason) {
    static const uint8_t success[CODE_BYTES];
    struct response response;
    if (!device_execute(board->device, command, size, HARDWARE, &response, reason)) return false;
    *succeeded = memcmp(response.bytes + CODE_AT, success, CODE_BYTES) == 0;
    return true;
}

bool board_begin_launch(struct board *board, struct reason *reason) {
    uint8_t command[sizeof RESET];
    bool succeeded = board->is_powered;
    board->is_launching = false;
    memcpy(command, RESET, sizeof RESET);
    for (uint8_t pcr = FIRST_PCR; pcr <= LAST_PCR && succeeded; pcr++) {
        command[PCR_AT] = pcr;
        if (!execute_from_hardware(board, command, sizeof command, &succeeded, reason)) return false;
    }
    board->is_launching = succeeded;
    begin_digests(&board->launched);
    return true;
}

void board_add_to_launch(struct board *board, const uint8_t *text, size_t size) {
    if (board->is_launching) add_to_digests(&board->launched, text, size);
}

bool board_end_launch(struct board *board, struct reason *reason) {
    uint8_t command[87], *sha1 = command + sizeof EXTEND + sizeof SHA1_ALGORITHM;
    bool succeeded;
    if (!board->is_launching) return true;
    board->is_launching = false;
    memcpy(command, EXTEND, sizeof EXTEND);
    memcpy(command + sizeof EXTEND, SHA1_ALGORITHM, sizeof SHA1_ALGORITHM);
    memcpy(sha1 + SHA1_BYTES, SHA256_ALGORITHM, sizeof SHA256_ALGORITHM);
    end_digests(&board->launched, sha1, sha1 + SHA1_BYTES + sizeof SHA256_ALGORITHM);
    return execute_from_hardware(board, command, sizeof command, &succeeded, reason);
}
