#include "loaded.h"
#include <string.h>
#include <tss2/tss2_tpm2_types.h>

enum { CODE_AT = 6, HANDLES_AT = 10, HANDLE_SIZE = 4, HANDLE_TYPE_SHIFT = 24 };

/* The bytes of a command or a response. */
struct bytes {
    const uint8_t *first;
    size_t size;
};

/* Returns the number of `size` bytes at an offset; 0 if it extends beyond the end. */
static uint32_t number_at(struct bytes bytes, size_t at, size_t size) {
    uint32_t number = 0;
    if (at > bytes.size || size > bytes.size - at) return 0;
    for (size_t i = 0; i < size; i++) number = number << 8 | bytes.first[at + i];
    return number;
}

static bool is_session(uint32_t handle) {
    uint32_t type = handle >> HANDLE_TYPE_SHIFT;
    return type == TPM2_HT_HMAC_SESSION || type == TPM2_HT_POLICY_SESSION;
}

static void forget(struct loaded *loaded, uint32_t handle) {
    size_t left = 0;
    for (size_t i = 0; i < LOADED_MOST && i < loaded->count; i++)
        if (loaded->handles[i] != handle) loaded->handles[left++] = loaded->handles[i];
    loaded->count = left;
}

/* Adds a handle to the end of the list. If the list contained the handle already, the old entry is
 * removed. */
static void remember(struct loaded *loaded, uint32_t handle) {
    forget(loaded, handle);
    if (loaded->count < LOADED_MOST) loaded->handles[loaded->count++] = handle;
}

/* Returns the number of handles in a command, according to Part 3 of the standard. */
static size_t handles_of(uint32_t code) {
    switch (code) {
    case TPM2_CC_GetRandom:
    case TPM2_CC_StirRandom:
    case TPM2_CC_GetCapability:
    case TPM2_CC_GetTestResult:
    case TPM2_CC_Hash:
    case TPM2_CC_HashSequenceStart:
    case TPM2_CC_IncrementalSelfTest:
    case TPM2_CC_PCR_Read:
    case TPM2_CC_ReadClock:
    case TPM2_CC_SelfTest:
    case TPM2_CC_Shutdown:
    case TPM2_CC_TestParms: return 0;
    case TPM2_CC_EventSequenceComplete:
    case TPM2_CC_EvictControl:
    case TPM2_CC_NV_Extend:
    case TPM2_CC_NV_Increment:
    case TPM2_CC_NV_Read:
    case TPM2_CC_NV_ReadLock:
    case TPM2_CC_NV_SetBits:
    case TPM2_CC_NV_UndefineSpace:
    case TPM2_CC_NV_Write:
    case TPM2_CC_NV_WriteLock:
    case TPM2_CC_PolicySecret:
    case TPM2_CC_StartAuthSession: return 2;
    case TPM2_CC_PolicyNV: return 3;
    default: return 1;
    }
}

/* Forgets the session of an authorization entry if the entry ends the session. Returns the offset
 * after the entry. */
static size_t follow_entry(struct loaded *loaded, struct bytes command, size_t at) {
    size_t attributes = at + HANDLE_SIZE + 2 + number_at(command, at + HANDLE_SIZE, 2);
    if (!(number_at(command, attributes, 1) & TPMA_SESSION_CONTINUESESSION))
        forget(loaded, number_at(command, at, HANDLE_SIZE));
    return attributes + 1 + 2 + number_at(command, attributes + 1, 2);
}

/* Forgets the sessions that the command ends. */
static void follow_entries(struct loaded *loaded, struct bytes command, uint32_t code) {
    if (number_at(command, 0, 2) != TPM2_ST_SESSIONS) return;
    size_t at = HANDLES_AT + HANDLE_SIZE * handles_of(code);
    size_t area = number_at(command, at, 4);
    at += 4;
    if (area > command.size - HANDLES_AT) return;
    for (size_t end = at + area; at < end;) at = follow_entry(loaded, command, at);
}

void loaded_begin(struct loaded *loaded) {
    loaded->count = 0;
    fork_mark_begin(&loaded->mark);
}

void loaded_follow(struct loaded *loaded, const uint8_t *command, size_t size,
                   const uint8_t *response, size_t response_size) {
    struct bytes asked = {command, size}, answered = {response, response_size};
    if (!fork_mark_is_here(&loaded->mark)) loaded->count = 0;
    fork_mark_set(&loaded->mark);
    if (number_at(answered, CODE_AT, 4) != TPM2_RC_SUCCESS) return;
    uint32_t code = number_at(asked, CODE_AT, 4);
    uint32_t handle = number_at(asked, HANDLES_AT, HANDLE_SIZE);
    follow_entries(loaded, asked, code);
    switch (code) {
    case TPM2_CC_CreatePrimary:
    case TPM2_CC_Load:
    case TPM2_CC_ContextLoad:
    case TPM2_CC_HMAC_Start:
    case TPM2_CC_HashSequenceStart:
    case TPM2_CC_StartAuthSession:
        remember(loaded, number_at(answered, HANDLES_AT, HANDLE_SIZE));
        break;
    case TPM2_CC_FlushContext:
    case TPM2_CC_SequenceComplete: forget(loaded, handle); break;
    case TPM2_CC_EventSequenceComplete:
        forget(loaded, number_at(asked, HANDLES_AT + HANDLE_SIZE, HANDLE_SIZE));
        break;
    case TPM2_CC_ContextSave:
        if (is_session(handle)) forget(loaded, handle);
        break;
    default: break;
    }
}

/* Writes the TPM2_FlushContext command for a handle. */
static void flush_command(uint8_t command[14], uint32_t handle) {
    static const uint8_t head[] = {0x80, 0x01, 0, 0, 0, 14, 0, 0, 0x01, 0x65};
    memcpy(command, head, sizeof head);
    for (size_t i = 0; i < HANDLE_SIZE; i++)
        command[sizeof head + i] = (uint8_t)(handle >> (8 * (HANDLE_SIZE - 1 - i)));
}

bool loaded_flush(struct loaded *loaded, struct kept *kept, uint8_t locality,
                  struct reason *reason) {
    uint8_t command[14], response[4096];
    tpmsim_answered answered;
    if (!fork_mark_is_here(&loaded->mark)) return true;
    while (loaded->count > 0) {
        flush_command(command, loaded->handles[--loaded->count]);
        if (!kept_execute(kept, command, sizeof command, locality, response, &answered, reason))
            return false;
    }
    return true;
}

void loaded_end(struct loaded *loaded) { fork_mark_end(&loaded->mark); }
