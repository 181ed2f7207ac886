/* libtss2-tcti-tpmsim: a module for libtss2 with a device, which is either in the memory of the
 * process that loads the module, or kept in a folder. The module is a TCTI of version 2, as the
 * TCG's "TSS 2.0 TPM Command Transmission Interface" defines it. A fault is reported as a line on
 * standard error, and as a return code of that standard. */
#define _GNU_SOURCE
#include "loaded.h"
#include "words.h"
#include <stdio.h>
#include <string.h>
#include <tss2/tss2_tcti.h>

#define EXPORTED __attribute__((visibility("default")))

/* The first bytes of a context of this module: "TPMSIM" and a version. */
static const uint64_t MAGIC = 0x54504d53494d0001;

enum { RESPONSE_ROOM = 4096 };

struct context {
    TSS2_TCTI_CONTEXT_COMMON_V2 common;
    struct kept *kept;
    uint8_t locality;
    /* The objects, sequences and sessions that this process loaded, and whether they are flushed
       when the context is finalized. */
    bool flushes;
    struct loaded loaded;
    /* Whether a response is ready to be received, its size and its bytes. */
    bool waits;
    size_t size;
    uint8_t response[RESPONSE_ROOM];
};

/*@ predicate is_open(struct context *context) = context != \null && context->common.magic == MAGIC;
  @ predicate is_memory(struct context *context) = context == \null || (\valid(context) &&
  @     (is_open(context) ==> context->size <= RESPONSE_ROOM && context->locality <= 4));
  @*/

/* Returns the context; NULL if it is not a context of this module, or was finalized. */
/*@ requires is_memory(handed);
  @ assigns \nothing;
  @ ensures is_open(handed) ? \result == handed : \result == \null;
  @*/
static struct context *context_of(TSS2_TCTI_CONTEXT *handed) {
    return handed && TSS2_TCTI_MAGIC(handed) == MAGIC ? (struct context *)handed : NULL;
}

static void tell_line(const char *sentence) { fprintf(stderr, "tcti-tpmsim: %s\n", sentence); }

/*@ assigns \nothing;
  @ ensures \result == code;
  @*/
static TSS2_RC tell(const struct reason *reason, TSS2_RC code) {
    tell_line(reason->text);
    return code;
}

/* Executes the command. When this returns, its response is ready. */
/*@ requires is_memory(handed);
  @ requires command == \null || \valid_read(command + (0 .. size - 1));
  @ requires \separated(handed, command + (0 .. size - 1), &device_state);
  @ assigns *handed, device_state;
  @ ensures is_memory(handed);
  @ ensures \result == TSS2_RC_SUCCESS ==> is_open(handed) && !\old(handed->waits) &&
  @     handed->waits && 10 <= handed->size;
  @ ensures \result != TSS2_RC_SUCCESS && is_open(handed) ==> handed->waits == \old(handed->waits);
  @*/
static TSS2_RC transmit(TSS2_TCTI_CONTEXT *handed, size_t size, const uint8_t *command) {
    struct context *context = context_of(handed);
    struct reason reason;
    tpmsim_answered answered;
    if (!context) return TSS2_TCTI_RC_BAD_CONTEXT;
    if (!command) return TSS2_TCTI_RC_BAD_REFERENCE;
    if (context->waits) return TSS2_TCTI_RC_BAD_SEQUENCE;
    if (!kept_execute(context->kept, command, size, context->locality, context->response, &answered,
                      &reason))
        return tell(&reason, TSS2_TCTI_RC_IO_ERROR);
    context->size = answered.size;
    context->waits = true;
    if (context->flushes)
        loaded_follow(&context->loaded, command, size, context->response, answered.size);
    return TSS2_RC_SUCCESS;
}

/* Writes the response, or its size if the buffer is too small. No timeout can expire, because the
 * response is ready. */
/*@ requires is_memory(handed) && (size == \null || \valid(size));
  @ requires size != \null && response != \null ==> \valid(response + (0 .. *size - 1));
  @ requires size != \null ==> \separated(handed, size, response + (0 .. *size - 1));
  @ assigns *size, response[0 .. \old(*size) - 1], handed->waits;
  @ behavior returns:
  @     assumes is_open(handed) && handed->waits && timeout >= TSS2_TCTI_TIMEOUT_BLOCK;
  @     assumes size != \null && response != \null && *size >= handed->size;
  @     ensures \result == TSS2_RC_SUCCESS && !handed->waits && *size == handed->size;
  @     ensures \forall integer i; 0 <= i < *size ==> response[i] == handed->response[i];
  @     ensures \forall integer i; *size <= i < \old(*size) ==> response[i] == \old(response[i]);
  @ behavior only_tells_the_size:
  @     assumes is_open(handed) && handed->waits && timeout >= TSS2_TCTI_TIMEOUT_BLOCK;
  @     assumes size != \null && (response == \null || *size < handed->size);
  @     assigns *size;
  @     ensures *size == handed->size;
  @     ensures \result == (response == \null ? TSS2_RC_SUCCESS : TSS2_TCTI_RC_INSUFFICIENT_BUFFER);
  @ behavior refuses:
  @     assumes !is_open(handed) || !handed->waits || timeout < TSS2_TCTI_TIMEOUT_BLOCK ||
  @         size == \null;
  @     assigns \nothing;
  @     ensures \result != TSS2_RC_SUCCESS;
  @ complete behaviors;
  @ disjoint behaviors;
  @*/
static TSS2_RC receive(TSS2_TCTI_CONTEXT *handed, size_t *size, uint8_t *response,
                       int32_t timeout) {
    struct context *context = context_of(handed);
    if (!context) return TSS2_TCTI_RC_BAD_CONTEXT;
    if (!size) return TSS2_TCTI_RC_BAD_REFERENCE;
    if (timeout < TSS2_TCTI_TIMEOUT_BLOCK) return TSS2_TCTI_RC_BAD_VALUE;
    if (!context->waits) return TSS2_TCTI_RC_BAD_SEQUENCE;
    size_t room = *size;
    *size = context->size;
    if (!response) return TSS2_RC_SUCCESS;
    if (room < context->size) return TSS2_TCTI_RC_INSUFFICIENT_BUFFER;
    memcpy(response, context->response, context->size);
    context->waits = false;
    return TSS2_RC_SUCCESS;
}

/* Flushes what this process has loaded and not flushed. */
static void flush(struct context *context) {
    struct reason reason;
    if (!loaded_flush(&context->loaded, context->kept, context->locality, &reason))
        tell_line(reason.text);
    loaded_end(&context->loaded);
}

static void finalize(TSS2_TCTI_CONTEXT *handed) {
    struct context *context = context_of(handed);
    if (!context) return;
    if (context->flushes) flush(context);
    kept_close(context->kept);
    TSS2_TCTI_MAGIC(handed) = 0;
}

/* A transmitted command has already been executed, so it cannot be cancelled. Its response can be
 * received as usual. */
/*@ requires is_memory(handed);
  @ assigns \nothing;
  @ ensures \result == TSS2_RC_SUCCESS <==> is_open(handed) && handed->waits;
  @*/
static TSS2_RC cancel(TSS2_TCTI_CONTEXT *handed) {
    struct context *context = context_of(handed);
    if (!context) return TSS2_TCTI_RC_BAD_CONTEXT;
    return context->waits ? TSS2_RC_SUCCESS : TSS2_TCTI_RC_BAD_SEQUENCE;
}

/* There is nothing to poll. */
static TSS2_RC get_poll_handles(TSS2_TCTI_CONTEXT *handed, TSS2_TCTI_POLL_HANDLE *handles,
                                size_t *count) {
    (void)handles;
    if (!context_of(handed)) return TSS2_TCTI_RC_BAD_CONTEXT;
    return count ? TSS2_TCTI_RC_NOT_IMPLEMENTED : TSS2_TCTI_RC_BAD_REFERENCE;
}

/*@ requires is_memory(handed);
  @ assigns handed->locality;
  @ ensures is_memory(handed);
  @ ensures \result == TSS2_RC_SUCCESS <==> is_open(handed) && !handed->waits && locality <= 4;
  @ ensures \result == TSS2_RC_SUCCESS ==> handed->locality == locality;
  @ ensures \result != TSS2_RC_SUCCESS && is_open(handed) ==>
  @     handed->locality == \old(handed->locality);
  @*/
static TSS2_RC set_locality(TSS2_TCTI_CONTEXT *handed, uint8_t locality) {
    struct context *context = context_of(handed);
    if (!context) return TSS2_TCTI_RC_BAD_CONTEXT;
    if (context->waits) return TSS2_TCTI_RC_BAD_SEQUENCE;
    if (locality > 4) return TSS2_TCTI_RC_BAD_VALUE;
    context->locality = locality;
    return TSS2_RC_SUCCESS;
}

/* There is no resource manager above the device, so the handles are the device's own. */
static TSS2_RC make_sticky(TSS2_TCTI_CONTEXT *handed, TPM2_HANDLE *handle, uint8_t sticky) {
    (void)sticky;
    if (!context_of(handed)) return TSS2_TCTI_RC_BAD_CONTEXT;
    return handle ? TSS2_TCTI_RC_NOT_IMPLEMENTED : TSS2_TCTI_RC_BAD_REFERENCE;
}

/* Initializes a context for an open device. */
static void begin(TSS2_TCTI_CONTEXT *handed, struct kept *kept, const struct words *words) {
    struct context *context = (struct context *)handed;
    memset(context, 0, sizeof *context);
    context->kept = kept;
    context->locality = words->locality;
    context->flushes = words->flushes;
    if (context->flushes) loaded_begin(&context->loaded);
    TSS2_TCTI_MAGIC(handed) = MAGIC;
    TSS2_TCTI_VERSION(handed) = 2;
    TSS2_TCTI_TRANSMIT(handed) = transmit;
    TSS2_TCTI_RECEIVE(handed) = receive;
    TSS2_TCTI_FINALIZE(handed) = finalize;
    TSS2_TCTI_CANCEL(handed) = cancel;
    TSS2_TCTI_GET_POLL_HANDLES(handed) = get_poll_handles;
    TSS2_TCTI_SET_LOCALITY(handed) = set_locality;
    TSS2_TCTI_MAKE_STICKY(handed) = make_sticky;
}

EXPORTED TSS2_RC Tss2_Tcti_Tpmsim_Init(TSS2_TCTI_CONTEXT *handed, size_t *size,
                                       const char *config);
EXPORTED const TSS2_TCTI_INFO *Tss2_Tcti_Info(void);

TSS2_RC Tss2_Tcti_Tpmsim_Init(TSS2_TCTI_CONTEXT *handed, size_t *size, const char *config) {
    struct words words;
    struct reason reason;
    if (!size) return TSS2_TCTI_RC_BAD_VALUE;
    size_t room = *size;
    if (!handed || room < sizeof(struct context)) *size = sizeof(struct context);
    if (!handed) return TSS2_RC_SUCCESS;
    if (room < sizeof(struct context)) return TSS2_TCTI_RC_INSUFFICIENT_BUFFER;
    if (!words_read(&words, config, &reason)) return tell(&reason, TSS2_TCTI_RC_BAD_VALUE);
    words.options.tell = tell_line;
    struct kept *kept = kept_open(&words.options, &reason);
    if (kept) begin(handed, kept, &words);
    words_free(&words);
    return kept ? TSS2_RC_SUCCESS : tell(&reason, TSS2_TCTI_RC_IO_ERROR);
}

static const TSS2_TCTI_INFO INFO = {
    .version = 2,
    .name = "tcti-tpmsim",
    .description = "a tpmsim in this process, or kept in a folder",
    .config_help = WORDS_WANTED ", with commas between them; no word: a device in memory",
    .init = Tss2_Tcti_Tpmsim_Init,
};

const TSS2_TCTI_INFO *Tss2_Tcti_Info(void) { return &INFO; }
