/* What tcti.c needs of libtss2's header of this name. A context has the type of this module's contexts, as it does
 * for every caller that keeps the standard. So no pointer changes its type. */
#ifndef TSS2_TCTI_H
#define TSS2_TCTI_H
#include <stddef.h>
#include <stdint.h>

typedef uint32_t TSS2_RC, TPM2_HANDLE;
typedef struct context TSS2_TCTI_CONTEXT;
typedef int TSS2_TCTI_POLL_HANDLE;
typedef struct {
    uint64_t magic, version;
    TSS2_RC (*transmit)(TSS2_TCTI_CONTEXT *, size_t, const uint8_t *);
    TSS2_RC (*receive)(TSS2_TCTI_CONTEXT *, size_t *, uint8_t *, int32_t);
    void (*finalize)(TSS2_TCTI_CONTEXT *);
    TSS2_RC (*cancel)(TSS2_TCTI_CONTEXT *);
    TSS2_RC (*get_poll_handles)(TSS2_TCTI_CONTEXT *, TSS2_TCTI_POLL_HANDLE *, size_t *);
    TSS2_RC (*set_locality)(TSS2_TCTI_CONTEXT *, uint8_t);
    TSS2_RC (*make_sticky)(TSS2_TCTI_CONTEXT *, TPM2_HANDLE *, uint8_t);
} TSS2_TCTI_CONTEXT_COMMON_V2;
typedef struct {
    uint64_t version;
    const char *name, *description, *config_help;
    TSS2_RC (*init)(TSS2_TCTI_CONTEXT *, size_t *, const char *);
} TSS2_TCTI_INFO;

#define TSS2_TCTI_MAGIC(context) (context)->common.magic
#define TSS2_TCTI_VERSION(context) (context)->common.version
#define TSS2_TCTI_TRANSMIT(context) (context)->common.transmit
#define TSS2_TCTI_RECEIVE(context) (context)->common.receive
#define TSS2_TCTI_FINALIZE(context) (context)->common.finalize
#define TSS2_TCTI_CANCEL(context) (context)->common.cancel
#define TSS2_TCTI_GET_POLL_HANDLES(context) (context)->common.get_poll_handles
#define TSS2_TCTI_SET_LOCALITY(context) (context)->common.set_locality
#define TSS2_TCTI_MAKE_STICKY(context) (context)->common.make_sticky
enum { TSS2_TCTI_TIMEOUT_BLOCK = -1 };
enum {
    TSS2_RC_SUCCESS = 0,
    TSS2_TCTI_RC_NOT_IMPLEMENTED = 0xa0002,
    TSS2_TCTI_RC_BAD_CONTEXT,
    TSS2_TCTI_RC_BAD_REFERENCE = 0xa0005,
    TSS2_TCTI_RC_INSUFFICIENT_BUFFER,
    TSS2_TCTI_RC_BAD_SEQUENCE,
    TSS2_TCTI_RC_IO_ERROR = 0xa000a,
    TSS2_TCTI_RC_BAD_VALUE
};
#endif
