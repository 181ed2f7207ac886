/* A client of the module for libtss2. It loads the module's file in the same way as libtss2, and
 * calls the module's function Tss2_Tcti_Info. The argument is the module's path. Each line of its
 * output is the result of one call. */
#include "common.h"
#include <dlfcn.h>
#include <tss2/tss2_tcti.h>

enum { CONTEXT_ROOM = 65536 };

static const TSS2_TCTI_INFO *info;

/* Returns the name of a return code. */
static const char *name_of(TSS2_RC code) {
    static const struct {
        TSS2_RC code;
        const char *name;
    } names[] = {
        {TSS2_RC_SUCCESS, "SUCCESS"},
        {TSS2_TCTI_RC_NOT_IMPLEMENTED, "NOT_IMPLEMENTED"},
        {TSS2_TCTI_RC_BAD_CONTEXT, "BAD_CONTEXT"},
        {TSS2_TCTI_RC_BAD_REFERENCE, "BAD_REFERENCE"},
        {TSS2_TCTI_RC_BAD_SEQUENCE, "BAD_SEQUENCE"},
        {TSS2_TCTI_RC_BAD_VALUE, "BAD_VALUE"},
        {TSS2_TCTI_RC_INSUFFICIENT_BUFFER, "INSUFFICIENT_BUFFER"},
        {TSS2_TCTI_RC_IO_ERROR, "IO_ERROR"},
    };
    for (size_t i = 0; i < sizeof names / sizeof *names; i++)
        if (names[i].code == code) return names[i].name;
    return "another code";
}

static void told(const char *label, TSS2_RC code) { printf("%s: %s\n", label, name_of(code)); }

static TSS2_TCTI_CONTEXT *begun(const char *words) {
    size_t size;
    must(info->init(NULL, &size, NULL) == TSS2_RC_SUCCESS && size <= CONTEXT_ROOM, "no size");
    TSS2_TCTI_CONTEXT *context = malloc(size);
    must(context && info->init(context, &size, words) == TSS2_RC_SUCCESS, "no context");
    return context;
}

static void ended(TSS2_TCTI_CONTEXT *context) {
    Tss2_Tcti_Finalize(context);
    free(context);
}

/* Transmits a command and receives its response. */
static size_t executed(TSS2_TCTI_CONTEXT *context, const uint8_t *command, size_t size,
                       uint8_t response[RESPONSE_BYTES]) {
    size_t room = RESPONSE_BYTES;
    must(Tss2_Tcti_Transmit(context, size, command) == TSS2_RC_SUCCESS, "transmit fails");
    must(Tss2_Tcti_Receive(context, &room, response, TSS2_TCTI_TIMEOUT_BLOCK) == TSS2_RC_SUCCESS,
         "receive fails");
    return room;
}

static void try_info(void) {
    printf("version %u, %s\n", info->version, info->name);
    must(info->description && *info->description && strstr(info->config_help, "state=DIR"),
         "the module does not say what it is");
}

static void try_init(void) {
    size_t size = 7, room, small = 8;
    told("init without a context and a size", info->init(NULL, NULL, NULL));
    told("init without a context", info->init(NULL, &size, NULL));
    must(size > sizeof(TSS2_TCTI_CONTEXT_COMMON_V2) && size <= CONTEXT_ROOM, "the size is wrong");
    TSS2_TCTI_CONTEXT *context = malloc(size);
    must(context != NULL, "there is no memory");
    told("init without a size", info->init(context, NULL, NULL));
    told("init with a small size", info->init(context, &small, NULL));
    must(small == size, "the size that is wanted is not told");
    told("init with a wrong word", info->init(context, &size, "colour=blue"));
    told("init with a folder that cannot be made", info->init(context, &size, "state=none/state"));
    room = size;
    told("init", info->init(context, &room, "random=5a"));
    must(room == size && TSS2_TCTI_VERSION(context) == 2 && TSS2_TCTI_MAGIC(context) != 0,
         "the context is wrong");
    ended(context);
}

/* Makes calls in the wrong order and with wrong arguments, before the first command. */
static void try_before(TSS2_TCTI_CONTEXT *context) {
    uint8_t response[RESPONSE_BYTES];
    size_t size = sizeof response;
    told("receive before transmit", Tss2_Tcti_Receive(context, &size, response, -1));
    told("cancel before transmit", Tss2_Tcti_Cancel(context));
    told("transmit without a command", Tss2_Tcti_Transmit(context, 12, NULL));
}

/* Receives the size of a response first, and then the response. */
static void try_receive(TSS2_TCTI_CONTEXT *context) {
    uint8_t response[RESPONSE_BYTES];
    size_t size = 0;
    told("transmit", Tss2_Tcti_Transmit(context, sizeof STARTUP, STARTUP));
    told("transmit once more", Tss2_Tcti_Transmit(context, sizeof STARTUP, STARTUP));
    told("set_locality behind transmit", Tss2_Tcti_SetLocality(context, 1));
    told("receive without a size", Tss2_Tcti_Receive(context, NULL, response, -1));
    told("receive with timeout -2", Tss2_Tcti_Receive(context, &size, response, -2));
    told("receive without a buffer", Tss2_Tcti_Receive(context, &size, NULL, -1));
    printf("    its size: %zu\n", size);
    size = 9;
    told("receive with a small buffer", Tss2_Tcti_Receive(context, &size, response, 0));
    printf("    its size: %zu\n", size);
    told("cancel behind transmit", Tss2_Tcti_Cancel(context));
    size = sizeof response;
    told("receive", Tss2_Tcti_Receive(context, &size, response, 1000));
    printf("    its size: %zu, the code of the response: %02x%02x\n", size, response[8],
           response[9]);
    told("receive once more", Tss2_Tcti_Receive(context, &size, response, -1));
}

/* Extends PCR 20 from each locality. Only localities 2 to 4 may extend this PCR. */
static void try_localities(TSS2_TCTI_CONTEXT *context) {
    uint8_t command[sizeof EXTEND], response[RESPONSE_BYTES];
    memcpy(command, EXTEND, sizeof EXTEND);
    command[13] = 20;
    for (unsigned locality = 0; locality < 7; locality++) {
        TSS2_RC code = Tss2_Tcti_SetLocality(context, (uint8_t)locality);
        executed(context, command, sizeof command, response);
        printf("set_locality %u: %s, an extend of PCR 20: %02x%02x\n", locality, name_of(code),
               response[8], response[9]);
    }
    told("set_locality 255", Tss2_Tcti_SetLocality(context, 255));
    told("set_locality 0", Tss2_Tcti_SetLocality(context, 0));
    executed(context, command, sizeof command, response);
    printf("    an extend of PCR 20: %02x%02x\n", response[8], response[9]);
}

/* Sends buffers that are not commands. The device responds to each of them with COMMAND_SIZE. */
static void try_sizes(TSS2_TCTI_CONTEXT *context) {
    static const size_t sizes[] = {0, 1, 9, 4096, 4097, 60000};
    static uint8_t command[60000];
    uint8_t response[RESPONSE_BYTES];
    memcpy(command, GET_RANDOM, sizeof GET_RANDOM);
    for (size_t i = 0; i < sizeof sizes / sizeof *sizes; i++) {
        size_t size = executed(context, command, sizes[i], response);
        printf("a command of %zu bytes: a response of %zu, %02x%02x\n", sizes[i], size,
               response[8], response[9]);
    }
}

static void try_the_rest(TSS2_TCTI_CONTEXT *context) {
    TSS2_TCTI_POLL_HANDLE handles[4];
    size_t count = 4;
    TPM2_HANDLE handle = 0x80000000;
    told("get_poll_handles", Tss2_Tcti_GetPollHandles(context, handles, &count));
    told("get_poll_handles without a count", Tss2_Tcti_GetPollHandles(context, handles, NULL));
    told("make_sticky", Tss2_Tcti_MakeSticky(context, &handle, 1));
    told("make_sticky without a handle", Tss2_Tcti_MakeSticky(context, NULL, 1));
}

/* Makes each call with a pointer that is not a context of the module. */
static void try_no_context(TSS2_TCTI_CONTEXT *context) {
    uint8_t response[RESPONSE_BYTES];
    size_t size = sizeof response, count = 0;
    TPM2_HANDLE handle = 0x80000000;
    told("transmit", Tss2_Tcti_Transmit(context, sizeof STARTUP, STARTUP));
    told("receive", Tss2_Tcti_Receive(context, &size, response, -1));
    told("cancel", Tss2_Tcti_Cancel(context));
    told("set_locality", Tss2_Tcti_SetLocality(context, 0));
    told("get_poll_handles", Tss2_Tcti_GetPollHandles(context, NULL, &count));
    told("make_sticky", Tss2_Tcti_MakeSticky(context, &handle, 0));
    Tss2_Tcti_Finalize(context);
}

/* Calls the module's functions with a null context. */
static void try_null(TSS2_TCTI_CONTEXT *context) {
    uint8_t response[RESPONSE_BYTES];
    size_t size = sizeof response;
    told("transmit", TSS2_TCTI_TRANSMIT(context)(NULL, sizeof STARTUP, STARTUP));
    told("receive", TSS2_TCTI_RECEIVE(context)(NULL, &size, response, -1));
    told("cancel", TSS2_TCTI_CANCEL(context)(NULL));
    told("set_locality", TSS2_TCTI_SET_LOCALITY(context)(NULL, 0));
    TSS2_TCTI_FINALIZE(context)(NULL);
}

/* Opens one device in two contexts. If a response was not received, it is lost when its context is
 * finalized. */
static void try_two(void) {
    uint8_t response[RESPONSE_BYTES];
    TSS2_TCTI_CONTEXT *one = begun("state=state,force=never,random=5a");
    TSS2_TCTI_CONTEXT *two = begun("state=state,force=always,random=a5");
    executed(one, STARTUP, sizeof STARTUP, response);
    size_t size = executed(two, GET_RANDOM, sizeof GET_RANDOM, response);
    printf("two contexts of one device: a response of %zu bytes, %02x%02x, random bytes %02x\n",
           size, response[8], response[9], response[12]);
    must(Tss2_Tcti_Transmit(one, sizeof EXTEND, EXTEND) == TSS2_RC_SUCCESS, "transmit fails");
    ended(one);
    size = executed(two, PCR_READ, sizeof PCR_READ, response);
    puts(response[size - 1] ? "a command whose response was not received is done" : "WRONG");
    ended(two);
}

/* Opens a journal that ends with an incomplete record, and one whose last record is damaged. The
 * module reports what it cuts off. */
static void try_cut(void) {
    static const char JOURNAL[] = "state/journal";
    uint8_t response[RESPONSE_BYTES];
    size_t size;
    fflush(stdout);
    uint8_t *journal = bytes_of(JOURNAL, &size);
    journal = realloc(journal, size + 2);
    must(journal != NULL, "there is no memory");
    memcpy(journal + size, "# ", 2);
    put_bytes(JOURNAL, journal, size + 2);
    TSS2_TCTI_CONTEXT *context = begun("state=state");
    executed(context, GET_RANDOM, sizeof GET_RANDOM, response);
    ended(context);
    journal[size - 2] ^= 1;
    put_bytes(JOURNAL, journal, size);
    free(journal);
    TSS2_TCTI_CONTEXT_COMMON_V2 *room = malloc(CONTEXT_ROOM);
    size = CONTEXT_ROOM;
    must(room != NULL, "there is no memory");
    told("init with a damaged journal", info->init((void *)room, &size, "state=state"));
    free(room);
    context = begun("state=state,cut");
    executed(context, GET_RANDOM, sizeof GET_RANDOM, response);
    ended(context);
}

int main(int count, char **words) {
    must(count == 2, "usage: client MODULE");
    void *module = dlopen(words[1], RTLD_NOW | RTLD_LOCAL);
    must(module != NULL, "the module is not loaded");
    void *symbol = dlsym(module, TSS2_TCTI_INFO_SYMBOL);
    must(symbol && dlsym(module, "Tss2_Tcti_Tpmsim_Init"), "the module has another name");
    TSS2_TCTI_INFO_FUNC function;
    memcpy(&function, &symbol, sizeof function);
    info = function();
    try_info();
    try_init();
    TSS2_TCTI_CONTEXT *context = begun("");
    try_before(context);
    try_receive(context);
    try_localities(context);
    try_sizes(context);
    try_the_rest(context);
    puts("no context:");
    try_null(context);
    Tss2_Tcti_Finalize(context);
    puts("a context that was finalized:");
    try_no_context(context);
    free(context);
    try_two();
    try_cut();
    must(dlclose(module) == 0, "the module is not unloaded");
    return 0;
}
