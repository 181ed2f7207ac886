/* Tests the option `rm` of the module for libtss2. When a process finalizes its context, the module
 * flushes the objects, sequences and sessions that the process loaded and did not flush, and
 * nothing else. Each context of the module is one client. The clients share a device in a folder.
 */
#include "common.h"
#include <signal.h>
#include <sys/wait.h>
#include <tss2/tss2_tcti.h>

TSS2_RC Tss2_Tcti_Tpmsim_Init(TSS2_TCTI_CONTEXT *context, size_t *size, const char *words);

static const char RM[] = "state=state,force=never,rm", NO_RM[] = "state=state,force=never";

/* TPM2_CreatePrimary of an HMAC key. A policy session without assertions satisfies the key's
 * policy. */
static const uint8_t CREATE_PRIMARY[] = {
    0x80, 2, 0, 0, 0, 89, 0, 0, 1, 0x31, 0x40, 0, 0, 1, 0, 0, 0, 9, 0x40, 0, 0, 9, 0, 0, 0, 0, 0,
    /* The sensitive area and the public area. */
    0, 4, 0, 0, 0, 0, 0, 48, 0, 8, 0, 11, 0, 4, 0, 0x72, 0, 32, 0, 0, 0, 0, 0, 0, 0, 0, 0, 0, 0, 0,
    0, 0, 0, 0, 0, 0, 0, 0, 0, 0, 0, 0, 0, 0, 0, 0, 0, 0, 0, 0, 0, 5, 0, 11, 0, 0, 0, 0, 0, 0, 0, 0};

/* TPM2_StartAuthSession for a policy session. */
static const uint8_t START_SESSION[] = {
    0x80, 1, 0, 0, 0, 43, 0, 0, 1, 0x76, 0x40, 0, 0, 7, 0x40, 0, 0, 7, 0, 16, 0, 0, 0, 0, 0,
    0,    0, 0, 0, 0, 0,  0, 0, 0, 0,    0,    0, 0, 1, 0,    16, 0, 11};

/* TPM2_HashSequenceStart for a SHA-256 hash sequence, and for an event sequence. */
static const uint8_t START_HASH[] = {0x80, 1, 0, 0, 0, 14, 0, 0, 1, 0x86, 0, 0, 0, 11};
static const uint8_t START_EVENT[] = {0x80, 1, 0, 0, 0, 14, 0, 0, 1, 0x86, 0, 0, 0, 16};

static TSS2_TCTI_CONTEXT *begun(const char *words) {
    size_t size;
    must(Tss2_Tcti_Tpmsim_Init(NULL, &size, NULL) == TSS2_RC_SUCCESS, "no size");
    TSS2_TCTI_CONTEXT *context = malloc(size);
    must(context && Tss2_Tcti_Tpmsim_Init(context, &size, words) == TSS2_RC_SUCCESS, "no context");
    return context;
}

static void ended(TSS2_TCTI_CONTEXT *context) {
    Tss2_Tcti_Finalize(context);
    free(context);
}

static uint32_t number_at(const uint8_t *bytes) {
    return (uint32_t)bytes[0] << 24 | (uint32_t)bytes[1] << 16 | (uint32_t)bytes[2] << 8 | bytes[3];
}

static void put_number(uint8_t *bytes, uint32_t number) {
    for (int i = 0; i < 4; i++) bytes[i] = (uint8_t)(number >> (24 - 8 * i));
}

/* Executes a command that the device must accept. Returns the size of its response. */
static size_t done(TSS2_TCTI_CONTEXT *context, const uint8_t *command, size_t size,
                   uint8_t response[RESPONSE_BYTES]) {
    size_t all = RESPONSE_BYTES;
    must(Tss2_Tcti_Transmit(context, size, command) == TSS2_RC_SUCCESS, "transmit fails");
    must(Tss2_Tcti_Receive(context, &all, response, -1) == TSS2_RC_SUCCESS, "receive fails");
    if (number_at(response + 6) != 0) fprintf(stderr, "%x: ", number_at(response + 6));
    must(number_at(response + 6) == 0, "the device refused a command");
    return all;
}

static uint32_t loaded_by(TSS2_TCTI_CONTEXT *context, const uint8_t *command, size_t size) {
    uint8_t response[RESPONSE_BYTES];
    done(context, command, size, response);
    return number_at(response + 10);
}

static uint32_t object(TSS2_TCTI_CONTEXT *context) {
    return loaded_by(context, CREATE_PRIMARY, sizeof CREATE_PRIMARY);
}

static uint32_t session(TSS2_TCTI_CONTEXT *context) {
    return loaded_by(context, START_SESSION, sizeof START_SESSION);
}

static uint32_t hash(TSS2_TCTI_CONTEXT *context) {
    return loaded_by(context, START_HASH, sizeof START_HASH);
}

static uint32_t event(TSS2_TCTI_CONTEXT *context) {
    return loaded_by(context, START_EVENT, sizeof START_EVENT);
}

/* Sends TPM2_HMAC_Start with a key and the empty password. */
static uint32_t hmac(TSS2_TCTI_CONTEXT *context, uint32_t key) {
    uint8_t command[31] = {0x80, 2, 0, 0, 0, 31, 0, 0, 1, 0x5b, [17] = 9, 0x40, 0, 0, 9, [30] = 16};
    put_number(command + 10, key);
    return loaded_by(context, command, sizeof command);
}

/* Sends TPM2_SequenceComplete with an empty buffer and TPM_RH_NULL. */
static void complete(TSS2_TCTI_CONTEXT *context, uint32_t handle) {
    uint8_t command[33] = {0x80, 2, 0, 0, 0, 33, 0, 0, 1, 0x3e, [17] = 9, 0x40, 0, 0, 9};
    uint8_t response[RESPONSE_BYTES];
    put_number(command + 10, handle);
    put_number(command + 29, 0x40000007);
    done(context, command, sizeof command, response);
}

/* Sends TPM2_EventSequenceComplete with an empty buffer, for PCR 16. */
static void complete_event(TSS2_TCTI_CONTEXT *context, uint32_t handle) {
    uint8_t command[42] = {0x80,      2,         0,    0, 0, 42, 0,           0, 1, 0x85,
                           [13] = 16, [21] = 18, 0x40, 0, 0, 9,  [31] = 0x40, 0, 0, 9};
    uint8_t response[RESPONSE_BYTES];
    put_number(command + 14, handle);
    done(context, command, sizeof command, response);
}

static void flush(TSS2_TCTI_CONTEXT *context, uint32_t handle) {
    uint8_t command[14] = {0x80, 1, 0, 0, 0, 14, 0, 0, 1, 0x65}, response[RESPONSE_BYTES];
    put_number(command + 10, handle);
    done(context, command, sizeof command, response);
}

/* Saves a context, and writes the command that loads it. Returns the size of that command. */
static size_t saved(TSS2_TCTI_CONTEXT *context, uint32_t handle, uint8_t load[RESPONSE_BYTES]) {
    static const uint8_t head[] = {0x80, 1, 0, 0, 0, 0, 0, 0, 1, 0x61};
    uint8_t command[14] = {0x80, 1, 0, 0, 0, 14, 0, 0, 1, 0x62};
    put_number(command + 10, handle);
    size_t size = done(context, command, sizeof command, load);
    memcpy(load, head, sizeof head);
    put_number(load + 2, (uint32_t)size);
    return size;
}

/* Sends TPM2_HMAC with a key and a policy session. The device flushes the session after this
 * command. */
static void use(TSS2_TCTI_CONTEXT *context, uint32_t key, uint32_t by) {
    uint8_t command[32] = {0x80, 2, 0, 0, 0, 32, 0, 0, 1, 0x55, [17] = 9, [28] = 1, [31] = 16};
    uint8_t response[RESPONSE_BYTES];
    put_number(command + 10, key);
    put_number(command + 18, by);
    done(context, command, sizeof command, response);
}

/* Prints the loaded handles of one kind. */
static void print_kind(TSS2_TCTI_CONTEXT *context, uint32_t first) {
    uint8_t command[22] = {0x80, 1, 0, 0, 0, 22, 0, 0, 1, 0x7a, 0, 0, 0, 1}, response[RESPONSE_BYTES];
    put_number(command + 14, first);
    put_number(command + 18, 254);
    done(context, command, sizeof command, response);
    for (uint32_t i = 0; i < number_at(response + 15); i++)
        printf(" %08x", number_at(response + 19 + 4 * i));
}

/* Power-cycles the device. */
static void restart(void) {
    struct kept *kept = opened("state");
    struct reason reason;
    must(kept_power(kept, &reason), "no power cycle");
    start(kept);
    kept_close(kept);
}

/* Prints the loaded handles, and power-cycles the device for the next test. */
static void show(const char *label) {
    TSS2_TCTI_CONTEXT *context = begun(NO_RM);
    printf("%s:", label);
    print_kind(context, 0x80000000);
    print_kind(context, 0x02000000);
    puts("");
    fflush(stdout);
    ended(context);
    restart();
}

static void leave(const char *label, const char *words) {
    TSS2_TCTI_CONTEXT *context = begun(words);
    object(context);
    object(context);
    session(context);
    ended(context);
    show(label);
}

/* Frees handles, by a flush or by the end of a session. Another client then gets the same handles,
   which `rm` must not flush. */
static void leave_to_others(void) {
    TSS2_TCTI_CONTEXT *context = begun(RM), *other = begun(NO_RM);
    flush(context, object(context));
    object(other);
    use(context, object(context), session(context));
    session(other);
    ended(context);
    ended(other);
    show("an object and a session of another client, under handles that were freed");
}

/* Starts three sequences. */
static void leave_sequences(const char *label, const char *words) {
    TSS2_TCTI_CONTEXT *context = begun(words);
    hmac(context, object(context));
    hash(context);
    event(context);
    ended(context);
    show(label);
}

/* Ends sequences with each of the commands that can end them. Another client then gets the same
   handles, which `rm` must not flush. */
static void leave_sequences_to_others(void) {
    TSS2_TCTI_CONTEXT *context = begun(RM), *other = begun(NO_RM);
    complete(context, hash(context));
    hash(other);
    complete_event(context, event(context));
    hash(other);
    flush(context, hash(context));
    hash(other);
    ended(context);
    ended(other);
    show("sequences of another client, under handles that were freed");
}

/* Saves the context of a sequence. The sequence is flushed when the client ends, but its context
 * can still be loaded. The next client loads the context twice: it completes the first of the two
 * sequences, and leaves the second one loaded. */
static void save_sequence(void) {
    uint8_t load[RESPONSE_BYTES];
    TSS2_TCTI_CONTEXT *context = begun(RM);
    size_t size = saved(context, hash(context), load);
    ended(context);
    context = begun(RM);
    complete(context, loaded_by(context, load, size));
    loaded_by(context, load, size);
    ended(context);
    show("after a context of a sequence, which was loaded twice and completed once");
}

/* Saves a session and an object. When the client ends, the saved session remains, and the object is
   flushed. Both contexts can still be loaded. */
static void save(void) {
    uint8_t load_session[RESPONSE_BYTES], load_object[RESPONSE_BYTES], response[RESPONSE_BYTES];
    TSS2_TCTI_CONTEXT *context = begun(RM);
    size_t object_size = saved(context, object(context), load_object);
    size_t session_size = saved(context, session(context), load_session);
    ended(context);
    context = begun(RM);
    done(context, load_object, object_size, response);
    uint32_t key = number_at(response + 10);
    done(context, load_session, session_size, response);
    use(context, key, number_at(response + 10));
    ended(context);
    show("after contexts of an object and a session, which were loaded and used");
    context = begun(RM);
    object_size = saved(context, object(context), load_object);
    session_size = saved(context, session(context), load_session);
    done(context, load_object, object_size, response);
    done(context, load_session, session_size, response);
    ended(context);
    show("after contexts that were loaded and not used");
}

/* Forks a child that finalizes the context. The child flushes only the objects that it loaded
 * itself. */
static void forked(bool loads) {
    TSS2_TCTI_CONTEXT *context = begun(RM);
    object(context);
    pid_t child = fork();
    must(child >= 0, "there is no process");
    if (child == 0) {
        if (loads) session(context);
        Tss2_Tcti_Finalize(context);
        _exit(0);
    }
    must(waitpid(child, NULL, 0) == child, "no child ended");
    printf("after a forked child that loaded %s:", loads ? "a session" : "nothing");
    print_kind(context, 0x80000000);
    print_kind(context, 0x03000000);
    puts("");
    ended(context);
    show("and after its parent's end");
}

/* Kills a process, which cannot flush anything. */
static void killed(void) {
    fflush(stdout);
    pid_t child = fork();
    must(child >= 0, "there is no process");
    if (child == 0) {
        TSS2_TCTI_CONTEXT *context = begun(RM);
        object(context);
        raise(SIGKILL);
    }
    must(waitpid(child, NULL, 0) == child, "no child ended");
    show("a process that was killed");
}

/* Finalizes a context whose handles no longer exist. They are not flushed, and no fault is
 * reported. */
static void gone(void) {
    TSS2_TCTI_CONTEXT *context = begun(RM);
    object(context);
    session(context);
    show("before a power cycle");
    ended(context);
    show("an end after it");
}

/* Prints what the device answers to TPM2_FlushContext. */
static void print_flush(TSS2_TCTI_CONTEXT *context, uint32_t handle) {
    uint8_t command[14] = {0x80, 1, 0, 0, 0, 14, 0, 0, 1, 0x65}, response[RESPONSE_BYTES];
    size_t all = sizeof response;
    put_number(command + 10, handle);
    must(Tss2_Tcti_Transmit(context, sizeof command, command) == TSS2_RC_SUCCESS, "no transmit");
    must(Tss2_Tcti_Receive(context, &all, response, -1) == TSS2_RC_SUCCESS, "no receive");
    printf("TPM2_FlushContext of %08x: %08x\n", handle, number_at(response + 6));
}

/* Finalizes a context while another client has flushed its latest object and its session, which the
 * module tries to flush first. The device refuses this, and the earlier object is flushed
 * nevertheless. No fault is reported, and no change of the other client is lost. */
static void gone_in_part(void) {
    uint8_t before[RESPONSE_BYTES], after[RESPONSE_BYTES];
    TSS2_TCTI_CONTEXT *context = begun(RM), *other = begun(NO_RM);
    object(context);
    uint32_t latest = object(context), policy = session(context);
    flush(other, latest);
    flush(other, policy);
    print_flush(other, latest);
    print_flush(other, policy);
    done(other, EXTEND, sizeof EXTEND, after);
    size_t size = done(other, PCR_READ, sizeof PCR_READ, before);
    ended(context);
    must(done(other, PCR_READ, sizeof PCR_READ, after) == size && !memcmp(before, after, size),
         "a change is lost");
    ended(other);
    show("after an object and a session that another client flushed");
}

/* Finalizes a context while the device waits for TPM2_Startup, and refuses each flush. No fault is
 * reported, and the device can be started. */
static void before_startup(void) {
    struct reason reason;
    TSS2_TCTI_CONTEXT *context = begun(RM);
    uint32_t loaded = object(context);
    session(context);
    struct kept *kept = opened("state");
    must(kept_power(kept, &reason), "no power cycle");
    print_flush(context, loaded);
    ended(context);
    start(kept);
    kept_close(kept);
    show("after a power cycle, an end and TPM2_Startup");
}

int main(void) {
    restart();
    leave("without the word", NO_RM);
    leave("with it", RM);
    leave_to_others();
    save();
    leave_sequences("sequences without the word", NO_RM);
    leave_sequences("sequences with it", RM);
    leave_sequences_to_others();
    save_sequence();
    forked(false);
    forked(true);
    killed();
    gone();
    gone_in_part();
    before_startup();
    return 0;
}
