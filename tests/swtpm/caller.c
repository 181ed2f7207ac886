/* A program that takes the role of swtpm. It opens the libtpms.so.0 that its argument names, reads
 * one line for each call from standard input, and prints the result. It stores states as files in
 * its working folder, with the names that the library uses. A line is one of these:
 *
 *   on, off                      TPMLIB_MainInit, TPMLIB_Terminate
 *   loc N                        the locality from now on; `loc none`: none is reported
 *   cmd HEX, head HEX            a command; the response, or its first ten bytes
 *   store works|fails, load ..   whether states can be written and read from now on; `load empty`: states are
 *                                read, but without bytes
 *   callbacks all|none|few|cut   registers the callbacks again; no structure; one without the callback that
 *                                stores a state; one that ends within this callback
 *   disk works|fills|breaks      what happens to a record's texts from now on
 *   save FILE                    TPMLIB_VolatileAll_Store
 *   set|get TYPE FILE, unset TYPE, validate BITS
 *   turn|cut TYPE FILE           sets the state with each byte changed, and each shorter one
 *   hash start|end|data HEX, established, reset, cancel
 *   clock S                      the file CLOCK shows this many seconds, for common/clock.c
 *   version N, profile TEXT|-, buffer N, property N, info N, blob, wasmanufactured */
#include "caller.h"

#include <stdlib.h>
#include <string.h>
#include <unistd.h>

enum { LINE_BYTES = 32 * 1024, WORDS = 3 };

static struct library library;
static const char *type_names[TYPES] = {"permanent", "volatile", "saved"};
static const enum TPMLIB_StateType types[TYPES] = {TPMLIB_STATE_PERMANENT, TPMLIB_STATE_VOLATILE,
                                                   TPMLIB_STATE_SAVE_STATE};

static int digit(char c) {
    const char *digits = "0123456789abcdef", *found = strchr(digits, c);
    must(c != 0 && found != NULL, "hex has other characters");
    return (int)(found - digits);
}

/* Decodes a word from hex, into a block of exactly the decoded size, so that a sanitizer finds
   reads beyond it. */
static uint8_t *bytes_of(const char *hex, size_t *size) {
    *size = strlen(hex) / 2;
    uint8_t *bytes = malloc(*size == 0 ? 1 : *size);
    must(bytes != NULL, "there is no memory");
    for (size_t i = 0; i < *size; i++)
        bytes[i] = (uint8_t)(16 * digit(hex[2 * i]) + digit(hex[2 * i + 1]));
    return bytes;
}

static enum TPMLIB_StateType type_of(const char *name) {
    for (int i = 0; i < TYPES; i++)
        if (strcmp(name, type_names[i]) == 0) return types[i];
    must(0, "there is no such type");
    return types[0];
}

static void tell(const char *name, unsigned result) { printf("%s: %u\n", name, result); }

static unsigned char *response;
static uint32_t response_room;

static void command(const char *hex, size_t most) {
    size_t size;
    uint32_t given = 0;
    uint8_t *bytes = bytes_of(hex, &size);
    unsigned result =
        library.process(&response, &given, &response_room, bytes, (uint32_t)size);
    if (result != 0) tell("Process", result);
    for (size_t i = 0; i < given && i < most; i++) printf("%02x", response[i]);
    puts(given > most ? ".." : "");
    free(bytes);
}

static void save(const char *path) {
    unsigned char *bytes = NULL;
    uint32_t size = 0;
    tell("VolatileAll_Store", library.volatile_store(&bytes, &size));
    if (bytes != NULL) write_file(path, bytes, size);
    free(bytes);
}

static void set_state(const char *type, const char *path) {
    size_t size;
    unsigned char *bytes = read_file(path, &size);
    must(bytes != NULL, "there is no such state");
    tell("SetState", library.set_state(type_of(type), bytes, (uint32_t)size));
    free(bytes);
}

static void get_state(const char *type, const char *path) {
    unsigned char *bytes = NULL;
    uint32_t size = 0;
    tell("GetState", library.get_state(type_of(type), &bytes, &size));
    if (bytes != NULL) write_file(path, bytes, size);
    free(bytes);
}

/* Tries to set a state. The library must refuse the state, and log the refusal in one line. Adds 1
 * to `wrong` if the state is not refused, and another 1 if the log has not exactly one line. */
static void must_be_refused(const char *type, const unsigned char *bytes, size_t size, size_t *wrong) {
    if (library.set_state(type_of(type), bytes, (uint32_t)size) != TPM_FAIL) ++*wrong;
    if (logged_lines() != 1) ++*wrong;
}

/* Tries to set a state in which one byte is changed, for each byte in turn. The lowest bit, the
 * highest bit, or all bits of the byte are flipped. */
static void turn(const char *type, const char *path) {
    static const uint8_t masks[] = {0x01, 0x80, 0xff};
    size_t size, wrong = 0;
    unsigned char *bytes = read_file(path, &size);
    must(bytes != NULL, "there is no such state");
    library.set_debug_descriptor(log_to_file());
    for (size_t i = 0; i < size * sizeof masks; i++) {
        bytes[i / sizeof masks] ^= masks[i % sizeof masks];
        must_be_refused(type, bytes, size, &wrong);
        bytes[i / sizeof masks] ^= masks[i % sizeof masks];
    }
    library.set_debug_descriptor(STDOUT_FILENO);
    printf("turned: %zu wrong\n", wrong);
    free(bytes);
}

/* Tries to set each prefix of a state, in a block of exactly the prefix's size, and the state with
   an additional byte. */
static void cut(const char *type, const char *path) {
    size_t size, wrong = 0;
    unsigned char *bytes = read_file(path, &size);
    must(bytes != NULL, "there is no such state");
    library.set_debug_descriptor(log_to_file());
    for (size_t i = 0; i < size; i++) {
        unsigned char *part = malloc(i == 0 ? 1 : i);
        must(part != NULL, "there is no memory");
        memcpy(part, bytes, i);
        must_be_refused(type, part, i, &wrong);
        free(part);
    }
    must_be_refused(type, bytes, size + 1, &wrong);
    library.set_debug_descriptor(STDOUT_FILENO);
    printf("cut: %zu wrong\n", wrong);
    free(bytes);
}

static void hash(const char *what, const char *hex) {
    if (strcmp(what, "start") == 0) tell("Hash_Start", library.hash_start());
    if (strcmp(what, "end") == 0) tell("Hash_End", library.hash_end());
    if (strcmp(what, "data") != 0) return;
    size_t size;
    uint8_t *bytes = bytes_of(hex, &size);
    tell("Hash_Data", library.hash_data(bytes, (uint32_t)size));
    free(bytes);
}

static void established(void) {
    TPM_BOOL is = 2;
    unsigned result = library.established(&is);
    printf("TpmEstablished: %u, %u\n", result, is);
}

/* Sets the time that common/clock.c returns. */
static void set_clock(const char *seconds) {
    char text[64];
    int size = snprintf(text, sizeof text, "%s 0\n", seconds);
    must(size > 0 && (size_t)size < sizeof text && getenv("CLOCK") != NULL, "there is no clock");
    write_file(getenv("CLOCK"), (const unsigned char *)text, (size_t)size);
}

static void info(const char *number) {
    char *text = library.info((enum TPMLIB_InfoFlags)atoi(number));
    puts(text == NULL ? "no info" : text);
    free(text);
}

static void buffer(const char *number) {
    uint32_t least = 0, most = 0, size = library.buffer_size((uint32_t)atoi(number), &least, &most);
    printf("buffer: %u, %u to %u\n", size, least, most);
}

static void property(const char *number) {
    int value = -1;
    unsigned result = library.property((enum TPMLIB_TPMProperty)atoi(number), &value);
    printf("property: %u, %d\n", result, value);
}

static void blob(void) {
    unsigned char *bytes = NULL;
    size_t size = 1;
    unsigned result = library.decode_blob("", TPMLIB_BLOB_TYPE_INITSTATE, &bytes, &size);
    printf("DecodeBlob: %u, %zu bytes\n", result, size);
}

/* Executes a line about power, commands or states. */
static int drive(char *words[WORDS]) {
    const char *name = words[0];
    if (strcmp(name, "on") == 0) tell("MainInit", library.main_init());
    else if (strcmp(name, "off") == 0) library.terminate();
    else if (strcmp(name, "loc") == 0) tell_locality(words[1]);
    else if (strcmp(name, "cmd") == 0) command(words[1], SIZE_MAX);
    else if (strcmp(name, "head") == 0) command(words[1], 10);
    else if (strcmp(name, "store") == 0) let_stores_fail(strcmp(words[1], "fails") == 0);
    else if (strcmp(name, "load") == 0) tell_loads(words[1]);
    else if (strcmp(name, "callbacks") == 0) tell("RegisterCallbacks", register_again(&library, words[1]));
    else if (strcmp(name, "disk") == 0) tell_disk(words[1]);
    else if (strcmp(name, "save") == 0) save(words[1]);
    else if (strcmp(name, "set") == 0) set_state(words[1], words[2]);
    else if (strcmp(name, "get") == 0) get_state(words[1], words[2]);
    else if (strcmp(name, "unset") == 0) tell("SetState", library.set_state(type_of(words[1]), NULL, 0));
    else if (strcmp(name, "validate") == 0)
        tell("ValidateState", library.validate((enum TPMLIB_StateType)atoi(words[1]), 0));
    else if (strcmp(name, "turn") == 0) turn(words[1], words[2]);
    else if (strcmp(name, "cut") == 0) cut(words[1], words[2]);
    else return 0;
    return 1;
}

/* Executes a line about dynamic launches, other hardware signals, or information on the TPM. */
static int ask(char *words[WORDS]) {
    const char *name = words[0];
    if (strcmp(name, "hash") == 0) hash(words[1], words[2]);
    else if (strcmp(name, "established") == 0) established();
    else if (strcmp(name, "reset") == 0) tell("TpmEstablished_Reset", library.reset_established());
    else if (strcmp(name, "cancel") == 0) tell("CancelCommand", library.cancel());
    else if (strcmp(name, "version") == 0)
        tell("ChooseTPMVersion", library.choose((TPMLIB_TPMVersion)atoi(words[1])));
    else if (strcmp(name, "profile") == 0)
        tell("SetProfile", library.set_profile(strcmp(words[1], "-") == 0 ? NULL : words[1]));
    else if (strcmp(name, "buffer") == 0) buffer(words[1]);
    else if (strcmp(name, "property") == 0) property(words[1]);
    else if (strcmp(name, "info") == 0) info(words[1]);
    else if (strcmp(name, "blob") == 0) blob();
    else if (strcmp(name, "clock") == 0) set_clock(words[1]);
    else if (strcmp(name, "wasmanufactured") == 0) tell("WasManufactured", library.was_manufactured());
    else return 0;
    return 1;
}

int main(int count, char **arguments) {
    static char line[LINE_BYTES];
    must(count == 2, "usage: caller LIBRARY <LINES");
    open_library(&library, arguments[1]);
    must(setvbuf(stdout, NULL, _IOLBF, 0) == 0, "there is no memory");
    while (fgets(line, sizeof line, stdin) != NULL) {
        char empty[] = "", *words[WORDS] = {empty, empty, empty}, *left = NULL;
        char *word = strtok_r(line, " \n", &left);
        for (int i = 0; i < WORDS && word != NULL; i++) {
            words[i] = word;
            word = strtok_r(NULL, " \n", &left);
        }
        must(drive(words) || ask(words), "there is no such line");
    }
    library.terminate();
    free(response);
    return 0;
}
