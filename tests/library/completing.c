/* Executes commands and writes their journal, with and without the completing layer. Opens the
 * journal in another handle, and continues with that handle. Prints each response. Then does the
 * same without a journal, and continues in another handle from a state text. */
#include "common.h"
#include "tpmsim.h"

enum { CLOCK = 1000, WAITED = 250, OBJECTS = 8, MOST_CONTEXT = 378 };

static const uint8_t OF_FAMILY_1[] = {0, 0xc1, 0, 0, 0, 12, 0, 0, 0, 0x99, 0, 1};
static const uint8_t STIR[] = {0x80, 1, 0, 0, 0, 14, 0, 0, 1, 0x46, 0, 2, 1, 2};
static const uint8_t START_SESSION[] = {
    0x80, 1, 0, 0, 0, 43, 0, 0, 1, 0x76, 0x40, 0, 0, 7, 0x40, 0, 0, 7, 0, 16, 0, 0,
    0,    0, 0, 0, 0, 0,  0, 0, 0, 0,    0,    0, 0, 0, 0,    0, 0, 0, 16, 0, 11};
static const uint8_t SAVE_SESSION[] = {0x80, 1, 0, 0, 0, 14, 0, 0, 1, 0x62, 2, 0, 0, 0};
static const uint8_t SAVE_OBJECT[] = {0x80, 1, 0, 0, 0, 14, 0, 0, 1, 0x62, 0x80, 0, 0, 0};
static const uint8_t FLUSH_OBJECT[] = {0x80, 1, 0, 0, 0, 14, 0, 0, 1, 0x65, 0x80, 0, 0, 0};
static const uint8_t FLUSH_SESSION[] = {0x80, 1, 0, 0, 0, 14, 0, 0, 1, 0x65, 2, 0, 0, 0};
static const uint8_t CREATE_PRIMARY[] = {
    0x80, 2, 0, 0, 0, 59, 0, 0, 1, 0x31, 0x40, 0, 0, 1, 0,    0, 0, 9, 0x40, 0,
    0,    9, 0, 0, 1, 0,  0, 0, 4, 0,    0,    0, 0, 0, 0x12, 0, 0x25, 0, 11, 0,
    3,    4, 0x72, 0, 0, 0, 6, 0, 0x80, 0, 0x43, 0, 0, 0, 0, 0, 0, 0, 0};

static const uint8_t TEST_RESULT[] = {0x80, 1, 0, 0, 0, 10, 0, 0, 1, 0x7c};
static const uint8_t HASH[] = {0x80, 1,   0,   0, 0,  21,   0, 0, 1, 0x7d, 0,
                               3,    'a', 'b', 'c', 0, 11, 0x40, 0, 0, 7};

static tpmsim device, other;
static uint8_t text[256 * 1024], response[RESPONSE_BYTES], context[MOST_CONTEXT];
static size_t text_size, context_size;
static uint64_t now = CLOCK;

/* Cycles the power, and restarts the journal. */
static void begin(void) {
    now += WAITED;
    text_size = tpmsim_journal_begin(&device, now, text, sizeof text);
    must(text_size > 0 && text_size <= sizeof text, "the head does not fit");
}

/* Executes a command, appends its record to the journal's text, and prints its response code. */
static void execute(const char *name, uint8_t completes, const uint8_t *buffer, size_t size) {
    static uint8_t record[TPMSIM_RECORD_ROOM], random_bytes[RANDOM_BYTES];
    tpmsim_answered answered;
    size_t record_size;
    now += WAITED;
    count_up(random_bytes, (uint8_t)text_size);
    must(tpmsim_journal_execute(&device, buffer, size, 0, now, completes, random_bytes, response,
                                &answered, record, &record_size) == TPMSIM_DONE,
         "a command is not executed");
    memcpy(text + text_size, record, record_size);
    text_size += record_size;
    printf("%s: %03x, %zu drawn\n", name, (unsigned)code_of(response), answered.drawn);
}

/* Reads at most five values of a capability, beginning with this property. Prints them in hex,
 * without the response's header and moreData. */
static void list(const char *name, uint8_t completes, uint32_t capability, uint32_t property) {
    uint8_t command[] = {0x80, 1, 0, 0, 0, 22, 0, 0, 1, 0x7a, 0, 0, 0, 0, 0, 0, 0, 0, 0, 0, 0, 5};
    for (int i = 0; i < 4; i++) {
        command[10 + i] = (uint8_t)(capability >> (24 - 8 * i));
        command[14 + i] = (uint8_t)(property >> (24 - 8 * i));
    }
    execute(name, completes, command, sizeof command);
    if (code_of(response) != 0) return;
    printf("  more %u: ", response[10]);
    put_hex(response + 11, (size_t)(response[4] << 8 | response[5]) - 11);
    putchar('\n');
}

/* Lists capabilities with the completing layer and without it. */
static void list_capabilities(void) {
    list("commands from ContextLoad on", 1, 2, 0x161);
    list("commands from StirRandom on, without the layer", 0, 2, 0x146);
    list("commands from StirRandom on", 1, 2, 0x146);
    list("properties from TPM_PT_PCR_COUNT on", 1, 6, 0x112);
    list("properties from TPM_PT_CONTEXT_HASH on", 1, 6, 0x11a);
    list("properties from TPM_PT_MAX_OBJECT_CONTEXT on", 1, 6, 0x121);
    list("properties from TPM_PT_TOTAL_COMMANDS on", 1, 6, 0x129);
    list("properties from TPM_PT_TOTAL_COMMANDS on, without the layer", 0, 6, 0x129);
    list("properties from TPM_PT_PERMANENT on", 1, 6, 0x200);
    list("properties of PCRs from TPM_PT_PCR_RESET_L4 on", 1, 7, 10);
    list("curves", 1, 8, 0);
    list("algorithms from CFB on", 1, 0, 0x43);
    list("algorithms, without the layer", 0, 0, 0);
}

/* Executes a command with the completing layer, and prints its response without the header. */
static void show(const char *name, const uint8_t *buffer, size_t size) {
    execute(name, 1, buffer, size);
    printf("  ");
    put_hex(response + 10, (size_t)(response[4] << 8 | response[5]) - 10);
    putchar('\n');
}

/* Copies the context out of the response to TPM2_ContextSave. */
static void take_context(void) {
    context_size = (size_t)(response[4] << 8 | response[5]) - 10;
    must(context_size <= sizeof context, "a context is too long");
    memcpy(context, response + 10, context_size);
}

static void save(const char *name, const uint8_t *buffer, size_t size) {
    execute(name, 1, buffer, size);
    take_context();
    printf("  ");
    put_hex(context, context_size);
    putchar('\n');
}

/* Writes a TPM2_ContextLoad command for the context, and returns the size of the command. */
static size_t load_command(uint8_t command[10 + MOST_CONTEXT]) {
    static const uint8_t head[] = {0x80, 1, 0, 0, 0, 0, 0, 0, 1, 0x61};
    size_t size = sizeof head + context_size;
    memcpy(command, head, sizeof head);
    command[4] = (uint8_t)(size >> 8);
    command[5] = (uint8_t)size;
    memcpy(command + sizeof head, context, context_size);
    return size;
}

static void load(const char *name) {
    uint8_t command[10 + MOST_CONTEXT];
    execute(name, 1, command, load_command(command));
}

/* Loads the context, and prints the handle. */
static void load_and_show(const char *name) {
    uint8_t command[10 + MOST_CONTEXT];
    show(name, command, load_command(command));
}

/* Swaps the two handles, so that the next calls use the other one. */
static void swap_handles(void) {
    tpmsim before = device;
    device = other;
    other = before;
}

/* Opens the journal in the handle `other`, and continues with that handle. */
static void open_other(void) {
    size_t size_taken;
    uint8_t told = tpmsim_journal_open(&other, text, text_size, &size_taken);
    printf("opened again: told %u, %s\n", told,
           size_taken == text_size ? "all is taken" : "NOT ALL IS TAKEN");
    swap_handles();
}

/* Executes a command with the completing layer and without a journal, and prints its response code. */
static void complete(const char *name, const uint8_t *buffer, size_t size) {
    static uint8_t random_bytes[RANDOM_BYTES];
    tpmsim_answered answered;
    must(tpmsim_complete(&device, buffer, size, 0, WAITED, random_bytes, response, &answered) ==
             TPMSIM_DONE,
         "a command is not executed");
    printf("%s: %03x, %zu drawn\n", name, (unsigned)code_of(response), answered.drawn);
}

static void complete_load(const char *name) {
    uint8_t command[10 + MOST_CONTEXT];
    complete(name, command, load_command(command));
}

/* Saves a context before a snapshot, and loads it in the device that is restored from the snapshot.
   It can be loaded only once. */
static void restore_other(void) {
    complete("a session without a journal", START_SESSION, sizeof START_SESSION);
    complete("its context", SAVE_SESSION, sizeof SAVE_SESSION);
    take_context();
    size_t size = tpmsim_snapshot(&device, text, sizeof text);
    printf("restored: told %u\n", tpmsim_restore(&other, text, size));
    swap_handles();
    complete_load("the session loaded");
    complete_load("loaded twice");
}

/* Saves a session, which is then listed as saved and cannot be saved again. */
static void save_session(void) {
    execute("a session", 1, START_SESSION, sizeof START_SESSION);
    save("its context", SAVE_SESSION, sizeof SAVE_SESSION);
    execute("saved twice", 1, SAVE_SESSION, sizeof SAVE_SESSION);
    list("sessions that are loaded", 1, 1, 0x02000000);
    list("sessions that are saved", 1, 1, 0x03000000);
    open_other();
    load("the session loaded");
    load("loaded twice");
    list("sessions that are loaded", 1, 1, 0x02000000);
    execute("its flush", 1, FLUSH_SESSION, sizeof FLUSH_SESSION);
    execute("its context once more", 1, SAVE_SESSION, sizeof SAVE_SESSION);
}

/* Loads objects into all slots. The context of a flushed object can be loaded when a slot is free,
   even after the journal was opened in another handle. */
static void fill_slots(void) {
    execute("the context of no object", 1, SAVE_OBJECT, sizeof SAVE_OBJECT);
    for (int place = 0; place < OBJECTS; place++)
        execute("an object", 1, CREATE_PRIMARY, sizeof CREATE_PRIMARY);
    execute("one more, where no slot is free", 1, CREATE_PRIMARY, sizeof CREATE_PRIMARY);
    save("its context", SAVE_OBJECT, sizeof SAVE_OBJECT);
    load("loaded, where no slot is free");
    execute("its flush", 1, FLUSH_OBJECT, sizeof FLUSH_OBJECT);
    list("objects", 1, 1, 0x80000000);
    execute("its context once more", 1, SAVE_OBJECT, sizeof SAVE_OBJECT);
    execute("flushed twice", 1, FLUSH_OBJECT, sizeof FLUSH_OBJECT);
    open_other();
    load_and_show("loaded");
    list("objects", 1, 1, 0x80000000);
    execute("its flush", 1, FLUSH_OBJECT, sizeof FLUSH_OBJECT);
    execute("another object in its slot", 1, CREATE_PRIMARY, sizeof CREATE_PRIMARY);
    load("loaded, where no slot is free");
}

/* Changes the byte in the last record that says whether the layer was on. */
static void turn_flag(void) {
    size_t at = text_size, size_taken;
    while (text[at - 1] != '#') at--;
    text[at + 12] ^= 1;
    printf("the layer left out: told %u\n", tpmsim_journal_open(&other, text, text_size, &size_taken));
    text[at + 12] ^= 1;
}

int main(void) {
    uint8_t random_bytes[RANDOM_BYTES];
    count_up(random_bytes, 0);
    must(tpmsim_manufacture(&device, random_bytes) == TPMSIM_DONE, "no device is made");
    begin();
    execute("startup", 1, STARTUP, sizeof STARTUP);
    execute("stir without the layer", 0, STIR, sizeof STIR);
    execute("stir", 1, STIR, sizeof STIR);
    execute("a command of TPM 1.2 without the layer", 0, OF_FAMILY_1, sizeof OF_FAMILY_1);
    execute("a command of TPM 1.2", 1, OF_FAMILY_1, sizeof OF_FAMILY_1);
    list_capabilities();
    show("a digest with the ticket of no hierarchy", HASH, sizeof HASH);
    show("all tests", TEST_RESULT, sizeof TEST_RESULT);
    save_session();
    fill_slots();
    open_other();
    turn_flag();
    save("another context", SAVE_OBJECT, sizeof SAVE_OBJECT);
    begin();
    execute("startup after a power cycle", 1, STARTUP, sizeof STARTUP);
    load("a context of before");
    open_other();
    restore_other();
    tpmsim_free(&device);
    tpmsim_free(&other);
    return 0;
}
