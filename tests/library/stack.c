/* Reports the maximum amount of stack that each function of the library uses. For the function that
 * executes commands, it also reports the command that uses most:
 *
 *     stack <SCRIPTS
 *
 * The scripts have the same form as for play.c. Each call runs on a stack that is filled with a
 * pattern. The result is the number of bytes that the call overwrites, minus those that an empty
 * call overwrites. The stack is twice as large as a call's limit. If a call uses more than that, it
 * reaches an inaccessible page, and the program ends. */
#define _DEFAULT_SOURCE
#include "common.h"
#include <sys/mman.h>
#include <ucontext.h>

enum { STACK_BYTES = 128 * 1024, BLOCK_BYTES = 1024, PAGE_BYTES = 4096 };
enum call {
    NOTHING,
    MANUFACTURE,
    EXECUTE,
    COMPLETE,
    POWER_CYCLE,
    SAVE,
    KEPT,
    OPEN,
    SNAPSHOT,
    RESTORE,
    FREE,
    CALLS
};
static const char *const NAMES[CALLS] = {"nothing", "manufacture", "execute", "complete",
                                         "power_cycle", "save", "kept", "open", "snapshot",
                                         "restore", "free"};

/* The current call, the context of the code that makes it, and the maximum stack that each kind of
 * call has used so far. */
static enum call current;
static ucontext_t caller;
static struct tpmsim device, completed;
static struct tpmsim_answered answered;
static uint8_t random_bytes[RANDOM_BYTES], response[RESPONSE_BYTES], locality;
static uint8_t *buffer, *image, text[TPMSIM_STATE_SIZE];
static size_t size, image_size, text_size;
static uint32_t elapsed, most_code;
static uint8_t *stack;
static size_t most[CALLS];

static void called(void) {
    switch (current) {
    case MANUFACTURE: tpmsim_manufacture(&device, random_bytes); break;
    case EXECUTE:
        tpmsim_execute(&device, buffer, size, locality, elapsed, random_bytes, response, &answered);
        break;
    case COMPLETE:
        tpmsim_complete(&completed, buffer, size, locality, elapsed, random_bytes, response,
                        &answered);
        break;
    case POWER_CYCLE: tpmsim_power_cycle(&device); break;
    case SAVE: image_size = tpmsim_save(&device, image, image_size); break;
    case KEPT: tpmsim_kept(&device, image, image_size); break;
    case OPEN: tpmsim_open(&device, image, image_size); break;
    case SNAPSHOT: text_size = tpmsim_snapshot(&device, text, sizeof text); break;
    case RESTORE: tpmsim_restore(&device, text, text_size); break;
    case FREE: tpmsim_free(&device); break;
    default: break;
    }
}

/* Returns the number of bytes that still have the pattern, counted from the far end of the stack.
   Compares whole blocks first. */
static size_t painted_bytes(void) {
    static uint8_t painted[BLOCK_BYTES];
    size_t at = 0;
    memset(painted, FILLED, BLOCK_BYTES);
    while (at < STACK_BYTES && memcmp(stack + at, painted, BLOCK_BYTES) == 0) at += BLOCK_BYTES;
    while (at < STACK_BYTES && stack[at] == FILLED) at++;
    return at;
}

/* Runs a call, counts the bytes of stack that it used, and fills them with the pattern again. */
static void run(enum call call) {
    ucontext_t context;
    must(getcontext(&context) == 0, "there is no context");
    context.uc_stack.ss_sp = stack;
    context.uc_stack.ss_size = STACK_BYTES;
    context.uc_link = &caller;
    makecontext(&context, called, 0);
    current = call;
    must(swapcontext(&caller, &context) == 0, "nothing is called");
    size_t at = painted_bytes();
    if (STACK_BYTES - at > most[call]) {
        most[call] = STACK_BYTES - at;
        if (call == EXECUTE) most_code = answered.code;
    }
    memset(stack + at, FILLED, STACK_BYTES - at);
}

static void begin(void) {
    locality = 0;
    elapsed = 0;
    count_up(random_bytes, 0);
    run(MANUFACTURE);
    must(tpmsim_manufacture(&completed, random_bytes) == TPMSIM_DONE, "a device is not made");
}

static void save_and_open(void) {
    run(SNAPSHOT);
    run(RESTORE);
    image_size = tpmsim_save(&device, response, 0);
    image = taken(image_size);
    run(SAVE);
    run(KEPT);
    run(OPEN);
    run(FREE);
    tpmsim_free(&completed);
    free(image);
}

static void play(const char *line) {
    if (strcmp(line, "begin") == 0)
        begin();
    else if (strcmp(line, "end") == 0)
        save_and_open();
    else if (strncmp(line, "cmd", 3) == 0) {
        const char *hex = line[3] ? line + 4 : "";
        buffer = taken(strlen(hex) / 2);
        size = hex_bytes(hex, buffer);
        run(EXECUTE);
        run(COMPLETE);
        free(buffer);
        elapsed = 0;
    } else if (strncmp(line, "loc ", 4) == 0)
        locality = (uint8_t)atoi(line + 4);
    else if (strncmp(line, "wait ", 5) == 0)
        elapsed += (uint32_t)strtoul(line + 5, NULL, 10);
    else if (strncmp(line, "entropy ", 8) == 0)
        hex_bytes(line + 8, random_bytes);
    else if (strcmp(line, "power") == 0)
        run(POWER_CYCLE);
}

static void make_stack(void) {
    uint8_t *pages = mmap(NULL, PAGE_BYTES + STACK_BYTES, PROT_READ | PROT_WRITE,
                          MAP_PRIVATE | MAP_ANONYMOUS, -1, 0);
    must(pages != MAP_FAILED && mprotect(pages, PAGE_BYTES, PROT_NONE) == 0, "there is no memory");
    stack = pages + PAGE_BYTES;
    memset(stack, FILLED, STACK_BYTES);
}

int main(void) {
    make_stack();
    run(NOTHING);
    run(NOTHING);
    char *line = NULL;
    size_t room = 0;
    while (getline(&line, &room, stdin) >= 0) {
        line[strcspn(line, "\n")] = '\0';
        play(line);
    }
    free(line);
    for (int call = MANUFACTURE; call < CALLS; call++) {
        if (most[call] == 0) continue;
        printf("%s %zu", NAMES[call], most[call] - most[NOTHING]);
        if (call == EXECUTE) printf(" %08x", (unsigned)most_code);
        putchar('\n');
    }
    return 0;
}
