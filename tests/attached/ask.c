/* Opens a device with the module's configuration string and uses it. The usage is `ask WORDS
 * ACT..`; each ACT is one of these: a command in hex, whose response is printed; `power` for a
 * power cycle; or `locality N`. The program prints the first fault, and ends. */
#include "common.h"
#include "words.h"

static uint8_t locality;

/* Decodes a command from hex. */
static size_t read_hex(const char *text, uint8_t *room, size_t size) {
    size_t count = strlen(text) / 2;
    must(count <= size && strlen(text) == 2 * count, "hex is of another size");
    for (size_t i = 0; i < count; i++) {
        unsigned byte;
        must(sscanf(text + 2 * i, "%2x", &byte) == 1, "a digit is none of hex");
        room[i] = (uint8_t)byte;
    }
    return count;
}

static bool ask(struct kept *kept, const char *hex, struct reason *reason) {
    static uint8_t buffer[8192], response[RESPONSE_BYTES];
    tpmsim_answered answered;
    size_t size = read_hex(hex, buffer, sizeof buffer);
    if (!kept_execute(kept, buffer, size, locality, response, &answered, reason)) return false;
    for (size_t i = 0; i < answered.size; i++) printf("%02x", response[i]);
    putchar('\n');
    return true;
}

static void tell(const char *sentence) { printf("told: %s\n", sentence); }

static bool act(struct kept *kept, char **words, int *at, struct reason *reason) {
    if (strcmp(words[*at], "power") == 0) return kept_power(kept, reason);
    if (strcmp(words[*at], "locality") != 0) return ask(kept, words[*at], reason);
    must(words[*at + 1] != NULL, "there is no locality");
    locality = (uint8_t)atoi(words[++*at]);
    return true;
}

int main(int count, char **words) {
    struct words asked;
    struct reason reason = {0};
    must(count >= 2, "usage: ask WORDS ACT..");
    if (!words_read(&asked, words[1], &reason)) {
        printf("no words: %s\n", reason.text);
        return 2;
    }
    locality = asked.locality;
    asked.options.tell = tell;
    struct kept *kept = kept_open(&asked.options, &reason);
    bool is_done = kept != NULL;
    for (int i = 2; is_done && i < count; i++) is_done = act(kept, words, &i, &reason);
    kept_close(kept);
    words_free(&asked);
    if (!is_done) printf("fault: %s\n", reason.text);
    return is_done ? 0 : 3;
}
