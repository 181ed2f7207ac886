/* A measured boot: each piece of software is measured into a PCR before it runs, and its digest
   goes to a log. A verifier replays the log on another TPM, and trusts the log if the resulting PCR
   values are the same. */
#include "commands.h"

enum { COUNT = 5 };

typedef struct {
    uint32_t pcr;
    const char *data;
    uint8_t digest[32];
} measurement;

static const uint32_t pcrs[] = {0, 4, 7, 11};

/* Returns the values of the four PCRs, each with a size field. */
static text values_of(tpm *it) {
    text values = {0}, parameters = {0};
    put_selection(&parameters, 1u << 0 | 1u << 4 | 1u << 7 | 1u << 11);
    must(it, 0x17e, HANDLES(NONE), NULL, &parameters);
    /* The values follow the update counter, the selection and the number of values. */
    put(&values, it->parameters + 4 + 10 + 4, 4 * (2 + 32));
    return values;
}

/* Returns the values that the PCRs have after the measurements of a log. */
static text replayed(const measurement *log, size_t count) {
    static tpm it;
    begin(&it);
    for (size_t at = 0; at < count; at++) {
        text digests = {0};
        put(&digests, "\0\0\0\1\0\013", 6);
        put(&digests, log[at].digest, 32);
        must(&it, 0x182, HANDLES(log[at].pcr), BY_PASSWORD(""), &digests);
    }
    const text values = values_of(&it);
    tpmsim_free(&it.device);
    return values;
}

/* Prints the conclusion of a verifier who replays a log. */
static void judge(const char *what, const measurement *log, size_t count, text values) {
    const text found = replayed(log, count);
    const char *between = ": PCR ";
    printf("%s", what);
    for (size_t at = 0; at < 4; at++) {
        if (!memcmp(found.bytes + at * 34, values.bytes + at * 34, 34)) continue;
        printf("%s%u", between, pcrs[at]);
        between = ", ";
    }
    puts(*between == ':' ? ": the PCRs are those of the log" : " differ");
}

int main(void) {
    static tpm it;
    measurement log[COUNT] = {{0, "firmware 1.0", {0}},
                              {7, "secure boot is on", {0}},
                              {4, "boot loader", {0}},
                              {11, "kernel and initrd", {0}},
                              {11, "enter-initrd", {0}}};
    begin(&it);
    for (int at = 0; at < COUNT; at++)
        memcpy(log[at].digest, measure(&it, log[at].pcr, log[at].data), 32);
    const text values = values_of(&it);
    judge("5 measurements", log, COUNT, values);
    const measurement shortened[] = {log[0], log[1], log[3], log[4]};
    judge("Without the boot loader's", shortened, 4, values);
    const measurement turned[] = {log[0], log[1], log[2], log[4], log[3]};
    judge("In another order", turned, COUNT, values);
    memcpy(log[0].digest, measure(&it, 0, "firmware 1.1"), 32);
    judge("With another firmware", log, COUNT, values);
    tpmsim_free(&it.device);
}
