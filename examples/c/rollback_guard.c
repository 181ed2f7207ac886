/* A counter contains the lowest version that may start. A key is sealed for each version, and the
   TPM returns it as long as the counter is not greater than that version. The counter never
   decreases, even if its index is deleted and defined again. */
#include "commands.h"

/* The attributes of a counter that is read and written with its own authorization value or by the
   owner. */
static const uint32_t counter = 0x00060016;

static void increment(tpm *it) { must(it, 0x134, HANDLES(INDEX, INDEX), BY_PASSWORD(""), NULL); }

static uint32_t lowest(tpm *it) {
    need(read_index(it, ""), "the counter is not read");
    return number_at(it->parameters + 2 + 4, 4);
}

/* Executes TPM2_PolicyNV: the counter is at most this version. */
static int at_most(tpm *it, uint32_t session, uint32_t version) {
    text parameters = {0};
    put_number(&parameters, 8, 2);
    put_number(&parameters, version, 8);
    put_number(&parameters, 9, 4); /* offset 0, and the operation: unsigned, less than or equal */
    return send_command(it, 0x149, HANDLES(INDEX, INDEX, session), BY_PASSWORD(""), &parameters);
}

/* Prints the key that is sealed for a version, or the reason for the refusal. */
static void tell_key(tpm *it, const char *what, uint32_t version) {
    const uint32_t trial = start_session(it, TRIAL);
    need(at_most(it, trial, version), "a trial session refuses");
    const text policy = digest_of(it, trial);
    const uint32_t parent = storage_key(it, "");
    const uint32_t handle = seal(it, parent, "", policy, "the key of this version.");
    const uint32_t session = start_session(it, POLICY);
    if (at_most(it, session, version)) unseal(it, handle, (by){.session = session, .value = ""});
    tell(it, what);
    flush(it, session);
    flush(it, handle);
    flush(it, parent);
}

int main(void) {
    static tpm it;
    const text clear = {2, {0}};
    begin(&it);
    define(&it, counter, "");
    increment(&it);
    const uint32_t first = lowest(&it);
    tell_key(&it, "Version 1", first);
    increment(&it);
    printf("The counter went up by %u\n", lowest(&it) - first);
    tell_key(&it, "Version 1", first);
    tell_key(&it, "Version 2", first + 1);

    tpmsim_power_cycle(&it.device);
    must(&it, 0x144, HANDLES(NONE), NULL, &clear);
    tell_key(&it, "After a power cycle, version 1", first);
    must(&it, 0x122, HANDLES(OWNER, INDEX), BY_PASSWORD(""), NULL);
    define(&it, counter, "");
    increment(&it);
    printf("Defined anew it went up by %u\n", lowest(&it) - first);
    tpmsim_free(&it.device);
}
