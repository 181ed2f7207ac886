/* The TPM counts wrong PINs. After three of them it refuses every PIN, until an hour of device time has
   passed, or until lockoutAuth resets the count. */
#include "commands.h"

/* The attributes of an NV index that is written and read with its own authorization value. */
static const uint32_t by_value = 0x00040004;

static const char pin[] = "7391";
static const uint32_t hour = 3600;

/* Reads the index with a PIN, and prints the data or the reason for the refusal. */
static void tell_data(tpm *it, const char *what, const char *given) {
    read_index(it, given);
    tell(it, what);
}

int main(void) {
    static tpm it;
    text protection = {0}, written = {0};
    begin(&it);
    put_number(&protection, 3, 4);
    put_number(&protection, hour, 4);
    put_number(&protection, 24 * hour, 4);
    must(&it, 0x13a, HANDLES(LOCKOUT), BY_PASSWORD(""), &protection);
    define(&it, by_value, pin);
    put_sized(&written, "the data", 8);
    put_zeros(&written, 2);
    must(&it, 0x137, HANDLES(INDEX, INDEX), BY_PASSWORD(pin), &written);
    tell_data(&it, "The right PIN", pin);
    for (int at = 0; at < 3; at++) tell_data(&it, "A wrong one", "1234");
    tell_data(&it, "The right PIN", pin);

    it.elapsed_ms = 1000 * hour;
    tell_data(&it, "An hour later", pin);
    tell_data(&it, "A wrong one", "1234");
    tell_data(&it, "The right PIN", pin);
    must(&it, 0x139, HANDLES(LOCKOUT), BY_PASSWORD(""), NULL);
    tell_data(&it, "After a reset", pin);
    tpmsim_free(&it.device);
}
