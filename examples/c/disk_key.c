/* A disk's key is sealed to PCRs 7 and 11 and a PIN. It cannot be unsealed after PCR 11 has
   changed. Then a second branch of its policy, which requires the owner's passphrase, recovers
   it. */
#include "commands.h"

static const char disk_key[] = "the key of a disk, of 32 bytes..";
static const char pin[] = "7391";
static const char passphrase[] = "kept in a drawer";

/* The digests of the two branches, as TPM2_PolicyOR needs them. */
static text branches;

/* Satisfies the first branch: PCRs 7 and 11 have their current values, and the caller knows the
 * PIN. */
static void by_pin(tpm *it, uint32_t session) {
    text pcrs = {0};
    put_zeros(&pcrs, 2);
    put_selection(&pcrs, 1u << 7 | 1u << 11);
    must(it, 0x17f, HANDLES(session), NULL, &pcrs);
    must(it, 0x18c, HANDLES(session), NULL, NULL);
}

/* Satisfies the second branch: TPM2_PolicySecret with the owner's passphrase. */
static int by_passphrase(tpm *it, uint32_t session, const char *given) {
    const text parameters = {10, {0}};
    return send_command(it, 0x151, HANDLES(OWNER, session), BY_PASSWORD(given), &parameters);
}

static int either(tpm *it, uint32_t session) {
    return send_command(it, 0x171, HANDLES(session), NULL, &branches);
}

/* Returns the digest of the policy, for the current values of the PCRs. */
static text make_policy(tpm *it) {
    put_number(&branches, 2, 4);
    uint32_t trial = start_session(it, TRIAL);
    by_pin(it, trial);
    text digest = digest_of(it, trial);
    put_sized(&branches, digest.bytes, digest.size);
    trial = start_session(it, TRIAL);
    need(by_passphrase(it, trial, passphrase), "the passphrase is refused");
    digest = digest_of(it, trial);
    put_sized(&branches, digest.bytes, digest.size);
    trial = start_session(it, TRIAL);
    need(either(it, trial), "a trial session refuses");
    return digest_of(it, trial);
}

/* Unseals the disk's key with the first branch that is satisfied. Prints the key, or the reason for
   the refusal. */
static void open_disk(tpm *it, const char *what, uint32_t disk, const char *given_pin,
                      const char *given_passphrase) {
    const uint32_t session = start_session(it, POLICY);
    by_pin(it, session);
    if (either(it, session)) {
        unseal(it, disk, (by){.session = session, .value = given_pin});
    } else {
        must(it, 0x180, HANDLES(session), NULL, NULL); /* TPM2_PolicyRestart */
        if (by_passphrase(it, session, given_passphrase) && either(it, session))
            unseal(it, disk, (by){.session = session, .value = ""});
    }
    tell(it, what);
    flush(it, session);
}

int main(void) {
    static tpm it;
    text value = {0};
    begin(&it);
    put_sized(&value, passphrase, strlen(passphrase));
    must(&it, 0x129, HANDLES(OWNER), BY_PASSWORD(""), &value);
    measure(&it, 7, "secure boot is on");
    measure(&it, 11, "kernel and initrd");
    const text policy = make_policy(&it);

    const uint32_t disk = seal(&it, storage_key(&it, passphrase), pin, policy, disk_key);
    open_disk(&it, "With the PIN", disk, pin, "");
    open_disk(&it, "With another PIN", disk, "1234", "");

    measure(&it, 11, "the system is started");
    open_disk(&it, "After PCR 11 moved on", disk, pin, "a guess");
    open_disk(&it, "With the passphrase", disk, pin, passphrase);
    tpmsim_free(&it.device);
}
