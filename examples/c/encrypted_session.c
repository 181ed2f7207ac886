/* A session that is bound to the owner encrypts a secret on its way to the TPM. The owner's
   authorization value is not sent at all. An eavesdropper learns neither the secret nor this value,
   and cannot send the same bytes again successfully. */
#include "session.h"

static const char secret[] = "a secret of 24 bytes, ok";
static const char owners_value[] = "the owner's value";

enum { SECRET_BYTES = sizeof secret - 1 };

/* The attributes of an NV index that the owner writes and reads. The device adds the attribute
   WRITTEN after the first write. */
enum { BY_OWNER = 0x00020002, WRITTEN = 0x20000000 };

/* All bytes that were sent to the TPM, the last command, and the last decrypted response. */
static text heard, last, plain;

static const char *told(const char *what, size_t size) {
    for (size_t at = 0; at + size <= heard.size; at++)
        if (!memcmp(heard.bytes + at, what, size)) return "heard";
    return "not heard";
}

/* Returns the public area of the index. */
static text area(uint32_t attributes) {
    text public = {0};
    put_number(&public, INDEX, 4);
    put_number(&public, 0x000b, 2);
    put_number(&public, attributes, 4);
    put_number(&public, SECRET_BYTES, 4);
    return public;
}

/* Returns the Names of the owner and of the index, which are part of cpHash. */
static text names(uint32_t attributes) {
    text both = {0};
    put_number(&both, OWNER, 4);
    put_number(&both, 0x000b, 2);
    put(&both, sha256(area(attributes)).bytes, HASH_BYTES);
    return both;
}

/* Sends a command that the owner authorizes, and records its bytes. Returns whether the TPM accepts
 * it. */
static int send_by(tpm *it, session *by_session, uint32_t code, const uint32_t *handles, text names,
                   text parameters, uint8_t attributes) {
    const text entry = entry_of(by_session, code, &names, &parameters, CONTINUES | attributes);
    last = command_of(code, handles, &(by){.entry = &entry}, &parameters);
    const int accepted = send_bytes(it, &last, code, 1);
    put(&heard, last.bytes, last.size);
    put(&heard, it->response, it->told.size);
    if (accepted) plain = plain_answer(by_session, it, code);
    return accepted;
}

/* Reads the secret, which is encrypted in the response, decrypts it, and prints it. */
static void read_secret(tpm *it, session *by_session, const char *what) {
    const text sizes = {4, {0, SECRET_BYTES, 0, 0}};
    if (send_by(it, by_session, 0x14e, HANDLES(OWNER, INDEX), names(BY_OWNER | WRITTEN), sizes,
                ENCRYPTS))
        it->parameters = plain.bytes;
    tell(it, what);
}

int main(void) {
    static tpm it;
    text value = {0}, owner = {0}, index = {0}, data = {0};
    begin(&it);
    put_sized(&value, owners_value, strlen(owners_value));
    must(&it, 0x129, HANDLES(OWNER), BY_PASSWORD(""), &value);

    session bound = start_bound(&it, OWNER, owners_value);
    const text public = area(BY_OWNER);
    put_number(&owner, OWNER, 4);
    put_zeros(&index, 2);
    put_sized(&index, public.bytes, public.size);
    need(send_by(&it, &bound, 0x12a, HANDLES(OWNER), owner, index, 0), "the index is refused");
    put_sized(&data, secret, SECRET_BYTES);
    put_zeros(&data, 2);
    need(send_by(&it, &bound, 0x137, HANDLES(OWNER, INDEX), names(BY_OWNER), data, DECRYPTS),
         "the secret is refused");
    read_secret(&it, &bound, "Read");
    printf("The secret was %s\n", told(secret, SECRET_BYTES));
    printf("The owner's value was %s\n", told(owners_value, strlen(owners_value)));
    char check[5];
    need(!send_bytes(&it, &last, 0x14e, 1), "what was heard is accepted again");
    printf("Sent again: refused by %s\n", tpmsim_check_text(it.told.check, check));

    session guess = start_bound(&it, OWNER, "a guess");
    read_secret(&it, &guess, "By a guess");
    tpmsim_free(&it.device);
}
