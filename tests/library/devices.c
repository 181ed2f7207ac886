/* Makes many devices in one process, 1,000 at the same time. The devices are independent, and their
 * memory is freed. The first argument is the number of devices. If there is a second argument, the
 * program also prints how much memory the allocator has in use. This is impossible with
 * sanitizers. */
#include "common.h"
#include <malloc.h>

/* EXTEND is TPM2_PCR_Extend of PCR 10 in the SHA-256 bank with a password. READ is TPM2_PCR_Read
   of that PCR. */
enum { EXTEND_BYTES = 65, DIGEST_BYTES = 32, READ_BYTES = 20, VALUE_AT = 30 };
static const uint8_t EXTEND[EXTEND_BYTES] = {0x80, 0x02, 0,  0, 0, 65, 0, 0,    0x01, 0x82, 0,
                                             0,    0,    10, 0, 0, 0,  9, 0x40, 0,    0,    9,
                                             0,    0,    0,  0, 0, 0,  0, 0,    1,    0,    0x0b};
static const uint8_t READ[READ_BYTES] = {0x80, 0x01, 0, 0, 0, 20,   0, 0, 0x01, 0x7e,
                                         0,    0,    0, 1, 0, 0x0b, 3, 0, 4,    0};

static uint8_t response[RESPONSE_BYTES];

/* Extends PCR 10 with a digest that contains a number. */
static void extend(struct tpmsim *device, unsigned number) {
    uint8_t buffer[EXTEND_BYTES];
    memcpy(buffer, EXTEND, EXTEND_BYTES);
    buffer[EXTEND_BYTES - 2] = (uint8_t)(number >> 8);
    buffer[EXTEND_BYTES - 1] = (uint8_t)number;
    must(answered_by(device, buffer, EXTEND_BYTES, response).check == 0, "no PCR is extended");
}

/* Reads the value of PCR 10. */
static void read_pcr(struct tpmsim *device, uint8_t value[DIGEST_BYTES]) {
    struct tpmsim_answered it = answered_by(device, READ, READ_BYTES, response);
    must(it.check == 0 && it.size == VALUE_AT + DIGEST_BYTES, "a PCR is not read");
    memcpy(value, response + VALUE_AT, DIGEST_BYTES);
}

/* Computes the expected value of PCR 10, with a new device that is freed afterwards. */
static void value_alone(unsigned number, uint8_t value[DIGEST_BYTES]) {
    struct tpmsim alone = {0};
    start_new(&alone, 1);
    extend(&alone, number);
    extend(&alone, 2 * number);
    read_pcr(&alone, value);
    tpmsim_free(&alone);
}

static size_t in_use(void) {
    struct mallinfo2 told = mallinfo2();
    return told.uordblks + told.hblkhd;
}

static void use(struct tpmsim *devices, unsigned count) {
    for (unsigned i = 0; i < count; i++) start_new(&devices[i], (uint8_t)i);
    for (unsigned i = 0; i < count; i++) extend(&devices[i], i);
    for (unsigned i = count; i-- > 0;) extend(&devices[i], 2 * i);
    for (unsigned i = 0; i < count; i++) {
        uint8_t value[DIGEST_BYTES], alone[DIGEST_BYTES];
        read_pcr(&devices[i], value);
        value_alone(i, alone);
        must(memcmp(value, alone, DIGEST_BYTES) == 0, "a device has another's value");
    }
}

int main(int count, char **words) {
    must(count >= 2, "usage: devices COUNT [memory|figures]");
    unsigned number = (unsigned)atoi(words[1]);
    struct tpmsim *devices = calloc(number, sizeof *devices);
    must(devices != NULL && setvbuf(stdout, NULL, _IONBF, 0) == 0, "there is no memory");
    size_t first = in_use();
    use(devices, number);
    size_t most = in_use();
    for (unsigned i = 0; i < number; i++) tpmsim_free(&devices[i]);
    size_t last = in_use();
    printf("%u devices, each with its own value\n", number);
    if (count > 2) {
        must(most > first, "devices take no memory");
        must(last == first, "memory is not given back");
        puts("all memory is given back");
        if (strcmp(words[2], "figures") == 0)
            printf("%zu bytes a device\n", (most - first) / number);
    }
    free(devices);
    return 0;
}
