/* Compares state texts. The state text of a restored device differs in the start number of the
 * completing layer. */
#ifndef SAME_STATE_H
#define SAME_STATE_H
#include <stddef.h>
#include <stdint.h>
#include <string.h>

/* The sizes of the last fields of a state text: the layer's start number, its other numbers, and
 * the digest. */
enum { START_SIZE = 8, NUMBERS_SIZE = 17 * 8, STATE_DIGEST_SIZE = 32 };

/* Returns the offset of the layer's start number in a state text of this size. */
static inline size_t start_at(size_t size) {
    return size - STATE_DIGEST_SIZE - NUMBERS_SIZE - START_SIZE;
}

/* Returns whether two state texts of this size are the same, except for the layer's start number
 * and the digest. */
static inline int is_same_device(const uint8_t *one, const uint8_t *other, size_t size) {
    size_t at = start_at(size), after = at + START_SIZE;
    return memcmp(one, other, at) == 0 && memcmp(one + after, other + after, NUMBERS_SIZE) == 0;
}
#endif
