#include "draws.h"
#include "host.h"

void draws_begin(struct draws *draws, const uint8_t *told, size_t size) {
    draws->are_told = size > 0;
    draws->drawn = DRAWS_BYTES;
    fork_mark_begin(&draws->mark);
    for (size_t i = 0; size > 0 && i < DRAWS_BYTES; i++) draws->bytes[i] = told[i % size];
}

void draws_end(struct draws *draws) { fork_mark_end(&draws->mark); }

bool draws_renew(struct draws *draws) {
    if (draws->are_told) return true;
    if (!fork_mark_is_here(&draws->mark)) draws->drawn = DRAWS_BYTES;
    if (!host_random(draws->bytes, draws->drawn)) return false;
    draws->drawn = 0;
    fork_mark_set(&draws->mark);
    return true;
}
