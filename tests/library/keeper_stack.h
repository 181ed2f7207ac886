/* Measures how much stack a call uses. */
#ifndef KEEPER_STACK_H
#define KEEPER_STACK_H
#include "common.h"
#include <pthread.h>
#include <sys/mman.h>

/* MOST_STACK is the limit in tpmsim.h for a call. HOST_STACK is for the host and the thread. */
enum { STACK_BYTES = 512 * 1024, MOST_STACK = 96 * 1024, HOST_STACK = 20 * 1024 };

/* Checks how much stack the calls use, together with the host that makes them. */
static inline void check_stack(void *(*calls)(void *)) {
#ifndef __SANITIZE_ADDRESS__
    pthread_attr_t attributes;
    pthread_t thread;
    size_t at = 0;
    int flags = MAP_PRIVATE | MAP_ANONYMOUS;
    uint8_t *stack = mmap(NULL, STACK_BYTES, PROT_READ | PROT_WRITE, flags, -1, 0);
    must(stack != MAP_FAILED, "there is no memory");
    memset(stack, FILLED, STACK_BYTES);
    must(pthread_attr_init(&attributes) == 0 &&
             pthread_attr_setstack(&attributes, stack, STACK_BYTES) == 0 &&
             pthread_create(&thread, &attributes, calls, NULL) == 0 &&
             pthread_join(thread, NULL) == 0,
         "there is no thread");
    while (at < STACK_BYTES && stack[at] == FILLED) at++;
    must(STACK_BYTES - at <= MOST_STACK + HOST_STACK, "the calls take more stack than they may");
    munmap(stack, STACK_BYTES);
#else
    calls(NULL);
#endif
}
#endif
