/* Calls each function of the glue, and prints the results. The functions of Rattle's kit and those
   in tools/glue/ must produce the same output. */
#define _GNU_SOURCE
#include "glue.h"
#include <errno.h>
#include <fcntl.h>
#include <stdbool.h>
#include <stdio.h>
#include <string.h>
#include <sys/resource.h>
#include <unistd.h>

static const size_t HUGE_SIZE = (size_t)1 << 40;

static bool is_aligned(const void *block) {
    return (uintptr_t)block % 16 == 0;
}

static void print_tried(const char *name, struct tried tried) {
    printf("%s: ok %d, null %d, aligned %d\n", name, (int)(tried.ok & 0xff), tried.block == NULL,
           tried.ok == 0 || is_aligned(tried.block));
}

static void try_sizes(void) {
    static const size_t sizes[] = {0, 1, 15, 16, 4096, 45808, 1 << 20};
    for (size_t i = 0; i < sizeof sizes / sizeof *sizes; i++) {
        struct tried tried = rattle_alloc(sizes[i], 16);
        print_tried("alloc", tried);
        memset(tried.block, 0xa5, sizes[i]);
        rattle_dealloc(tried.block);
    }
}

/* Makes a block of memory grow, shrink, and fail to grow. Its first bytes are written only at the
   beginning, and must stay unchanged. */
static void try_growing(void) {
    static const size_t sizes[] = {1 << 20, 7, 3, 5000, 0, 16};
    size_t kept = 5;
    struct tried block = rattle_alloc(kept, 1);
    memcpy(block.block, "front", kept);
    for (size_t i = 0; i < sizeof sizes / sizeof *sizes; i++) {
        if (sizes[i] < kept) kept = sizes[i];
        block = rattle_realloc(block.block, kept, sizes[i], 1);
        print_tried("realloc", block);
        printf("of %zu bytes, the first %zu are kept: %d\n", sizes[i], kept,
               memcmp(block.block, "front", kept) == 0);
    }
    memcpy(block.block, "the whole block", 16);
    struct tried none = rattle_realloc(block.block, 16, HUGE_SIZE, 1);
    print_tried("realloc without memory", none);
    printf("the block is as it was: %d\n", memcmp(block.block, "the whole block", 16) == 0);
    rattle_dealloc(block.block);
}

static void try_errors(void) {
    static const int errors[] = {0, EINTR, ENOSPC, -1};
    for (size_t i = 0; i < sizeof errors / sizeof *errors; i++) {
        rattle_set_errno(errors[i]);
        printf("errno %d, %d\n", errno == errors[i], rattle_errno() == errors[i]);
    }
}

static void try_arguments(void) {
    unsigned char buffer[8];
    for (size_t number = 0; number < 5; number++)
        for (size_t size = 0; size <= sizeof buffer; size += 4) {
            memset(buffer, '.', sizeof buffer);
            ssize_t length = rattle_arg(number, buffer, size);
            printf("argument %zu, %zu bytes: %zd %.8s\n", number, size, length, (char *)buffer);
        }
}

/* Reads environment variables by name, and by number, into buffers of several sizes. */
static void try_environment(void) {
    static char *entries[] = {"NONE=", "FOUR=four", "EIGHTISH=eightish", NULL};
    static const char *names[] = {"NONE", "FOUR", "EIGHTISH", "FIVE"};
    unsigned char buffer[10];
    environ = entries;
    for (size_t number = 0; number < 4; number++)
        for (size_t size = 0; size < sizeof buffer; size += 3) {
            memset(buffer, '.', sizeof buffer);
            ssize_t length = rattle_env(names[number], buffer, size);
            printf("variable %s, %zu bytes: %zd %.10s\n", names[number], size, length,
                   (char *)buffer);
            memset(buffer, '.', sizeof buffer);
            length = rattle_env_at(number, buffer, size);
            printf("entry %zu, %zu bytes: %zd %.10s\n", number, size, length, (char *)buffer);
        }
}

/* Reads from an empty non-blocking pipe, and makes it blocking again. */
static void try_descriptors(void) {
    int ends[2];
    char byte;
    if (pipe(ends) != 0)
        return;
    printf("not waiting: %d\n", rattle_set_nonblocking(ends[0], true));
    ssize_t size = read(ends[0], &byte, 1);
    printf("read: %zd, EAGAIN %d\n", size, errno == EAGAIN);
    printf("waiting: %d\n", rattle_set_nonblocking(ends[0], false));
    printf("O_NONBLOCK %d\n", (fcntl(ends[0], F_GETFL) & O_NONBLOCK) != 0);
    close(ends[0]);
    printf("closed: %d\n", rattle_set_nonblocking(ends[0], true));
}

int main(void) {
    struct rlimit limit = {.rlim_cur = (rlim_t)1 << 34, .rlim_max = (rlim_t)1 << 34};
    if (setrlimit(RLIMIT_AS, &limit) != 0)
        return 1;
    try_sizes();
    try_growing();
    print_tried("alloc without memory", rattle_alloc(HUGE_SIZE, 16));
    try_errors();
    try_arguments();
    try_environment();
    try_descriptors();
}
