#define _GNU_SOURCE
#include "secret.h"
#include <stdlib.h>
#include <string.h>

void secret_free(void *block, size_t size) {
    if (block) explicit_bzero(block, size);
    free(block);
}
