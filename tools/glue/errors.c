/* Gives proved code access to the C library's errno. */
#include "glue.h"
#include <errno.h>

int rattle_errno(void) {
    return errno;
}

void rattle_set_errno(int error) {
    errno = error;
}
