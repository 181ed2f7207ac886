/* Makes a descriptor non-blocking or blocking, for proved code. */
#include "glue.h"
#include <sys/ioctl.h>

int rattle_set_nonblocking(int descriptor, bool on) {
    int wanted = on;
    return ioctl(descriptor, FIONBIO, &wanted);
}
