/* Gives proved code access to the program's arguments. */
#include "glue.h"

/* glibc passes the arguments to each constructor, before main. Nothing changes them later. */
static size_t count;
static char **arguments;

__attribute__((constructor)) static void keep(int argc, char **argv) {
    count = argc > 0 ? (size_t)argc : 0;
    arguments = argv;
}

ssize_t rattle_arg(size_t number, unsigned char *buffer, size_t size) {
    if (number >= count || arguments[number] == NULL)
        return -1;
    const char *argument = arguments[number];
    size_t length = 0;
    for (; argument[length] != '\0'; length++) {
        if (length == size)
            return -2;
        buffer[length] = (unsigned char)argument[length];
    }
    return (ssize_t)length;
}
