/* Gives proved code access to the environment. */
#include "glue.h"
#include <stdlib.h>
#include <unistd.h>

extern char **environ;

/* Writes a text, without its terminating zero, to the beginning of a buffer. Returns what
 * rattle_arg returns: the length of the text, -1 or -2. */
static ssize_t put(const char *text, unsigned char *buffer, size_t size) {
    if (text == NULL)
        return -1;
    size_t length = 0;
    for (; text[length] != '\0'; length++) {
        if (length == size)
            return -2;
        buffer[length] = (unsigned char)text[length];
    }
    return (ssize_t)length;
}

ssize_t rattle_env(const char *name, unsigned char *buffer, size_t size) {
    return put(getenv(name), buffer, size);
}

ssize_t rattle_env_at(size_t number, unsigned char *buffer, size_t size) {
    if (environ == NULL)
        return -1;
    for (size_t entry = 0; environ[entry] != NULL; entry++)
        if (entry == number)
            return put(environ[entry], buffer, size);
    return -1;
}
