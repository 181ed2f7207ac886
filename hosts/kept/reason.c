#define _GNU_SOURCE
#include "reason.h"
#include <errno.h>
#include <stdio.h>
#include <string.h>

/* Replaces the control characters of a text, which would break its line. */
static void keep_in_one_line(char text[REASON_ROOM]) {
    for (size_t i = 0; i < REASON_ROOM && text[i]; i++)
        if ((unsigned char)text[i] < ' ' || text[i] == 127) text[i] = '?';
}

bool refuse(struct reason *reason, const char *about, const char *name, const char *said,
            int error) {
    int kept = errno;
    char number[32];
    const char *words = error ? strerrordesc_np(error) : NULL;
    if (error && !words) {
        snprintf(number, sizeof number, "error %d", error);
        words = number;
    }
    snprintf(reason->text, sizeof reason->text, "%s%s%s %s%s%s", about, name ? "/" : "",
             name ? name : "", said, words ? ": " : "", words ? words : "");
    keep_in_one_line(reason->text);
    reason->told = 0;
    errno = kept;
    return false;
}
