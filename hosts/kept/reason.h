/* The reason why something failed: one sentence, in English in every locale. */
#ifndef REASON_H
#define REASON_H
#include <stdbool.h>
#include <stdint.h>

/* The size of a buffer for the longest path that Linux accepts and the rest of a sentence. */
enum { REASON_ROOM = 4608 };

struct reason {
    char text[REASON_ROOM];
    /* The value of tpmsim_told if the library refused something; otherwise 0. */
    uint8_t told;
};

/* Builds the sentence. It begins with the subject `about`, which is a path or a word, followed
 * by `/name` if `name` is not NULL. Then it has `said` and, if `error` is not 0, the system's
 * message for `error`. Control characters become question marks. Returns false, so that a
 * failing function can return the result. Preserves errno. */
/*@ requires \valid(reason);
  @ assigns *reason;
  @ ensures !\result;
  @*/
bool refuse(struct reason *reason, const char *about, const char *name, const char *said,
            int error);

#endif
