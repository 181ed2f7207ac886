/* A dynamic launch: the hardware hashes data at locality 4. */
#ifndef LAUNCH_H
#define LAUNCH_H

#include <stdbool.h>

/* Whether a dynamic launch took place and has not been revoked. */
bool was_launched(void);

/* Sets whether a dynamic launch took place and has not been revoked. */
void tell_launch(bool was_launched);

#endif
