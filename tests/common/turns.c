/* A shim that makes many runs of a program faster. It changes none of the program's calls. */
#include "turns.h"
