/* Hosts that each make one mistake. The test must detect all of these mistakes, which shows that
 * its checks work. */
#ifndef KEEPER_WRONG_H
#define KEEPER_WRONG_H

typedef enum wrong_host {
    NOBODY,
    ANSWERS_FIRST,
    FORCES_NOT,
    FORCES_AGAIN,
    SETTLES_NOT,
    MAKES_UNFORCED,
    LOCKS_NOT,
    UNLOCKS_EARLY,
    CUTS_NOT,
    CUTS_RECORDS,
    PUTS_INTO_OLD,
    OPENS_NEW,
    TELLS_DONE,
    TELLS_GONE,
    TELLS_ONE_NUMBER,
    TELLS_OLD_SIZE,
    FORK_GOES_ON,
    WRONGS
} wrong_host;

static const char *const WRONG_NAMES[WRONGS] = {
    [ANSWERS_FIRST] = "answers before the record is written",
    [FORCES_NOT] = "answers before the file is forced",
    [FORCES_AGAIN] = "forces again after a failure, and then answers",
    [SETTLES_NOT] = "does not force the folder after the name",
    [MAKES_UNFORCED] = "names a new file before it is forced",
    [LOCKS_NOT] = "appends without the lock",
    [UNLOCKS_EARLY] = "gives the lock back after it has read",
    [CUTS_NOT] = "leaves what is torn behind its record",
    [CUTS_RECORDS] = "cuts a whole record",
    [PUTS_INTO_OLD] = "writes into the file that had the name before",
    [OPENS_NEW] = "opens journal.new that a killed process left",
    [TELLS_DONE] = "goes on after a failure",
    [TELLS_GONE] = "takes a failed look for no journal",
    [TELLS_ONE_NUMBER] = "takes a new file for the old one",
    [TELLS_OLD_SIZE] = "does not look at the size again",
    [FORK_GOES_ON] = "is a fork and goes on with the call",
};

static wrong_host wrong;

static inline int is_wrong(wrong_host which) { return wrong == which; }
#endif
