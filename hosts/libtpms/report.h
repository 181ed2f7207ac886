/* Messages for the user of swtpm: a line for each fault, in swtpm's log or on standard error. */
#ifndef REPORT_H
#define REPORT_H

#include <stdint.h>

/* Writes a line, formatted like printf. The format has no newline at its end. */
/*@ assigns \nothing; */
void report(const char *format, ...) __attribute__((format(printf, 1, 2)));

/* Describes what is wrong with a state, for a return code of the library (tpmsim_told). */
/*@ assigns \nothing; */
const char *words_of_told(uint8_t told);

#endif
