/* Reports faults in lines, to the log that swtpm selects. */
#include "report.h"

#include <errno.h>
#include <libtpms/tpm_error.h>
#include <libtpms/tpm_library.h>
#include <stdarg.h>
#include <stdio.h>
#include <tpmsim.h>
#include <unistd.h>

enum { LINE_BYTES = 512, PREFIX_BYTES = 64 };

/* The descriptor of swtpm's log; -1 if swtpm has no log. */
static int log_descriptor = -1;
static char log_prefix[PREFIX_BYTES];

void report(const char *format, ...) {
    char line[LINE_BYTES];
    int before = errno, log = log_descriptor < 0 ? STDERR_FILENO : log_descriptor;
    va_list words;
    va_start(words, format);
    int size = vsnprintf(line, sizeof line, format, words);
    va_end(words);
    if (size >= 0)
        while (dprintf(log, "%stpmsim: %s\n", log_prefix, line) < 0 && errno == EINTR) continue;
    errno = before;
}

const char *words_of_told(uint8_t told) {
    switch (told) {
    case TPMSIM_NO_DEVICE: return "there is no device";
    case TPMSIM_NO_LOCALITY: return "there is no such locality";
    case TPMSIM_NO_MEMORY: return "there is no memory";
    case TPMSIM_IMAGE_SHORT: return "its image has fewer than 42 bytes";
    case TPMSIM_IMAGE_MAGIC: return "its image does not begin with TPMI";
    case TPMSIM_IMAGE_VERSION: return "its image has a newer version; open it with the tpmsim that wrote it";
    case TPMSIM_IMAGE_LENGTH: return "its image is not as long as it says";
    case TPMSIM_IMAGE_DIGEST: return "its image is damaged: its digest differs";
    case TPMSIM_IMAGE_BODY: return "its image is invalid: its fields contradict each other";
    case TPMSIM_STATE_SHORT: return "it is too short";
    case TPMSIM_STATE_MAGIC: return "it does not begin with TPMS";
    case TPMSIM_STATE_VERSION: return "it has a newer version; open it with the tpmsim that wrote it";
    case TPMSIM_STATE_LENGTH: return "it is not as long as it says";
    case TPMSIM_STATE_DIGEST: return "it is damaged: its digest differs";
    case TPMSIM_STATE_BODY: return "it is invalid: its fields contradict each other";
    case TPMSIM_STATE_EARLIER: return "its journal holds a state text of version 1";
    case TPMSIM_NO_JOURNAL: return "it is no journal";
    case TPMSIM_DAMAGED: return "its journal is damaged";
    case TPMSIM_OTHERWISE: return "another version of tpmsim wrote it, whose responses differ; power-cycle the machine with that version";
    default: return "a fault that is not known";
    }
}

void TPMLIB_SetDebugFD(int fd) { log_descriptor = fd; }

/* Faults are reported at every log level. Nothing else is reported. */
void TPMLIB_SetDebugLevel(unsigned int level) { (void)level; }

TPM_RESULT TPMLIB_SetDebugPrefix(const char *prefix) {
    (void)snprintf(log_prefix, sizeof log_prefix, "%s", prefix ? prefix : "");
    return TPM_SUCCESS;
}
