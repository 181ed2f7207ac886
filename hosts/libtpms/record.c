/* The file is written as the simulator writes its own. */
#include "record.h"

#include "record_file.h"
#include "report.h"

#include <stdlib.h>

static struct record_file record = {.file = -1};

/* Returns whether a call succeeded, and reports the reason if not. */
static bool told(bool is_done, const struct reason *reason) {
    if (!is_done) report("%s", reason->text);
    return is_done;
}

bool is_recorded(void) { return record.file >= 0; }

bool begin_record(const uint8_t *text, size_t size) {
    const char *folder = getenv("TPMSIM_RECORD");
    struct reason reason;
    end_record();
    record = record_file_of(folder != NULL && *folder != 0 ? folder : NULL);
    return told(record_file_begin(&record, text, size, &reason), &reason);
}

bool write_record(const uint8_t *text, size_t size) {
    struct reason reason;
    return told(record_file_add(&record, text, size, &reason), &reason);
}

void end_record(void) { record_file_end(&record); }
