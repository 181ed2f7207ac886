/* kept.h: the conditions that the caller of a device in a folder or in memory must meet, and any result. The list kept
 * in tests/hosts is of the real functions. */
#include "any.h"
#include "kept.h"

struct kept {
    bool completes;
    void (*tell)(const char *sentence);
};

static char said[64];

static bool refused(struct reason *reason) {
    any_text(reason->text, sizeof reason->text);
    reason->told = (uint8_t)ANY(0, 21);
    return false;
}

static bool any_result(struct kept *kept, struct reason *reason) {
    any_text(said, sizeof said);
    if (MAY && kept->tell) kept->tell(said);
    *reason->text = 0;
    reason->told = 0;
    return MAY || refused(reason);
}

/*@ requires \valid_read(options) && \valid(reason);
  @ requires options->folder == \null || valid_read_string(options->folder);
  @ requires options->image == \null || valid_read_string(options->image);
  @ requires options->random_size <= 256 && options->force <= TPMSIM_FORCE_ALWAYS && options->keep <= 99;
  @ requires is_read((char *)options->random, options->random_size);
  @ requires options->tell == \null || \valid_function(options->tell); */
struct kept *kept_open(const struct kept_options *options, struct reason *reason) {
    struct kept *kept = malloc(sizeof *kept);
    if (!kept) {
        refused(reason);
        return NULL;
    }
    *kept = (struct kept){.completes = options->completes, .tell = options->tell};
    if (any_result(kept, reason)) return kept;
    free(kept);
    return NULL;
}

/*@ requires \valid(kept) && \valid(reason) && \valid(answered);
  @ requires is_text(buffer, size) && is_buffer(response, 4096); */
bool kept_execute(struct kept *kept, const uint8_t *buffer, size_t size, uint8_t locality, uint8_t response[4096],
                  tpmsim_answered *answered, struct reason *reason) {
    if (!any_result(kept, reason)) return false;
    any_bytes(answered, sizeof *answered);
    answered->size = Frama_C_size_t_interval(10, 4096);
    answered->drawn = Frama_C_size_t_interval(0, 256);
    any_bytes(response, 10);
    any_bytes(response, answered->size);
    return true;
}

/*@ requires \valid(kept) && \valid(reason); */
bool kept_power(struct kept *kept, struct reason *reason) { return any_result(kept, reason); }

/*@ requires \valid(kept); */
void kept_complete(struct kept *kept, bool completes) { kept->completes = completes; }

/*@ requires kept == \null || \valid(kept); */
void kept_close(struct kept *kept) { free(kept); }
