#define _GNU_SOURCE
#include "kept.h"
#include "draws.h"
#include "host.h"
#include "image.h"
#include "keeping.h"
#include "secret.h"
#include "told.h"
#include <stdlib.h>
#include <string.h>

struct kept {
    struct keeping keeping;
    struct draws draws;
    bool completes;
    void (*tell)(const char *sentence);
};

static bool tell_now(const struct kept *kept, uint64_t *now_ms, struct reason *reason) {
    return host_now(now_ms) ||
           refuse(reason, keeping_name(&kept->keeping), NULL,
                  "needs the host's clock, which cannot be read or is before 1970", 0);
}

/* Provides fresh random bytes. All of them count as drawn until the device reports how many it
 * drew. */
static bool renew(struct kept *kept, struct reason *reason) {
    if (!draws_renew(&kept->draws))
        return refuse(reason, keeping_name(&kept->keeping), NULL,
                      "needs random bytes, and the system gives none", 0);
    kept->draws.drawn = DRAWS_BYTES;
    return true;
}

/* Determines the time of a manufacture, restoration or power cycle from the host's clock. Also
 * determines a start number for the completing layer, different from those of all earlier starts. A
 * power cycle does not use the number. The number is combined with the clock, because reproducible
 * runs repeat their random bytes. */
static bool tell_start(struct kept *kept, uint64_t *now_ms, uint64_t *start,
                       struct reason *reason) {
    if (!renew(kept, reason) || !tell_now(kept, now_ms, reason)) return false;
    memcpy(start, kept->draws.bytes, sizeof *start);
    kept->draws.drawn = sizeof *start;
    *start ^= *now_ms;
    return true;
}

/* Completes the call that the keeper has begun with this result, and reports what was cut from the
 * journal. */
static bool run(struct kept *kept, uint8_t told, struct reason *reason) {
    bool is_done = keeping_run(&kept->keeping, told, reason);
    if (*kept_notice(kept) && kept->tell) kept->tell(kept_notice(kept));
    return is_done;
}

/* Makes a new device from an image or from random bytes. */
static bool begin(struct kept *kept, const char *image, struct reason *reason) {
    uint64_t now_ms, start;
    size_t size = DRAWS_BYTES;
    uint8_t *bytes = NULL;
    if (!tell_start(kept, &now_ms, &start, reason)) return false;
    if (!image && !renew(kept, reason)) return false;
    if (image && !(bytes = image_read(image, &size, reason))) return false;
    uint8_t told = tpmsim_keeper_seed(&kept->keeping.keeper,
                                      image ? TPMSIM_SEED_IMAGE : TPMSIM_SEED_RANDOM, now_ms, start,
                                      image ? bytes : kept->draws.bytes, size);
    secret_free(bytes, IMAGE_ROOM);
    return run(kept, told, reason);
}

/* Checks that there is a device. Then tpmsim_keeper_state can write its state text. */
static bool show(struct kept *kept, struct reason *reason) {
    static const uint8_t none[1];
    return run(kept, tpmsim_keeper_begin(&kept->keeping.keeper, TPMSIM_JOB_SHOW, none, 0), reason);
}

/* Like show, but may first replace the journal of another version with its head. */
static bool show_or_take_head(struct kept *kept, const struct kept_options *options,
                              struct reason *reason) {
    if (show(kept, reason)) return true;
    if (!options->takes_head || reason->told != TPMSIM_OTHERWISE ||
        !keeping_take_head(&kept->keeping, reason))
        return false;
    if (*kept_notice(kept) && kept->tell) kept->tell(kept_notice(kept));
    return show(kept, reason);
}

/* Opens the existing device, which needs no seed, or makes a new one. */
static bool open_any(struct kept *kept, const struct kept_options *options, struct reason *reason) {
    const struct folder *folder = &kept->keeping.folder;
    struct stat status;
    if (!keeping_open(&kept->keeping, options, reason)) return false;
    int there = folder->path ? folder_look(folder, JOURNAL_NAME, &status, reason) : 0;
    if (there < 0) return false;
    if (there == 0 && !options->is_there) return begin(kept, options->image, reason);
    if (there == 1) return show_or_take_head(kept, options, reason);
    return refuse(reason, keeping_name(&kept->keeping), folder->path ? JOURNAL_NAME : NULL,
                  "is not there", 0);
}

struct kept *kept_open(const struct kept_options *options, struct reason *reason) {
    struct kept *kept = calloc(1, sizeof *kept);
    if (!kept) {
        refuse_told(reason, options->folder ? options->folder : "the device in memory", NULL,
                    TPMSIM_NO_MEMORY);
        return NULL;
    }
    kept->completes = options->completes;
    kept->tell = options->tell;
    draws_begin(&kept->draws, options->random, options->random_size);
    if (open_any(kept, options, reason)) return kept;
    kept_close(kept);
    return NULL;
}

bool kept_execute(struct kept *kept, const uint8_t *buffer, size_t size, uint8_t locality,
                  uint8_t response[4096], tpmsim_answered *answered, struct reason *reason) {
    uint64_t now_ms;
    if (!renew(kept, reason) || !tell_now(kept, &now_ms, reason)) return false;
    uint8_t told = tpmsim_keeper_execute(&kept->keeping.keeper, buffer, size, locality, now_ms,
                                         kept->completes, kept->draws.bytes);
    if (!run(kept, told, reason)) return false;
    tpmsim_keeper_answer(&kept->keeping.keeper, response, answered);
    kept->draws.drawn = answered->drawn;
    return true;
}

bool kept_power(struct kept *kept, struct reason *reason) {
    uint64_t now_ms, start;
    return tell_start(kept, &now_ms, &start, reason) &&
           run(kept, tpmsim_keeper_power(&kept->keeping.keeper, now_ms, start), reason);
}

bool kept_snapshot(struct kept *kept, uint8_t text[TPMSIM_STATE_SIZE], size_t *size,
                   struct reason *reason) {
    if (!show(kept, reason)) return false;
    *size = tpmsim_keeper_state(&kept->keeping.keeper, text, TPMSIM_STATE_SIZE);
    return true;
}

/* Calls tpmsim_restore as well as the keeper, because only tpmsim_restore reports why a text is not
 * a state text. */
bool kept_restore(struct kept *kept, const uint8_t *text, size_t size, struct reason *reason) {
    tpmsim device = {0};
    uint64_t now_ms, start;
    uint8_t told = tpmsim_restore(&device, text, size);
    tpmsim_free(&device);
    if (told != TPMSIM_DONE)
        return refuse_told(reason, keeping_name(&kept->keeping), NULL, told);
    return tell_start(kept, &now_ms, &start, reason) &&
           run(kept, tpmsim_keeper_restore(&kept->keeping.keeper, now_ms, start, text, size),
               reason);
}

void kept_complete(struct kept *kept, bool completes) { kept->completes = completes; }

const char *kept_notice(const struct kept *kept) { return kept->keeping.notice.text; }

void kept_close(struct kept *kept) {
    if (!kept) return;
    keeping_close(&kept->keeping);
    draws_end(&kept->draws);
    secret_free(kept, sizeof *kept);
}
