/* A device that is kept in a folder, for programs in C and in other languages. tpmsim_kept.h
 * documents the functions. */
#include "kept.h"
#include "past.h"
#include "told.h"
#include "tpmsim_kept.h"
#include <string.h>

_Static_assert((int)TPMSIM_KEPT_REASON_SIZE == (int)REASON_ROOM, "each sentence fits");

/* Returns the result code of a call. If the call failed, also writes the reason to `text`. */
static uint8_t number_of(bool is_done, const struct reason *reason, char text[REASON_ROOM]) {
    if (is_done) return TPMSIM_DONE;
    memcpy(text, reason->text, strlen(reason->text) + 1);
    return reason->told ? reason->told : TPMSIM_KEPT_FAILED;
}

/* Whether the handle has a device. */
static bool is_open(const tpmsim_kept_device *handle, struct reason *reason) {
    return handle->private_ || refuse_told(reason, "the handle", NULL, TPMSIM_NO_DEVICE);
}

/* Reads the options. Returns false if a number is out of range. */
static bool read_options(const tpmsim_kept_options *asked, struct kept_options *options) {
    if (asked->force > TPMSIM_FORCE_ALWAYS || asked->keep > PAST_MOST || asked->random_size > 256)
        return false;
    *options = (struct kept_options){.folder = asked->folder,
                                     .image = asked->image,
                                     .random = asked->random,
                                     .random_size = asked->random_size,
                                     .force = asked->force,
                                     .keep = asked->keep,
                                     .is_there = asked->is_there,
                                     .cuts = asked->cuts};
    return true;
}

uint8_t tpmsim_kept_open(tpmsim_kept_device *handle, const tpmsim_kept_options *asked,
                         char text[TPMSIM_KEPT_REASON_SIZE]) {
    struct kept_options options;
    struct reason reason;
    if (!read_options(asked, &options)) {
        refuse(&reason, "a number of the options", NULL, "is out of range", 0);
        reason.told = TPMSIM_NO_WORD;
        return number_of(false, &reason, text);
    }
    struct kept *kept = kept_open(&options, &reason);
    if (kept) {
        kept_close(handle->private_);
        handle->private_ = kept;
    }
    return number_of(kept != NULL, &reason, text);
}

uint8_t tpmsim_kept_execute(tpmsim_kept_device *handle, const uint8_t *buffer, size_t size,
                            uint8_t locality, uint8_t completes, uint8_t response[4096],
                            tpmsim_answered *answered, char text[TPMSIM_KEPT_REASON_SIZE]) {
    struct reason reason;
    bool is_done = is_open(handle, &reason);
    if (is_done) {
        kept_complete(handle->private_, completes != 0);
        is_done =
            kept_execute(handle->private_, buffer, size, locality, response, answered, &reason);
    }
    return number_of(is_done, &reason, text);
}

uint8_t tpmsim_kept_power(tpmsim_kept_device *handle, char text[TPMSIM_KEPT_REASON_SIZE]) {
    struct reason reason;
    bool is_done = is_open(handle, &reason) && kept_power(handle->private_, &reason);
    return number_of(is_done, &reason, text);
}

uint8_t tpmsim_kept_snapshot(tpmsim_kept_device *handle, uint8_t state[TPMSIM_STATE_SIZE],
                             size_t *size, char text[TPMSIM_KEPT_REASON_SIZE]) {
    struct reason reason;
    bool is_done =
        is_open(handle, &reason) && kept_snapshot(handle->private_, state, size, &reason);
    return number_of(is_done, &reason, text);
}

uint8_t tpmsim_kept_restore(tpmsim_kept_device *handle, const uint8_t *state, size_t size,
                            char text[TPMSIM_KEPT_REASON_SIZE]) {
    struct reason reason;
    bool is_done = is_open(handle, &reason) && kept_restore(handle->private_, state, size, &reason);
    return number_of(is_done, &reason, text);
}

void tpmsim_kept_notice(const tpmsim_kept_device *handle, char notice[TPMSIM_KEPT_REASON_SIZE]) {
    const char *said = handle->private_ ? kept_notice(handle->private_) : "";
    memcpy(notice, said, strlen(said) + 1);
}

void tpmsim_kept_close(tpmsim_kept_device *handle) {
    kept_close(handle->private_);
    handle->private_ = NULL;
}
