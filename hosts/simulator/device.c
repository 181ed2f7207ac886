#define _GNU_SOURCE
#include "device.h"
#include "clock.h"
#include "image.h"
#include "image_file.h"
#include "random.h"
#include "record_file.h"
#include "secret.h"
#include "told.h"
#include <limits.h>
#include <stdio.h>
#include <stdlib.h>
#include <string.h>
#include <sys/stat.h>

struct device {
    /* The device in a folder, or NULL. A device in memory uses the following fields. */
    struct kept *kept;
    tpmsim handle;
    struct clock clock;
    struct random random;
    struct record_file record;
    struct image_file image;
    bool has_image;
    bool completes;
    uint8_t entry[TPMSIM_RECORD_ROOM];
};

static bool refuse_device(const char *said, struct reason *reason) {
    return refuse(reason, "the device", NULL, said, 0);
}

/* ---- in memory */

static bool renew_random(struct device *device, struct reason *reason) {
    return random_renew(&device->random) ||
           refuse_device("needs random bytes, and the system gives none", reason);
}

static bool manufacture(struct device *device, struct reason *reason) {
    if (!renew_random(device, reason)) return false;
    uint8_t told = tpmsim_manufacture(&device->handle, device->random.bytes);
    return told == TPMSIM_DONE || refuse_device(told_words(told), reason);
}

/* Writes the image if the device has a file for it. */
static bool keep(struct device *device, bool always, struct reason *reason) {
    return !device->has_image || image_file_keep(&device->image, &device->handle, always, reason);
}

/* tpmsim_journal_begin, with which the completing layer starts again, or tpmsim_journal_checkpoint,
 * with which it goes on. */
typedef size_t (*start_journal)(tpmsim *device, uint64_t now_ms, uint8_t *head, size_t size);

/* Starts a journal for a device whose power comes on, and a new record file if recording was
 * requested. */
static bool begin(struct device *device, start_journal start, struct reason *reason) {
    uint64_t now_ms = clock_now(&device->clock);
    size_t size = start(&device->handle, now_ms, device->entry, 0);
    uint8_t *head = malloc(size);
    if (!head) return refuse_device(told_words(TPMSIM_NO_MEMORY), reason);
    start(&device->handle, now_ms, head, size);
    bool is_done = record_file_begin(&device->record, head, size, reason) &&
                   keep(device, false, reason);
    secret_free(head, size);
    return is_done;
}

/* Restores the device from its own state text, which does not contain the journal's time. So the
 * time until the next journal does not count for the device. */
static bool forget_journal(struct device *device, struct reason *reason) {
    uint8_t *text = malloc(TPMSIM_STATE_SIZE);
    if (!text) return refuse_device(told_words(TPMSIM_NO_MEMORY), reason);
    size_t size = tpmsim_snapshot(&device->handle, text, TPMSIM_STATE_SIZE);
    uint8_t told = tpmsim_restore(&device->handle, text, size);
    secret_free(text, size);
    return told == TPMSIM_DONE || refuse_device(told_words(told), reason);
}

/* Power-cycles the device. The completing layer keeps its start and its count of contexts, so that
 * contexts of objects load after a TPM Resume. */
static bool cycle(struct device *device, struct reason *reason) {
    tpmsim_power_cycle(&device->handle);
    return forget_journal(device, reason) && begin(device, tpmsim_journal_checkpoint, reason);
}

static bool open_image(struct device *device, const char *path, struct reason *reason) {
    bool is_there = false;
    device->has_image = true;
    if (!image_file_open(&device->image, path, &is_there, reason)) return false;
    return is_there ? image_open(&device->handle, path, reason) : manufacture(device, reason);
}

static bool open_in_memory(struct device *device, const struct options *options, unsigned number,
                           struct reason *reason) {
    random_begin(&device->random, options->seed, options->seed_size, number);
    if (!clock_begin(&device->clock, options->is_timeless, options->seed_size > 0))
        return refuse_device("needs the host's clock, which cannot be read or is before 1970", reason);
    bool is_open = options->image ? open_image(device, options->image, reason)
                                  : manufacture(device, reason);
    return is_open && begin(device, tpmsim_journal_begin, reason);
}

static bool execute_in_memory(struct device *device, const uint8_t *buffer, size_t size,
                              uint8_t locality, struct response *response, struct reason *reason) {
    tpmsim_answered answered;
    size_t entry_size;
    if (!renew_random(device, reason)) return false;
    uint8_t told = tpmsim_journal_execute(&device->handle, buffer, size, locality,
                                          clock_now(&device->clock), device->completes,
                                          device->random.bytes, response->bytes, &answered,
                                          device->entry, &entry_size);
    if (told != TPMSIM_DONE) return refuse_device(told_words(told), reason);
    response->size = answered.size;
    return record_file_add(&device->record, device->entry, entry_size, reason) &&
           keep(device, false, reason);
}

static bool close_in_memory(struct device *device, struct reason *reason) {
    bool is_open = device->handle.private_ != NULL;
    bool is_kept = !is_open || keep(device, true, reason);
    if (device->has_image) image_file_close(&device->image);
    record_file_end(&device->record);
    tpmsim_free(&device->handle);
    return is_kept;
}

/* ---- in a folder */

static void tell_line(const char *sentence) {
    fprintf(stderr, "tpmsim-simulator: %s\n", sentence);
}

/* Writes the path of a device's folder: the named folder or, if there are several devices, a folder
 * in it. */
static bool name_folder(const struct options *options, unsigned number, char folder[PATH_MAX],
                        struct reason *reason) {
    int size = options->devices == 1 ? snprintf(folder, PATH_MAX, "%s", options->folder)
                                     : snprintf(folder, PATH_MAX, "%s/%u", options->folder, number);
    return (size > 0 && size < PATH_MAX) || refuse(reason, options->folder, NULL, "is too long", 0);
}

static bool open_in_folder(struct device *device, const struct options *options, unsigned number,
                           struct reason *reason) {
    char folder[PATH_MAX];
    if (!name_folder(options, number, folder, reason)) return false;
    if (options->devices > 1) mkdir(options->folder, 0700);
    struct kept_options asked = {.folder = folder,
                                 .random = options->seed,
                                 .random_size = options->seed_size,
                                 .force = options->force,
                                 .keep = options->keep,
                                 .completes = options->completes,
                                 .tell = tell_line};
    device->kept = kept_open(&asked, reason);
    return device->kept != NULL;
}

/* ---- either */

struct device *device_open(const struct options *options, unsigned number, struct reason *reason) {
    struct device *device = calloc(1, sizeof *device);
    if (!device) {
        refuse_device(told_words(TPMSIM_NO_MEMORY), reason);
        return NULL;
    }
    device->completes = options->completes;
    device->record = record_file_of(options->record);
    if (options->folder ? open_in_folder(device, options, number, reason)
                        : open_in_memory(device, options, number, reason))
        return device;
    struct reason unused;
    device_close(device, &unused);
    return NULL;
}

bool device_execute(struct device *device, const uint8_t *buffer, size_t size, uint8_t locality,
                    struct response *response, struct reason *reason) {
    tpmsim_answered answered;
    if (!device->kept)
        return execute_in_memory(device, buffer, size, locality, response, reason);
    bool is_done = kept_execute(device->kept, buffer, size, locality, response->bytes, &answered,
                                reason);
    response->size = is_done ? answered.size : 0;
    return is_done;
}

bool device_cycle_power(struct device *device, struct reason *reason) {
    return device->kept ? kept_power(device->kept, reason) : cycle(device, reason);
}

bool device_close(struct device *device, struct reason *reason) {
    if (!device) return true;
    bool is_closed = device->kept ? true : close_in_memory(device, reason);
    kept_close(device->kept);
    secret_free(device, sizeof *device);
    return is_closed;
}
