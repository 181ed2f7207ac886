/* A copy of the permanent state as it was last stored. */
#include "permanent.h"

#include "callbacks.h"
#include "foreign.h"
#include "report.h"

#include <libtpms/tpm_nvfilename.h>
#include <stdlib.h>
#include <string.h>

/* An image has at most 28,361 bytes, and the state without Clock is shorter. */
enum { IMAGE_MOST = 32 * 1024 };

struct text {
    size_t size;
    uint8_t bytes[IMAGE_MOST];
};

static struct text kept, present, image;

/*@ predicate is_kept_by_device(struct text *text) = text->size == device_kept_size &&
  @     \forall integer i; 0 <= i < device_kept_size ==> text->bytes[i] == device_kept[i];
  @*/

bool make_permanent_state(tpmsim *device, struct state *state) {
    *state = (struct state){.bytes = malloc(IMAGE_MOST)};
    if (state->bytes == NULL) {
        report("there is no memory for a permanent state");
        return false;
    }
    state->size = tpmsim_save(device, state->bytes, IMAGE_MOST);
    return true;
}

bool open_permanent_state(tpmsim *device, const struct state *state) {
    uint8_t told = tpmsim_open(device, state->bytes, state->size);
    if (told != TPMSIM_DONE)
        report("the permanent state is refused: %s", words_of_state(state, told));
    return told == TPMSIM_DONE;
}

/*@ requires \valid(text) && \valid(device) && device_kept_size <= IMAGE_MOST;
  @ requires \separated(text, device_kept + (0 .. IMAGE_MOST - 1), &device_kept_size);
  @ assigns *text;
  @ ensures is_kept_by_device(text);
  @*/
static void take(tpmsim *device, struct text *text) {
    text->size = tpmsim_kept(device, text->bytes, IMAGE_MOST);
}

void take_as_permanent(tpmsim *device) { take(device, &kept); }

/*@ requires \valid(device) && device_kept_size <= IMAGE_MOST && kept.size <= IMAGE_MOST;
  @ assigns present;
  @ ensures is_kept_by_device(&present);
  @ ensures \result <==> is_kept_by_device(&kept);
  @*/
bool is_permanent(tpmsim *device) {
    take(device, &present);
    return present.size == kept.size && memcmp(present.bytes, kept.bytes, kept.size) == 0;
}

/*@ requires \valid(device);
  @ assigns image, swtpm_called, stored_bytes, stored_size;
  @ ensures \result ==> stored_bytes == &image.bytes[0] && stored_size == image.size;
  @*/
bool store_permanent(tpmsim *device) {
    image.size = tpmsim_save(device, image.bytes, IMAGE_MOST);
    return store_state(TPM_PERMANENT_ALL_NAME, image.bytes, image.size);
}

/*@ requires device_kept_size <= IMAGE_MOST && kept.size <= IMAGE_MOST;
  @ assigns kept, present, image;
  @ ensures kept.size <= IMAGE_MOST;
  @ ensures \result ==> is_kept_by_device(&kept);
  @ ensures \result ==> stored_bytes == \old(stored_bytes) || stored_bytes == &image.bytes[0];
  @*/
bool keep_permanent(tpmsim *device) {
    if (!is_permanent(device)) {
        if (!store_permanent(device)) return false;
        memcpy(kept.bytes, present.bytes, present.size);
        kept.size = present.size;
    }
    /*@ assert is_kept_by_device(&kept); */
    /*@ ghost permanent_is_kept = 1; */
    return true;
}

void forget_permanent(void) {
    explicit_bzero(&kept, sizeof kept);
    explicit_bzero(&present, sizeof present);
    explicit_bzero(&image, sizeof image);
}
