/* A caller of libtpmsim-kept, and a host: any options, then any calls, with any buffers, and forks in between. */
#include "any.h"
#include "kept.h"
#include "tpmsim_kept.h"

enum { MOST = 5000 };

static char folder[64], image[64], text[TPMSIM_KEPT_REASON_SIZE];
static uint8_t command[MOST], drawn[256], response[4096], state[TPMSIM_STATE_SIZE];

/*@ requires valid_read_string(sentence); */
static void tell(const char *sentence) {}

/* Opens a device as a host does, by kept.h. */
static struct kept *open_as_host(void) {
    struct reason reason;
    struct kept_options options = {.folder = MAY ? NULL : folder,
                                   .image = MAY ? NULL : image,
                                   .random = drawn,
                                   .random_size = Frama_C_size_t_interval(0, sizeof drawn),
                                   .force = (uint8_t)ANY(0, 2),
                                   .keep = (unsigned)ANY(0, 99),
                                   .keeps_by_default = MAY,
                                   .completes = MAY,
                                   .is_there = MAY,
                                   .cuts = MAY,
                                   .takes_head = MAY,
                                   .tell = MAY ? NULL : tell};
    return kept_open(&options, &reason);
}

/* Opens a device by tpmsim_kept.h. If there is one already, closes it. */
static void open_by_handle(tpmsim_kept_device *kept) {
    tpmsim_kept_options options = {.folder = folder,
                                   .image = MAY ? NULL : image,
                                   .random = drawn,
                                   .random_size = (uint32_t)ANY(0, INT_MAX),
                                   .keep = (uint32_t)ANY(0, INT_MAX),
                                   .force = (uint8_t)ANY(0, 255),
                                   .is_there = (uint8_t)ANY(0, 255),
                                   .cuts = (uint8_t)ANY(0, 255)};
    tpmsim_kept_open(kept, &options, text);
}

/* Any calls of a handle, which may have no device. */
static void call(tpmsim_kept_device *kept) {
    tpmsim_answered answered;
    size_t size;
    while (MAY) {
        switch (ANY(0, 5)) {
        case 0:
            tpmsim_kept_execute(kept, command, Frama_C_size_t_interval(0, MOST), (uint8_t)ANY(0, 255),
                                (uint8_t)ANY(0, 255), response, &answered, text);
            break;
        case 1: tpmsim_kept_power(kept, text); break;
        case 2: tpmsim_kept_snapshot(kept, state, &size, text); break;
        case 3: tpmsim_kept_restore(kept, state, Frama_C_size_t_interval(0, sizeof state), text); break;
        case 4: tpmsim_kept_notice(kept, text); break;
        default: any_fork(); break;
        }
    }
}

int main(void) {
    tpmsim_answered answered;
    any_text(folder, sizeof folder);
    any_text(image, sizeof image);
    any_bytes(command, sizeof command);
    any_bytes(drawn, sizeof drawn);
    any_bytes(state, sizeof state);
    tpmsim_kept_device kept = {.private_ = open_as_host()};
    call(&kept);
    open_by_handle(&kept);
    tpmsim_kept_execute(&kept, command, Frama_C_size_t_interval(0, MOST), 0, 1, response, &answered, text);
    tpmsim_kept_close(&kept);
    return 0;
}
