/* Misuses the library in each way that has a defined result, and prints a line with each misuse and
 * its result. The first argument is a file with an image that has a correct digest and an invalid
 * body. The program is linked with --wrap for malloc and realloc, so that it can count allocations
 * and make one of them fail. */
#include "common.h"

void *__real_malloc(size_t size);
void *__real_realloc(void *memory, size_t size);
void *__wrap_malloc(size_t size);
void *__wrap_realloc(void *memory, size_t size);

/* The number of allocations so far, and the number of the allocation that fails, or 0. */
static unsigned asked, refused;

static int is_refused(void) {
    asked++;
    return asked == refused;
}

void *__wrap_malloc(size_t size) { return is_refused() ? NULL : __real_malloc(size); }

void *__wrap_realloc(void *memory, size_t size) {
    return is_refused() ? NULL : __real_realloc(memory, size);
}

static uint8_t random_bytes[RANDOM_BYTES], response[RESPONSE_BYTES];

/* TPM2_HierarchyChangeAuth for the owner, authorized with an empty password. The new authorization
 * value has one byte. */
static const uint8_t CHANGE_AUTH[] = {0x80, 0x02, 0, 0, 0, 30,   0, 0, 0x01, 0x29, 0x40, 0, 0, 1, 0,
                                      0,    0,    9, 0x40, 0, 0, 9, 0, 0,    0,    0,    0, 0, 1, 'a'};

/* The size of buffers for images, and the device's image before a call and after it. */
enum { ROOM = 4096, HEAD_BYTES = 10, DIGEST_BYTES = 32 };
static uint8_t image[ROOM], before[ROOM], behind[ROOM];

/* The size of the device's image, in bytes. */
static size_t image_size;

/* A state text of the device, and its size in bytes. */
static uint8_t state[ROOM];
static size_t state_size;

/* The device's private pointer before a call. A refused call must change neither this pointer nor
 * the image. Only a test may read the pointer. */
static void *kept_pointer;

static void keep(struct tpmsim *device) {
    kept_pointer = device->private_;
    must(tpmsim_save(device, before, ROOM) == image_size, "the image has another size");
}

static const char *as_it_was(struct tpmsim *device) {
    must(device->private_ == kept_pointer, "the holder has another device");
    must(tpmsim_save(device, behind, ROOM) == image_size, "the image has another size");
    must(memcmp(before, behind, image_size) == 0, "the device is another one");
    return "the device is as it was";
}

/* Calls the library twice to execute TPM2_GetRandom: without the completing layer, and with it. The
 * library must refuse both calls, and must write neither the response nor the answer. Returns the
 * fault. */
static unsigned refused_command(struct tpmsim *device, uint8_t locality) {
    struct tpmsim_answered answered;
    memset(&answered, FILLED, sizeof answered);
    memset(response, FILLED, sizeof response);
    uint8_t told = tpmsim_execute(device, GET_RANDOM, sizeof GET_RANDOM, locality, 1, random_bytes,
                                  response, &answered);
    must(tpmsim_complete(device, GET_RANDOM, sizeof GET_RANDOM, locality, 1, random_bytes, response,
                         &answered) == told,
         "the completing layer is refused otherwise");
    must(is_filled(response, sizeof response), "a response is written");
    must(answered.size == answered.drawn && is_filled((uint8_t *)&answered.size, sizeof(size_t)) &&
             is_filled((uint8_t *)&answered.code, sizeof answered.code) && answered.check == FILLED,
         "something is answered");
    return told;
}

static void without_a_device(void) {
    struct tpmsim none = {0};
    memset(image, FILLED, ROOM);
    printf("no device: execute %u, ", refused_command(&none, 0));
    printf("power_cycle %u, ", tpmsim_power_cycle(&none));
    printf("save %zu, ", tpmsim_save(&none, image, ROOM));
    printf("kept %zu, ", tpmsim_kept(&none, image, ROOM));
    printf("snapshot %zu, ", tpmsim_snapshot(&none, image, ROOM));
    must(is_filled(image, ROOM), "something is written");
    tpmsim_free(&none);
    must(none.private_ == NULL, "the holder has a device");
    puts("free; nothing is written, and there is none");
}

static void of_localities(struct tpmsim *device) {
    keep(device);
    printf("locality 5: %u, ", refused_command(device, 5));
    printf("locality 255: %u; ", refused_command(device, 255));
    puts(as_it_was(device));
}

/* Executes buffers that are not valid commands. The device refuses them in its response. */
static void of_buffers(struct tpmsim *device) {
    static const size_t sizes[] = {0, 1, 9, 4097, 1000000};
    uint8_t *buffer = taken(1000000);
    memset(buffer, FILLED, 1000000);
    memcpy(buffer, GET_RANDOM, sizeof GET_RANDOM);
    keep(device);
    for (size_t i = 0; i < sizeof sizes / sizeof *sizes; i++) {
        struct tpmsim_answered it = answered_by(device, buffer, sizes[i], response);
        printf("a buffer of %zu bytes: %03x, row %08x %u, %zu drawn; %s\n", sizes[i],
               (unsigned)code_of(response), (unsigned)it.code, it.check, it.drawn,
               as_it_was(device));
    }
    free(buffer);
}

/* Prints what a function writes to buffers of several sizes. The function returns the size of its
   text. */
static void in_rooms(struct tpmsim *device, const char *label,
                     size_t (*written)(struct tpmsim *, uint8_t *, size_t)) {
    size_t wanted = written(device, image, 0);
    for (int more = -1; more <= 1; more++) {
        size_t room = more < 0 ? wanted - 1 : wanted + (size_t)more;
        memset(image, FILLED, ROOM);
        size_t size = written(device, image, room);
        must(size == wanted, "the text has another size");
        must(is_filled(image + (room < size ? 0 : size), ROOM - (room < size ? 0 : size)),
             "something is written that is no part of the text");
        printf("%s where the room is %s: its size, and %s\n", label,
               more < 0 ? "one byte too small"
               : more   ? "one byte larger"
                        : "exact",
               is_filled(image, size) ? "nothing is written" : "it is written");
    }
}

static void of_rooms(struct tpmsim *device) {
    printf("save in no room: %s\n",
           tpmsim_save(device, image, 0) == image_size ? "the image's size" : "WRONG");
    in_rooms(device, "save", tpmsim_save);
    in_rooms(device, "kept", tpmsim_kept);
    in_rooms(device, "snapshot", tpmsim_snapshot);
}

/* Returns the number of bytes in which a text differs from the image's body. The body is the bytes
 * between the image's head and its digest. */
static size_t others_than_in_image(const uint8_t *text, size_t size) {
    size_t others = 0;
    for (size_t i = 0; i < size; i++) others += text[i] != image[HEAD_BYTES + i];
    return others;
}

/* Checks the result of tpmsim_kept: the image without its head and its digest, and with zeros as
   Clock. Therefore the result does not change with time. */
static void of_what_is_kept(struct tpmsim *device) {
    size_t size = tpmsim_kept(device, before, ROOM);
    must(tpmsim_save(device, image, ROOM) == HEAD_BYTES + size + DIGEST_BYTES, "another size");
    printf("kept: %zu bytes of the image are others\n", others_than_in_image(before, size));
    must(tpmsim_execute(device, GET_RANDOM, sizeof GET_RANDOM, 0, 0x01010101, random_bytes, response,
                        &(struct tpmsim_answered){0}) == TPMSIM_DONE,
         "a command is not executed");
    tpmsim_save(device, image, ROOM);
    size_t others = others_than_in_image(before, size);
    tpmsim_kept(device, behind, ROOM);
    printf("kept, time later: %zu bytes of the image are others, and it is %s\n", others,
           memcmp(before, behind, size) == 0 ? "the same" : "another");
    must(tpmsim_execute(device, CHANGE_AUTH, sizeof CHANGE_AUTH, 0, 0, random_bytes, response,
                        &(struct tpmsim_answered){0}) == TPMSIM_DONE &&
             code_of(response) == 0,
         "TPM2_HierarchyChangeAuth is refused");
    size_t longer = tpmsim_kept(device, behind, ROOM);
    printf("kept, behind TPM2_HierarchyChangeAuth to a byte: %zu bytes more\n", longer - size);
}

/* Opens a device from a copy of the image that has this size and one changed byte. */
static void open_changed(struct tpmsim *device, const char *label, size_t size, size_t place) {
    keep(device);
    memcpy(image, before, image_size);
    image[place] ^= 1;
    printf("open %s: %u; ", label, tpmsim_open(device, image, size));
    puts(as_it_was(device));
}

static void of_images(struct tpmsim *device, const char *file) {
    open_changed(device, "of nothing", 0, 0);
    open_changed(device, "of 41 bytes", 41, 0);
    open_changed(device, "of another magic", image_size, 0);
    open_changed(device, "of another version", image_size, 5);
    open_changed(device, "of one byte less", image_size - 1, 20);
    open_changed(device, "of one byte more", image_size + 1, 20);
    open_changed(device, "of another digest", image_size, image_size - 1);
    open_changed(device, "of another body", image_size, 20);
    FILE *stream = fopen(file, "rb");
    must(stream != NULL, "the file is not there");
    size_t size = fread(image, 1, ROOM, stream);
    fclose(stream);
    keep(device);
    printf("open of a body that is none: %u; ", tpmsim_open(device, image, size));
    puts(as_it_was(device));
}

/* Restores a device from a copy of the state text that has this size and one changed byte. */
static void restore_changed(struct tpmsim *device, const char *label, size_t size, size_t place) {
    keep(device);
    memcpy(image, state, state_size);
    image[place] ^= 1;
    printf("restore %s: %u; ", label, tpmsim_restore(device, image, size));
    puts(as_it_was(device));
}

static void of_states(struct tpmsim *device) {
    state_size = tpmsim_snapshot(device, state, ROOM);
    must(0 < state_size && state_size < ROOM, "the state text is too large");
    restore_changed(device, "of nothing", 0, 0);
    restore_changed(device, "of 41 bytes", 41, 0);
    restore_changed(device, "of an image's magic", state_size, 3);
    restore_changed(device, "of another version", state_size, 4);
    restore_changed(device, "of one byte less", state_size - 1, 20);
    restore_changed(device, "of one byte more", state_size + 1, 20);
    restore_changed(device, "of another digest", state_size, state_size - 1);
    restore_changed(device, "of another body", state_size, 20);
    keep(device);
    printf("restore of an image: %u; ", tpmsim_restore(device, before, image_size));
    puts(as_it_was(device));
    printf("open of a state text: %u; ", tpmsim_open(device, state, state_size));
    puts(as_it_was(device));
}

/* Calls a function that allocates memory. Makes its first allocation fail, then its second, and so
   on, until the function succeeds. */
static void starve(struct tpmsim *device, const char *label,
                   uint8_t (*called)(struct tpmsim *device)) {
    uint8_t told = TPMSIM_NO_MEMORY;
    keep(device);
    for (unsigned number = 1; told != TPMSIM_DONE; number++) {
        asked = 0;
        refused = number;
        told = called(device);
        must(asked >= number || told == TPMSIM_DONE, "a call is refused with all its memory");
        refused = 0;
        if (told == TPMSIM_DONE) break;
        printf("%s, request %u is refused: %u; ", label, number, told);
        puts(as_it_was(device));
    }
    printf("%s: %u\n", label, told);
}

static uint8_t manufacture(struct tpmsim *device) {
    return tpmsim_manufacture(device, random_bytes);
}

static uint8_t open_image(struct tpmsim *device) { return tpmsim_open(device, before, image_size); }

static uint8_t restore(struct tpmsim *device) { return tpmsim_restore(device, state, state_size); }

static void of_memory(struct tpmsim *device) {
    asked = 0;
    answered_by(device, GET_RANDOM, sizeof GET_RANDOM, response);
    tpmsim_save(device, image, ROOM);
    tpmsim_kept(device, image, ROOM);
    tpmsim_snapshot(device, image, ROOM);
    tpmsim_power_cycle(device);
    printf("execute, save, kept, snapshot and power_cycle: they take memory %u times\n", asked);
    starve(device, "manufacture", manufacture);
    starve(device, "open", open_image);
    starve(device, "restore", restore);
}

int main(int count, char **words) {
    struct tpmsim device = {0};
    must(count == 2, "usage: misuse FILE");
    count_up(random_bytes, 0);
    start_new(&device, 0);
    image_size = tpmsim_save(&device, image, 0);
    must(0 < image_size && image_size < ROOM, "the image is too large");
    printf("version %s\n",
           tpmsim_version() == TPMSIM_VERSION_NUMBER ? "of the header" : "WRONG");
    without_a_device();
    of_localities(&device);
    of_buffers(&device);
    of_rooms(&device);
    of_images(&device, words[1]);
    of_states(&device);
    of_memory(&device);
    start_new(&device, 0);
    of_what_is_kept(&device);
    tpmsim_free(&device);
    tpmsim_free(&device);
    printf("freed twice: execute %u\n", refused_command(&device, 0));
    return 0;
}
