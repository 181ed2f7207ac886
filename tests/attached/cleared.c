/* Tests that the host in C clears images and seeds before it frees them. The sources of the host are compiled with
 * free_checked instead of `free`. */
#include "common.h"
#include "image.h"
#include "words.h"
#include <malloc.h>

enum { PART = 16, IMAGE_SIZE = 28361 };

/* The image and the text of the words, whose parts no freed block may contain. */
static uint8_t image[IMAGE_SIZE + 1];
static size_t image_size;
static const char WORDS_TEXT[] = "random=000102030405060708090a0b0c0d0e0f,force=power,state=none";
static size_t uncleared;

/* Whether the secret contains these bytes. Bytes that are all equal are none of its parts. */
static bool has_part(const uint8_t *secret, size_t size, const uint8_t *bytes) {
    if (memcmp(bytes, bytes + 1, PART - 1) == 0) return false;
    return memmem(secret, size, bytes, PART) != NULL;
}

void free_checked(void *block);
void free_checked(void *block) {
    const uint8_t *bytes = block;
    size_t size = block ? malloc_usable_size(block) : 0;
    for (size_t at = 0; at + PART <= size; at += PART)
        if (has_part(image, image_size, bytes + at) ||
            has_part((const uint8_t *)WORDS_TEXT, sizeof WORDS_TEXT, bytes + at)) {
            uncleared++;
            break;
        }
    free(block);
}

static void report(const char *what) {
    printf("%s: %zu blocks are not cleared\n", what, uncleared);
    uncleared = 0;
}

static void make_image(void) {
    tpmsim device = {0};
    uint8_t random[256];
    for (size_t i = 0; i < sizeof random; i++) random[i] = (uint8_t)(i * 7 + 1);
    must(tpmsim_manufacture(&device, random) == TPMSIM_DONE, "there is no memory");
    image_size = tpmsim_save(&device, image, sizeof image);
    tpmsim_free(&device);
}

static void open_from(const char *path, bool opens, struct reason *reason) {
    struct kept_options options = {.image = path};
    struct kept *kept = kept_open(&options, reason);
    must((kept != NULL) == opens, "the device in memory");
    kept_close(kept);
    options.folder = opens ? "state" : "none";
    kept = kept_open(&options, reason);
    must((kept != NULL) == opens, "the device in a folder");
    kept_close(kept);
}

static void read_words(const char *text, bool reads, struct reason *reason) {
    struct words words;
    must(words_read(&words, text, reason) == reads, "the words");
    if (reads) words_free(&words);
    for (size_t i = 0; i < sizeof words.random; i++) uncleared += words.random[i] != 0;
}

int main(void) {
    struct reason reason;
    tpmsim device = {0};
    char wrong[sizeof WORDS_TEXT + 8];
    make_image();
    put_bytes("image", image, image_size);
    open_from("image", true, &reason);
    report("a device that is made from an image");
    must(image_open(&device, "image", &reason), "the image");
    tpmsim_free(&device);
    report("an image that is opened");
    image[image_size] = 0;
    put_bytes("long", image, image_size + 1);
    must(!image_open(&device, "long", &reason), "the long image");
    open_from("long", false, &reason);
    report("an image that is refused");
    read_words(WORDS_TEXT, true, &reason);
    report("words with random bytes");
    snprintf(wrong, sizeof wrong, "%s,wrong", WORDS_TEXT);
    read_words(wrong, false, &reason);
    report("words that are refused");
    return 0;
}
