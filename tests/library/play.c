/* Plays scripts with the library, each on a new device:
 *
 *     play <SCRIPTS
 *
 * The lines are those of scripts without commands in words: `begin`, `cmd HEX`, `loc N`, `wait MS`,
 * `entropy HEX` with 256 bytes, `power`, `end`. For each command it prints the response, the row's code and
 * check, and the number of random bytes that the command drew. At the end of a script it prints the device's
 * image, and the image of the device that is opened from that image.
 *
 * A second device, the twin, executes the same commands. It gets different bytes after the random
 * bytes that were drawn, and must return the same responses. */
#define _POSIX_C_SOURCE 200809L
#include "common.h"

struct player {
    struct tpmsim device, twin;
    uint8_t locality;
    uint32_t elapsed;
    uint8_t random[RANDOM_BYTES];
};

static struct tpmsim_answered executed(struct player *player, struct tpmsim *device,
                                       const uint8_t *buffer, size_t size, const uint8_t *random,
                                       uint8_t *response) {
    struct tpmsim_answered answered;
    memset(response, FILLED, RESPONSE_BYTES);
    uint8_t told = tpmsim_execute(device, buffer, size, player->locality, player->elapsed, random,
                                  response, &answered);
    must(told == TPMSIM_DONE, "a command is not executed");
    must(answered.size <= RESPONSE_BYTES, "a response is too long");
    must(answered.drawn <= RANDOM_BYTES, "more random bytes are drawn than there are");
    must(is_filled(response + answered.size, RESPONSE_BYTES - answered.size),
         "something is written behind a response");
    return answered;
}

/* Executes a command on the twin, which gets the random bytes that the device drew, followed by
   different bytes. */
static void execute_twin(struct player *player, const uint8_t *buffer, size_t size,
                         struct tpmsim_answered wanted, const uint8_t *response) {
    uint8_t random[RANDOM_BYTES], given[RESPONSE_BYTES];
    for (size_t i = 0; i < RANDOM_BYTES; i++)
        random[i] = i < wanted.drawn ? player->random[i] : (uint8_t)~player->random[i];
    struct tpmsim_answered answered = executed(player, &player->twin, buffer, size, random, given);
    must(answered.size == wanted.size && memcmp(given, response, wanted.size) == 0 &&
             answered.code == wanted.code && answered.check == wanted.check &&
             answered.drawn == wanted.drawn,
         "bytes behind those that were drawn matter");
}

static void execute(struct player *player, const char *hex) {
    uint8_t response[RESPONSE_BYTES], *buffer = taken(strlen(hex) / 2);
    size_t size = hex_bytes(hex, buffer);
    struct tpmsim_answered answered =
        executed(player, &player->device, buffer, size, player->random, response);
    execute_twin(player, buffer, size, answered, response);
    free(buffer);
    player->elapsed = 0;
    put_hex(response, answered.size);
    printf(" %08x %u %u\n", (unsigned)answered.code, (unsigned)answered.check,
           (unsigned)answered.drawn);
}

/* Returns the image of a device. The library writes an image only to a buffer that is large
 * enough. */
static uint8_t *image_of(struct tpmsim *device, size_t *size) {
    uint8_t none = 0;
    *size = tpmsim_save(device, &none, 0);
    uint8_t *image = taken(*size);
    must(tpmsim_save(device, image, *size) == *size, "an image has another size each time");
    return image;
}

static void print_image(const char *label, const uint8_t *image, size_t size) {
    printf("%s ", label);
    put_hex(image, size);
    putchar('\n');
}

static void print_images(struct player *player) {
    size_t size, twin_size, opened_size;
    uint8_t *image = image_of(&player->device, &size);
    uint8_t *twin = image_of(&player->twin, &twin_size);
    must(size == twin_size && memcmp(image, twin, size) == 0,
         "bytes behind those that were drawn are kept");
    must(tpmsim_open(&player->twin, image, size) == TPMSIM_DONE, "an image does not open");
    uint8_t *opened = image_of(&player->twin, &opened_size);
    print_image("image", image, size);
    print_image("opened", opened, opened_size);
    free(image);
    free(twin);
    free(opened);
}

static void begin(struct player *player) {
    uint8_t random[RANDOM_BYTES];
    count_up(random, 0);
    memset(player, 0, sizeof *player);
    must(tpmsim_manufacture(&player->device, random) == TPMSIM_DONE &&
             tpmsim_manufacture(&player->twin, random) == TPMSIM_DONE,
         "a device is not made");
}

static void end(struct player *player) {
    print_images(player);
    tpmsim_free(&player->device);
    tpmsim_free(&player->twin);
}

static void play(struct player *player, const char *line) {
    if (strcmp(line, "begin") == 0)
        begin(player);
    else if (strcmp(line, "end") == 0)
        end(player);
    else if (strcmp(line, "cmd") == 0)
        execute(player, "");
    else if (strncmp(line, "cmd ", 4) == 0)
        execute(player, line + 4);
    else if (strncmp(line, "loc ", 4) == 0)
        player->locality = (uint8_t)atoi(line + 4);
    else if (strncmp(line, "wait ", 5) == 0)
        player->elapsed += (uint32_t)strtoul(line + 5, NULL, 10);
    else if (strncmp(line, "entropy ", 8) == 0 && strlen(line + 8) == 2 * RANDOM_BYTES)
        hex_bytes(line + 8, player->random);
    else if (strcmp(line, "power") == 0)
        must(tpmsim_power_cycle(&player->device) == TPMSIM_DONE &&
                 tpmsim_power_cycle(&player->twin) == TPMSIM_DONE,
             "the power does not come back");
    else
        must(0, "a line is none");
}

int main(void) {
    struct player player = {0};
    char *line = NULL;
    size_t room = 0;
    while (getline(&line, &room, stdin) >= 0) {
        line[strcspn(line, "\n")] = '\0';
        play(&player, line);
    }
    free(line);
    return 0;
}
