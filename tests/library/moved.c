/* Plays each script on two new devices. `steady` always continues. `moved` is saved and restored at
 * random moments, into a handle that contains an earlier device:
 *
 *     moved SEED ONE_IN <SCRIPTS
 *
 * The scripts have the same form as for play.c. On average, the moved device is restored before one
 * in ONE_IN events, chosen by a random generator with the seed SEED. Both devices must return the
 * same response to each event, and have the same state text at the end of a script. In every second
 * script, the completing layer is on for both devices. Prints the numbers of events and restores,
 * and the size in bytes of the largest text. */
#define _POSIX_C_SOURCE 200809L
#include "common.h"

enum { PLACES = 2 };

struct player {
    struct tpmsim steady, places[PLACES];
    int place, completes;
    uint8_t locality;
    uint32_t elapsed;
    uint8_t random[RANDOM_BYTES];
};

static uint8_t text[TPMSIM_STATE_SIZE], other_text[TPMSIM_STATE_SIZE];
static unsigned long events, restores, scripts, one_in;
static size_t largest;
static uint64_t generator;

/* Returns the next random number of the generator, which is xorshift64. */
static uint64_t next_number(void) {
    generator ^= generator << 13;
    generator ^= generator >> 7;
    generator ^= generator << 17;
    return generator;
}

static struct tpmsim *moved(struct player *player) { return &player->places[player->place]; }

static size_t text_of(struct tpmsim *device, uint8_t *buffer) {
    size_t size = tpmsim_snapshot(device, buffer, TPMSIM_STATE_SIZE);
    must(0 < size && size <= TPMSIM_STATE_SIZE, "a state text has no size");
    return size;
}

static void have_one_text(struct tpmsim *device, struct tpmsim *other) {
    size_t size = text_of(device, text);
    must(text_of(other, other_text) == size && memcmp(text, other_text, size) == 0,
         "two devices have two texts");
    if (size > largest) largest = size;
}

/* Restores the moved device from its state text into its other handle, which contains an earlier
 * device. */
static void move(struct player *player) {
    size_t size = text_of(moved(player), text);
    struct tpmsim *before = moved(player);
    player->place = 1 - player->place;
    must(tpmsim_restore(moved(player), text, size) == TPMSIM_DONE, "a state text is not restored");
    have_one_text(before, moved(player));
    restores++;
}

static void move_at_random(struct player *player) {
    events++;
    if (next_number() % one_in == 0) move(player);
}

static struct tpmsim_answered executed(struct player *player, struct tpmsim *device,
                                       const uint8_t *buffer, size_t size, uint8_t *response) {
    struct tpmsim_answered answered;
    uint8_t told = (player->completes ? tpmsim_complete : tpmsim_execute)(
        device, buffer, size, player->locality, player->elapsed, player->random, response,
        &answered);
    must(told == TPMSIM_DONE, "a command is not executed");
    return answered;
}

static void execute(struct player *player, const char *hex) {
    uint8_t wanted[RESPONSE_BYTES], given[RESPONSE_BYTES], *buffer = taken(strlen(hex) / 2);
    size_t size = hex_bytes(hex, buffer);
    move_at_random(player);
    struct tpmsim_answered one = executed(player, &player->steady, buffer, size, wanted);
    struct tpmsim_answered two = executed(player, moved(player), buffer, size, given);
    must(one.size == two.size && memcmp(wanted, given, one.size) == 0, "two devices answer");
    must(one.drawn == two.drawn && one.code == two.code && one.check == two.check,
         "two devices took two rows");
    player->elapsed = 0;
    free(buffer);
}

static void cycle(struct player *player) {
    move_at_random(player);
    must(tpmsim_power_cycle(&player->steady) == TPMSIM_DONE &&
             tpmsim_power_cycle(moved(player)) == TPMSIM_DONE,
         "the power does not come back");
}

static void begin(struct player *player) {
    uint8_t random[RANDOM_BYTES];
    count_up(random, 0);
    player->completes = scripts++ % 2;
    player->locality = 0;
    player->elapsed = 0;
    must(tpmsim_manufacture(&player->steady, random) == TPMSIM_DONE &&
             tpmsim_manufacture(moved(player), random) == TPMSIM_DONE,
         "a device is not made");
}

static void play(struct player *player, const char *line) {
    if (strcmp(line, "begin") == 0)
        begin(player);
    else if (strcmp(line, "end") == 0)
        have_one_text(&player->steady, moved(player));
    else if (strcmp(line, "cmd") == 0)
        execute(player, "");
    else if (strncmp(line, "cmd ", 4) == 0)
        execute(player, line + 4);
    else if (strncmp(line, "loc ", 4) == 0)
        player->locality = (uint8_t)atoi(line + 4);
    else if (strncmp(line, "wait ", 5) == 0)
        player->elapsed += (uint32_t)strtoul(line + 5, NULL, 10);
    else if (strncmp(line, "entropy ", 8) == 0 && strlen(line + 8) == 2 * RANDOM_BYTES)
        hex_bytes(line + 8, player->random);
    else if (strcmp(line, "power") == 0)
        cycle(player);
    else
        must(0, "a line is none");
}

int main(int count, char **words) {
    struct player player = {0};
    char *line = NULL;
    size_t room = 0;
    must(count == 3, "the seed and the rarity are missing");
    generator = strtoull(words[1], NULL, 10) * 2 + 1;
    one_in = strtoul(words[2], NULL, 10);
    while (getline(&line, &room, stdin) >= 0) {
        line[strcspn(line, "\n")] = '\0';
        play(&player, line);
    }
    free(line);
    tpmsim_free(&player.steady);
    for (int place = 0; place < PLACES; place++) tpmsim_free(&player.places[place]);
    printf("%lu events, %lu restores, the largest text has %zu bytes\n", events, restores, largest);
    return 0;
}
