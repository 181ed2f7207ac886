#define _GNU_SOURCE
#include "options.h"
#include "past.h"
#include "words.h"
#include <arpa/inet.h>
#include <getopt.h>
#include <stdio.h>
#include <stdlib.h>
#include <string.h>
#include <sys/socket.h>

enum word { PORT = 1, BIND, STATE, IMAGE, RECORD, SEED, FORCE, KEEP, CLOCK, DEVICES, COMPLETE, HELP,
            VERSION };

static const struct option WORDS[] = {
    {"port", required_argument, NULL, PORT},       {"bind", required_argument, NULL, BIND},
    {"state", required_argument, NULL, STATE},     {"image", required_argument, NULL, IMAGE},
    {"record", required_argument, NULL, RECORD},   {"seed", required_argument, NULL, SEED},
    {"force", required_argument, NULL, FORCE},     {"keep", required_argument, NULL, KEEP},
    {"clock", required_argument, NULL, CLOCK},     {"devices", required_argument, NULL, DEVICES},
    {"complete", no_argument, NULL, COMPLETE},     {"help", no_argument, NULL, HELP},
    {"version", no_argument, NULL, VERSION},       {NULL, 0, NULL, 0}};

static const char HELP_TEXT[] =
    "Usage: tpmsim-simulator [OPTION]..\n"
    "Serve a TPM by the protocol of Microsoft's simulator, which libtss2's mssim and IBM's TSS speak:\n"
    "commands at a port, and the platform's signals at the next one. Print the address and the port\n"
    "of each device as soon as it is served.\n"
    "\n"
    "  --port N        Port for commands, or 0 for two free ports [0 to 65534, default: 2321]\n"
    "  --bind ADDRESS  Address to listen on, in numbers [default: 127.0.0.1]\n"
    "  --state DIR     Keep the device in this folder; create it if it is missing\n"
    "  --force WHEN    Sync the folder to disk: power, always or never [default: power]\n"
    "  --keep N        Keep the last N finished journals in the folder [0 to 99, default: 0]\n"
    "  --image FILE    Image file (non-volatile state); create it if it is missing\n"
    "  --record DIR    Record each time of power as a journal, DIR/boot-N.tpm\n"
    "  --seed HEX      Derive all random bytes from these 1 to 256 bytes, so that runs repeat\n"
    "  --clock WORD    Time of a device in memory: host, or commands, which stops it [default: host]\n"
    "  --complete      Let the completing layer answer what the device lacks\n"
    "  --devices K     Serve K devices, each with its own two ports: N and N+1, N+2 and N+3, and so on\n"
    "                  [default: 1]\n"
    "  --help          Print this help\n"
    "  --version       Print the version\n"
    "\n"
    "Without --state and --image the device ends with the simulator. SIGTERM, SIGINT and a client's\n"
    "request to stop end it. If one of several devices fails, only its clients lose their connections.\n"
    "The status is 2 if the words are wrong, and 3 if a device cannot be listened for, opened or kept.\n";

/* Prints what is wrong with the command line. */
static enum options_read wrong(const char *said) {
    fprintf(stderr, "tpmsim-simulator: %s\n", said);
    return OPTIONS_WRONG;
}

static const char *name_of(enum word word) {
    const struct option *option = WORDS;
    while (option->name && option->val != (int)word) option++;
    return option->name ? option->name : "";
}

/* Reads a decimal number of at most nine digits. */
static bool read_number(const char *text, unsigned most, unsigned *number) {
    return strlen(text) <= 9 && words_number(text, strlen(text), most, number);
}

static bool is_address(const char *text) {
    unsigned char room[sizeof(struct in6_addr)];
    return inet_pton(AF_INET, text, room) == 1 || inet_pton(AF_INET6, text, room) == 1;
}

static bool read_seed(struct options *options, const char *text) {
    options->seed_size = words_hex(text, strlen(text), options->seed, SEED_BYTES);
    return options->seed_size > 0;
}

static bool read_clock(struct options *options, const char *text) {
    options->is_timeless = strcmp(text, "commands") == 0;
    return options->is_timeless || strcmp(text, "host") == 0;
}

/* Reads the value of an option. */
static bool read_value(struct options *options, enum word word, const char *text) {
    unsigned number = 0;
    bool is_good = true;
    switch (word) {
    case PORT:
        is_good = read_number(text, UINT16_MAX - 1, &number);
        options->port = (uint16_t)number;
        return is_good;
    case DEVICES: return read_number(text, MOST_DEVICES, &options->devices) && options->devices > 0;
    case KEEP: return read_number(text, PAST_MOST, &options->keep);
    case BIND: options->address = text; return is_address(text);
    case STATE: options->folder = text; return *text != 0;
    case IMAGE: options->image = text; return *text != 0;
    case RECORD: options->record = text; return *text != 0;
    case SEED: return read_seed(options, text);
    case FORCE: return words_force(text, &options->force);
    case CLOCK: return read_clock(options, text);
    default: options->completes = true; return true;
    }
}

/* Returns a message about options that cannot be combined, or NULL. */
static const char *clash_in(const struct options *options, bool has_force, bool has_keep) {
    if (options->folder && (options->image || options->record || options->is_timeless))
        return "--state goes without --image, --record and --clock commands";
    if (has_force && !options->folder) return "--force is allowed only with --state";
    if (has_keep && !options->folder) return "--keep is allowed only with --state";
    if (options->devices > 1 && options->image) return "--image has the state of one device";
    if (options->port + 2 * (options->devices - 1) > UINT16_MAX - 1)
        return "--port and --devices need ports above 65535; take a lower --port";
    return NULL;
}

enum options_read options_read(struct options *options, int count, char **words) {
    bool has_force = false, has_keep = false;
    int word;
    *options = (struct options){.port = 2321, .address = "127.0.0.1", .devices = 1,
                                .force = TPMSIM_FORCE_POWER};
    while ((word = getopt_long(count, words, "", WORDS, NULL)) != -1) {
        if (word == HELP) fputs(HELP_TEXT, stdout);
        if (word == VERSION)
            printf("tpmsim-simulator %u.%u.%u\n", TPMSIM_VERSION_NUMBER >> 16,
                   TPMSIM_VERSION_NUMBER >> 8 & 255, TPMSIM_VERSION_NUMBER & 255);
        if (word == HELP || word == VERSION) return OPTIONS_SHOWN;
        if (word == '?') return OPTIONS_WRONG;
        if (!read_value(options, (enum word)word, optarg)) {
            fprintf(stderr, "tpmsim-simulator: --%s does not take %s; see tpmsim-simulator --help\n",
                    name_of((enum word)word), optarg);
            return OPTIONS_WRONG;
        }
        has_force = has_force || word == FORCE;
        has_keep = has_keep || word == KEEP;
    }
    if (optind < count) {
        fprintf(stderr, "tpmsim-simulator: %s belongs to no option; see tpmsim-simulator --help\n",
                words[optind]);
        return OPTIONS_WRONG;
    }
    const char *clash = clash_in(options, has_force, has_keep);
    return clash ? wrong(clash) : OPTIONS_GOOD;
}
