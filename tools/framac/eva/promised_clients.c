/* client.h and device.h: the conditions that the caller must meet, and any result. The list simulator in tests/hosts is of
 * the real functions. */
#include "any.h"
#include "client.h"

struct device {
    unsigned number;
};

struct client {
    int socket;
    struct board *board;
};

static bool any_result(struct reason *reason) {
    any_text(reason->text, sizeof reason->text);
    reason->told = (uint8_t)ANY(0, 21);
    return MAY;
}

/*@ requires \valid_read(options) && \valid(reason) && number < options->devices;
  @ requires options->folder == \null || valid_read_string(options->folder);
  @ requires options->image == \null || valid_read_string(options->image);
  @ requires options->record == \null || valid_read_string(options->record);
  @ requires options->seed_size <= SEED_BYTES && options->force <= TPMSIM_FORCE_ALWAYS && options->keep <= 99;
  @ requires is_read((char *)options->seed, options->seed_size); */
struct device *device_open(const struct options *options, unsigned number, struct reason *reason) {
    struct device *device = malloc(sizeof *device);
    if (device && any_result(reason)) {
        device->number = number;
        return device;
    }
    any_result(reason);
    free(device);
    return NULL;
}

/*@ requires (device == \null || \valid(device)) && \valid(reason); */
bool device_close(struct device *device, struct reason *reason) {
    free(device);
    return any_result(reason);
}

/*@ requires socket >= 0 && \valid(board); */
struct client *client_of(int socket, struct board *board, bool is_of_platform) {
    struct client *client = malloc(sizeof *client);
    if (client) *client = (struct client){.socket = socket, .board = board};
    return client;
}

/*@ requires \valid_read(client) && \initialized(&client->socket); */
int client_socket(const struct client *client) { return client->socket; }

/*@ requires \valid_read(client); */
bool client_writes(const struct client *client) { return MAY; }

/*@ requires \valid(client) && \valid(reason) && \valid(client->board); */
enum outcome client_go_on(struct client *client, struct reason *reason) {
    if (MAY && !any_result(reason)) return FAILS;
    return (enum outcome)ANY(GOES_ON, STOPS);
}

/*@ requires \valid(client); */
void client_end(struct client *client) {
    close(client->socket);
    free(client);
}
