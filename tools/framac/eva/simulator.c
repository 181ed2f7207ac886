/* A client of the simulator: its connection carries any bytes, for as long as it likes. The device is in memory. */
#include "any.h"
#include "client.h"

static struct options options;
static struct board board;

int main(void) {
    struct reason reason;
    options.completes = MAY;
    options.is_timeless = MAY;
    options.devices = 1;
    options.seed_size = Frama_C_size_t_interval(0, SEED_BYTES);
    any_bytes(options.seed, SEED_BYTES);
    board.device = device_open(&options, 0, &reason);
    if (!board.device) return 1;
    struct client *client = client_of(ANY(0, INT_MAX), &board, MAY);
    if (!client) return 1;
    enum outcome outcome = GOES_ON;
    while (outcome == GOES_ON) outcome = client_go_on(client, &reason);
    client_end(client);
    device_close(board.device, &reason);
    return 0;
}
