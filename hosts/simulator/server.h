/* Serves all clients of all devices, in one thread, until a signal or a client ends the
 * simulator. */
#ifndef SERVER_H
#define SERVER_H
#include "board.h"
#include "listeners.h"
#include "reason.h"

/* Makes SIGTERM and SIGINT end the wait of server_run. Before this call, they end the process. */
bool server_take_signals(struct reason *reason);

struct server;

/* Makes a server for these boards. There is one board for every two listeners. The boards and
   listeners must exist as long as the server. On failure, returns NULL and sets `reason`. */
struct server *server_of(const struct listeners *listeners, struct board *boards,
                         struct reason *reason);

/* Serves until a signal or a client ends the simulator, or all devices have failed. If a device
 * fails, reports the reason on standard error, and closes the connections of its clients. If the
 * server itself fails, returns false and sets `reason`. */
bool server_run(struct server *server, struct reason *reason);

/* Closes all connections of a server, which may be NULL. Only then does the client that stopped the
 * simulator see its connection close, so close the devices before this call. */
void server_end(struct server *server);

#endif
