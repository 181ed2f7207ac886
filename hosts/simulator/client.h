/* One client: its socket, the received bytes that are not a complete request yet, and the part of
   an answer that has not been sent yet. If a client does not read its answer, nothing more is read
   from it. */
#ifndef CLIENT_H
#define CLIENT_H
#include "requests.h"
#include <stdbool.h>

struct client;

/* Makes a client for a board. Returns NULL if memory is exhausted; the caller then still owns the
 * socket. */
struct client *client_of(int socket, struct board *board, bool is_of_platform);

int client_socket(const struct client *client);

/* Whether client_go_on must wait until the socket is writable, rather than readable. */
bool client_writes(const struct client *client);

/* Reads and writes as much as is possible now. Returns ENDS if the client closed the connection or
   must be closed, STOPS if it asked to stop the simulator, and FAILS, after setting `reason`, if a
   device cannot continue. */
enum outcome client_go_on(struct client *client, struct reason *reason);

/* Closes the socket. */
void client_end(struct client *client);

#endif
