#define _GNU_SOURCE
#include "client.h"
#include "secret.h"
#include <errno.h>
#include <netinet/in.h>
#include <netinet/tcp.h>
#include <stdlib.h>
#include <string.h>
#include <sys/socket.h>
#include <unistd.h>

/* The buffers of a client for the received bytes and for the answer, with their sizes. */
struct traffic {
    size_t came;
    size_t sent;
    uint8_t request[REQUEST_MOST];
    struct answer answer;
};

struct client {
    int socket;
    struct board *board;
    bool is_of_platform;
    /* What happens to the client once it has received the answer. */
    enum outcome next;
    /* NULL if the client is idle. */
    struct traffic *traffic;
};

/*@ predicate has_traffic(struct client *client) = \valid(client) && \valid(client->traffic) &&
  @     client->traffic->came <= REQUEST_MOST &&
  @     client->traffic->sent <= client->traffic->answer.size &&
  @     client->traffic->answer.size <= ANSWER_MOST && \separated(client, client->traffic,
  @     &__fc_errno);
  @*/

struct client *client_of(int socket, struct board *board, bool is_of_platform) {
    struct client *client = malloc(sizeof *client);
    int on = 1;
    if (!client) return NULL;
    *client = (struct client){.socket = socket, .board = board, .is_of_platform = is_of_platform};
    setsockopt(socket, IPPROTO_TCP, TCP_NODELAY, &on, sizeof on);
    return client;
}

int client_socket(const struct client *client) { return client->socket; }

bool client_writes(const struct client *client) {
    return client->traffic && client->traffic->sent < client->traffic->answer.size;
}

/*@ assigns \nothing; */
static bool is_later(int error) { return error == EAGAIN || error == EWOULDBLOCK; }

/* Acknowledges received bytes at once. Clients send a request in pieces. Before each piece, their
 * hosts wait for the acknowledgement of the previous piece. Without this call, the acknowledgement
 * is delayed by 40 ms. */
/*@ assigns \nothing; */
static void acknowledge(const struct client *client) {
    int on = 1;
    setsockopt(client->socket, IPPROTO_TCP, TCP_QUICKACK, &on, sizeof on);
}

/* Writes the rest of the answer. GOES_ON means that the answer is sent, or that the rest can be
 * sent later. */
/*@ requires has_traffic(client);
  @ assigns client->traffic->sent, __fc_errno;
  @ ensures has_traffic(client);
  @ ensures client->traffic->sent == client->traffic->answer.size ==> \result == client->next ||
  @     \result == ENDS;
  @ ensures client->traffic->sent < client->traffic->answer.size ==> \result == GOES_ON ||
  @     \result == ENDS;
  @*/
static enum outcome write_answer(struct client *client) {
    struct traffic *traffic = client->traffic;
    /*@ loop invariant has_traffic(client);
      @ loop assigns client->traffic->sent, __fc_errno;
      @*/
    while (traffic->sent < traffic->answer.size) {
        ssize_t moved = send(client->socket, traffic->answer.bytes + traffic->sent,
                             traffic->answer.size - traffic->sent, MSG_NOSIGNAL);
        if (moved < 0 && errno == EINTR) continue;
        if (moved < 0) return is_later(errno) ? GOES_ON : ENDS;
        traffic->sent += (size_t)moved;
    }
    return client->next;
}

/* Executes the first of the received requests, if it is complete, and starts to write its
 * answer. */
/*@ requires has_traffic(client) && \valid(client->board) && \valid(reason) && \valid(is_done);
  @ requires client->traffic->sent == client->traffic->answer.size;
  @ requires are_apart(client->board, &client->traffic->request[0], &client->traffic->answer,
  @     reason);
  @ requires \separated(client, client->traffic, client->board, reason, is_done, &__fc_errno,
  @     &device_state,
  @     &asked_command, &asked_size, &asked_locality, &answered_size,
  @     answered + (0 .. RESPONSE_MOST - 1));
  @ ensures has_traffic(client) && client->traffic == \old(client->traffic);
  @ ensures !*is_done ==> \result == GOES_ON &&
  @     client->traffic->came == \old(client->traffic->came);
  @ ensures *is_done ==> client->traffic->came <= \old(client->traffic->came);
  @*/
static enum outcome do_request(struct client *client, bool *is_done, struct reason *reason) {
    struct traffic *traffic = client->traffic;
    size_t size = request_size(traffic->request, traffic->came, client->is_of_platform);
    *is_done = size <= traffic->came;
    if (!*is_done) return GOES_ON;
    traffic->sent = 0;
    client->next = request_do(client->board, traffic->request, client->is_of_platform,
                              &traffic->answer, reason);
    /*@ assert client->traffic == traffic; */
    /*@ assert traffic->came == \at(client->traffic->came, Pre); */
    /*@ assert traffic->sent == 0; */
    /*@ assert has_traffic(client); */
    if (client->next == FAILS) return FAILS;
    traffic->came -= size;
    memmove(traffic->request, traffic->request + size, traffic->came);
    return write_answer(client);
}

/* Executes all complete requests, as long as their answers can be sent. */
static enum outcome do_requests(struct client *client, struct reason *reason) {
    enum outcome outcome = GOES_ON;
    for (bool is_done = true; is_done && outcome == GOES_ON && !client_writes(client);)
        outcome = do_request(client, &is_done, reason);
    return outcome;
}

/* Reads once. Returns ENDS if the input has ended or failed. */
/*@ requires has_traffic(client);
  @ assigns client->traffic->came, client->traffic->request[0 .. REQUEST_MOST - 1], __fc_errno;
  @ ensures has_traffic(client) && client->traffic->came >= \old(client->traffic->came);
  @ ensures \forall integer i; 0 <= i < \old(client->traffic->came) ==>
  @     client->traffic->request[i] == \old(client->traffic->request[i]);
  @*/
static enum outcome read_some(struct client *client) {
    struct traffic *traffic = client->traffic;
    ssize_t moved = recv(client->socket, traffic->request + traffic->came,
                         REQUEST_MOST - traffic->came, 0);
    if (moved < 0) return is_later(errno) || errno == EINTR ? GOES_ON : ENDS;
    traffic->came += (size_t)moved;
    acknowledge(client);
    return moved == 0 ? ENDS : GOES_ON;
}

static bool begin_traffic(struct client *client) {
    if (!client->traffic) client->traffic = calloc(1, sizeof *client->traffic);
    return client->traffic != NULL;
}

/* Frees the buffers that an idle client does not need. Commands and answers may contain secrets. */
static void end_traffic(struct client *client) {
    secret_free(client->traffic, sizeof *client->traffic);
    client->traffic = NULL;
}

enum outcome client_go_on(struct client *client, struct reason *reason) {
    if (!begin_traffic(client)) return ENDS;
    enum outcome outcome = client_writes(client) ? write_answer(client) : read_some(client);
    if (outcome == GOES_ON && !client_writes(client)) outcome = do_requests(client, reason);
    if (outcome == GOES_ON && !client_writes(client) && client->traffic->came == 0) end_traffic(client);
    return outcome;
}

/* Reads and discards received bytes. If a socket is closed with unread bytes, the client's
 * connection is reset, and the client may lose the last answer. */
static void read_rest(const struct client *client) {
    enum { PARTS = 16 };
    uint8_t unwanted[4096];
    for (int i = 0; i < PARTS; i++)
        if (recv(client->socket, unwanted, sizeof unwanted, 0) <= 0) return;
}

void client_end(struct client *client) {
    end_traffic(client);
    read_rest(client);
    close(client->socket);
    free(client);
}
