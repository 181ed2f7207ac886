/* The requests of the protocol: how a client's bytes are split into requests, and what each request does.
   Numbers are four bytes long, big-endian. */
#ifndef REQUESTS_H
#define REQUESTS_H
#include "board.h"
#include "reason.h"
#include <stdbool.h>
#include <stddef.h>
#include <stdint.h>

enum {
    /* The maximum size of a request: a number, a locality, a size, and a command. */
    REQUEST_MOST = 4 + 1 + 4 + COMMAND_MOST,
    /* The maximum size of an answer: a size, a response, and the number that ends each answer. */
    ANSWER_MOST = 4 + RESPONSE_MOST + 4
};

/* number: the value of four bytes. command_size, data_size: what follows a size field, if its value is too large only
   a command's header or nothing. size_of_request: the size of a request to the port for commands, by its number. */
/*@ logic integer number(uint8_t *bytes) =
  @     ((bytes[0] * 256 + bytes[1]) * 256 + bytes[2]) * 256 + bytes[3];
  @ logic integer command_size(integer told) = told > COMMAND_MOST ? 10 : told;
  @ logic integer data_size(integer told) = told > COMMAND_MOST ? 0 : told;
  @ logic integer size_of_request(uint8_t *bytes) =
  @     number(bytes) == 8 ? 9 + command_size(number(bytes + 5)) :
  @     number(bytes) == 6 ? 8 + data_size(number(bytes + 4)) :
  @     number(bytes) == 15 || number(bytes) == 16 ? 8 : 4;
  @ predicate is_whole(uint8_t *bytes, integer size, integer is_of_platform) = size >= 4 &&
  @     (is_of_platform != 0 || ((number(bytes) == 8 ==> size >= 9) &&
  @                              (number(bytes) == 6 ==> size >= 8) && size >= size_of_request(bytes)));
  @*/

/* Returns the size of the first request in these bytes, or a lower bound. If the result is larger
   than `size`, more bytes have to arrive first. */
/*@ requires \valid_read(bytes + (0 .. size - 1));
  @ assigns \nothing;
  @ ensures 4 <= \result <= REQUEST_MOST;
  @ ensures \result <= size ==> \result == (is_of_platform ? 4 : size_of_request(bytes));
  @ ensures is_whole(bytes, size, is_of_platform) ==> \result <= size;
  @*/
size_t request_size(const uint8_t *bytes, size_t size, bool is_of_platform);

/* The effect of a request on the connection, or on the simulator, after the answer. */
enum outcome { GOES_ON, ENDS, STOPS, FAILS };

struct answer {
    size_t size;
    uint8_t bytes[ANSWER_MOST];
};

/*@ predicate are_apart(struct board *board, uint8_t *bytes, struct answer *answer,
  @                     struct reason *reason) =
  @     \separated(board, bytes + (0 .. REQUEST_MOST - 1), answer, reason,
  @                answered + (0 .. RESPONSE_MOST - 1),
  @                &device_state, &asked_command, &asked_size, &asked_locality, &answered_size);
  @*/

/* Executes a complete request, and writes its answer. If the device cannot continue, returns FAILS
 * and sets `reason`. */
/*@ requires \valid(board) && \valid(answer) && \valid(reason) && \valid_read(bytes + (0 .. 3));
  @ requires !is_of_platform ==> \valid_read(bytes + (0 .. size_of_request(bytes) - 1));
  @ requires are_apart(board, bytes, answer, reason);
  @ assigns *board, *answer, *reason, device_state, asked_command, asked_size, asked_locality,
  @     answered_size, answered[0 .. RESPONSE_MOST - 1];
  @ ensures answer->size <= ANSWER_MOST;
  @ ensures \result == STOPS <==> \old(number(bytes)) == 21;
  @ ensures \result != FAILS && !is_of_platform && \old(number(bytes)) == 8 ==>
  @     answer->size == answered_size + 8 &&
  @     \forall integer i; 4 <= i < 4 + answered_size ==> answer->bytes[i] == answered[i - 4];
  @*/
enum outcome request_do(struct board *board, const uint8_t *bytes, bool is_of_platform,
                        struct answer *answer, struct reason *reason);

#endif
