/* The power of a device, and the signals of its platform. Both ports of a device share one board. */
#ifndef BOARD_H
#define BOARD_H
#include "device.h"
#include "digests.h"
#include <stdbool.h>

struct board {
    struct device *device;
    bool is_powered;
    /* Whether a dynamic launch has started and its code is being hashed. */
    bool is_launching;
    struct digests launched;
    /* Whether the device has failed. It then has no clients, and gets no new ones. */
    bool has_failed;
};

/* If the device cannot continue, each of the following functions returns false and sets `reason`.
 * The device has then failed. */

/* Executes a command. The response is empty if the power is off, and is LOCALITY for a locality
 * above 4. */
/*@ requires \valid(board) && \valid_read(buffer + (0 .. size - 1)) && \valid(response) && \valid(reason);
  @ assigns *board, *response, *reason, device_state, asked_command, asked_size, asked_locality,
  @     answered_size, answered[0 .. RESPONSE_MOST - 1];
  @ ensures asked_command == buffer && asked_size == size && asked_locality == locality;
  @ ensures \result ==> response->size == answered_size && answered_size <= RESPONSE_MOST;
  @ ensures \result ==> \forall integer i; 0 <= i < answered_size ==>
  @     response->bytes[i] == answered[i];
  @*/
bool board_execute(struct board *board, const uint8_t *buffer, size_t size, uint8_t locality,
                   struct response *response, struct reason *reason);

/* Turns the power on. If it was off, this power-cycles the device. */
/*@ assigns *board, *reason, device_state; */
bool board_power_on(struct board *board, struct reason *reason);
/*@ assigns *board; */
void board_power_off(struct board *board);

/* Power-cycles the device if its power is on. */
/*@ assigns *board, *reason, device_state; */
bool board_reset(struct board *board, struct reason *reason);

/* Starts a dynamic launch, which resets PCRs 17 to 22. The launch does not start if the power is
 * off, or if the reset of a PCR is refused. */
/*@ assigns *board, *reason, device_state; */
bool board_begin_launch(struct board *board, struct reason *reason);
/*@ requires \valid_read(text + (0 .. size - 1));
  @ assigns *board;
  @*/
void board_add_to_launch(struct board *board, const uint8_t *text, size_t size);

/* Extends PCR 17 with the digests of the added data, if a launch has started. */
/*@ assigns *board, *reason, device_state; */
bool board_end_launch(struct board *board, struct reason *reason);

#endif
