#include "requests.h"
#include <string.h>

/* The numbers of the requests at the port for commands, and of those at the port for the
 * platform. */
enum command_request {
    HASH_START = 5,
    HASH_DATA = 6,
    HASH_END = 7,
    SEND_COMMAND = 8,
    HANDSHAKE = 15,
    SET_ALTERNATIVE_RESULT = 16
};
enum platform_request {
    POWER_ON = 1,
    POWER_OFF = 2,
    PRESENCE_ON = 3,
    PRESENCE_OFF = 4,
    CANCEL_ON = 9,
    CANCEL_OFF = 10,
    NV_ON = 11,
    NV_OFF = 12,
    KEY_CACHE_ON = 13,
    KEY_CACHE_OFF = 14,
    RESET = 17,
    RESTART = 18
};
/* The numbers of the requests that both ports accept. */
enum either_request { SESSION_END = 20, STOP = 21 };

/* The version that a handshake returns, and its features: commands are sent unchanged, and there is a
   platform. */
enum { VERSION = 1, FEATURES = 5 };

/* The results at the end of answers. */
enum { DONE = 0, UNKNOWN = 1 };

enum { NUMBER = 4, LOCALITY_AT = NUMBER, COMMAND_SIZE_AT = NUMBER + 1, COMMAND_AT = COMMAND_SIZE_AT + NUMBER };
enum { DATA_SIZE_AT = NUMBER, DATA_AT = DATA_SIZE_AT + NUMBER, COMMAND_HEAD = 10 };

/*@ requires \valid_read(bytes + (0 .. 3));
  @ assigns \nothing;
  @ ensures \result == number(bytes);
  @*/
static uint32_t number_at(const uint8_t *bytes) {
    return bytes[0] * 0x1000000u + bytes[1] * 0x10000u + bytes[2] * 0x100u + bytes[3];
}

/*@ requires \valid(answer) && answer->size <= ANSWER_MOST - 4;
  @ assigns answer->size, answer->bytes[answer->size .. answer->size + 3];
  @ ensures answer->size == \old(answer->size) + 4;
  @ ensures number(answer->bytes + \old(answer->size)) == number;
  @*/
static void add_number(struct answer *answer, uint32_t number) {
    uint8_t *bytes = answer->bytes + answer->size;
    uint32_t three = number / 0x100, two = three / 0x100, one = two / 0x100;
    bytes[0] = (uint8_t)one;
    bytes[1] = (uint8_t)(two % 0x100);
    bytes[2] = (uint8_t)(three % 0x100);
    bytes[3] = (uint8_t)(number % 0x100);
    answer->size += NUMBER;
}

/*@ requires \valid(answer) && answer->size <= ANSWER_MOST - 4;
  @ assigns answer->size, answer->bytes[answer->size .. answer->size + 3];
  @ ensures answer->size == \old(answer->size) + 4 && \result == GOES_ON;
  @*/
static enum outcome done(struct answer *answer) {
    add_number(answer, DONE);
    return GOES_ON;
}

/* Returns the end of a request with a size field at this offset. If the field's value is too large,
   only the first `most_head` bytes after the field are read: the command's header, or nothing. */
/*@ requires \valid_read(bytes + (0 .. size - 1)) && size_at <= 5 && most_head <= COMMAND_HEAD;
  @ assigns \nothing;
  @ ensures size < size_at + 4 ==> \result == size_at + 4;
  @ ensures size >= size_at + 4 ==> \result == size_at + 4 +
  @     (number(bytes + size_at) > COMMAND_MOST ? most_head : number(bytes + size_at));
  @*/
static size_t sized_end(const uint8_t *bytes, size_t size, size_t size_at, size_t most_head) {
    size_t start = size_at + NUMBER;
    if (size < start) return start;
    uint32_t told = number_at(bytes + size_at);
    return start + (told > COMMAND_MOST ? most_head : told);
}

size_t request_size(const uint8_t *bytes, size_t size, bool is_of_platform) {
    if (size < NUMBER || is_of_platform) return NUMBER;
    switch (number_at(bytes)) {
    case SEND_COMMAND: return sized_end(bytes, size, COMMAND_SIZE_AT, COMMAND_HEAD);
    case HASH_DATA: return sized_end(bytes, size, DATA_SIZE_AT, 0);
    case HANDSHAKE:
    case SET_ALTERNATIVE_RESULT: return 2 * NUMBER;
    default: return NUMBER;
    }
}

/* Executes a command. If it is too long, the answer is COMMAND_SIZE, and the connection ends. */
/*@ requires \valid(board) && \valid(answer) && \valid(reason) && answer->size == 0;
  @ requires \valid_read(bytes + (0 .. 8 + command_size(number(bytes + 5))));
  @ requires are_apart(board, bytes, answer, reason);
  @ assigns *board, *answer, *reason, device_state, asked_command, asked_size, asked_locality,
  @     answered_size, answered[0 .. RESPONSE_MOST - 1];
  @ ensures asked_command == bytes + 9 && asked_locality == \old(bytes[4]);
  @ ensures asked_size == \old(command_size(number(bytes + 5)));
  @ ensures answer->size <= ANSWER_MOST;
  @ ensures \result != FAILS ==> answer->size == answered_size + 8;
  @ ensures \result != FAILS ==>
  @     \forall integer i; 4 <= i < 4 + answered_size ==> answer->bytes[i] == answered[i - 4];
  @ ensures \result == FAILS ||
  @     \result == (\old(number(bytes + 5)) > COMMAND_MOST ? ENDS : GOES_ON);
  @*/
static enum outcome send_command(struct board *board, const uint8_t *bytes, struct answer *answer,
                                 struct reason *reason) {
    struct response response;
    uint32_t size = number_at(bytes + COMMAND_SIZE_AT);
    bool is_too_long = size > COMMAND_MOST;
    if (!board_execute(board, bytes + COMMAND_AT, is_too_long ? COMMAND_HEAD : size,
                       bytes[LOCALITY_AT], &response, reason))
        return FAILS;
    add_number(answer, (uint32_t)response.size);
    memcpy(answer->bytes + answer->size, response.bytes, response.size);
    answer->size += response.size;
    done(answer);
    return is_too_long ? ENDS : GOES_ON;
}

/* A client of version 0 is refused. */
/*@ requires \valid_read(bytes + (0 .. 7)) && \valid(answer) && answer->size == 0;
  @ requires \separated(bytes + (0 .. 7), answer);
  @ assigns answer->size, answer->bytes[0 .. 11];
  @ ensures answer->size == 12 && \result == (number(bytes + 4) == 0 ? ENDS : GOES_ON);
  @*/
static enum outcome handshake(const uint8_t *bytes, struct answer *answer) {
    add_number(answer, VERSION);
    add_number(answer, FEATURES);
    done(answer);
    return number_at(bytes + NUMBER) == 0 ? ENDS : GOES_ON;
}

/*@ requires \valid(board) && \valid(answer) && answer->size == 0;
  @ requires \valid_read(bytes + (0 .. 7 + data_size(number(bytes + 4))));
  @ requires \separated(board, bytes + (0 .. REQUEST_MOST - 1), answer);
  @ assigns *board, answer->size, answer->bytes[0 .. 3];
  @ ensures answer->size == 4 &&
  @     \result == (\old(number(bytes + 4)) <= COMMAND_MOST ? GOES_ON : ENDS);
  @*/
static enum outcome hash_data(struct board *board, const uint8_t *bytes, struct answer *answer) {
    uint32_t size = number_at(bytes + DATA_SIZE_AT);
    if (size <= COMMAND_MOST) board_add_to_launch(board, bytes + DATA_AT, size);
    done(answer);
    return size <= COMMAND_MOST ? GOES_ON : ENDS;
}

/*@ requires \valid(answer) && answer->size == 0;
  @ assigns answer->size, answer->bytes[0 .. 3];
  @ ensures answer->size == 4 && \result == ENDS;
  @*/
static enum outcome unknown(struct answer *answer) {
    add_number(answer, UNKNOWN);
    return ENDS;
}

/*@ requires \valid(answer) && answer->size == 0;
  @ assigns answer->size, answer->bytes[0 .. 3];
  @ ensures answer->size == (is_done ? 4 : 0) && \result == (is_done ? GOES_ON : FAILS);
  @*/
static enum outcome done_if(bool is_done, struct answer *answer) {
    return is_done ? done(answer) : FAILS;
}

/*@ requires \valid(board) && \valid(answer) && \valid(reason) && answer->size == 0;
  @ requires request == number(bytes) && \valid_read(bytes + (0 .. size_of_request(bytes) - 1));
  @ requires are_apart(board, bytes, answer, reason);
  @ assigns *board, *answer, *reason, device_state, asked_command, asked_size, asked_locality,
  @     answered_size, answered[0 .. RESPONSE_MOST - 1];
  @ ensures answer->size <= ANSWER_MOST && \result != STOPS;
  @ ensures \result != FAILS && request == SEND_COMMAND ==> answer->size == answered_size + 8 &&
  @     \forall integer i; 4 <= i < 4 + answered_size ==> answer->bytes[i] == answered[i - 4];
  @*/
static enum outcome do_command(struct board *board, uint32_t request, const uint8_t *bytes,
                               struct answer *answer, struct reason *reason) {
    switch (request) {
    case SEND_COMMAND: return send_command(board, bytes, answer, reason);
    case HANDSHAKE: return handshake(bytes, answer);
    case SET_ALTERNATIVE_RESULT: return done(answer);
    case HASH_START: return done_if(board_begin_launch(board, reason), answer);
    case HASH_DATA: return hash_data(board, bytes, answer);
    case HASH_END: return done_if(board_end_launch(board, reason), answer);
    default: break;
    }
    return unknown(answer);
}

/* Requests about physical presence, cancelling, NV memory and the cache of keys do not affect the
 * device. */
/*@ requires \valid(board) && \valid(answer) && \valid(reason) && answer->size == 0;
  @ requires \separated(board, answer, reason, &device_state);
  @ assigns *board, *answer, *reason, device_state;
  @ ensures answer->size <= 4 && \result != STOPS;
  @*/
static enum outcome do_platform(struct board *board, uint32_t request, struct answer *answer,
                                struct reason *reason) {
    switch (request) {
    case POWER_ON: return done_if(board_power_on(board, reason), answer);
    case POWER_OFF: board_power_off(board); return done(answer);
    case RESET:
    case RESTART: return done_if(board_reset(board, reason), answer);
    case PRESENCE_ON:
    case PRESENCE_OFF:
    case CANCEL_ON:
    case CANCEL_OFF:
    case NV_ON:
    case NV_OFF:
    case KEY_CACHE_ON:
    case KEY_CACHE_OFF: return done(answer);
    default: break;
    }
    return unknown(answer);
}

enum outcome request_do(struct board *board, const uint8_t *bytes, bool is_of_platform,
                        struct answer *answer, struct reason *reason) {
    uint32_t request = number_at(bytes);
    answer->size = 0;
    if (request == SESSION_END) return ENDS;
    if (request == STOP) {
        done(answer);
        return STOPS;
    }
    return is_of_platform ? do_platform(board, request, answer, reason)
                          : do_command(board, request, bytes, answer, reason);
}
