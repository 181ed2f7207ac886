/* The words that configure the module: `state=DIR,rm` and so on. */
#ifndef WORDS_H
#define WORDS_H
#include "kept.h"

/* The list of all words, for messages. */
#define WORDS_WANTED                                                                               \
    "state=DIR, device, complete, rm, norm, cut, keep=0 to 99, locality=0 to 4, image=FILE, "        \
    "random=HEX, force=never, force=power or force=always"

/* The number of past journals that stay in a folder if no word says otherwise. */
enum { WORDS_KEEP = 1 };

/* The parsed words. `options` points into `text`. The completing layer is on unless the words
 * include `device`. */
struct words {
    /* A copy of the words, without its last 0 `size` bytes long. */
    char *text;
    size_t size;
    struct kept_options options;
    uint8_t locality;
    /* Whether a process, when it ends, flushes the objects and sessions that it loaded. Without
     * the words `rm` and `norm`, tools of tpm2-tools do if the folder has the completing layer:
     * each tool reads what it needs from a context or a handle, as with a resource manager. */
    bool flushes;
    uint8_t random[256];
};

/* The value of a decimal number, and of a hex digit.

   all_decimal: the first `size` characters are decimal digits. hex: 16 for a character that is not
   a hex digit. */
/*@ predicate all_decimal(char *text, integer size) =
  @     \forall integer i; 0 <= i < size ==> '0' <= text[i] <= '9';
  @ axiomatic Decimal {
  @     logic integer decimal(char *text, integer size) reads text[0 .. size - 1];
  @     axiom no_digit: \forall char *text; decimal(text, 0) == 0;
  @     axiom digits: \forall char *text, integer size; size > 0 ==>
  @         decimal(text, size) == 10 * decimal(text, size - 1) + (text[size - 1] - '0');
  @ }
  @ logic integer hex(integer c) = '0' <= c <= '9' ? c - '0' : 'a' <= c <= 'f' ? c - 'a' + 10
  @     : 'A' <= c <= 'F' ? c - 'A' + 10 : 16;
  @*/

/* Reads words that are separated by commas; NULL and an empty text contain none. If a word is
 * unknown, repeated or excluded by another one, or if memory is exhausted, returns false and
 * sets `reason`. */
bool words_read(struct words *words, const char *text, struct reason *reason);

/* Clears the words and frees their text, because random bytes are a secret. */
void words_free(struct words *words);

/* Reads a decimal number of at most `most`, which consists only of digits. */
/*@ requires \valid_read(text + (0 .. size - 1)) && \valid(number);
  @ requires \separated(text + (0 .. size - 1), number);
  @ assigns *number;
  @ ensures \result ==> size > 0 && all_decimal(text, size);
  @ ensures \result ==> *number == decimal(text, size) && *number <= most;
  @ ensures size > 0 && all_decimal(text, size) &&
  @     (\forall integer i; 0 < i <= size ==> decimal(text, i) <= most) ==> \result;
  @*/
bool words_number(const char *text, size_t size, unsigned most, unsigned *number);

/* Reads bytes, each in two hex digits in either case. Returns their number, or 0 if the text does
 * not have this form, or encodes more than `most` bytes. */
/*@ requires \valid_read(text + (0 .. size - 1)) && \valid(bytes + (0 .. most - 1));
  @ requires \separated(text + (0 .. size - 1), bytes + (0 .. most - 1));
  @ assigns bytes[0 .. most - 1];
  @ ensures \result == 0 || (\result == size / 2 && size % 2 == 0 && \result <= most);
  @ ensures \forall integer i; 0 <= i < 2 * \result ==> hex(text[i]) < 16;
  @ ensures \forall integer i; 0 <= i < \result ==>
  @     bytes[i] == 16 * hex(text[2 * i]) + hex(text[2 * i + 1]);
  @ ensures \result == 0 ==> size == 0 || size % 2 == 1 || size / 2 > most ||
  @     (\exists integer i; 0 <= i < size && hex(text[i]) == 16);
  @*/
size_t words_hex(const char *text, size_t size, uint8_t *bytes, size_t most);

/* Reads the value of `force=` as a number of tpmsim_force: never, power or always. */
bool words_force(const char *word, uint8_t *force);

#endif
