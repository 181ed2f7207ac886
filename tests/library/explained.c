/* Executes commands and logs them with tpmsim_log.h, and prints their names with tpmsim_names.h:

       explained LOG

   The completing layer answers two commands. The read of an index uses a wrong password. */
#include "common.h"
#include "tpmsim_log.h"
#include "tpmsim_names.h"

static tpmsim device;
static uint8_t random_bytes[RANDOM_BYTES], response[RESPONSE_BYTES];

static const uint8_t DEFINE[] = {
    0x80, 2, 0, 0, 0, 0x31, 0, 0, 0x01, 0x2a, 0x40, 0, 0, 0x01, 0,    0, 0, 9, 0x40, 0, 0, 9, 0, 0, 0,
    0,    0, 0, 4, 'g', 'o', 'o', 'd', 0, 14, 1, 0, 0, 1, 0, 11, 2, 4, 0, 4, 0, 0, 0, 8};
static const uint8_t WRITE[] = {0x80, 2, 0,    0, 0, 0x2b, 0, 0,   0x01, 0x37, 1,   0, 0, 1, 1,
                                0,    0, 1,    0, 0, 0,    13, 0x40, 0,   0,    9,   0, 0, 0, 0,
                                4,    'g', 'o', 'o', 'd', 0, 4, 1, 2, 3, 4, 0, 0};
static const uint8_t READ[] = {0x80, 2, 0, 0, 0, 0x27, 0, 0, 0x01, 0x4e, 1, 0, 0, 1, 1, 0, 0, 1, 0, 0,
                               0, 13, 0x40, 0, 0, 9, 0, 0, 0, 0, 4, 'g', 'o', 'o', 'D', 0, 4, 0, 0};

static const uint8_t STIR_RANDOM[] = {0x80, 1, 0, 0, 0, 13, 0, 0, 0x01, 0x46, 0, 1, 7};
static const uint8_t HASH_SEQUENCE_START[] = {0x80, 1, 0, 0, 0, 14, 0, 0, 0x01, 0x86, 0, 0, 0, 11};

static void play(FILE *log, uint8_t completes, const uint8_t *buffer, size_t size) {
    tpmsim_answered told;
    char text[5], code[TPMSIM_CODE_TEXT_SIZE];
    uint8_t done = tpmsim_log_execute(log, &device, completes, buffer, size, completes, completes,
                                      random_bytes, response, &told);
    must(done == TPMSIM_DONE, "no device");
    printf("%s by %s: %s\n", tpmsim_command_name(told.code), tpmsim_check_text(told.check, text),
           tpmsim_code_text(code_of(response), code));
}

static void check_texts(void) {
    static const struct {
        uint8_t check;
        const char *text;
    } CHECKS[] = {{0, "ok"},   {1, "G1"},    {9, "G9"},    {11, "G11"}, {20, "G20"},
                  {21, "A1"},  {30, "A10"},  {119, "A99"}, {120, "A100"}, {254, "A234"},
                  {255, "M"}};
    char text[5];
    for (size_t i = 0; i < sizeof CHECKS / sizeof *CHECKS; i++)
        must(!strcmp(tpmsim_check_text(CHECKS[i].check, text), CHECKS[i].text), CHECKS[i].text);
}

static void check_names(void) {
    static const struct {
        uint32_t code;
        const char *text;
    } CODES[] = {{0, "SUCCESS"}, {0x98e, "AUTH_FAIL/s1 (98E)"}, {0x1c4, "VALUE/p1 (1C4)"}, {0x18b, "HANDLE/h1 (18B)"},
                 {0x084, "VALUE (084)"}, {0x907, "LOCALITY (907)"}, {0xfff, "unknown/p15 (FFF)"},
                 {0xffffffff, "unknown/p15 (FFFFFFFF)"}};
    char text[TPMSIM_CODE_TEXT_SIZE];
    for (size_t i = 0; i < sizeof CODES / sizeof *CODES; i++)
        must(!strcmp(tpmsim_code_text(CODES[i].code, text), CODES[i].text), CODES[i].text);
    must(!strcmp(tpmsim_command_name(0x159), "RSA_Decrypt"), "RSA_Decrypt");
    must(!strcmp(tpmsim_command_name(0xbad), "unknown command"), "a code without a command");
}

int main(int count, char **words) {
    must(count == 2, "a log is named");
    FILE *log = fopen(words[1], "w");
    must(log != NULL, "the log");
    check_texts();
    check_names();
    count_up(random_bytes, 1);
    must(tpmsim_log_begin(log, &device) == 0, "no device yet");
    must(tpmsim_log_power(log, &device) == TPMSIM_NO_DEVICE, "no device yet");
    must(!tpmsim_manufacture(&device, random_bytes), "no memory");
    must(tpmsim_log_begin(log, &device) > 0, "a state");
    must(tpmsim_log_power(log, &device) == TPMSIM_DONE, "power");
    play(log, 0, STARTUP, sizeof STARTUP);
    play(log, 0, GET_RANDOM, sizeof GET_RANDOM);
    play(log, 1, STIR_RANDOM, sizeof STIR_RANDOM);
    play(log, 1, HASH_SEQUENCE_START, sizeof HASH_SEQUENCE_START);
    play(log, 0, STIR_RANDOM, sizeof STIR_RANDOM);
    play(log, 1, DEFINE, sizeof DEFINE);
    play(log, 0, WRITE, sizeof WRITE);
    play(log, 0, READ, sizeof READ);
    must(!fclose(log), "the log is not written");
    tpmsim_free(&device);
}
