/* Computes a device by executing a world's history from the beginning. Like the definition, this is
 * a fold over the commands. A keeper is used only to write the head for a new device. */
#ifndef KEEPER_FOLD_H
#define KEEPER_FOLD_H
#include "../common/same_state.h"
#include "keeper_folder.h"

/* The journal's head is stored after every EACH commands, so that the fold can return to that
 * state. */
enum { EACH = 16, HEAD_BYTES = 128 * 1024 };

/* Kinds of commands, and the offsets of the fields that follow the clock or the elapsed time in a
   TPM command. */
enum { BY_CLOCK = 0, CYCLE = 1, RESTORING = 2, BY_ELAPSED = 3, NO_KIND = 9, MOMENT_AT = 1 };
enum { LOCALITY_AFTER = 0, COMPLETES_AFTER = 1, RANDOM_AFTER = 2, BUFFER_AFTER = 258 };

typedef struct mark {
    int commands;
    uint64_t time;
    size_t size;
    uint8_t *head;
} mark;

/* The device after the first `commands` commands of the world's history, with its time. `origin` is
 * the number of its seed, and `marks` the number of stored states. */
static struct fold {
    tpmsim device;
    int commands, origin, marks;
    uint64_t time;
    mark mark[COMMANDS / EACH + 1];
} fold;

static uint8_t head_text[HEAD_BYTES];

static inline uint64_t number_at(const uint8_t *at, int size) {
    uint64_t number = 0;
    while (size--) number = number << 8 | *at++;
    return number;
}

/* Writes the head of the journal for a new device that is made from a seed, and returns its size,
 * or 0 if the seed is invalid. */
static inline size_t head_of_seed(const uint8_t *seed, size_t size) {
    tpmsim_ask ask = {0};
    tpmsim_keeper keeper = {0};
    must(tpmsim_keeper_new(&keeper, TPMSIM_FORCE_NEVER, UINT64_MAX) == TPMSIM_DONE &&
             tpmsim_keeper_begin(&keeper, TPMSIM_JOB_BEGIN, seed, size) == TPMSIM_DONE,
         "there is no keeper");
    tpmsim_keeper_next(&keeper, TPMSIM_GOT_DONE, 0, 0, seed, 0);
    tpmsim_keeper_next(&keeper, TPMSIM_GOT_GONE, 0, 0, seed, 0);
    tpmsim_keeper_ask(&keeper, &ask);
    size_t head =
        ask.task == TPMSIM_TASK_MAKE ? tpmsim_keeper_text(&keeper, head_text, sizeof head_text) : 0;
    must(head <= sizeof head_text, "a head's size");
    tpmsim_keeper_free(&keeper);
    return head;
}

static inline void fold_opens(const uint8_t *head, size_t size) {
    size_t taken;
    must(tpmsim_journal_open(&fold.device, head, size, &taken) == TPMSIM_DONE && taken == size,
         "a head is not opened");
}

/* The factor of the numbers that encode versions in heads. */
enum { VERSION_FACTOR = 251 };

/* Writes the head that a keeper writes for the device, which contains its whole state, and returns
 * its size. The head of a checkpoint has another word at its start, of the same size. */
static inline size_t fold_shows(void) {
    char word[sizeof "# tpmsim journal 2 "];
    size_t size = tpmsim_journal_checkpoint(&fold.device, 0, head_text, sizeof head_text);
    must(size <= sizeof head_text, "a head's size");
    snprintf(word, sizeof word, "# tpmsim v%08x ", VERSION_FACTOR * TPMSIM_VERSION_NUMBER);
    memcpy(head_text, word, sizeof word - 1);
    return size;
}

static inline void fold_marks(void) {
    mark *it = &fold.mark[fold.marks++];
    it->commands = fold.commands;
    it->time = fold.time;
    it->size = fold_shows();
    it->head = taken(it->size);
    memcpy(it->head, head_text, it->size);
}

static inline void fold_forgets(void) {
    while (fold.marks) free(fold.mark[--fold.marks].head);
    fold.commands = 0;
}

/* Returns to a stored state that is reached after at most this many commands of the history. */
static inline void fold_goes_back(int commands) {
    if (fold.commands <= commands) return;
    while (fold.marks && fold.mark[fold.marks - 1].commands > commands)
        free(fold.mark[--fold.marks].head);
    if (fold.marks == 0) {
        fold_forgets();
        fold.origin = 0;
        return;
    }
    const mark *it = &fold.mark[fold.marks - 1];
    fold_opens(it->head, it->size);
    fold.commands = it->commands;
    fold.time = it->time;
}

/* Returns the clock at the time of a command. The journal's time advances towards this clock, by 0
 * to 2^32 - 1 milliseconds. */
static inline uint64_t fold_clock(const uint8_t *text) {
    int is_by_clock = text[0] == BY_CLOCK;
    uint64_t told = number_at(text + MOMENT_AT, is_by_clock ? 8 : 4);
    uint64_t now = is_by_clock ? told : fold.time + told;
    uint64_t elapsed = now > fold.time ? now - fold.time : 0;
    fold.time += elapsed > UINT32_MAX ? UINT32_MAX : elapsed;
    return now;
}

/* Executes a TPM command. Returns the size of its response and report, in bytes. */
static inline size_t fold_executes(const uint8_t *text, size_t size, uint8_t *response) {
    static uint8_t record[TPMSIM_RECORD_ROOM];
    tpmsim_answered answered;
    size_t record_size, moment = text[0] == BY_CLOCK ? 8 : 4;
    const uint8_t *rest = text + MOMENT_AT + moment, *buffer = rest + BUFFER_AFTER;
    uint8_t *at = response + TPMSIM_REPORT_SIZE;
    uint8_t told =
        tpmsim_journal_execute(&fold.device, buffer, (size_t)(text + size - buffer),
                               rest[LOCALITY_AFTER], fold_clock(text), rest[COMPLETES_AFTER],
                               rest + RANDOM_AFTER, at, &answered, record, &record_size);
    must(told == TPMSIM_DONE, "a command is not executed");
    for (int i = 0; i < 4; i++) response[i] = (uint8_t)(answered.code >> (24 - 8 * i));
    response[4] = answered.check;
    response[5] = (uint8_t)(answered.drawn >> 8);
    response[6] = (uint8_t)answered.drawn;
    return answered.size + TPMSIM_REPORT_SIZE;
}

/* Executes an empty command, after which the completing layer forgets the contexts of sessions that
 * have ended. The command changes nothing else. */
static inline void fold_forgets_sessions(void) {
    static const uint8_t random[RANDOM_BYTES];
    uint8_t response[RESPONSE_BYTES];
    tpmsim_answered answered;
    must(tpmsim_complete(&fold.device, random, 0, 0, 0, random, response, &answered) == TPMSIM_DONE,
         "an empty command is not executed");
}

/* Restarts the journal with the device's state after a power cycle. The layer's start number stays
 * the same. */
static inline size_t fold_cycles(const uint8_t *text) {
    static uint8_t seed[HEAD_BYTES];
    must(tpmsim_power_cycle(&fold.device) == TPMSIM_DONE, "the power is not cycled");
    fold_forgets_sessions();
    seed[0] = 2;
    memcpy(seed + 1, text + 1, 8);
    size_t size = tpmsim_snapshot(&fold.device, seed + 17, sizeof seed - 17);
    memcpy(seed + 9, seed + 17 + start_at(size), START_SIZE);
    size_t head = head_of_seed(seed, 17 + size);
    must(head > 0, "a state text is none");
    fold_opens(head_text, head);
    fold.time = number_at(text + MOMENT_AT, 8);
    return 0;
}

static inline size_t fold_restores(const uint8_t *seed, size_t size, uint8_t *response) {
    size_t head = head_of_seed(seed, size);
    response[0] = head > 0;
    if (head == 0) return 1;
    fold_opens(head_text, head);
    fold.time = number_at(seed + 1, 8);
    return 1;
}

static inline void fold_steps(executed *next) {
    static uint8_t response[RESPONSE_BYTES + TPMSIM_REPORT_SIZE];
    const uint8_t *text = next->text;
    size_t size = *text == CYCLE       ? fold_cycles(text)
                  : *text == RESTORING ? fold_restores(text + 1, next->size - 1, response)
                                       : fold_executes(text, next->size, response);
    if (!next->response) next->response = stored(response, size), next->response_size = size;
    must(next->response_size == size && memcmp(next->response, response, size) == 0,
         "a device answers otherwise the second time");
    fold.commands++;
}

/* Executes the commands of the history that the device has not executed yet. */
static inline void fold_follows(void) {
    if (fold.origin != all->origin) {
        fold_forgets();
        fold_opens(head_text, head_of_seed(all->seed, all->seed_size));
        fold.origin = all->origin;
        fold.time = number_at(all->seed + 1, 8);
        fold_marks();
    }
    while (fold.commands < all->commands) {
        fold_steps(&all->history[fold.commands]);
        if (fold.commands % EACH == 0) fold_marks();
    }
}

/* Checks that opening the journal returns the device that executed the history. */
static inline void fold_compares(void) {
    static uint8_t state[2][TPMSIM_STATE_SIZE];
    tpmsim device = {0};
    size_t taken, sizes[2];
    const file *it = journal();
    if (it->number == 0) return;
    fold_follows();
    must(tpmsim_journal_open(&device, it->now.bytes, it->now.size, &taken) == TPMSIM_DONE,
         "the journal does not open");
    int count = it->now.commands - it->before;
    must(count == 0 || taken == it->ends[count - 1], "other entries are whole");
    sizes[0] = tpmsim_snapshot(&fold.device, state[0], sizeof state[0]);
    sizes[1] = tpmsim_snapshot(&device, state[1], sizeof state[1]);
    must(sizes[0] == sizes[1] && memcmp(state[0], state[1], sizes[0]) == 0,
         "the journal opens as another device");
    tpmsim_free(&device);
}
#endif
