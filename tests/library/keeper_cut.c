/* Tests a keeper: its report on a command, the time of a command, damaged journals, calls without
 * a text argument, and the texts that describe the keeper's faults. */
#define _GNU_SOURCE
#include "../common/same_state.h"
#include "keeper_known.h"
#include "keeper_memory.h"
#include "keeper_stack.h"

/* The journal has a head and RECORDS records: STARTUP, GET_RANDOM, and then only EXTENDs. */
enum { RECORDS = 5, EXTEND_FROM = 2 };

static memory folder, before;
static host alive;
/* The sizes of the journal up to the end of its head, and up to the end of each record. */
static size_t sizes[RECORDS + 1];

static const uint8_t READ_CLOCK[] = {0x80, 1, 0, 0, 0, 10, 0, 0, 1, 0x81};

static uint64_t number_at(const uint8_t *at, int size) {
    uint64_t number = 0;
    for (int i = 0; i < size; i++) number = number << 8 | at[i];
    return number;
}

/* ---- reports */

/* Checks that the report of a command is the same as the report of a device that executes the
   command. */
static void check_report(tpmsim *device, const uint8_t *command, size_t size) {
    uint8_t response[RESPONSE_BYTES];
    tpmsim_answered answered = answered_by(device, command, size, response);
    is_done(host_executes(&alive, command, size), "a command is not executed");
    must(number_at(alive.report, 4) == answered.code, "another code is reported");
    must(alive.report[4] == answered.check, "another check is reported");
    must(number_at(alive.report + 5, 2) == answered.drawn, "another count is reported");
    printf(" %x-%u-%zu", answered.code, answered.check, answered.drawn);
}

static void check_reports(void) {
    static const uint8_t none[] = {0x80, 1, 0, 0, 0, 10, 0, 0, 0xff, 0xff};
    tpmsim device = {0};
    uint8_t random[RANDOM_BYTES];
    count_up(random, 1);
    must(tpmsim_manufacture(&device, random) == TPMSIM_DONE, "a device is not made");
    memory_host(&alive, &folder, TPMSIM_FORCE_ALWAYS, FAR);
    is_done(host_begins(&alive), "no device begins");
    must(alive.whole == 0, "a first journal is of an old one");
    printf("reports");
    check_report(&device, READ, sizeof READ);
    check_report(&device, STARTUP, sizeof STARTUP);
    check_report(&device, GET_RANDOM, sizeof GET_RANDOM);
    check_report(&device, READ, sizeof READ);
    check_report(&device, none, sizeof none);
    check_report(&device, none, 3);
    printf("\n");
    tpmsim_free(&device);
    tpmsim_keeper_free(&alive.keeper);
}

/* ---- the time of a command */

static uint64_t time_of(uint8_t fault) {
    is_done(fault, "the clock is not read");
    return number_at(alive.response + 10, 8);
}

static void check_moments(void) {
    memset(&folder, 0, sizeof folder);
    memory_host(&alive, &folder, TPMSIM_FORCE_NEVER, FAR);
    start(&alive);
    uint64_t first = time_of(host_executes(&alive, READ_CLOCK, sizeof READ_CLOCK));
    uint64_t waited = time_of(host_waits(&alive, 5000, READ_CLOCK, sizeof READ_CLOCK));
    uint64_t behind = time_of(host_executes(&alive, READ_CLOCK, sizeof READ_CLOCK));
    alive.clock += 6000;
    uint64_t ahead = time_of(host_executes(&alive, READ_CLOCK, sizeof READ_CLOCK));
    tpmsim_keeper_free(&alive.keeper);
    memory_host(&alive, &folder, TPMSIM_FORCE_NEVER, FAR);
    uint64_t again = time_of(host_waits(&alive, 0, READ_CLOCK, sizeof READ_CLOCK));
    uint64_t longest = time_of(host_waits(&alive, UINT32_MAX, READ_CLOCK, sizeof READ_CLOCK));
    printf("waited %u, by a clock behind that %u, ahead %u, opened again %u, longest %u\n",
           (unsigned)(waited - first), (unsigned)(behind - waited), (unsigned)(ahead - behind),
           (unsigned)(again - ahead), (unsigned)(longest - again));
    tpmsim_keeper_free(&alive.keeper);
}

/* ---- damage */

static void write_journal(void) {
    memset(&folder, 0, sizeof folder);
    memory_host(&alive, &folder, TPMSIM_FORCE_NEVER, FAR);
    is_done(host_begins(&alive), "no device begins");
    for (int count = 0; count <= RECORDS; count++) {
        sizes[count] = folder.journal.size;
        if (count == 0) executes(&alive, STARTUP, sizeof STARTUP, 0);
        if (count == 1) executes(&alive, GET_RANDOM, sizeof GET_RANDOM, 0);
        if (count >= EXTEND_FROM) executes(&alive, EXTEND, sizeof EXTEND, 0);
    }
    folder.journal.size = sizes[RECORDS];
    before = folder;
    tpmsim_keeper_free(&alive.keeper);
}

/* Returns the number of records that end at or before an offset. */
static int records_before(size_t at) {
    int count = 0;
    while (count < RECORDS && sizes[count + 1] <= at) count++;
    return count;
}

/* Starts a new host in a folder in which one byte of the journal is changed. */
static void turn(size_t at) {
    folder = before;
    folder.journal.bytes[at] ^= 1;
    memory_host(&alive, &folder, TPMSIM_FORCE_ALWAYS, FAR);
}

static void is_refused(uint8_t fault, size_t at) {
    must(fault == TPMSIM_FAULT_DAMAGED, "damage is not refused");
    folder.journal.bytes[at] ^= 1;
    must(folder.number == before.number &&
             memcmp(&folder.journal, &before.journal, sizeof folder.journal) == 0,
         "a damaged journal is written");
    folder.journal.bytes[at] ^= 1;
}

/* Checks that the device has executed this many records, and no more. */
static void is_device_of(int records) {
    memory_host(&alive, &folder, TPMSIM_FORCE_NEVER, FAR);
    int extends = records < EXTEND_FROM ? 0 : records - EXTEND_FROM;
    if (records == 0) executes(&alive, READ, sizeof READ, 0x100);
    must(records == 0 || count_of(&alive, extends) == extends, "another device is salvaged");
    tpmsim_keeper_free(&alive.keeper);
}

static void check_turned(size_t at) {
    int records = records_before(at);
    turn(at);
    is_refused(host_executes(&alive, READ, sizeof READ), at);
    uint8_t fault = host_run(&alive, TPMSIM_JOB_CUT, host_text, 0);
    tpmsim_keeper_free(&alive.keeper);
    if (at < sizes[0]) {
        is_refused(fault, at);
        return;
    }
    is_done(fault, "damage is not cut");
    must(alive.whole == sizes[records], "another front is whole");
    must(alive.response_size == 0, "a cut has a response");
    is_device_of(records);
}

static void check_damage(void) {
    int tried = 0;
    for (size_t at = 0; at < sizes[0]; at += 31, tried++) check_turned(at);
    printf("cut: refused at %d bytes of the head", tried);
    for (size_t at = sizes[0]; at < sizes[RECORDS]; at++) check_turned(at);
    printf(", cut at each byte of %d records\n", RECORDS);
}

/* Kills a host at each task of cutting a damaged journal. Afterwards the journal is either
   unchanged, or completely replaced by the new one. */
static void check_kills(extent how_much) {
    uint8_t fault = KILLED;
    int kills = -1;
    for (int task = 0; fault == KILLED; task++, kills++) {
        turn(sizes[4]);
        alive.killed_at = task;
        alive.killed_after = how_much;
        fault = host_run(&alive, TPMSIM_JOB_CUT, host_text, 0);
        if (fault == TPMSIM_FAULT_NONE) tpmsim_keeper_free(&alive.keeper);
        if (folder.number == before.number) {
            memory_host(&alive, &folder, TPMSIM_FORCE_NEVER, FAR);
            is_refused(host_executes(&alive, READ, sizeof READ), sizes[4]);
            is_done(host_run(&alive, TPMSIM_JOB_CUT, host_text, 0), "damage is not cut");
            tpmsim_keeper_free(&alive.keeper);
        }
        is_device_of(4);
    }
    is_done(fault, "damage is not cut");
    printf("cut: killed %d times %s a task\n", kills, how_much == ALL ? "after" : "in");
}

/* Adds bytes that no crash of the host can leave. */
static void add_damage(void) {
    memset(folder.journal.bytes + folder.journal.size, 'x', 100);
    folder.journal.size += 100;
}

/* Checks that an undamaged journal is not cut, and that a missing journal is a fault. A journal
 * that was damaged after it was opened is cut at the second request. */
static void check_whole(void) {
    folder = before;
    memory_host(&alive, &folder, TPMSIM_FORCE_ALWAYS, FAR);
    is_done(host_run(&alive, TPMSIM_JOB_CUT, host_text, 0), "a whole journal is refused");
    must(memcmp(&folder, &before, sizeof folder) == 0, "a whole journal is written");
    printf("cut: of a whole journal %s", alive.tasks);
    add_damage();
    printf(", of one that is damaged then %u", host_run(&alive, TPMSIM_JOB_CUT, host_text, 0));
    printf(" and %u", host_run(&alive, TPMSIM_JOB_CUT, host_text, 0));
    must(alive.whole == before.journal.size, "another front is whole");
    tpmsim_keeper_free(&alive.keeper);
    memset(&folder, 0, sizeof folder);
    memory_host(&alive, &folder, TPMSIM_FORCE_ALWAYS, FAR);
    printf(", of none %u\n", host_run(&alive, TPMSIM_JOB_CUT, host_text, 0));
    tpmsim_keeper_free(&alive.keeper);
}

/* Adds a record of the command READ whose response is wrong: it is that of a device that has
 * executed one more command. */
static void answer_otherwise(void) {
    tpmsim device = {0};
    tpmsim_answered answered;
    uint8_t random[RANDOM_BYTES], response[RESPONSE_BYTES], record[TPMSIM_RECORD_ROOM];
    size_t size;
    folder = before;
    count_up(random, 1);
    must(tpmsim_journal_open(&device, folder.journal.bytes, folder.journal.size, &size) ==
             TPMSIM_DONE,
         "the journal is not opened");
    answered_by(&device, EXTEND, sizeof EXTEND, response);
    must(tpmsim_journal_execute(&device, READ, sizeof READ, 0, 9000, 1, random, response, &answered,
                                record, &size) == TPMSIM_DONE,
         "a command is not executed");
    memcpy(folder.journal.bytes + folder.journal.size, record, size);
    folder.journal.size += size;
    tpmsim_free(&device);
}

/* Checks that a journal is refused, and never cut, if the device's response to a record differs
   from the recorded one. Damage after that record does not matter. */
static void check_otherwise(void) {
    answer_otherwise();
    add_damage();
    before = folder;
    memory_host(&alive, &folder, TPMSIM_FORCE_ALWAYS, FAR);
    printf("answered otherwise %u", host_executes(&alive, READ, sizeof READ));
    printf(", cut %u\n", host_run(&alive, TPMSIM_JOB_CUT, host_text, 0));
    must(memcmp(&folder, &before, sizeof folder) == 0, "a journal is written");
    tpmsim_keeper_free(&alive.keeper);
}

/* ---- calls without a text argument */

/* Checks that a command and a power cycle first cut off the journal's damage, if the caller has
   allowed this, and refuse the damaged journal otherwise. To cut the journal, the keeper opens
   the device again, even if it has the device in memory. */
static void check_cuts(void) {
    turn(sizes[4]);
    must(tpmsim_keeper_cuts(&alive.keeper, 1) == TPMSIM_DONE, "damage cannot be cut");
    is_done(host_executes(&alive, READ, sizeof READ), "damage is not cut");
    must(alive.whole == sizes[4] && is_after(&alive, 2), "another front is whole");
    printf("cut by a command %s", alive.tasks);
    add_damage();
    must(tpmsim_keeper_power(&alive.keeper, 90000, 5) == TPMSIM_DONE, "no call begins");
    is_done(host_finishes(&alive), "damage is not cut");
    printf(", by a power cycle %s\n", alive.tasks);
    must(tpmsim_keeper_cuts(&alive.keeper, 0) == TPMSIM_DONE, "damage must be cut");
    add_damage();
    printf("refused again %u\n", host_executes(&alive, READ, sizeof READ));
    tpmsim_keeper_free(&alive.keeper);
}

/* Checks that restoring a state replaces a device whose journal is damaged. */
static void check_states(void) {
    static uint8_t state[TPMSIM_STATE_SIZE], again[TPMSIM_STATE_SIZE];
    uint8_t response[RESPONSE_BYTES];
    tpmsim_answered answered;
    folder = before;
    memory_host(&alive, &folder, TPMSIM_FORCE_NEVER, FAR);
    must(tpmsim_keeper_state(&alive.keeper, state, sizeof state) == 0, "a state is shown");
    is_done(host_run(&alive, TPMSIM_JOB_SHOW, host_text, 0), "no state is shown");
    size_t size = tpmsim_keeper_state(&alive.keeper, state, sizeof state);
    must(size > 0 && tpmsim_keeper_answer(&alive.keeper, response, &answered) == TPMSIM_NO_ANSWER,
         "a shown state is an answer");
    add_damage();
    must(tpmsim_keeper_restore(&alive.keeper, 95000, 6, state, size) == TPMSIM_DONE,
         "no call begins");
    is_done(host_finishes(&alive), "no state is restored");
    must(alive.response_size == 1 && alive.response[0] == 1, "it is not said that it began");
    must(tpmsim_keeper_state(&alive.keeper, again, sizeof again) == 0, "a restoring shows a state");
    is_done(host_run(&alive, TPMSIM_JOB_SHOW, host_text, 0), "no state is shown");
    must(tpmsim_keeper_state(&alive.keeper, again, sizeof again) == size &&
             is_same_device(state, again, size),
         "another state is restored");
    tpmsim_keeper_free(&alive.keeper);
    printf("a shown state is restored\n");
}

static void check_answers(void) {
    uint8_t random[RANDOM_BYTES], response[RESPONSE_BYTES];
    tpmsim_answered answered;
    count_up(random, 1);
    memset(&folder, 0, sizeof folder);
    memory_host(&alive, &folder, TPMSIM_FORCE_NEVER, FAR);
    must(tpmsim_keeper_seed(&alive.keeper, 3, 1000, 7, random, sizeof random) == TPMSIM_DONE,
         "no call begins");
    printf("no seed %u", host_finishes(&alive));
    must(tpmsim_keeper_seed(&alive.keeper, TPMSIM_SEED_RANDOM, 1000, 7, random, sizeof random) ==
             TPMSIM_DONE,
         "no call begins");
    is_done(host_finishes(&alive), "no device begins");
    printf(", begun: answer %u", tpmsim_keeper_answer(&alive.keeper, response, &answered));
    must(tpmsim_keeper_execute(&alive.keeper, STARTUP, sizeof STARTUP, 0, 1010, 1, random) ==
             TPMSIM_DONE,
         "no call begins");
    printf(", not done: answer %u", tpmsim_keeper_answer(&alive.keeper, response, &answered));
    is_done(host_finishes(&alive), "a command is not executed");
    must(tpmsim_keeper_answer(&alive.keeper, response, &answered) == TPMSIM_DONE, "no answer");
    must(answered.size + TPMSIM_REPORT_SIZE == alive.response_size &&
             memcmp(response, alive.response + TPMSIM_REPORT_SIZE, answered.size) == 0,
         "another response");
    printf(", done: %x-%u-%zu", answered.code, answered.check, answered.drawn);
    printf(", locality 5: %u\n",
           tpmsim_keeper_execute(&alive.keeper, STARTUP, sizeof STARTUP, 5, 1010, 1, random));
    tpmsim_keeper_free(&alive.keeper);
}

/* Makes each call on a handle that has no keeper. */
static void check_none(void) {
    tpmsim_keeper none = {0};
    uint8_t random[RANDOM_BYTES], response[RESPONSE_BYTES];
    tpmsim_answered answered;
    count_up(random, 1);
    printf("without a keeper: cuts %u, execute %u, ", tpmsim_keeper_cuts(&none, 1),
           tpmsim_keeper_execute(&none, READ, sizeof READ, 0, 0, 0, random));
    printf("power %u, seed %u, ", tpmsim_keeper_power(&none, 0, 0),
           tpmsim_keeper_seed(&none, TPMSIM_SEED_RANDOM, 0, 0, random, sizeof random));
    printf("restore %u, answer %u, ", tpmsim_keeper_restore(&none, 0, 0, random, sizeof random),
           tpmsim_keeper_answer(&none, response, &answered));
    printf("state %zu\n", tpmsim_keeper_state(&none, response, sizeof response));
}

/* ---- faults */

static void show_faults(void) {
    char text[100];
    for (unsigned fault = 0; fault <= TPMSIM_FAULT_NO_KEEPER; fault++) {
        memset(text, FILLED, sizeof text);
        size_t size = tpmsim_fault_text((uint8_t)fault, text, sizeof text);
        must(is_filled((uint8_t *)text + size, sizeof text - size), "more is written");
        if (size > 0) printf("%u %.*s\n", fault, (int)size, text);
        memset(text, FILLED, sizeof text);
        must(size == 0 || tpmsim_fault_text((uint8_t)fault, text, size - 1) == size, "a size");
        must(is_filled((uint8_t *)text, sizeof text), "a part of a sentence is written");
    }
}

/* Makes the calls that cut a journal or return a state, in a separate thread. */
static void *call_all(void *unused) {
    check_kills(A_PART);
    check_kills(ALL);
    check_states();
    return unused;
}

int main(void) {
    memory_host(&alive, &before, TPMSIM_FORCE_NEVER, FAR);
    learn(&alive);
    check_reports();
    check_moments();
    write_journal();
    check_damage();
    check_stack(call_all);
    check_whole();
    check_cuts();
    check_answers();
    check_none();
    check_otherwise();
    show_faults();
    return 0;
}
