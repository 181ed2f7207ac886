/* Runs four devices in four threads. The first argument is the size of each thread's stack, in
 * bytes. Each device executes commands, and is saved and opened. The thread that frees a device is
 * not the thread that made it. All four devices must have the same image at the end. */
#define _POSIX_C_SOURCE 200809L
#include "common.h"
#include <pthread.h>

/* The commands to execute. Standard input contains one command in each line, in hex. */
enum { MOST_COMMANDS = 256, THREADS = 4, ROUNDS = 50 };
static struct {
    uint8_t *buffer;
    size_t size;
} commands[MOST_COMMANDS];
static size_t command_count;

/* A thread's device and its buffers, which are not on the thread's stack. */
struct work {
    struct tpmsim device;
    struct tpmsim_answered answered;
    uint8_t random[RANDOM_BYTES], response[RESPONSE_BYTES];
    uint8_t *image;
    size_t size;
};

static void execute_all(struct work *work) {
    for (size_t i = 0; i < command_count; i++)
        must(tpmsim_execute(&work->device, commands[i].buffer, commands[i].size, 0, 1, work->random,
                            work->response, &work->answered) == TPMSIM_DONE,
             "a command is not executed");
}

static void save(struct work *work) {
    free(work->image);
    work->size = tpmsim_save(&work->device, work->response, 0);
    work->image = taken(work->size);
    must(tpmsim_save(&work->device, work->image, work->size) == work->size,
         "an image has another size each time");
}

static void *make_and_use(void *place) {
    struct work *work = place;
    count_up(work->random, 0);
    for (int round = 0; round < ROUNDS; round++) {
        must(tpmsim_manufacture(&work->device, work->random) == TPMSIM_DONE,
             "a device is not made");
        execute_all(work);
        save(work);
        must(tpmsim_open(&work->device, work->image, work->size) == TPMSIM_DONE,
             "an image does not open");
        execute_all(work);
        must(tpmsim_power_cycle(&work->device) == TPMSIM_DONE, "the power does not come back");
        save(work);
    }
    return NULL;
}

static void *free_another(void *place) {
    struct work *work = place;
    tpmsim_free(&work->device);
    return NULL;
}

/* Runs a function on each element of `works`, each in a thread with this stack size. */
static void in_threads(void *(*function)(void *), struct work *works, size_t stack) {
    pthread_t threads[THREADS];
    pthread_attr_t attributes;
    must(pthread_attr_init(&attributes) == 0 && pthread_attr_setstacksize(&attributes, stack) == 0,
         "there is no such stack");
    for (int i = 0; i < THREADS; i++)
        must(pthread_create(&threads[i], &attributes, function, &works[i]) == 0,
             "there is no thread");
    for (int i = 0; i < THREADS; i++)
        must(pthread_join(threads[i], NULL) == 0, "a thread does not end");
    pthread_attr_destroy(&attributes);
}

static void read_commands(void) {
    char *line = NULL;
    size_t room = 0;
    while (getline(&line, &room, stdin) >= 0) {
        line[strcspn(line, "\n")] = '\0';
        must(command_count < MOST_COMMANDS, "there are too many commands");
        commands[command_count].buffer = taken(strlen(line) / 2);
        commands[command_count].size = hex_bytes(line, commands[command_count].buffer);
        command_count++;
    }
    free(line);
}

int main(int count, char **words) {
    static struct work works[THREADS];
    must(count == 2, "usage: threads STACK");
    read_commands();
    in_threads(make_and_use, works, strtoul(words[1], NULL, 10));
    for (int i = 1; i < THREADS; i++)
        must(works[i].size == works[0].size &&
                 memcmp(works[i].image, works[0].image, works[0].size) == 0,
             "two devices differ");
    in_threads(free_another, works, strtoul(words[1], NULL, 10));
    for (int i = 0; i < THREADS; i++) {
        must(works[i].device.private_ == NULL, "a device is not freed");
        free(works[i].image);
    }
    for (size_t i = 0; i < command_count; i++) free(commands[i].buffer);
    puts("four devices in four threads, with one image at the end");
    return 0;
}
