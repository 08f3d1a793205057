/* replay FOLDER..: puts every file of the folders, an input of the target, through the library it is linked with: all six calls, the guard page once behind
 * and once before what is lent. Each call is made with enough output, with just enough, with a byte less, and with the input's own work table and output; its
 * number and line must be the same each time, but where a work table or output is too short for them. Prints how many calls gave each number; a broken
 * promise, or a number that never comes, fails. */
#define _GNU_SOURCE
#include <dirent.h>
#include <signal.h>
#include <stdbool.h>
#include <stdio.h>
#include <stdlib.h>
#include <string.h>
#include <unistd.h>

#include "calls.h"

static char path[4096]; /* of the input in hand */
static unsigned long inputs, count[NUMBERS];
static uint8_t fill;

/* The reply that others are held to, with its line kept. */
struct kept {
    unsigned number;
    size_t length;
    uint8_t line[ENOUGH];
};

static void failed(const char *why, const struct asked *asked) {
    fprintf(stderr, "%s: %s, %zu words, %zu bytes of output: %s\n", path, name_of(asked->call), asked->words, asked->room, why);
    exit(1);
}

static void crashed(int number) {
    static const char text[] = ": a call crashed\n";
    ssize_t told = write(2, path, strlen(path)) + write(2, text, sizeof text - 1);
    _exit(told > 0 ? 128 + number : 1);
}

static struct reply sure(const struct asked *asked, enum side side) {
    struct reply reply;
    const char *broken = ask(asked, side, fill++, &reply);
    if (broken)
        failed(broken, asked);
    count[reply.number]++;
    return reply;
}

/* Asks with this work table and output, and holds the reply to the one with enough of both. */
static void hold(struct asked asked, size_t words, size_t room, const struct kept *kept) {
    asked.words = words;
    asked.room = room;
    unsigned number = words < INTAKE_WORK_WORDS ? 1 : kept->length > room ? 23 : kept->number;
    size_t length = number == kept->number ? kept->length : 0;
    for (enum side side = 0; side < SIDES; side++) {
        struct reply reply = sure(&asked, side);
        if (reply.number != number || reply.length != length || memcmp(reply.line, kept->line, length) != 0)
            failed("another reply than with enough output", &asked);
    }
}

static void replay(const uint8_t *input, size_t size) {
    static struct kept kept;
    struct asked own = asked_by(input, size);
    for (unsigned call = 0; call < CALLS; call++) {
        struct asked asked = own;
        asked.call = call;
        asked.words = INTAKE_WORK_WORDS;
        asked.room = ENOUGH;
        struct reply reply = sure(&asked, BEHIND);
        kept.number = reply.number;
        kept.length = reply.length;
        memcpy(kept.line, reply.line, reply.length);
        hold(asked, INTAKE_WORK_WORDS, ENOUGH, &kept);
        hold(asked, INTAKE_WORK_WORDS, kept.length, &kept);
        if (kept.length)
            hold(asked, INTAKE_WORK_WORDS, kept.length - 1, &kept);
        hold(asked, own.words, own.room, &kept);
    }
    inputs++;
}

static void replay_file(const char *folder, const char *name) {
    static uint8_t input[1 << 17];
    snprintf(path, sizeof path, "%s/%s", folder, name);
    FILE *file = fopen(path, "rb");
    if (!file) {
        perror(path);
        exit(2);
    }
    size_t size = fread(input, 1, sizeof input, file);
    fclose(file);
    replay(input, size);
}

static void replay_folder(const char *folder) {
    DIR *files = opendir(folder);
    if (!files) {
        perror(folder);
        exit(2);
    }
    for (struct dirent *file; (file = readdir(files));)
        if (file->d_name[0] != '.')
            replay_file(folder, file->d_name);
    closedir(files);
}

/* A crash is told on a stack of its own: the other may be at its end. */
static void tell_crashes(void) {
    static const int numbers[] = {SIGSEGV, SIGBUS, SIGILL, SIGFPE};
    static char stack[1 << 16];
    struct sigaction action = {.sa_handler = crashed, .sa_flags = SA_ONSTACK};
    sigaltstack(&(stack_t){.ss_sp = stack, .ss_size = sizeof stack}, NULL);
    for (size_t i = 0; i < sizeof numbers / sizeof *numbers; i++)
        sigaction(numbers[i], &action, NULL);
}

int main(int arguments, char **argument) {
    bool all = true;
    unsigned long sum = 0;
    tell_crashes();
    for (int i = 1; i < arguments; i++)
        replay_folder(argument[i]);
    for (unsigned number = 0; number < NUMBERS; number++) {
        printf("%4u %10lu%s\n", number, count[number], count[number] ? "" : " never met");
        sum += count[number];
        all = all && count[number];
    }
    printf("%lu inputs, %lu calls: every promise kept%s\n", inputs, sum, all ? "" : ", but not every number met");
    return all ? 0 : 1;
}
