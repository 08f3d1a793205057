/* Evaluates the condition of the sheet on standard input on a stack of its own, and prints the bytes of it that the call has written to. */
#include <pthread.h>
#include <stdint.h>
#include <stdio.h>
#include <string.h>
#include <sys/mman.h>

#include "intake.h"

#define STACK (64u << 20)
#define PATTERN 0xa5

static uint8_t sheet[32769];
static size_t length;
static uint32_t work[INTAKE_WORK_WORDS];
static uint8_t output[INTAKE_OUTPUT_BYTES];
static uint64_t answer;

static void *call(void *unused)
{
    answer = intake_evaluate(sheet, length, work, INTAKE_WORK_WORDS, output, sizeof output);
    return unused;
}

static void *nothing(void *unused)
{
    return unused;
}

/* The bytes of a fresh stack that a thread writes to. */
static size_t used_by(void *(*run)(void *))
{
    pthread_attr_t attributes;
    pthread_t thread;
    size_t untouched = 0;
    uint8_t *stack = mmap(NULL, STACK, PROT_READ | PROT_WRITE, MAP_PRIVATE | MAP_ANONYMOUS, -1, 0);
    if (stack == MAP_FAILED)
        return 0;
    memset(stack, PATTERN, STACK);
    pthread_attr_init(&attributes);
    pthread_attr_setstack(&attributes, stack, STACK);
    if (pthread_create(&thread, &attributes, run, NULL) != 0 || pthread_join(thread, NULL) != 0)
        return 0;
    while (untouched < STACK && stack[untouched] == PATTERN)
        untouched++;
    munmap(stack, STACK);
    return STACK - untouched;
}

int main(void)
{
    length = fread(sheet, 1, sizeof sheet, stdin);
    size_t idle = used_by(nothing);
    size_t busy = used_by(call);
    if (idle == 0 || busy <= idle || INTAKE_NUMBER(answer) != INTAKE_ANSWERED)
        return 1;
    printf("%zu\n", busy - idle);
    return 0;
}
