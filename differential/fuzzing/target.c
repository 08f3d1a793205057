/* libFuzzer's target: what an input asks, on memory with the guard page behind it. A broken promise is a crash. */
#include <stdio.h>
#include <stdlib.h>

#include "calls.h"

int LLVMFuzzerTestOneInput(const uint8_t *input, size_t size) {
    static uint8_t fill;
    struct asked asked = asked_by(input, size);
    struct reply reply;
    const char *broken = ask(&asked, BEHIND, fill++, &reply);
    if (broken) {
        fprintf(stderr, "%s gives %u and a line of %zu: %s\n", name_of(asked.call), reply.number, reply.length, broken);
        abort();
    }
    return 0;
}
