/* The six calls on memory between guard pages, and what each promises. */
#ifndef CALLS_H
#define CALLS_H

#include <stddef.h>
#include <stdint.h>

#include "intake.h"

enum { CALLS = 6, NUMBERS = 24, HEAD = 4, LONGEST_SHEET = 32768 };

/* No line is longer: a byte of the sheet gives at most three of the line (`\n` becomes `\u000a`), and the rest of a line is short. */
enum { ENOUGH = 131072 };

/* On which side of sheet, work table and output the guard page lies directly. */
enum side { BEHIND, BEFORE, SIDES };

struct asked {
    unsigned call;
    uint64_t place;
    size_t words, room;
    const uint8_t *sheet;
    size_t length;
};

struct reply {
    unsigned number;
    size_t length;
    const uint8_t *line; /* until the next call */
};

/* What an input asks: four bytes say call, place, work table and output, the rest is the sheet. An input that is shorter asks as if zeros followed. */
struct asked asked_by(const uint8_t *input, size_t size);

/* Makes the call on memory that holds `fill`; gives the promise that it broke, or null. */
const char *ask(const struct asked *asked, enum side side, uint8_t fill, struct reply *reply);

const char *name_of(unsigned call);

#endif
