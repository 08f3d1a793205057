/* call CALL [PLACE]: one of the six calls, on the sheet on standard input. Prints its number and, where it has one, its line.
 *
 * CALL is evaluate, preconditions, invariants, select, admit (the outcome at PLACE, 0 where it is not given) or decide. The environment may say how
 * many words of work (WORK) and bytes of output (OUTPUT) the call is lent, at most what it is lent where they are not set.
 */
#include <stdint.h>
#include <stdio.h>
#include <stdlib.h>
#include <string.h>

#include "intake.h"

typedef uint64_t call(const uint8_t *, size_t, uint32_t *, size_t, uint8_t *, size_t);

static const struct {
    const char *name;
    call *run;
} calls[] = {
    {"evaluate", intake_evaluate}, {"preconditions", intake_preconditions}, {"invariants", intake_invariants},
    {"select", intake_select},     {"decide", intake_decide},
};

/* One byte more than a sheet may have, so that a longer one is seen to be too long. */
static uint8_t sheet[32769];
static uint32_t work[INTAKE_WORK_WORDS];
static uint8_t output[65536];

static size_t lent(const char *name, size_t most)
{
    const char *set = getenv(name);
    size_t size = set ? strtoul(set, NULL, 10) : most;
    return size < most ? size : most;
}

static int show(uint64_t answer)
{
    printf("%u%s%.*s", (unsigned)INTAKE_NUMBER(answer), INTAKE_LENGTH(answer) ? " " : "\n", (int)INTAKE_LENGTH(answer), (const char *)output);
    return 0;
}

int main(int count, char **words)
{
    const char *name = count > 1 ? words[1] : "";
    size_t length = fread(sheet, 1, sizeof sheet, stdin), room = lent("WORK", INTAKE_WORK_WORDS), bytes = lent("OUTPUT", sizeof output);
    if (strcmp(name, "admit") == 0)
        return show(intake_admit(count > 2 ? strtoull(words[2], NULL, 10) : 0, sheet, length, work, room, output, bytes));
    for (size_t at = 0; at < sizeof calls / sizeof *calls; at++)
        if (strcmp(name, calls[at].name) == 0)
            return show(calls[at].run(sheet, length, work, room, output, bytes));
    fprintf(stderr, "usage: call evaluate|preconditions|invariants|select|admit|decide [PLACE] <SHEET\n");
    return 2;
}
