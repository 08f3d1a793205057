/* Decides the sheet on standard input, and prints the line, or `(refused N)` where there is none. */
#include <stdint.h>
#include <stdio.h>

#include "intake.h"

/* One byte more than a sheet may have, so that a longer one is seen to be too long. */
static uint8_t sheet[32769];
static uint32_t work[INTAKE_WORK_WORDS];
static uint8_t output[INTAKE_OUTPUT_BYTES];

int main(void)
{
    size_t length = fread(sheet, 1, sizeof sheet, stdin);
    uint64_t answer = intake_decide(sheet, length, work, INTAKE_WORK_WORDS, output, sizeof output);
    if (INTAKE_LENGTH(answer) == 0)
        printf("(refused %u)\n", (unsigned)INTAKE_NUMBER(answer));
    else
        fwrite(output, 1, INTAKE_LENGTH(answer), stdout);
    return 0;
}
