/* intake: decisions on JSON sheets, for C and C++. `scripts/install PREFIX` installs this header with libintake.a, libintake.so and intake.pc (x86-64
 * Linux): `cc program.c $(pkg-config --cflags --libs intake)`. Uninstalled, the library is the archive whose path `scripts/built archive` prints.
 *
 * Every call reads one sheet, works in a table that the caller lends, and writes at most one line. Any bytes may be given; nothing is kept from call
 * to call, nothing is allocated, no input or output is done, and calls on different tables and outputs may run at once. Each is proved against its
 * contract (crates/exports_c/src/lib.rt).
 *
 *   sheet, sheet_length    the JSON text; one of more than 32,768 bytes is refused
 *   work, work_length      at least INTAKE_WORK_WORDS words, whatever they hold. After the call the first 16,384 are zero and further ones as before;
 *                          a table that is too short is left as it was (number 1)
 *   output, output_length  where the line goes: one bracketed form and LF, no byte 0 at its end. Bytes past the line are as before, and all of them
 *                          where there is no line
 *
 * A pointer may be null where its length is 0. `work` is aligned as a uint32_t, and work and output overlap nothing else.
 *
 * The returned word holds the number in its upper 32 bits and the line's length in bytes, LF included, in its lower 32 bits; the length is 0 where no
 * line was written. Numbers:
 *
 *    0  answered                                  12  no such input: `condition`, `state` or the outcome's place
 *    1  the work table is too short               13  unknown expression
 *    2  the sheet has more than 32,768 bytes      14  `$id` without an id
 *    3  not UTF-8                                 15  a precondition is false
 *    4  not JSON                                  16  a precondition is unknown
 *    5  more than 64 brackets open at once        17  an invariant is false
 *    6  a number of more than 255 bytes           18  an invariant is unknown
 *    7  more than 4,096 nodes                     19  no outcome is left
 *    8  a repeated member name                    20  a guard is unknown
 *    9  not a sheet: its members                  21  wrong state, and no outcome for it
 *   10  a condition of the wrong shape            22  the outcome does not start from the state
 *   11  an operator that is not carried           23  the line is longer than the output
 *
 * 0 and 13 to 22 write their line; the others write nothing.
 */
#ifndef INTAKE_H
#define INTAKE_H

#include <stddef.h>
#include <stdint.h>

#ifdef __cplusplus
extern "C" {
#endif

/* The version of this header: 10,000 times the major number, 100 times the minor one, and the patch. */
#define INTAKE_VERSION 100

/* The words of a work table. */
#define INTAKE_WORK_WORDS 16384

/* An output that no line exceeds (`longest_line`, crates/exports/proofs/Longest.antt): with it, 23 is never given. */
#define INTAKE_OUTPUT_BYTES 294976

/* Stack for a call: twice the most that was measured, on sheets that nest as deep as sheets can (`scripts/stack`). */
#define INTAKE_STACK_BYTES 3145728

/* The numbers, as in the table above. */
enum intake_number {
    INTAKE_ANSWERED = 0,
    INTAKE_WORK_TOO_SHORT = 1,
    INTAKE_SHEET_TOO_LONG = 2,
    INTAKE_NOT_UTF8 = 3,
    INTAKE_NOT_JSON = 4,
    INTAKE_TOO_DEEP = 5,
    INTAKE_NUMBER_TOO_LONG = 6,
    INTAKE_TOO_MANY_NODES = 7,
    INTAKE_REPEATED_NAME = 8,
    INTAKE_NOT_A_SHEET = 9,
    INTAKE_WRONG_SHAPE = 10,
    INTAKE_NOT_CARRIED = 11,
    INTAKE_NO_INPUT = 12,
    INTAKE_UNKNOWN_EXPRESSION = 13,
    INTAKE_NO_ID = 14,
    INTAKE_PRECONDITION_FALSE = 15,
    INTAKE_PRECONDITION_UNKNOWN = 16,
    INTAKE_INVARIANT_FALSE = 17,
    INTAKE_INVARIANT_UNKNOWN = 18,
    INTAKE_NO_OUTCOME = 19,
    INTAKE_GUARD_UNKNOWN = 20,
    INTAKE_WRONG_STATE = 21,
    INTAKE_NOT_A_SOURCE = 22,
    INTAKE_LINE_TOO_LONG = 23
};

/* What the returned word holds. */
#define INTAKE_NUMBER(answer) ((uint32_t)((answer) >> 32))
#define INTAKE_LENGTH(answer) ((size_t)((answer) & 0xffffffffu))

/* The truth of the sheet's condition, and the names that it misses. */
uint64_t intake_evaluate(const uint8_t *sheet, size_t sheet_length, uint32_t *work, size_t work_length, uint8_t *output, size_t output_length);

/* Whether all preconditions, all invariants, are true. */
uint64_t intake_preconditions(const uint8_t *sheet, size_t sheet_length, uint32_t *work, size_t work_length, uint8_t *output, size_t output_length);
uint64_t intake_invariants(const uint8_t *sheet, size_t sheet_length, uint32_t *work, size_t work_length, uint8_t *output, size_t output_length);

/* The first eligible outcome whose guard is true or missing. */
uint64_t intake_select(const uint8_t *sheet, size_t sheet_length, uint32_t *work, size_t work_length, uint8_t *output, size_t output_length);

/* Whether the outcome at a place, from 0 on, is kept in the sheet's state. */
uint64_t intake_admit(uint64_t place, const uint8_t *sheet, size_t sheet_length, uint32_t *work, size_t work_length, uint8_t *output, size_t output_length);

/* The whole decision: preconditions, then the outcome selected, then its admission. */
uint64_t intake_decide(const uint8_t *sheet, size_t sheet_length, uint32_t *work, size_t work_length, uint8_t *output, size_t output_length);

/* The version of the library that is linked or loaded; INTAKE_VERSION is that of the header. */
uint32_t intake_version(void);

#ifdef __cplusplus
}
#endif

#endif
