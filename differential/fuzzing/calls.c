#define _GNU_SOURCE
#include "calls.h"

#include <stdbool.h>
#include <stdio.h>
#include <stdlib.h>
#include <string.h>
#include <sys/mman.h>
#include <unistd.h>

/* Bytes that can be lent for each of sheet, work table and output: whole pages. */
enum { SPACE = 131072, PAGE = 4096 };

typedef uint64_t entry(const uint8_t *, size_t, uint32_t *, size_t, uint8_t *, size_t);

/* By call: its name, its function (admit takes a place), how an answered line begins, and the numbers that it may give beside 1 to 11 and 23. */
static const struct {
    const char *name;
    entry *function;
    const char *answered;
    uint32_t numbers;
} calls[CALLS] = {
    {"evaluate", intake_evaluate, "(truth ", 1u << 0 | 1u << 12 | 1u << 13 | 1u << 14},
    {"preconditions", intake_preconditions, "(passed)", 1u << 0 | 1u << 13 | 1u << 14 | 1u << 15 | 1u << 16},
    {"invariants", intake_invariants, "(passed)", 1u << 0 | 1u << 13 | 1u << 14 | 1u << 17 | 1u << 18},
    {"select", intake_select, "(selected ", 1u << 0 | 1u << 13 | 1u << 14 | 1u << 19 | 1u << 20},
    {"admit", NULL, "(admitted ", 1u << 0 | 1u << 12 | 1u << 21 | 1u << 22},
    {"decide", intake_decide, "(admitted ", 1u << 0 | 0x1fu << 12 | 0xfu << 19},
};
static const uint32_t of_every_call = 0x7ffu << 1 | 1u << 23;

const char *name_of(unsigned call) {
    return calls[call].name;
}

static void *sure(void *mapped) {
    if (mapped == MAP_FAILED) {
        perror("mmap");
        exit(2);
    }
    return mapped;
}

/* Memory with a guard page on either side. */
static uint8_t *guarded(int protection, int file) {
    uint8_t *all = sure(mmap(NULL, SPACE + 2 * PAGE, PROT_NONE, MAP_PRIVATE | MAP_ANONYMOUS, -1, 0));
    int flags = MAP_FIXED | (file < 0 ? MAP_PRIVATE | MAP_ANONYMOUS : MAP_SHARED);
    return sure(mmap(all + PAGE, SPACE, protection, flags, file, 0));
}

/* The sheet is seen twice: written here, and only read by the call. */
static struct memory {
    uint8_t *written, *sheet, *work, *output;
} memory(void) {
    static struct memory made;
    if (!made.sheet) {
        int file = memfd_create("sheet", 0);
        if (file < 0 || ftruncate(file, SPACE)) {
            perror("memfd_create");
            exit(2);
        }
        made.written = sure(mmap(NULL, SPACE, PROT_READ | PROT_WRITE, MAP_SHARED, file, 0));
        made.sheet = guarded(PROT_READ, file);
        made.work = guarded(PROT_READ | PROT_WRITE, -1);
        made.output = guarded(PROT_READ | PROT_WRITE, -1);
    }
    return made;
}

/* Where so many bytes lie in a space. */
static size_t at(enum side side, size_t bytes) {
    return side == BEHIND ? SPACE - bytes : 0;
}

struct asked asked_by(const uint8_t *input, size_t size) {
    static const size_t words[] = {0, 1, INTAKE_WORK_WORDS - 1, INTAKE_WORK_WORDS + 1, 20000, 32768};
    uint8_t head[HEAD] = {0};
    size_t given = size < HEAD ? size : HEAD;
    if (given)
        memcpy(head, input, given);
    return (struct asked){
        .call = head[0] % CALLS,
        .place = head[1] < 128 ? head[1] : (uint64_t)1 << (head[1] & 63),
        .words = head[2] < 240 ? INTAKE_WORK_WORDS : words[head[2] % 6],
        .room = head[3] < 128 ? 65536 : head[3] & 127u,
        .sheet = input + given,
        .length = size - given,
    };
}

static bool all_are(const uint8_t *bytes, size_t count, uint8_t byte) {
    return count == 0 || (bytes[0] == byte && memcmp(bytes, bytes + 1, count - 1) == 0);
}

/* What follows reads a line up to its LF, which stands in no part of it. Each function gives the place behind the part that begins at `c`, or null. */

static const uint8_t *escape(const uint8_t *c) {
    if (c[1] == '"' || c[1] == '\\')
        return c + 2;
    bool control = c[1] == 'u' && c[2] == '0' && c[3] == '0' && (c[4] == '0' || c[4] == '1');
    return control && ((c[5] >= '0' && c[5] <= '9') || (c[5] >= 'a' && c[5] <= 'f')) ? c + 6 : NULL;
}

static const uint8_t *text(const uint8_t *c) {
    for (c++; c && *c != '"';)
        c = *c < 32 ? NULL : *c == '\\' ? escape(c) : c + 1;
    return c ? c + 1 : NULL;
}

static const uint8_t *word(const uint8_t *c) {
    const uint8_t *begin = c;
    while ((*c >= 'a' && *c <= 'z') || (*c >= '0' && *c <= '9'))
        c++;
    return c > begin ? c : NULL;
}

/* A bracketed form whose parts are words, texts and, while `inner` allows it, forms. */
static const uint8_t *form(const uint8_t *c, bool inner) {
    if (c[0] == '(' && c[1] == ')')
        return c + 2;
    for (char before = '('; *c == before; before = ' ') {
        c++;
        c = *c == '"' ? text(c) : *c == '(' ? (inner ? form(c, false) : NULL) : word(c);
        if (!c)
            return NULL;
        if (*c == ')')
            return c + 1;
    }
    return NULL;
}

/* The promise that a line breaks, or null. */
static const char *line_kept(unsigned call, const struct reply *reply) {
    char refused[16];
    snprintf(refused, sizeof refused, "(refused %u", reply->number);
    const char *begin = reply->number ? refused : calls[call].answered;
    const uint8_t *end = reply->line + reply->length - 1;
    if (*end != '\n')
        return "the line does not end in LF";
    if (form(reply->line, true) != end)
        return "the line is not one bracketed form";
    if (reply->length <= strlen(begin) || memcmp(reply->line, begin, strlen(begin)) != 0)
        return "the line does not begin as its number says";
    return NULL;
}

/* The promise that number and length break, or null. */
static const char *number_kept(const struct asked *asked, const struct reply *reply) {
    unsigned number = reply->number;
    if (number >= NUMBERS || !((of_every_call | calls[asked->call].numbers) >> number & 1))
        return "the number is none of this call's";
    if ((number == 1) != (asked->words < INTAKE_WORK_WORDS))
        return "1 does not go with a work table that is too short";
    if (number != 1 && (number == 2) != (asked->length > LONGEST_SHEET))
        return "2 does not go with a sheet that is too long";
    if (number == 23 && asked->room >= ENOUGH)
        return "23 with enough output";
    if ((number == 0 || (number >= 13 && number <= 22)) != (reply->length > 0))
        return "the number does not go with a line, or lacks its line";
    if (reply->length > asked->room)
        return "the line is longer than the output";
    return NULL;
}

static uint64_t word_of(const struct asked *asked, const uint8_t *sheet, uint32_t *work, uint8_t *output) {
    if (!calls[asked->call].function)
        return intake_admit(asked->place, sheet, asked->length, work, asked->words, output, asked->room);
    return calls[asked->call].function(sheet, asked->length, work, asked->words, output, asked->room);
}

const char *ask(const struct asked *asked, enum side side, uint8_t fill, struct reply *reply) {
    struct memory lent = memory();
    size_t bytes = 4 * asked->words;
    uint8_t *sheet = lent.sheet + at(side, asked->length), *work = lent.work + at(side, bytes), *output = lent.output + at(side, asked->room);
    fill |= 1; /* not 0, which the work table becomes */
    if (asked->length)
        memcpy(lent.written + (sheet - lent.sheet), asked->sheet, asked->length);
    memset(work, fill, bytes);
    memset(output, fill, asked->room);
    /* a pointer may be null where its length is 0 */
    bool null = side == BEFORE;
    uint64_t answer = word_of(asked, asked->length || !null ? sheet : NULL, bytes || !null ? (uint32_t *)work : NULL, asked->room || !null ? output : NULL);
    *reply = (struct reply){INTAKE_NUMBER(answer), INTAKE_LENGTH(answer), output};
    const char *broken = number_kept(asked, reply);
    if (broken)
        return broken;
    size_t used = reply->number == 1 ? 0 : 4 * INTAKE_WORK_WORDS;
    if (!all_are(work, used, 0))
        return "the work table is not zero";
    if (!all_are(work + used, bytes - used, fill))
        return "words that were not to be touched changed";
    if (!all_are(output + reply->length, asked->room - reply->length, fill))
        return "output past the line changed";
    return reply->length ? line_kept(asked->call, reply) : NULL;
}
