/* How inputs change: parts of the sheet's JSON are replaced, taken out, doubled and wrapped, two sheets are crossed, and libFuzzer changes bytes. */
#include <stdbool.h>
#include <string.h>

#include "calls.h"

size_t LLVMFuzzerMutate(uint8_t *data, size_t size, size_t max_size);

enum { MOST_PARTS = 8192 };

static const char *const words[] = {
    /* names of members */
    "\"entity\"", "\"version\"", "\"args\"", "\"fields\"", "\"old_fields\"", "\"to_state\"", "\"from_state\"", "\"id\"", "\"state\"", "\"states\"",
    "\"condition\"", "\"preconditions\"", "\"invariants\"", "\"outcomes\"", "\"assert\"", "\"name\"", "\"message\"", "\"when\"", "\"in_state\"",
    "\"wrong_state\"", "\"effect\"", "\"moves\"", "\"to\"", "\"from\"", "\"in\"", "\"as\"", "\"that\"", "\"\"", "\"a\"", "\"\\u0061\"",
    /* operators */
    "\"all\"", "\"any\"", "\"not\"", "\"exists\"", "\"eq\"", "\"ne\"", "\"gt\"", "\"gte\"", "\"lt\"", "\"lte\"", "\"contains\"", "\"starts_with\"",
    "\"ends_with\"", "\"for_all\"", "\"for_any\"", "\"before\"", "\"after\"", "\"compare\"", "\"truthy\"",
};

static const char *const values[] = {
    /* expressions */
    "\"$id\"", "\"$entity\"", "\"$version\"", "\"$from_state\"", "\"$to_state\"", "\"$state\"", "\"$args\"", "\"$fields\"", "\"$old_fields\"", "\"$args.a\"",
    "\"$fields.a\"", "\"$old_fields.a\"", "\"$args.\"", "\"$args.a.\"", "\"$args..a\"", "\"$a\"", "\"$a.a\"", "\"$a.\"", "\"$b\"", "\"$$a\"", "\"$\"",
    "\"$\\u0061rgs.\\u0061\"",
    /* values */
    "null", "true", "false", "{}", "[]", "[null]", "{\"a\":1}", "{\"\":{\"a\":null}}", "[[],{}]", "\"\"", "\"a\"", "\"in\"", "\"a\\n\\\"\\\\\"",
    /* numbers, and what is none */
    "0", "-0", "1", "-1", "4294967295", "4294967296", "0.00", "1.0", "10e-1", "1E+2", "-2.50e-3", "0e999999999999999999999", "9e12345678901234567890",
    "1e12345678901234567891", "1e-99999999999999999999", "01", "1.", "-",
    /* conditions */
    "{\"eq\":[\"$args.a\",1]}", "{\"lt\":[\"$fields.a\",2.5]}", "{\"contains\":[{\"a\":1},\"a\"]}", "{\"contains\":[\"aab\",\"ab\"]}",
    "{\"contains\":[\"$args.a\",\"$args.a\"]}", "{\"ends_with\":[\"$args.a\",\"$args.b\"]}", "{\"starts_with\":[\"ab\",\"a\"]}",
    "{\"ends_with\":[\"ab\",\"b\"]}", "{\"in\":[1,[1,2]]}", "{\"exists\":\"$args.a\"}",
    "{\"for_any\":{\"in\":\"$args\",\"as\":\"a\",\"that\":{\"gt\":[\"$a\",1]}}}",
    /* rules, outcomes and effects */
    "{\"assert\":true}", "{\"assert\":false,\"name\":\"a\",\"message\":\"b\"}", "{\"name\":\"a\",\"in_state\":\"in\"}",
    "{\"name\":\"a\",\"wrong_state\":true}", "{\"name\":\"a\",\"when\":{\"ne\":[\"$args.a\",null]}}",
    "{\"moves\":{\"to\":\"out\",\"from\":[\"in\",\"out\"]}}", "{\"moves\":{\"to\":\"out\",\"from\":\"in\"}}", "\"none\"", "\"creates\"", "\"updates\"",
};

/* What is put around a value. */
static const char *const wraps[][2] = {
    {"{\"not\":", "}"}, {"{\"all\":[true,", "]}"}, {"{\"any\":[false,", "]}"}, {"{\"exists\":", "}"}, {"[", "]"}, {"{\"a\":", "}"}, {"{\"eq\":[", ",1]}"},
    {"{\"for_all\":{\"in\":\"$args\",\"as\":\"a\",\"that\":", "}}"}, {"{\"for_any\":{\"in\":[1,\"a\"],\"as\":\"b\",\"that\":", "}}"}, {" ", "\n"},
};

/* Pieces of a text: bytes, escapes of one to four bytes, and half an escape. */
static const char *const pieces[] = {
    "a", "$", ".", " ", "\xc3\xa9", "\xe2\x82\xac", "\xf0\x9f\x98\x80", "\\n", "\\\"", "\\/", "\\u0061", "\\u0000", "\\u001F", "\\u00e9", "\\u20AC",
    "\\ud83d\\ude00", "\\ud83d",
};

#define DRAWN(list) (list)[drawn(sizeof(list) / sizeof *(list))]

static uint64_t state;

/* A number below `bound` (xorshift). */
static size_t drawn(size_t bound) {
    state ^= state << 13;
    state ^= state >> 7;
    state ^= state << 17;
    return bound ? state % bound : 0;
}

/* A part of a sheet: a member's name or a value. */
struct part {
    size_t begin, end;
    bool name;
};

struct parts {
    size_t count;
    struct part part[MOST_PARTS];
};

static bool is_in(uint8_t byte, const char *set) {
    return byte && strchr(set, byte);
}

static size_t text_end(const uint8_t *sheet, size_t length, size_t at) {
    for (at++; at < length && sheet[at] != '"'; at++)
        at += sheet[at] == '\\';
    return at < length ? at + 1 : length;
}

/* The parts of a text that need not be JSON, those within others after them; an open bracket reaches to the end. */
static void find(const uint8_t *sheet, size_t length, struct parts *parts) {
    size_t open[MOST_PARTS], depth = 0;
    parts->count = 0;
    for (size_t at = 0; at < length && parts->count < MOST_PARTS;) {
        uint8_t byte = sheet[at];
        size_t begin = at++;
        if (is_in(byte, "}]") && depth)
            parts->part[open[--depth]].end = at;
        if (byte == ':' && parts->count)
            parts->part[parts->count - 1].name = true;
        if (is_in(byte, " \t\r\n,:}]"))
            continue;
        if (byte == '"')
            at = text_end(sheet, length, begin);
        else if (is_in(byte, "{["))
            open[depth++] = parts->count;
        else
            while (at < length && !is_in(sheet[at], " \t\r\n,:}][{\""))
                at++;
        parts->part[parts->count++] = (struct part){begin, is_in(byte, "{[") ? length : at, false};
    }
}

/* One of the names or of the values, or nothing of the whole where there is none. */
static struct part one_of(const struct parts *parts, bool name) {
    for (size_t tries = 0; parts->count && tries < 64; tries++) {
        struct part part = parts->part[drawn(parts->count)];
        if (part.name == name)
            return part;
    }
    return (struct part){0, 0, name};
}

/* A sheet that is changed in place, with the bytes it may grow to. */
struct text {
    uint8_t *bytes;
    size_t length, most;
};

/* Puts bytes where a part was; does nothing where they have no room. */
static void put(struct text *text, size_t begin, size_t end, const void *bytes, size_t count) {
    if (text->length - (end - begin) + count > text->most)
        return;
    memmove(text->bytes + begin + count, text->bytes + end, text->length - end);
    memcpy(text->bytes + begin, bytes, count);
    text->length += count - (end - begin);
}

static void put_word(struct text *text, size_t begin, size_t end, const char *word) {
    put(text, begin, end, word, strlen(word));
}

/* Takes a value out with its name and a comma. */
static void take_out(struct text *text, struct part part) {
    size_t begin = part.begin, end = part.end;
    while (begin && !is_in(text->bytes[begin - 1], ",[{"))
        begin--;
    if (begin && text->bytes[begin - 1] == ',')
        begin--;
    else if (end < text->length && text->bytes[end] == ',')
        end++;
    put(text, begin, end, "", 0);
}

/* Whether a value has a name before it: is a member's and not an element. */
static bool named(const struct text *text, struct part part) {
    size_t begin = part.begin;
    while (begin && is_in(text->bytes[begin - 1], " \t\r\n"))
        begin--;
    return begin && text->bytes[begin - 1] == ':';
}

/* Puts bytes behind a value, as a further element or member. */
static void add(struct text *text, struct part part, const void *bytes, size_t count) {
    bool member = named(text, part);
    put(text, part.end, part.end, bytes, count);
    if (member) {
        put_word(text, part.end, part.end, ":");
        put_word(text, part.end, part.end, DRAWN(words));
    }
    put_word(text, part.end, part.end, ",");
}

/* Doubles what a text or number holds, up to fourteen times. */
static void lengthen(struct text *text, struct part part) {
    bool quoted = text->bytes[part.begin] == '"';
    size_t begin = part.begin + quoted, count = part.end - begin - quoted;
    if (part.end < begin + quoted || is_in(text->bytes[part.begin], "[{"))
        return;
    for (size_t times = 1 + drawn(14); times && text->length + count <= text->most; times--, count *= 2)
        put(text, begin + count, begin + count, text->bytes + begin, count);
}

/* Puts pieces at a place inside a text. */
static void vary(struct text *text, struct part part) {
    if (text->bytes[part.begin] != '"' || part.end < part.begin + 2)
        return;
    size_t at = part.begin + 1 + drawn(part.end - part.begin - 1);
    for (size_t times = 1 + drawn(3); times; times--)
        put_word(text, at, at, DRAWN(pieces));
}

static void wrap(struct text *text, struct part part) {
    const char *const *around = DRAWN(wraps);
    put_word(text, part.end, part.end, around[1]);
    put_word(text, part.begin, part.begin, around[0]);
}

/* One change of a sheet; `other` is the sheet that parts are copied from. */
static void change(struct text *text, const uint8_t *other, size_t other_length) {
    static struct parts parts, others;
    static uint8_t copy[1 << 16];
    find(text->bytes, text->length, &parts);
    find(other, other_length, &others);
    struct part value = one_of(&parts, false), name = one_of(&parts, true), from = one_of(&others, false);
    size_t count = from.end - from.begin < sizeof copy ? from.end - from.begin : 0;
    memcpy(copy, other + from.begin, count);
    switch (drawn(10)) {
    case 0: put(text, value.begin, value.end, copy, count); break;
    case 1: add(text, value, copy, count); break;
    case 2: take_out(text, value); break;
    case 3: wrap(text, value); break;
    case 4: put_word(text, name.begin, name.end, DRAWN(words)); break;
    case 5: lengthen(text, value); break;
    case 6:
    case 7: vary(text, value); break;
    default: put_word(text, value.begin, value.end, DRAWN(values)); break;
    }
}

static size_t changed(uint8_t *input, size_t size, size_t most, const uint8_t *other, size_t other_length) {
    struct text text = {input + HEAD, size - HEAD, most - HEAD};
    for (size_t times = 1 + drawn(3); times; times--)
        change(&text, other ? other : text.bytes, other ? other_length : text.length);
    return HEAD + text.length;
}

size_t LLVMFuzzerCustomMutator(uint8_t *input, size_t size, size_t most, unsigned seed) {
    state = seed * 0x9e3779b97f4a7c15u + 1;
    if (size <= HEAD || most <= HEAD || drawn(8) == 0)
        return LLVMFuzzerMutate(input, size, most);
    if (drawn(8) == 0)
        input[drawn(HEAD)] = (uint8_t)drawn(256);
    if (drawn(4) == 0)
        return HEAD + LLVMFuzzerMutate(input + HEAD, size - HEAD, most - HEAD);
    return changed(input, size, most, NULL, 0);
}

size_t LLVMFuzzerCustomCrossOver(const uint8_t *one, size_t one_size, const uint8_t *two, size_t two_size, uint8_t *out, size_t most, unsigned seed) {
    state = seed * 0x9e3779b97f4a7c15u + 1;
    size_t size = one_size < most ? one_size : most;
    memcpy(out, one, size);
    if (size <= HEAD || two_size <= HEAD)
        return size;
    return changed(out, size, most, two + HEAD, two_size - HEAD);
}
