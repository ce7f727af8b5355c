#include "words.h"

#include <stdlib.h>
#include <string.h>

#include "skawennel.h"

enum { NUMBERS = 5, MARK_0 = 0x50, MARK_1 = 0x43 };

static const struct {
    const char *name;
    int listed; /* how many of a to e the call lists */
} calls[SKAWENNEL_COUNT + 1] = {
    {NULL, 0},        {"restrict", 3},    {"drop", 1},   {"hand", 4},      {"make-segment", 4}, {"make-directory", 4},
    {"make-type", 4}, {"make-object", 5}, {"delete", 2}, {"add-entry", 3}, {"remove-entry", 2}, {"fetch", 3},
    {"read", 2},      {"write", 3},       {"copy", 5},   {"set-inner", 4}, {"get-inner", 4},    {"count", 1},
};

static const char *const rights_names[8] = {"store1", "store2", "read", "write", "remove", "delete", "make", "open"};

static const char *const answers[17] = {
    "done",        "bad number", "empty",    "no ability", "gone",    "wrong kind", "no entry", "name used",  "wrong entry",
    "not addable", "outside",    "occupied", "wrong type", "no room", "no place",   "spent",    "bad tables",
};

static const char *const kinds[5] = {"gone", "segment", "directory", "type", "object"};

const char *words_answer(uint16_t answer)
{
    return answer < 17 ? answers[answer] : "?";
}

const char *words_kind(uint16_t kind)
{
    return kind < 5 ? kinds[kind] : "?";
}

void words_write_rights(uint16_t rights, FILE *out)
{
    const char *between = "";
    for (int i = 0; i < 8; i++) {
        if (rights >> i & 1) {
            fprintf(out, "%s%s", between, rights_names[i]);
            between = "+";
        }
    }
    if (rights == 0) {
        fputs("none", out);
    }
}

/* A word of a line; it is not ended by a zero byte. */
struct word {
    const char *text;
    size_t length;
};

static bool word_is(struct word w, const char *text)
{
    return strlen(text) == w.length && memcmp(w.text, text, w.length) == 0;
}

static bool is_space(char c)
{
    return c == ' ' || c == '\t' || c == '\r';
}

/* Takes the next word off a line; an empty one: there is none left. */
static struct word next_word(const char *line, size_t length, size_t *at)
{
    while (*at < length && is_space(line[*at])) {
        (*at)++;
    }
    size_t first = *at;
    while (*at < length && !is_space(line[*at]) && line[*at] != '#') {
        (*at)++;
    }
    return (struct word){line + first, *at - first};
}

static int digit(char c)
{
    if (c >= '0' && c <= '9') {
        return c - '0';
    }
    if (c >= 'a' && c <= 'f') {
        return c - 'a' + 10;
    }
    return 16;
}

static bool read_plain_number(struct word w, uint32_t most, uint16_t *number)
{
    uint32_t base = 10;
    if (w.length > 2 && w.text[0] == '0' && w.text[1] == 'x') {
        base = 16;
        w.text += 2;
        w.length -= 2;
    }
    uint32_t sum = 0;
    for (size_t i = 0; i < w.length; i++) {
        uint32_t d = (uint32_t)digit(w.text[i]);
        if (d >= base) {
            return false;
        }
        sum = sum * base + d;
        if (sum > most) {
            return false;
        }
    }
    *number = (uint16_t)sum;
    return w.length > 0;
}

static bool read_right(struct word w, uint16_t *right)
{
    for (int i = 0; i < 8; i++) {
        if (word_is(w, rights_names[i])) {
            *right = (uint16_t)(1 << i);
            return true;
        }
    }
    return false;
}

/* Names of rights joined by +, none of them twice. */
static bool read_rights(struct word w, uint16_t *rights)
{
    *rights = 0;
    for (;;) {
        const char *plus = memchr(w.text, '+', w.length);
        size_t length = plus == NULL ? w.length : (size_t)(plus - w.text);
        uint16_t right;
        if (!read_right((struct word){w.text, length}, &right) || (*rights & right) != 0) {
            return false;
        }
        *rights |= right;
        if (plus == NULL) {
            return true;
        }
        w = (struct word){plus + 1, w.length - length - 1};
    }
}

static bool read_number(struct word w, uint16_t *number)
{
    return read_plain_number(w, 65535, number) || read_rights(w, number);
}

static bool read_caller(struct word w, uint16_t *caller)
{
    if (word_is(w, "host")) {
        *caller = SKAWENNEL_HOST;
        return true;
    }
    return read_plain_number(w, 255, caller);
}

/* A call by its name or number, and how many numbers it needs. */
static bool read_call(struct word w, uint16_t *call, int *needed)
{
    for (uint16_t i = 1; i <= SKAWENNEL_COUNT; i++) {
        if (word_is(w, calls[i].name)) {
            *call = i;
            *needed = calls[i].listed;
            return true;
        }
    }
    *needed = 0;
    return read_plain_number(w, 255, call);
}

enum words_line words_read(const char *line, size_t length, struct words_call *call, const char **why)
{
    size_t at = 0;
    int needed = 0, given = 0;
    memset(call, 0, sizeof *call);
    struct word w = next_word(line, length, &at);
    if (w.length == 0) {
        return WORDS_BLANK;
    }
    if (!read_caller(w, &call->caller)) {
        *why = "the caller is neither 0 to 255 nor host";
        return WORDS_BAD;
    }
    w = next_word(line, length, &at);
    if (w.length == 0 || !read_call(w, &call->call, &needed)) {
        *why = "no such call";
        return WORDS_BAD;
    }
    while ((w = next_word(line, length, &at)).length != 0) {
        if (given == NUMBERS) {
            *why = "more than five numbers";
            return WORDS_BAD;
        }
        if (!read_number(w, &call->numbers[given])) {
            *why = "neither a number 0 to 65535 nor rights";
            return WORDS_BAD;
        }
        given++;
    }
    if (given < needed) {
        *why = "a number is missing";
        return WORDS_BAD;
    }
    return WORDS_CALL;
}

void words_write(const struct words_call *call, FILE *out)
{
    int shown = 0;
    if (call->caller == SKAWENNEL_HOST) {
        fputs("host", out);
    } else {
        fprintf(out, "%u", call->caller);
    }
    if (call->call >= 1 && call->call <= SKAWENNEL_COUNT) {
        fprintf(out, " %s", calls[call->call].name);
        shown = calls[call->call].listed;
    } else {
        fprintf(out, " %u", call->call);
    }
    for (int i = 0; i < NUMBERS; i++) {
        if (call->numbers[i] != 0 && i >= shown) {
            shown = i + 1;
        }
    }
    for (int i = 0; i < shown; i++) {
        fprintf(out, " %u", call->numbers[i]);
    }
    fputc('\n', out);
}

void words_put_record(const struct words_call *call, unsigned char *record)
{
    record[0] = MARK_0;
    record[1] = MARK_1;
    record[2] = (unsigned char)call->caller;
    record[3] = (unsigned char)call->call;
    for (int i = 0; i < NUMBERS; i++) {
        record[4 + 2 * i] = (unsigned char)(call->numbers[i] & 255);
        record[5 + 2 * i] = (unsigned char)(call->numbers[i] >> 8);
    }
}

void words_get_record(const unsigned char *record, struct words_call *call)
{
    call->caller = record[2];
    call->call = record[3];
    for (int i = 0; i < NUMBERS; i++) {
        call->numbers[i] = (uint16_t)(record[4 + 2 * i] | record[5 + 2 * i] << 8);
    }
}

bool words_marked(const unsigned char *record)
{
    return record[0] == MARK_0 && record[1] == MARK_1;
}

/* A line has at most one record, so as many records as lines are room enough. */
unsigned char *words_encode(const char *text, size_t length, size_t *used, size_t *line, const char **why)
{
    size_t lines = 1;
    for (size_t i = 0; i < length; i++) {
        lines += text[i] == '\n';
    }
    unsigned char *tape = malloc(lines * WORDS_RECORD);
    *used = *line = 0;
    *why = "no memory";
    for (size_t at = 0; tape != NULL && at < length; at++) {
        const char *end = memchr(text + at, '\n', length - at);
        size_t here = end == NULL ? length - at : (size_t)(end - (text + at));
        struct words_call call;
        enum words_line what = words_read(text + at, here, &call, why);
        ++*line;
        if (what == WORDS_BAD) {
            free(tape);
            return NULL;
        }
        if (what == WORDS_CALL) {
            words_put_record(&call, tape + *used);
            *used += WORDS_RECORD;
        }
        at += here;
    }
    return tape;
}

char *words_read_all(FILE *in, size_t *length)
{
    size_t room = 1 << 16;
    char *bytes = malloc(room);
    *length = 0;
    while (bytes != NULL) {
        *length += fread(bytes + *length, 1, room - *length, in);
        if (*length < room) {
            break;
        }
        char *more = realloc(bytes, room *= 2);
        if (more == NULL) {
            free(bytes);
        }
        bytes = more;
    }
    if (bytes != NULL && ferror(in)) {
        free(bytes);
        return NULL;
    }
    return bytes;
}
