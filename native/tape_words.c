/*
 * tape-words encode   reads calls as words (words.h), one to a line, and writes a tape of 14-byte records
 * tape-words decode   reads a tape and writes its calls as words
 *
 * Input that cannot be taken whole is refused: the line or record is named on standard error, nothing is written to
 * standard output, and the exit status is 1. encode of what decode wrote gives the same bytes.
 */
#include <stdbool.h>
#include <stdlib.h>
#include <string.h>

#include "words.h"

static bool encode(const char *text, size_t length)
{
    size_t used, line;
    const char *why = "";
    unsigned char *tape = words_encode(text, length, &used, &line, &why);
    if (tape == NULL) {
        fprintf(stderr, "tape-words: line %zu: %s\n", line, why);
        return false;
    }
    bool written = fwrite(tape, 1, used, stdout) == used && fflush(stdout) == 0;
    free(tape);
    return written;
}

/* What is wrong with the record that begins here; NULL: nothing. */
static const char *fault(const unsigned char *record, size_t left)
{
    if (left < WORDS_RECORD) {
        return "cut short";
    }
    return words_marked(record) ? NULL : "another mark";
}

static bool decode(const unsigned char *tape, size_t length)
{
    for (size_t at = 0; at < length; at += WORDS_RECORD) {
        const char *why = fault(tape + at, length - at);
        if (why != NULL) {
            fprintf(stderr, "tape-words: record %zu: %s\n", at / WORDS_RECORD + 1, why);
            return false;
        }
    }
    for (size_t at = 0; at < length; at += WORDS_RECORD) {
        struct words_call call;
        words_get_record(tape + at, &call);
        words_write(&call, stdout);
    }
    return fflush(stdout) == 0;
}

int main(int count, char **words)
{
    bool encoding = count == 2 && strcmp(words[1], "encode") == 0;
    if (!encoding && !(count == 2 && strcmp(words[1], "decode") == 0)) {
        fputs("usage: tape-words encode|decode <INPUT >OUTPUT\n", stderr);
        return 1;
    }
    size_t length;
    char *input = words_read_all(stdin, &length);
    if (input == NULL) {
        fputs("tape-words: the input cannot be read\n", stderr);
        return 1;
    }
    bool taken = encoding ? encode(input, length) : decode((unsigned char *)input, length);
    free(input);
    return taken ? 0 : 1;
}
