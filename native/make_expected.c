/*
 * make-expected check FILE..   holds the reference to what is stored beside each tape
 * make-expected write FILE..   stores it
 *
 * FILE is NAME.words, a tape as words, or NAME.tape, its bytes. What is stored is NAME.tape.out and NAME.tree.out, the
 * texts of the two programs. Where NAME.words and NAME.tape both stand they must be the same tape.
 *
 * In NAME.words a comment `#= ANSWER VALUE` (or `#= ANSWER`, the value then being 0) was put beside a call by hand, from
 * the rules; each is compared with what the reference answers there, in both modes.
 *
 * The last line is `N passed, M failed`; the exit status is 0 only if none failed.
 */
#define _POSIX_C_SOURCE 200809L
#include <stdbool.h>
#include <stdlib.h>
#include <string.h>

#include "reference.h"
#include "words.h"

static unsigned passed, failed;

static void tell(bool good, const char *file, const char *what)
{
    if (good) {
        passed++;
    } else {
        failed++;
        printf("%s: %s\n", file, what);
    }
}

static char *read_file(const char *name, size_t *length)
{
    FILE *in = fopen(name, "rb");
    if (in == NULL) {
        return NULL;
    }
    char *bytes = words_read_all(in, length);
    fclose(in);
    return bytes;
}

static char *text_of(void (*text)(const uint8_t *, size_t, FILE *), const uint8_t *tape, size_t count, size_t *length)
{
    char *bytes = NULL;
    FILE *out = open_memstream(&bytes, length);
    if (out == NULL) {
        return NULL;
    }
    text(tape, count, out);
    fclose(out);
    return bytes;
}

/* Compares or writes one stored text. */
static void text(bool writing, const char *stem, const char *end, void (*make)(const uint8_t *, size_t, FILE *),
                 const uint8_t *tape, size_t count)
{
    char name[1024];
    size_t length = 0, stored_length = 0;
    snprintf(name, sizeof name, "%s%s", stem, end);
    char *made = text_of(make, tape, count, &length);
    if (writing) {
        FILE *out = fopen(name, "wb");
        bool written = out != NULL && fwrite(made, 1, length, out) == length;
        tell(out != NULL && fclose(out) == 0 && written, name, "cannot be written");
    } else {
        char *stored = read_file(name, &stored_length);
        tell(stored != NULL && made != NULL && stored_length == length && memcmp(stored, made, length) == 0, name,
             "is missing or differs from what the reference writes");
        free(stored);
    }
    free(made);
}

/* The hand-written `#= ANSWER VALUE` of a line, if it has one. */
static bool hand_written(const char *line, size_t length, unsigned *answer, unsigned *value)
{
    char copy[256];
    if (length >= sizeof copy) {
        return false;
    }
    memcpy(copy, line, length);
    copy[length] = 0;
    const char *mark = strstr(copy, "#=");
    *value = 0;
    return mark != NULL && sscanf(mark + 2, "%u %u", answer, value) >= 1;
}

static void hand_written_answers(const char *name, const char *words, size_t length)
{
    uint16_t tables[SKAWENNEL_TABLES_LENGTH];
    size_t line = 0;
    ref_fresh(tables, SKAWENNEL_TABLES_LENGTH);
    for (size_t at = 0; at < length; at++) {
        const char *end = memchr(words + at, '\n', length - at);
        size_t here = end == NULL ? length - at : (size_t)(end - (words + at));
        struct words_call x;
        const char *why;
        unsigned answer, value;
        line++;
        if (words_read(words + at, here, &x, &why) == WORDS_CALL) {
            struct skawennel_outcome o = ref_step(tables, SKAWENNEL_TABLES_LENGTH, x.caller, x.call, x.numbers[0],
                                                  x.numbers[1], x.numbers[2], x.numbers[3], x.numbers[4]);
            if (hand_written(words + at, here, &answer, &value)) {
                char what[128];
                snprintf(what, sizeof what, "line %zu: by hand %u %u, the reference says %u %u", line, answer, value,
                         o.answer, o.value);
                tell(o.answer == answer && o.value == value, name, what);
            }
        }
        at += here;
    }
}

static void one(bool writing, const char *name)
{
    size_t length, count, line;
    const char *why = "", *dot = strrchr(name, '.');
    char stem[1000], beside[1024];
    char *bytes = read_file(name, &length);
    bool words = dot != NULL && strcmp(dot, ".words") == 0;
    if (bytes == NULL || dot == NULL || (size_t)(dot - name) >= sizeof stem) {
        tell(false, name, "cannot be read");
        free(bytes);
        return;
    }
    memcpy(stem, name, (size_t)(dot - name));
    stem[dot - name] = 0;
    uint8_t *tape = (uint8_t *)bytes;
    count = length;
    if (words) {
        tape = words_encode(bytes, length, &count, &line, &why);
        tell(tape != NULL, name, why);
        if (tape != NULL) {
            hand_written_answers(name, bytes, length);
            snprintf(beside, sizeof beside, "%s.tape", stem);
            char *stored = read_file(beside, &length);
            if (stored != NULL) {
                tell(length == count && memcmp(stored, tape, count) == 0, beside, "is another tape than the words");
            }
            free(stored);
        }
    }
    if (tape != NULL) {
        text(writing, stem, ".tape.out", ref_tape_text, tape, count);
        text(writing, stem, ".tree.out", ref_tree_text, tape, count);
    }
    if (words) {
        free(tape);
    }
    free(bytes);
}

int main(int count, char **words)
{
    bool writing = count > 2 && strcmp(words[1], "write") == 0;
    if (!writing && !(count > 2 && strcmp(words[1], "check") == 0)) {
        fputs("usage: make-expected check|write FILE..\n", stderr);
        return 2;
    }
    for (int i = 2; i < count; i++) {
        one(writing, words[i]);
    }
    printf("%u passed, %u failed\n", passed, failed);
    return failed == 0 ? 0 : 1;
}
