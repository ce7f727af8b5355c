/*
 * words.h: calls as words. A line is
 *
 *     CALLER CALL NUMBERS..        # a comment
 *
 * CALLER is 0 to 255, or `host`. CALL is a call's name, as make-segment, or its number 0 to 255. A call by name has at
 * least the numbers that it lists and at most five; a call by number has any number of them up to five. Those left out
 * are 0. A number is 0 to 65,535, in decimal or as 0x1f, or rights by name, as read+write.
 */
#ifndef WORDS_H
#define WORDS_H

#include <stdbool.h>
#include <stdint.h>
#include <stdio.h>

struct words_call {
    uint16_t caller;
    uint16_t call;
    uint16_t numbers[5];
};

/* The bytes of a tape's record. */
enum { WORDS_RECORD = 14 };

enum words_line { WORDS_CALL, WORDS_BLANK, WORDS_BAD };

/* Reads one line, without its line end. For WORDS_BAD, *why says what is wrong. */
enum words_line words_read(const char *line, size_t length, struct words_call *call, const char **why);

/* Writes a call as one line in the one canonical way; words_read reads the same call from it. */
void words_write(const struct words_call *call, FILE *out);

/* A call as a record of a tape and back; a record that is read must be whole and marked. */
void words_put_record(const struct words_call *call, unsigned char *record);
void words_get_record(const unsigned char *record, struct words_call *call);
bool words_marked(const unsigned char *record);

/* A text of lines as a tape, in memory that the caller frees. NULL: *line is the first line that cannot be read, and
 *why says why. */
unsigned char *words_encode(const char *text, size_t length, size_t *used, size_t *line, const char **why);

/* Names for people; a number without a name is "?". */
const char *words_answer(uint16_t answer);
const char *words_kind(uint16_t kind);

/* Writes rights as names joined by +, as read+write; 0 as "none". */
void words_write_rights(uint16_t rights, FILE *out);

/* Reads all of a stream into memory that the caller frees; NULL where that fails. */
char *words_read_all(FILE *in, size_t *length);

#endif
