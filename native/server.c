/*
 * server FILE: a small lesson server over the library.
 *
 * The machine's tables are in FILE, 11,272 numbers, each with its low byte first. Standard input has one line for each
 * call, in the words of native/words.h, as `0 make-segment 0 7 0 2`; each is answered by one line, `ANSWER VALUE NAME`.
 * Other lines:
 *
 *   list    which package holds what, for the morning
 *   save    write the tables to FILE
 *   fresh   begin with a fresh machine (FILE stays as it is until save)
 *   help    these lines
 *   quit    end without saving
 *
 * A line that is none of these is answered by `? ..` and changes nothing. A file that is not there means a fresh machine.
 * A damaged one is kept as it is: every call and save is refused until `fresh`.
 */
#include <stdbool.h>
#include <stdio.h>
#include <string.h>

#include "layout.h"
#include "words.h"

/* One number more than the tables have, to see a file that is too long. */
static uint16_t tables[SKAWENNEL_TABLES_LENGTH + 1];
static size_t length = SKAWENNEL_TABLES_LENGTH;
static bool whole = true; /* no half number at the end of the file */
static unsigned long unsaved;

/* Whether the library takes the tables for well formed. It is asked by a count, which only reads. */
static bool damaged(void)
{
    return !whole || skawennel_count(tables, length, 0, 0).answer == SKAWENNEL_BAD_TABLES;
}

static void begin_fresh(void)
{
    length = SKAWENNEL_TABLES_LENGTH;
    whole = true;
    skawennel_fresh(tables, length);
}

/* ---- The file ---- */

/* Reads as many numbers as there are, up to one too many. */
static void read_numbers(FILE *in)
{
    int low, high;
    length = 0;
    whole = true;
    while (length <= SKAWENNEL_TABLES_LENGTH && (low = getc(in)) != EOF) {
        high = getc(in);
        if (high == EOF) {
            whole = false;
            return;
        }
        tables[length++] = (uint16_t)(low | high << 8);
    }
}

static void load(const char *name)
{
    FILE *in = fopen(name, "rb");
    if (in == NULL) {
        begin_fresh();
        printf("! no tables can be read from %s: a fresh machine\n", name);
        return;
    }
    read_numbers(in);
    if (ferror(in)) {
        whole = false;
    }
    fclose(in);
    if (damaged()) {
        printf("! the tables in %s are damaged: nothing is done with them; `fresh` begins anew\n", name);
    } else {
        printf("! tables read from %s\n", name);
    }
}

/* Writes beside the file and then takes its name, so that a failure leaves the old one. */
static bool write_file(const char *name)
{
    char beside[4096];
    if (snprintf(beside, sizeof beside, "%s.new", name) >= (int)sizeof beside) {
        return false;
    }
    FILE *out = fopen(beside, "wb");
    if (out == NULL) {
        return false;
    }
    for (size_t i = 0; i < length; i++) {
        putc(tables[i] & 255, out);
        putc(tables[i] >> 8, out);
    }
    bool written = !ferror(out);
    return fclose(out) == 0 && written && rename(beside, name) == 0;
}

static void save(const char *name)
{
    if (damaged()) {
        printf("! not saved: the tables are damaged; `fresh` begins anew\n");
    } else if (write_file(name)) {
        unsaved = 0;
        printf("! saved to %s\n", name);
    } else {
        printf("! not saved: %s cannot be written\n", name);
    }
}

/* ---- The morning list ---- */

/* The kind of the object that a capability names; 0: it is gone. */
static uint16_t kind_of(const struct layout_machine *m, struct skawennel_capability c)
{
    for (int i = 0; i < LAYOUT_PLACES; i++) {
        const struct layout_place *p = &m->packages[c.maker].places[i];
        if (p->kind != 0 && p->serial == c.serial) {
            return p->kind;
        }
    }
    return 0;
}

static void list(void)
{
    if (damaged()) {
        printf("! no list: the tables are damaged; `fresh` begins anew\n");
        return;
    }
    const struct layout_machine *m = layout_of_const(tables);
    for (unsigned p = 0; p < SKAWENNEL_PACKAGES; p++) {
        for (unsigned i = 0; i < LAYOUT_SLOTS; i++) {
            struct skawennel_capability c = m->packages[p].slots[i];
            if (c.serial != 0) {
                printf("package %u slot %u: %u.%u %s, ", p, i, c.maker, c.serial, words_kind(kind_of(m, c)));
                words_write_rights(c.rights, stdout);
                putchar('\n');
            }
        }
    }
}

/* ---- Lines ---- */

static void call(const struct words_call *x)
{
    const uint16_t *n = x->numbers;
    if (!whole) {
        printf("%u 0 %s\n", SKAWENNEL_BAD_TABLES, words_answer(SKAWENNEL_BAD_TABLES));
        return;
    }
    struct skawennel_outcome o = skawennel_step(tables, length, x->caller, x->call, n[0], n[1], n[2], n[3], n[4]);
    unsaved += o.answer == SKAWENNEL_DONE;
    printf("%u %u %s\n", o.answer, o.value, words_answer(o.answer));
}

static void help(void)
{
    printf("! CALLER CALL NUMBERS.., as `0 make-segment 0 7 0 2`; or list, save, fresh, help, quit\n");
}

static bool is(const char *line, size_t count, const char *word)
{
    return count == strlen(word) && memcmp(line, word, count) == 0;
}

/* Whether the server goes on after this line. */
static bool obey(const char *line, size_t count, const char *name)
{
    struct words_call x;
    const char *why = "";
    if (is(line, count, "quit")) {
        printf("! %lu calls done since the last save\n", unsaved);
        return false;
    }
    if (is(line, count, "list")) {
        list();
    } else if (is(line, count, "save")) {
        save(name);
    } else if (is(line, count, "fresh")) {
        begin_fresh();
        printf("! a fresh machine\n");
    } else if (is(line, count, "help")) {
        help();
    } else {
        switch (words_read(line, count, &x, &why)) {
        case WORDS_CALL:
            call(&x);
            break;
        case WORDS_BAD:
            printf("? %s\n", why);
            break;
        case WORDS_BLANK:
            break;
        }
    }
    return true;
}

/* Reads a line without its end; what doesn't fit is read past, and *fits is then false. False: there is no line. */
static bool read_line(char *line, size_t room, size_t *count, bool *fits)
{
    int c;
    *count = 0;
    *fits = true;
    while ((c = getchar()) != EOF && c != '\n') {
        if (*count < room) {
            line[(*count)++] = (char)c;
        } else {
            *fits = false;
        }
    }
    return c != EOF || *count > 0;
}

int main(int count, char **words)
{
    char line[256];
    size_t used;
    bool fits, on = true;
    if (count != 2) {
        fputs("usage: server FILE\n", stderr);
        return 2;
    }
    load(words[1]);
    fflush(stdout);
    while (on && read_line(line, sizeof line, &used, &fits)) {
        if (fits) {
            on = obey(line, used, words[1]);
        } else {
            printf("? too long a line\n");
        }
        fflush(stdout);
    }
    return 0;
}
