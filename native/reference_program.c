/*
 * reference-program tape|tree <TAPE
 *
 * The tape program and the tree program as the reference has them, to be measured beside the proved ones.
 */
#include <stdlib.h>
#include <string.h>

#include "reference.h"
#include "words.h"

int main(int count, char **words)
{
    bool tape = count == 2 && strcmp(words[1], "tape") == 0;
    if (!tape && !(count == 2 && strcmp(words[1], "tree") == 0)) {
        fputs("usage: reference-program tape|tree <TAPE\n", stderr);
        return 2;
    }
    size_t length;
    char *bytes = words_read_all(stdin, &length);
    if (bytes == NULL) {
        return 2;
    }
    (tape ? ref_tape_text : ref_tree_text)((uint8_t *)bytes, length, stdout);
    free(bytes);
    return fflush(stdout) == 0 ? 0 : 2;
}
