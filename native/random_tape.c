/*
 * random-tape SEED RECORDS
 *
 * Writes a tape of likely calls from a fresh machine, each chosen by looking at what the calls before it made. Of seven
 * seeds one gives a tape that is cut short in its last record, and one a tape with another mark somewhere.
 */
#include <stdlib.h>

#include "reference.h"
#include "sample.h"

int main(int count, char **words)
{
    if (count != 3) {
        fputs("usage: random-tape SEED RECORDS\n", stderr);
        return 2;
    }
    static uint16_t tables[SKAWENNEL_TABLES_LENGTH];
    unsigned long seed = strtoul(words[1], NULL, 10), records = strtoul(words[2], NULL, 10);
    sample_seed(seed);
    sample_callers((uint16_t)(1 + sample_below(SKAWENNEL_PACKAGES)));
    ref_fresh(tables, SKAWENNEL_TABLES_LENGTH);
    unsigned long marred = seed % 7 == 3 ? sample_below((uint32_t)records) : records;
    for (unsigned long i = 0; i < records; i++) {
        struct words_call x;
        unsigned char record[WORDS_RECORD];
        sample_call(layout_of_const(tables), &x);
        words_put_record(&x, record);
        ref_step(tables, SKAWENNEL_TABLES_LENGTH, x.caller & 255, x.call & 255, x.numbers[0], x.numbers[1], x.numbers[2],
                 x.numbers[3], x.numbers[4]);
        record[1] ^= i == marred;
        fwrite(record, 1, seed % 7 == 5 && i + 1 == records ? sample_below(WORDS_RECORD) : WORDS_RECORD, stdout);
    }
    return fflush(stdout) == 0 ? 0 : 1;
}
