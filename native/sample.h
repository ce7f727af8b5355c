/*
 * sample.h: random numbers, random well-formed tables and likely calls, for the comparison and the measurements. The same
 * seed gives the same on every machine.
 */
#ifndef SAMPLE_H
#define SAMPLE_H

#include "layout.h"
#include "words.h"

void sample_seed(uint64_t seed);

/* A number from 0 up to and without most. */
uint32_t sample_below(uint32_t most);

/* Yes this many times in a hundred. */
bool sample_percent(uint32_t percent);

/* A bit pattern of 16 bits, with small numbers and bounds more often than others. */
uint16_t sample_number(void);

/* Well-formed tables with about so many in a hundred of the slots, places, entries and inner places used. They need not
   be reachable from a fresh machine. */
void sample_tables(struct layout_machine *m, uint32_t percent);

/* A call that looks at the tables, so that it often finds what it needs, and often just not. */
void sample_call(const struct layout_machine *m, struct words_call *call);

/* From now on likely calls come from the packages below this number (1 to 8). */
void sample_callers(uint16_t count);

/* Any seven numbers. */
void sample_wild_call(struct words_call *call);

/* The place of the object that a capability names, or NULL. */
const struct layout_place *sample_find(const struct layout_machine *m, struct skawennel_capability c);

#endif
