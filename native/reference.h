/*
 * reference.h: a second machine, written in plain C from the rules alone, to hold the proved library to. It shares only
 * names with it: the numbers of skawennel.h and the order of the tables in layout.h.
 */
#ifndef REFERENCE_H
#define REFERENCE_H

#include <stdbool.h>
#include <stdint.h>
#include <stdio.h>

#include "skawennel.h"

enum { REF_RECORD_BYTES = 14, REF_TAPE_RECORDS = 4096, REF_TAPE_BYTES = REF_RECORD_BYTES * REF_TAPE_RECORDS };

/* Whether the numbers are well-formed tables, the length among that. */
bool ref_well_formed(const uint16_t *tables, size_t length);

/* As skawennel_fresh. */
uint16_t ref_fresh(uint16_t *tables, size_t length);

/* As skawennel_step. */
struct skawennel_outcome ref_step(uint16_t *tables, size_t length, uint16_t caller, uint16_t call, uint16_t a, uint16_t b,
                                  uint16_t c, uint16_t d, uint16_t e);

/* The same without the test for bad tables: the tables must be well formed. */
struct skawennel_outcome ref_step_unchecked(uint16_t *tables, uint16_t caller, uint16_t call, uint16_t a, uint16_t b,
                                            uint16_t c, uint16_t d, uint16_t e);

/* As skawennel_count. */
struct skawennel_outcome ref_count(const uint16_t *tables, size_t length, uint16_t caller, uint16_t slot);

/* As skawennel_slots_restrict and skawennel_slots_drop. */
struct skawennel_outcome ref_slots_restrict(struct skawennel_capability *slots, size_t length, uint16_t a, uint16_t b,
                                            uint16_t c);
struct skawennel_outcome ref_slots_drop(struct skawennel_capability *slots, size_t length, uint16_t a);

/* What the tape program writes for this standard input. */
void ref_tape_text(const uint8_t *bytes, size_t count, FILE *out);

/* What the tree program writes for this standard input. */
void ref_tree_text(const uint8_t *bytes, size_t count, FILE *out);

#endif
