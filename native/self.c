/*
 * self.c: the library's functions out of a copy of the reference. It stands in for the archive only to try the
 * comparison itself: `make compare SELF=1` must find no difference, and with a fault put into the copy (`make faults`)
 * it must find one. It says nothing about the library.
 */
#define ref_well_formed self_well_formed
#define ref_fresh self_fresh
#define ref_step self_step
#define ref_step_unchecked self_step_unchecked
#define ref_count self_count
#define ref_slots_restrict self_slots_restrict
#define ref_slots_drop self_slots_drop
#define ref_tape_text self_tape_text
#define ref_tree_text self_tree_text

#ifndef SELF_SOURCE
#define SELF_SOURCE "reference.c"
#endif
#include SELF_SOURCE

size_t skawennel_tables_length(void)
{
    return SKAWENNEL_TABLES_LENGTH;
}

uint16_t skawennel_fresh(uint16_t *tables, size_t length)
{
    return self_fresh(tables, length);
}

outcome skawennel_step(uint16_t *tables, size_t length, uint16_t caller, uint16_t call, uint16_t a, uint16_t b, uint16_t c,
                       uint16_t d, uint16_t e)
{
    return self_step(tables, length, caller, call, a, b, c, d, e);
}

outcome skawennel_count(const uint16_t *tables, size_t length, uint16_t caller, uint16_t slot)
{
    return self_count(tables, length, caller, slot);
}

outcome skawennel_slots_restrict(capability *slots, size_t length, uint16_t a, uint16_t b, uint16_t c)
{
    return self_slots_restrict(slots, length, a, b, c);
}

outcome skawennel_slots_drop(capability *slots, size_t length, uint16_t a)
{
    return self_slots_drop(slots, length, a);
}
