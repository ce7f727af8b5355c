/*
 * layout.h: the lent tables as structures, in the order of docs/TABLES.md. Every field is one 16-bit number and there is
 * no padding, so that a pointer to 11,272 numbers may be read as one to a `struct layout_machine`.
 */
#ifndef LAYOUT_H
#define LAYOUT_H

#include "skawennel.h"

enum {
    LAYOUT_SLOTS = SKAWENNEL_SLOTS_LENGTH,
    LAYOUT_PLACES = 16,
    LAYOUT_WORDS = 32,
    LAYOUT_ENTRIES = 16,
    LAYOUT_INNER = 4,
    LAYOUT_INSIDE = 80
};

struct layout_entry {
    uint16_t name; /* 0: an empty entry */
    struct skawennel_capability capability;
    uint16_t distinguished;
};

struct layout_place {
    uint16_t kind; /* 0: an empty place */
    uint16_t serial;
    uint16_t permits;
    uint16_t type_maker;
    uint16_t type_serial;
    union {
        uint16_t numbers[LAYOUT_INSIDE];
        uint16_t words[LAYOUT_WORDS];
        struct layout_entry entries[LAYOUT_ENTRIES];
        struct skawennel_capability inner[LAYOUT_INNER];
    } inside;
};

struct layout_package {
    uint16_t last_serial;
    struct skawennel_capability slots[LAYOUT_SLOTS];
    struct layout_place places[LAYOUT_PLACES];
};

struct layout_machine {
    struct layout_package packages[SKAWENNEL_PACKAGES];
};

_Static_assert(sizeof(struct layout_entry) == 5 * sizeof(uint16_t), "an entry is 5 numbers");
_Static_assert(sizeof(struct layout_place) == 85 * sizeof(uint16_t), "a place is 85 numbers");
_Static_assert(sizeof(struct layout_package) == 1409 * sizeof(uint16_t), "a package is 1,409 numbers");
_Static_assert(sizeof(struct layout_machine) == SKAWENNEL_TABLES_LENGTH * sizeof(uint16_t), "the tables are 11,272 numbers");

/* The tables as a machine. They must have the required length. */
static inline struct layout_machine *layout_of(uint16_t *tables)
{
    return (struct layout_machine *)(void *)tables;
}

static inline const struct layout_machine *layout_of_const(const uint16_t *tables)
{
    return (const struct layout_machine *)(const void *)tables;
}

#endif
