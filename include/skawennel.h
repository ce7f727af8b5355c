/*
 * skawennel.h: the capability machine, for programs in C.
 *
 * The machine has eight packages, 0 to 7, that hold capabilities on segments, directories, types and extended objects.
 * Its whole state is one array of 11,272 numbers of 16 bits, the tables, that the program owns and lends for each
 * call; the library keeps nothing between calls, allocates nothing and prints nothing. docs/TABLES.md has the order of
 * the numbers, docs/calls/ a page for each call.
 *
 * No function here has a precondition on the numbers that it is given: tables of any content and any length, and any
 * caller, call and numbers, have an answer. What C itself asks remains: a pointer leads to as many numbers as the
 * length says, it is not NULL even where the length is 0, and nobody else uses those numbers during the call.
 *
 * Tables are well formed if their length is 11,272 and, in the order of docs/TABLES.md:
 *   - every field is in its range, and what the kind of an object leaves unused is zero;
 *   - a place is all zero, or holds an object whose serial is 1 up to its package's last serial, and no two places of a
 *     package hold one serial;
 *   - every capability is null (all zero), or names a serial from 1 up to its maker's last; so does an extended object's
 *     type;
 *   - an entry is all zero, or has a name other than 0, which no other entry of its directory has, and a capability that
 *     is not null.
 * The fresh tables are, and every call leaves them so.
 *
 * An answer is SKAWENNEL_DONE (0) or the number of the first refusal that applies. A refused call has value 0 and
 * leaves every number of the tables as it was.
 */
#ifndef SKAWENNEL_H
#define SKAWENNEL_H

#include <stddef.h>
#include <stdint.h>

#ifdef __cplusplus
extern "C" {
#endif

/* The tables' length in 16-bit numbers; an array of this length can be declared with it. */
#define SKAWENNEL_TABLES_LENGTH 11272

/* A package's number of slots; skawennel_slots_restrict and skawennel_slots_drop take this many. */
#define SKAWENNEL_SLOTS_LENGTH 16

/* Callers. The packages are 0 to 7. */
enum { SKAWENNEL_PACKAGES = 8, SKAWENNEL_HOST = 8 };

/* Calls. The comment lists the numbers a to e that the call takes; the others must be 0. */
enum {
    SKAWENNEL_RESTRICT = 1,       /* a slot, b mask, c slot */
    SKAWENNEL_DROP = 2,           /* a slot */
    SKAWENNEL_HAND = 3,           /* a package, b slot, c package, d slot; the host only */
    SKAWENNEL_MAKE_SEGMENT = 4,   /* a slot, b name, c permits, d slot */
    SKAWENNEL_MAKE_DIRECTORY = 5, /* a slot, b name, c permits, d slot */
    SKAWENNEL_MAKE_TYPE = 6,      /* a slot, b name, c permits, d slot */
    SKAWENNEL_MAKE_OBJECT = 7,    /* a slot, b name, c slot, d slot, e permits */
    SKAWENNEL_DELETE = 8,         /* a slot, b name */
    SKAWENNEL_ADD_ENTRY = 9,      /* a slot, b name, c slot */
    SKAWENNEL_REMOVE_ENTRY = 10,  /* a slot, b name */
    SKAWENNEL_FETCH = 11,         /* a slot, b name, c slot */
    SKAWENNEL_READ = 12,          /* a slot, b offset */
    SKAWENNEL_WRITE = 13,         /* a slot, b offset, c word */
    SKAWENNEL_COPY = 14,          /* a slot, b offset, c slot, d offset, e count */
    SKAWENNEL_SET_INNER = 15,     /* a slot, b slot, c inner place, d slot */
    SKAWENNEL_GET_INNER = 16,     /* a slot, b slot, c inner place, d slot */
    SKAWENNEL_COUNT = 17          /* a slot */
};

/* Answers: done, and the sixteen refusals. */
enum {
    SKAWENNEL_DONE = 0,
    SKAWENNEL_BAD_NUMBER = 1,  /* call, caller or a number out of range, or an unlisted number not 0 */
    SKAWENNEL_EMPTY = 2,       /* a checked slot is null */
    SKAWENNEL_NO_ABILITY = 3,  /* a capability lacks a right that is asked of it */
    SKAWENNEL_GONE = 4,        /* the object that a capability names is in no place */
    SKAWENNEL_WRONG_KIND = 5,  /* it lives, and is of another kind than the call asks for */
    SKAWENNEL_NO_ENTRY = 6,    /* the name is not in the directory */
    SKAWENNEL_NAME_USED = 7,   /* the name is in the directory */
    SKAWENNEL_WRONG_ENTRY = 8, /* delete of a plain entry, or remove of a distinguished one */
    SKAWENNEL_NOT_ADDABLE = 9, /* the capability lacks a store permission that is needed there */
    SKAWENNEL_OUTSIDE = 10,    /* an offset, or offset + count, beyond the segment's 32 words */
    SKAWENNEL_OCCUPIED = 11,   /* delete of a directory that has an entry */
    SKAWENNEL_WRONG_TYPE = 12, /* the object in slot b is not of the type in slot a */
    SKAWENNEL_NO_ROOM = 13,    /* the directory has 16 entries */
    SKAWENNEL_NO_PLACE = 14,   /* the caller's 16 places all hold objects */
    SKAWENNEL_SPENT = 15,      /* the caller's last serial is 65,535 */
    SKAWENNEL_BAD_TABLES = 16  /* the tables are not well formed; tested before all else */
};

/* Rights, to be added up: 0 to 255. */
enum {
    SKAWENNEL_RIGHT_STORE_1 = 1,
    SKAWENNEL_RIGHT_STORE_2 = 2,
    SKAWENNEL_RIGHT_READ = 4,
    SKAWENNEL_RIGHT_WRITE = 8,   /* in a directory: add an entry */
    SKAWENNEL_RIGHT_REMOVE = 16, /* remove entries of a directory */
    SKAWENNEL_RIGHT_DELETE = 32,
    SKAWENNEL_RIGHT_MAKE = 64, /* of a type */
    SKAWENNEL_RIGHT_OPEN = 128 /* of a type */
};

/* Kinds of objects, as they stand in a place of the tables. 0 is an empty place. */
enum { SKAWENNEL_KIND_SEGMENT = 1, SKAWENNEL_KIND_DIRECTORY = 2, SKAWENNEL_KIND_TYPE = 3, SKAWENNEL_KIND_OBJECT = 4 };

/* What a call came to. value is 0 unless the answer is done and the call has a value. */
struct skawennel_outcome {
    uint16_t answer;
    uint16_t value;
};

/* A capability: maker (0 to 7) and serial (1 to 65,535) of its object, and rights (0 to 255). Null is all zero. */
struct skawennel_capability {
    uint16_t maker;
    uint16_t serial;
    uint16_t rights;
};

/*
 * The number of 16-bit numbers that tables have: always 11,272.
 */
size_t skawennel_tables_length(void);

/*
 * Makes the tables those of the fresh machine: each package has a shelf (serial 1, in slot 0) and a desk (serial 2, in
 * slot 1).
 *
 * Takes any array of any length; what it held does not matter.
 * Answers 0 if length is 11,272: every number is then the fresh machine's.
 * Answers 16 (bad tables) for any other length: nothing is touched.
 */
uint16_t skawennel_fresh(uint16_t *tables, size_t length);

/*
 * Carries out one call of a caller on the tables.
 *
 * Takes tables of any content and length, and any seven numbers.
 *
 * Answers the first of these that applies:
 *   16 (bad tables), the tables are not well formed, as said above;
 *   1 (bad number), the call is not 1 to 17, the caller is not one who may make it, a number that the call lists is out
 *     of its range, or one that it does not list is not 0;
 *   2 to 15, in the order of the call's page in docs/calls/;
 *   0, done.
 * The value of a done call is the new serial for calls 4 to 7, the word for 12, the number of used entries for 17, and
 * 0 for the others.
 *
 * Done: the tables are as the call's page says, every number that it does not speak of is as before, and they are well
 * formed. Refused: the value is 0 and every number is as before.
 */
struct skawennel_outcome skawennel_step(uint16_t *tables, size_t length, uint16_t caller, uint16_t call, uint16_t a,
                                        uint16_t b, uint16_t c, uint16_t d, uint16_t e);

/*
 * The number of used entries of the directory in a caller's slot: what skawennel_step answers to call 17 with that
 * caller and slot, on tables that are only read.
 *
 * Answers the first of these that applies: 16 (bad tables); 1, caller not 0 to 7 or slot not 0 to 15; 2, the slot is
 * null; 4, the object is gone; 5, it is no directory; 0, with the number of used entries, 0 to 16, as value. It asks for
 * no right. A refusal has value 0.
 */
struct skawennel_outcome skawennel_count(const uint16_t *tables, size_t length, uint16_t caller, uint16_t slot);

/*
 * Call 1, restrict, on one package's sixteen slots as a list of capabilities: slot c gets slot a's capability with the
 * rights that are in both its rights and the mask b. A null slot a makes slot c null.
 *
 * Answers the first of these that applies: 16, length is not 16, a maker is above 7, rights are above 255, or a record
 * with serial 0 is not all zero; 1, a or c is above 15 or b above 255; 0. The value is always 0. Whether a serial was
 * ever issued is not looked at: the list does not say.
 *
 * Done: slot c is as said and the other fifteen are as before. Refused: all are as before.
 */
struct skawennel_outcome skawennel_slots_restrict(struct skawennel_capability *slots, size_t length, uint16_t a, uint16_t b,
                                                  uint16_t c);

/*
 * Call 2, drop, on such a list: slot a becomes null.
 *
 * Answers the first of these that applies: 16 as skawennel_slots_restrict does; 1, a is above 15; 0. The value is always
 * 0.
 *
 * Done: slot a is null and the other fifteen are as before. Refused: all are as before.
 */
struct skawennel_outcome skawennel_slots_drop(struct skawennel_capability *slots, size_t length, uint16_t a);

#ifdef __cplusplus
}
#endif

#endif
