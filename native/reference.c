/*
 * reference.c: the rules of the machine in plain C. The comments name the part of the rules that each piece follows.
 */
#include "reference.h"

#include <string.h>

#include "layout.h"

typedef struct skawennel_capability capability;
typedef struct skawennel_outcome outcome;
typedef struct layout_machine machine;
typedef struct layout_package package;
typedef struct layout_place place;
typedef struct layout_entry entry;

enum { ANY_KIND = 0, NO_RIGHT = 0, ALL_RIGHTS = 255, STORE_PERMISSIONS = 3, LAST_SERIAL = 65535 };

static const capability null_capability = {0, 0, 0};

static bool is_null(capability c)
{
    return c.maker == 0 && c.serial == 0 && c.rights == 0;
}

/* ---- Well formed ---- */

static bool all_zero(const uint16_t *numbers, size_t count)
{
    uint16_t any = 0;
    for (size_t i = 0; i < count; i++) {
        any |= numbers[i];
    }
    return any == 0;
}

/* Whether this maker has issued this serial. */
static bool issued(const machine *m, uint16_t maker, uint16_t serial)
{
    return maker < SKAWENNEL_PACKAGES && serial >= 1 && serial <= m->packages[maker].last_serial;
}

/* "Every capability is null or names an issued serial", and its rights are in range. */
static bool capability_good(const machine *m, capability c)
{
    return is_null(c) || (issued(m, c.maker, c.serial) && c.rights <= ALL_RIGHTS);
}

static bool entry_empty(const entry *e)
{
    return e->name == 0 && is_null(e->capability) && e->distinguished == 0;
}

static bool entry_good(const machine *m, const entry *e)
{
    if (entry_empty(e)) {
        return true;
    }
    return e->name != 0 && !is_null(e->capability) && capability_good(m, e->capability) && e->distinguished <= 1;
}

/* "Used entries have distinct names in their directory and a capability that isn't null." */
static bool entries_good(const machine *m, const entry *entries)
{
    for (int i = 0; i < LAYOUT_ENTRIES; i++) {
        if (!entry_good(m, &entries[i])) {
            return false;
        }
        for (int j = 0; j < i; j++) {
            if (entries[i].name != 0 && entries[i].name == entries[j].name) {
                return false;
            }
        }
    }
    return true;
}

static bool inner_good(const machine *m, const capability *inner)
{
    for (int i = 0; i < LAYOUT_INNER; i++) {
        if (!capability_good(m, inner[i])) {
            return false;
        }
    }
    return true;
}

/* Whether all of the inside from this position on is zero. */
static bool inside_unused_from(const place *p, size_t first)
{
    return all_zero(p->inside.numbers + first, LAYOUT_INSIDE - first);
}

static bool place_empty(const place *p)
{
    return p->kind == 0 && p->serial == 0 && p->permits == 0 && p->type_maker == 0 && p->type_serial == 0 &&
           inside_unused_from(p, 0);
}

static bool has_no_type(const place *p)
{
    return p->type_maker == 0 && p->type_serial == 0;
}

/* The fields that depend on the kind; "unused fields are zero". */
static bool object_good(const machine *m, const place *p)
{
    switch (p->kind) {
    case SKAWENNEL_KIND_SEGMENT:
        return p->permits == 0 && has_no_type(p) && inside_unused_from(p, LAYOUT_WORDS);
    case SKAWENNEL_KIND_DIRECTORY:
        return p->permits <= STORE_PERMISSIONS && has_no_type(p) && entries_good(m, p->inside.entries);
    case SKAWENNEL_KIND_TYPE:
        return p->permits == 0 && has_no_type(p) && inside_unused_from(p, 0);
    case SKAWENNEL_KIND_OBJECT:
        return p->permits <= STORE_PERMISSIONS && issued(m, p->type_maker, p->type_serial) &&
               inner_good(m, p->inside.inner) && inside_unused_from(p, 3 * LAYOUT_INNER);
    default:
        return false;
    }
}

/* "A place is all zero or holds an object made by that place's package, with a serial not above its last; no two places
   hold one number." The maker is the package, so two places of one number are of one package. */
static bool places_good(const machine *m, uint16_t maker)
{
    const place *places = m->packages[maker].places;
    for (int i = 0; i < LAYOUT_PLACES; i++) {
        if (place_empty(&places[i])) {
            continue;
        }
        if (!issued(m, maker, places[i].serial) || !object_good(m, &places[i])) {
            return false;
        }
        for (int j = 0; j < i; j++) {
            if (places[j].serial == places[i].serial) {
                return false;
            }
        }
    }
    return true;
}

static bool slots_good(const machine *m, uint16_t holder)
{
    for (int i = 0; i < LAYOUT_SLOTS; i++) {
        if (!capability_good(m, m->packages[holder].slots[i])) {
            return false;
        }
    }
    return true;
}

bool ref_well_formed(const uint16_t *tables, size_t length)
{
    if (length != SKAWENNEL_TABLES_LENGTH) {
        return false;
    }
    const machine *m = layout_of_const(tables);
    for (uint16_t p = 0; p < SKAWENNEL_PACKAGES; p++) {
        if (!slots_good(m, p) || !places_good(m, p)) {
            return false;
        }
    }
    return true;
}

/* ---- The fresh machine ---- */

static void make_first(package *p, uint16_t maker, int position, uint16_t serial, uint16_t permits, uint16_t rights)
{
    p->places[position].kind = SKAWENNEL_KIND_DIRECTORY;
    p->places[position].serial = serial;
    p->places[position].permits = permits;
    p->slots[position] = (capability){maker, serial, rights};
}

uint16_t ref_fresh(uint16_t *tables, size_t length)
{
    if (length != SKAWENNEL_TABLES_LENGTH) {
        return SKAWENNEL_BAD_TABLES;
    }
    machine *m = layout_of(tables);
    memset(m, 0, sizeof *m);
    for (uint16_t maker = 0; maker < SKAWENNEL_PACKAGES; maker++) {
        package *p = &m->packages[maker];
        make_first(p, maker, 0, 1, 0, 255); /* the shelf */
        make_first(p, maker, 1, 2, 3, 252); /* the desk */
        p->last_serial = 2;
    }
    return SKAWENNEL_DONE;
}

/* ---- One call: its numbers ---- */

struct call {
    uint16_t caller, number;
    uint16_t a, b, c, d, e;
};

/* What the numbers a to e of each call are: s slot, p package, m mask, r permits, n name, i inner place, * any number
   (an offset, a word or a count), - not listed. */
/* clang-format off */
static const char *const listed[18] = {
    "",
    "sms--", /* restrict */
    "s----", /* drop */
    "psps-", /* hand */
    "snrs-", /* make segment */
    "snrs-", /* make directory */
    "snrs-", /* make type */
    "snssr", /* make object */
    "sn---", /* delete */
    "sns--", /* add entry */
    "sn---", /* remove entry */
    "sns--", /* fetch */
    "s*---", /* read */
    "s**--", /* write */
    "s*s**", /* copy */
    "ssis-", /* set inner */
    "ssis-", /* get inner */
    "s----", /* count */
};
/* clang-format on */

static bool number_good(char what, uint16_t number)
{
    switch (what) {
    case 's':
        return number < LAYOUT_SLOTS;
    case 'p':
        return number < SKAWENNEL_PACKAGES;
    case 'm':
        return number <= ALL_RIGHTS;
    case 'r':
        return number <= STORE_PERMISSIONS;
    case 'n':
        return number >= 1;
    case 'i':
        return number < LAYOUT_INNER;
    case '*':
        return true;
    default:
        return number == 0;
    }
}

static bool numbers_good(const struct call *x)
{
    if (x->number < SKAWENNEL_RESTRICT || x->number > SKAWENNEL_COUNT) {
        return false;
    }
    if (x->number == SKAWENNEL_HAND ? x->caller != SKAWENNEL_HOST : x->caller >= SKAWENNEL_PACKAGES) {
        return false;
    }
    const char *what = listed[x->number];
    return number_good(what[0], x->a) && number_good(what[1], x->b) && number_good(what[2], x->c) &&
           number_good(what[3], x->d) && number_good(what[4], x->e);
}

/* ---- Capabilities and places ---- */

/* The place that holds the object which a capability names; none: the object is gone. */
static place *find(machine *m, capability c)
{
    place *places = m->packages[c.maker].places;
    for (int i = 0; i < LAYOUT_PLACES; i++) {
        if (places[i].kind != 0 && places[i].serial == c.serial) {
            return &places[i];
        }
    }
    return NULL;
}

/* Refusals 2 to 5 of a checked capability, in that order; 4 and 5 where a kind is asked. Where it passes, *found is the
   object's place. */
static uint16_t check(machine *m, capability c, uint16_t right, uint16_t kind, place **found)
{
    if (is_null(c)) {
        return SKAWENNEL_EMPTY;
    }
    if ((c.rights & right) != right) {
        return SKAWENNEL_NO_ABILITY;
    }
    if (kind == ANY_KIND) {
        return SKAWENNEL_DONE;
    }
    *found = find(m, c);
    if (*found == NULL) {
        return SKAWENNEL_GONE;
    }
    if ((*found)->kind != kind) {
        return SKAWENNEL_WRONG_KIND;
    }
    return SKAWENNEL_DONE;
}

/* "A container takes a capability if each store permission the capability lacks is set in the container's permits." */
static bool addable(uint16_t rights, const place *container)
{
    uint16_t lacking = STORE_PERMISSIONS & (uint16_t)~rights;
    return (lacking & container->permits) == lacking;
}

static entry *find_entry(place *directory, uint16_t name)
{
    for (int i = 0; i < LAYOUT_ENTRIES; i++) {
        if (directory->inside.entries[i].name == name) {
            return &directory->inside.entries[i];
        }
    }
    return NULL;
}

/* The lowest empty position, an entry of name 0; none: the directory has 16 entries. */
static entry *empty_entry(place *directory)
{
    return find_entry(directory, 0);
}

static uint16_t used_entries(const place *directory)
{
    uint16_t used = 0;
    for (int i = 0; i < LAYOUT_ENTRIES; i++) {
        if (directory->inside.entries[i].name != 0) {
            used++;
        }
    }
    return used;
}

/* The maker's lowest empty place; none: its 16 places all hold objects. */
static place *empty_place(package *maker)
{
    for (int i = 0; i < LAYOUT_PLACES; i++) {
        if (maker->places[i].kind == 0) {
            return &maker->places[i];
        }
    }
    return NULL;
}

/* ---- The calls ---- */

static outcome refused(uint16_t answer)
{
    return (outcome){answer, 0};
}

static outcome done(uint16_t value)
{
    return (outcome){SKAWENNEL_DONE, value};
}

static outcome restrict_call(capability *slots, const struct call *x)
{
    capability restricted = slots[x->a];
    restricted.rights &= x->b;
    slots[x->c] = restricted;
    return done(0);
}

static outcome drop_call(capability *slots, const struct call *x)
{
    slots[x->a] = null_capability;
    return done(0);
}

static outcome hand_call(machine *m, const struct call *x)
{
    capability given = m->packages[x->a].slots[x->b];
    if (is_null(given)) {
        return refused(SKAWENNEL_EMPTY);
    }
    if ((given.rights & SKAWENNEL_RIGHT_STORE_1) == 0) {
        return refused(SKAWENNEL_NOT_ADDABLE);
    }
    m->packages[x->c].slots[x->d] = given;
    return done(0);
}

/* What calls 4 to 7 have in common, once their slots are checked. */
struct making {
    place *directory;
    uint16_t name, kind, permits, slot;
    capability type; /* null but for an extended object */
};

static outcome make(machine *m, uint16_t caller, const struct making *x)
{
    package *maker = &m->packages[caller];
    uint16_t rights = 252 + (3 - x->permits);
    if (find_entry(x->directory, x->name) != NULL) {
        return refused(SKAWENNEL_NAME_USED);
    }
    if (!addable(rights, x->directory)) {
        return refused(SKAWENNEL_NOT_ADDABLE);
    }
    entry *e = empty_entry(x->directory);
    if (e == NULL) {
        return refused(SKAWENNEL_NO_ROOM);
    }
    place *p = empty_place(maker);
    if (p == NULL) {
        return refused(SKAWENNEL_NO_PLACE);
    }
    if (maker->last_serial == LAST_SERIAL) {
        return refused(SKAWENNEL_SPENT);
    }
    maker->last_serial++;
    p->kind = x->kind;
    p->serial = maker->last_serial;
    if (x->kind == SKAWENNEL_KIND_DIRECTORY || x->kind == SKAWENNEL_KIND_OBJECT) {
        p->permits = x->permits;
    }
    p->type_maker = x->type.maker;
    p->type_serial = x->type.serial;
    capability made = {caller, maker->last_serial, rights};
    *e = (entry){x->name, made, 1};
    maker->slots[x->slot] = made;
    return done(made.serial);
}

static outcome make_call(machine *m, const struct call *x, uint16_t kind)
{
    place *directory;
    uint16_t no = check(m, m->packages[x->caller].slots[x->a], SKAWENNEL_RIGHT_WRITE, SKAWENNEL_KIND_DIRECTORY, &directory);
    if (no != SKAWENNEL_DONE) {
        return refused(no);
    }
    return make(m, x->caller, &(struct making){directory, x->b, kind, x->c, x->d, null_capability});
}

static outcome make_object_call(machine *m, const struct call *x)
{
    const capability *slots = m->packages[x->caller].slots;
    place *directory, *type;
    uint16_t no = check(m, slots[x->a], SKAWENNEL_RIGHT_WRITE, SKAWENNEL_KIND_DIRECTORY, &directory);
    if (no != SKAWENNEL_DONE) {
        return refused(no);
    }
    no = check(m, slots[x->c], SKAWENNEL_RIGHT_MAKE, SKAWENNEL_KIND_TYPE, &type);
    if (no != SKAWENNEL_DONE) {
        return refused(no);
    }
    return make(m, x->caller, &(struct making){directory, x->b, SKAWENNEL_KIND_OBJECT, x->e, x->d, slots[x->c]});
}

static outcome delete_call(machine *m, const struct call *x)
{
    place *directory;
    uint16_t no = check(m, m->packages[x->caller].slots[x->a], SKAWENNEL_RIGHT_REMOVE, SKAWENNEL_KIND_DIRECTORY, &directory);
    if (no != SKAWENNEL_DONE) {
        return refused(no);
    }
    entry *e = find_entry(directory, x->b);
    if (e == NULL) {
        return refused(SKAWENNEL_NO_ENTRY);
    }
    if (!e->distinguished) {
        return refused(SKAWENNEL_WRONG_ENTRY);
    }
    if ((e->capability.rights & SKAWENNEL_RIGHT_DELETE) == 0) {
        return refused(SKAWENNEL_NO_ABILITY);
    }
    place *object = find(m, e->capability);
    if (object == NULL) {
        return refused(SKAWENNEL_GONE);
    }
    if (object->kind == SKAWENNEL_KIND_DIRECTORY && used_entries(object) > 0) {
        return refused(SKAWENNEL_OCCUPIED);
    }
    memset(e, 0, sizeof *e);
    memset(object, 0, sizeof *object);
    return done(0);
}

static outcome add_entry_call(machine *m, const struct call *x)
{
    const capability *slots = m->packages[x->caller].slots;
    place *directory;
    uint16_t no = check(m, slots[x->a], SKAWENNEL_RIGHT_WRITE, SKAWENNEL_KIND_DIRECTORY, &directory);
    if (no != SKAWENNEL_DONE) {
        return refused(no);
    }
    no = check(m, slots[x->c], NO_RIGHT, ANY_KIND, NULL);
    if (no != SKAWENNEL_DONE) {
        return refused(no);
    }
    if (find_entry(directory, x->b) != NULL) {
        return refused(SKAWENNEL_NAME_USED);
    }
    if (!addable(slots[x->c].rights, directory)) {
        return refused(SKAWENNEL_NOT_ADDABLE);
    }
    entry *e = empty_entry(directory);
    if (e == NULL) {
        return refused(SKAWENNEL_NO_ROOM);
    }
    *e = (entry){x->b, slots[x->c], 0};
    return done(0);
}

static outcome remove_entry_call(machine *m, const struct call *x)
{
    place *directory;
    uint16_t no = check(m, m->packages[x->caller].slots[x->a], SKAWENNEL_RIGHT_REMOVE, SKAWENNEL_KIND_DIRECTORY, &directory);
    if (no != SKAWENNEL_DONE) {
        return refused(no);
    }
    entry *e = find_entry(directory, x->b);
    if (e == NULL) {
        return refused(SKAWENNEL_NO_ENTRY);
    }
    if (e->distinguished) {
        return refused(SKAWENNEL_WRONG_ENTRY);
    }
    memset(e, 0, sizeof *e);
    return done(0);
}

static outcome fetch_call(machine *m, const struct call *x)
{
    capability *slots = m->packages[x->caller].slots;
    place *directory;
    uint16_t no = check(m, slots[x->a], SKAWENNEL_RIGHT_READ, SKAWENNEL_KIND_DIRECTORY, &directory);
    if (no != SKAWENNEL_DONE) {
        return refused(no);
    }
    const entry *e = find_entry(directory, x->b);
    if (e == NULL) {
        return refused(SKAWENNEL_NO_ENTRY);
    }
    slots[x->c] = e->capability;
    return done(0);
}

static outcome read_call(machine *m, const struct call *x)
{
    place *segment;
    uint16_t no = check(m, m->packages[x->caller].slots[x->a], SKAWENNEL_RIGHT_READ, SKAWENNEL_KIND_SEGMENT, &segment);
    if (no != SKAWENNEL_DONE) {
        return refused(no);
    }
    if (x->b >= LAYOUT_WORDS) {
        return refused(SKAWENNEL_OUTSIDE);
    }
    return done(segment->inside.words[x->b]);
}

static outcome write_call(machine *m, const struct call *x)
{
    place *segment;
    uint16_t no = check(m, m->packages[x->caller].slots[x->a], SKAWENNEL_RIGHT_WRITE, SKAWENNEL_KIND_SEGMENT, &segment);
    if (no != SKAWENNEL_DONE) {
        return refused(no);
    }
    if (x->b >= LAYOUT_WORDS) {
        return refused(SKAWENNEL_OUTSIDE);
    }
    segment->inside.words[x->b] = x->c;
    return done(0);
}

static outcome copy_call(machine *m, const struct call *x)
{
    const capability *slots = m->packages[x->caller].slots;
    place *from, *to;
    uint16_t no = check(m, slots[x->a], SKAWENNEL_RIGHT_READ, SKAWENNEL_KIND_SEGMENT, &from);
    if (no != SKAWENNEL_DONE) {
        return refused(no);
    }
    no = check(m, slots[x->c], SKAWENNEL_RIGHT_WRITE, SKAWENNEL_KIND_SEGMENT, &to);
    if (no != SKAWENNEL_DONE) {
        return refused(no);
    }
    uint32_t count = x->e;
    if (x->b + count > LAYOUT_WORDS || x->d + count > LAYOUT_WORDS) {
        return refused(SKAWENNEL_OUTSIDE);
    }
    uint16_t read[LAYOUT_WORDS];
    for (uint32_t i = 0; i < count; i++) {
        read[i] = from->inside.words[x->b + i];
    }
    for (uint32_t i = 0; i < count; i++) {
        to->inside.words[x->d + i] = read[i];
    }
    return done(0);
}

/* The checks that set inner and get inner share: a is a type that may be opened, b an object of that type. */
static uint16_t check_opened(machine *m, const struct call *x, place **object)
{
    const capability *slots = m->packages[x->caller].slots;
    place *type;
    uint16_t no = check(m, slots[x->a], SKAWENNEL_RIGHT_OPEN, SKAWENNEL_KIND_TYPE, &type);
    if (no != SKAWENNEL_DONE) {
        return no;
    }
    no = check(m, slots[x->b], NO_RIGHT, SKAWENNEL_KIND_OBJECT, object);
    if (no != SKAWENNEL_DONE) {
        return no;
    }
    if ((*object)->type_maker != slots[x->a].maker || (*object)->type_serial != slots[x->a].serial) {
        return SKAWENNEL_WRONG_TYPE;
    }
    return SKAWENNEL_DONE;
}

static outcome set_inner_call(machine *m, const struct call *x)
{
    capability given = m->packages[x->caller].slots[x->d];
    place *object;
    uint16_t no = check_opened(m, x, &object);
    if (no != SKAWENNEL_DONE) {
        return refused(no);
    }
    if (!is_null(given) && !addable(given.rights, object)) {
        return refused(SKAWENNEL_NOT_ADDABLE);
    }
    object->inside.inner[x->c] = given;
    return done(0);
}

static outcome get_inner_call(machine *m, const struct call *x)
{
    place *object;
    uint16_t no = check_opened(m, x, &object);
    if (no != SKAWENNEL_DONE) {
        return refused(no);
    }
    m->packages[x->caller].slots[x->d] = object->inside.inner[x->c];
    return done(0);
}

static outcome count_call(machine *m, const struct call *x)
{
    place *directory;
    uint16_t no = check(m, m->packages[x->caller].slots[x->a], NO_RIGHT, SKAWENNEL_KIND_DIRECTORY, &directory);
    if (no != SKAWENNEL_DONE) {
        return refused(no);
    }
    return done(used_entries(directory));
}

static outcome carry_out(machine *m, const struct call *x)
{
    if (!numbers_good(x)) {
        return refused(SKAWENNEL_BAD_NUMBER);
    }
    switch (x->number) {
    case SKAWENNEL_RESTRICT:
        return restrict_call(m->packages[x->caller].slots, x);
    case SKAWENNEL_DROP:
        return drop_call(m->packages[x->caller].slots, x);
    case SKAWENNEL_HAND:
        return hand_call(m, x);
    case SKAWENNEL_MAKE_SEGMENT:
        return make_call(m, x, SKAWENNEL_KIND_SEGMENT);
    case SKAWENNEL_MAKE_DIRECTORY:
        return make_call(m, x, SKAWENNEL_KIND_DIRECTORY);
    case SKAWENNEL_MAKE_TYPE:
        return make_call(m, x, SKAWENNEL_KIND_TYPE);
    case SKAWENNEL_MAKE_OBJECT:
        return make_object_call(m, x);
    case SKAWENNEL_DELETE:
        return delete_call(m, x);
    case SKAWENNEL_ADD_ENTRY:
        return add_entry_call(m, x);
    case SKAWENNEL_REMOVE_ENTRY:
        return remove_entry_call(m, x);
    case SKAWENNEL_FETCH:
        return fetch_call(m, x);
    case SKAWENNEL_READ:
        return read_call(m, x);
    case SKAWENNEL_WRITE:
        return write_call(m, x);
    case SKAWENNEL_COPY:
        return copy_call(m, x);
    case SKAWENNEL_SET_INNER:
        return set_inner_call(m, x);
    case SKAWENNEL_GET_INNER:
        return get_inner_call(m, x);
    default:
        return count_call(m, x);
    }
}

outcome ref_step_unchecked(uint16_t *tables, uint16_t caller, uint16_t call, uint16_t a, uint16_t b, uint16_t c, uint16_t d,
                           uint16_t e)
{
    return carry_out(layout_of(tables), &(struct call){caller, call, a, b, c, d, e});
}

outcome ref_step(uint16_t *tables, size_t length, uint16_t caller, uint16_t call, uint16_t a, uint16_t b, uint16_t c,
                 uint16_t d, uint16_t e)
{
    if (!ref_well_formed(tables, length)) {
        return refused(SKAWENNEL_BAD_TABLES);
    }
    return ref_step_unchecked(tables, caller, call, a, b, c, d, e);
}

/* Call 17 on a copy, so that what is lent is only read. */
outcome ref_count(const uint16_t *tables, size_t length, uint16_t caller, uint16_t slot)
{
    if (!ref_well_formed(tables, length)) {
        return refused(SKAWENNEL_BAD_TABLES);
    }
    machine copy = *layout_of_const(tables);
    return carry_out(&copy, &(struct call){caller, SKAWENNEL_COUNT, slot, 0, 0, 0, 0});
}

/* ---- Sixteen slots as a list ---- */

/* "another length, a field out of range, or serial 0 in a record that isn't all zero is BAD TABLES" */
static bool list_good(const capability *slots, size_t length)
{
    if (length != LAYOUT_SLOTS) {
        return false;
    }
    for (int i = 0; i < LAYOUT_SLOTS; i++) {
        capability c = slots[i];
        if (c.maker >= SKAWENNEL_PACKAGES || c.rights > ALL_RIGHTS || (c.serial == 0 && !is_null(c))) {
            return false;
        }
    }
    return true;
}

outcome ref_slots_restrict(capability *slots, size_t length, uint16_t a, uint16_t b, uint16_t c)
{
    struct call x = {0, SKAWENNEL_RESTRICT, a, b, c, 0, 0};
    if (!list_good(slots, length)) {
        return refused(SKAWENNEL_BAD_TABLES);
    }
    return numbers_good(&x) ? restrict_call(slots, &x) : refused(SKAWENNEL_BAD_NUMBER);
}

outcome ref_slots_drop(capability *slots, size_t length, uint16_t a)
{
    struct call x = {0, SKAWENNEL_DROP, a, 0, 0, 0, 0};
    if (!list_good(slots, length)) {
        return refused(SKAWENNEL_BAD_TABLES);
    }
    return numbers_good(&x) ? drop_call(slots, &x) : refused(SKAWENNEL_BAD_NUMBER);
}

/* ---- The tape ---- */

enum reading { READ_RECORD, READ_STOP, READ_END };

static uint16_t low_byte_first(const uint8_t *bytes)
{
    return (uint16_t)(bytes[0] | bytes[1] << 8);
}

/* The record that begins at this byte of the tape. */
static enum reading read_record(const uint8_t *bytes, size_t count, size_t at, struct call *x)
{
    if (at == count) {
        return READ_END;
    }
    if (count - at < REF_RECORD_BYTES || bytes[at] != 0x50 || bytes[at + 1] != 0x43) {
        return READ_STOP;
    }
    const uint8_t *r = bytes + at;
    *x = (struct call){r[2],
                       r[3],
                       low_byte_first(r + 4),
                       low_byte_first(r + 6),
                       low_byte_first(r + 8),
                       low_byte_first(r + 10),
                       low_byte_first(r + 12)};
    return READ_RECORD;
}

/* Runs a tape on a machine; where out is not NULL, writes the tape program's text there. */
static void run_tape(machine *m, const uint8_t *bytes, size_t count, FILE *out)
{
    size_t number = 1;
    struct call x;
    enum reading what;
    while ((what = read_record(bytes, count, (number - 1) * REF_RECORD_BYTES, &x)) == READ_RECORD) {
        outcome o = carry_out(m, &x);
        if (out != NULL) {
            fprintf(out, "%zu %u %u %u %u\n", number, x.caller, x.number, o.answer, o.value);
        }
        number++;
    }
    if (out != NULL && what == READ_STOP) {
        fprintf(out, "STOP %zu\n", number);
    } else if (out != NULL) {
        fprintf(out, "END %zu\n", number - 1);
    }
}

void ref_tape_text(const uint8_t *bytes, size_t count, FILE *out)
{
    if (count > REF_TAPE_BYTES) {
        fputs("LONG\n", out);
        return;
    }
    machine m;
    ref_fresh((uint16_t *)&m, SKAWENNEL_TABLES_LENGTH);
    run_tape(&m, bytes, count, out);
}

/* ---- The tree ---- */

struct walk {
    machine *m;
    bool opened[SKAWENNEL_PACKAGES][LAYOUT_PLACES]; /* one mark for each of the 128 places */
    FILE *out;
};

static void list_capability(struct walk *w, unsigned depth, capability c);

static void open_directory(struct walk *w, unsigned depth, const place *directory)
{
    for (int i = 0; i < LAYOUT_ENTRIES; i++) {
        if (directory->inside.entries[i].name != 0) {
            list_capability(w, depth, directory->inside.entries[i].capability);
        }
    }
}

static void open_inner_places(struct walk *w, unsigned depth, const place *object)
{
    for (int i = 0; i < LAYOUT_INNER; i++) {
        if (!is_null(object->inside.inner[i])) {
            list_capability(w, depth, object->inside.inner[i]);
        }
    }
}

static void list_line(struct walk *w, unsigned depth, capability c, unsigned kind, char sign)
{
    fprintf(w->out, "%u %u.%u %u %u %c\n", depth, c.maker, c.serial, kind, c.rights, sign);
}

static void list_capability(struct walk *w, unsigned depth, capability c)
{
    const place *p = find(w->m, c);
    if (p == NULL) {
        list_line(w, depth, c, 0, 'x');
        return;
    }
    if (p->kind == SKAWENNEL_KIND_SEGMENT || p->kind == SKAWENNEL_KIND_TYPE) {
        list_line(w, depth, c, p->kind, '-');
        return;
    }
    bool *mark = &w->opened[c.maker][p - w->m->packages[c.maker].places];
    if (*mark) {
        list_line(w, depth, c, p->kind, '=');
        return;
    }
    *mark = true;
    list_line(w, depth, c, p->kind, '+');
    if (p->kind == SKAWENNEL_KIND_DIRECTORY) {
        open_directory(w, depth + 1, p);
    } else {
        open_inner_places(w, depth + 1, p);
    }
}

static void list_package(machine *m, unsigned number, FILE *out)
{
    struct walk w = {.m = m, .out = out};
    fprintf(out, "P %u\n", number);
    for (int i = 0; i < LAYOUT_SLOTS; i++) {
        if (!is_null(m->packages[number].slots[i])) {
            list_capability(&w, 0, m->packages[number].slots[i]);
        }
    }
}

void ref_tree_text(const uint8_t *bytes, size_t count, FILE *out)
{
    if (count > REF_TAPE_BYTES) {
        fputs("LONG\n", out);
        return;
    }
    machine m;
    ref_fresh((uint16_t *)&m, SKAWENNEL_TABLES_LENGTH);
    run_tape(&m, bytes, count, NULL);
    for (unsigned p = 0; p < SKAWENNEL_PACKAGES; p++) {
        list_package(&m, p, out);
    }
}
