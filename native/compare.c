/*
 * compare [--calls N] [--seed S] [--thin K]
 *
 * Holds the library to the reference: the same lent tables and numbers go to both, and answer, value and every number
 * of the tables must come out the same. Beyond that, of each call: a refusal has value 0 and leaves the tables untouched,
 * the answer is one that the call can give, nothing beside the lent numbers changes, and well-formed tables stay so.
 *
 *   --calls N   this many calls in the random parts (default 700,000)
 *   --seed S    begin the random parts here (default 1)
 *   --thin K    only every K-th case of the parts that go through all cases, and not the 65,533 makes, for emulators and
 *               valgrind; above 10 it is not asked whether every answer was met
 *
 * The last line is `N passed, M failed`; the exit status is 0 only if none failed.
 */
#include <inttypes.h>
#include <stdlib.h>
#include <string.h>

#include "reference.h"
#include "sample.h"

enum {
    LENGTH = SKAWENNEL_TABLES_LENGTH,
    LONGEST = 4 * SKAWENNEL_TABLES_LENGTH,
    GUARD = 64,
    GUARD_NUMBER = 0xa5c3,
    OTHER_CALL = 18,
    CALLS = 19,
    ANSWERS = 17,
    TOLD = 20,
    THIN_ENOUGH = 10
};

static uint64_t passed, failed;
static const char *part = "";
static uint64_t calls_wanted = 700000, seed = 1, thin = 1;

/* How often each call had each answer; and how often a refusal came from the second capability that the call checks. */
static uint64_t met[CALLS][ANSWERS], met_second[CALLS][ANSWERS];

/* Tables of the library, of the reference, and as they were before the call, each with guards on both sides. */
struct room {
    uint16_t before[GUARD];
    uint16_t tables[LONGEST];
    uint16_t after[GUARD];
};
static struct room library, reference, earlier;

/* Whether the tables are known to be well formed, since they were made so and only calls came after. The reference then
   leaves its test out, which is most of its time; `still_well_formed` makes up for it at the end of each run of calls. */
static bool known_good;

/* Every K-th case, K being --thin. */
static bool thinned(void)
{
    static uint64_t turn;
    return turn++ % thin != 0;
}

/* ---- What may be answered ---- */

#define BIT(n) (1u << (n))
enum {
    ALWAYS = BIT(0) | BIT(SKAWENNEL_BAD_NUMBER) | BIT(SKAWENNEL_BAD_TABLES),
    SLOT_NO_RIGHT = BIT(SKAWENNEL_EMPTY) | BIT(SKAWENNEL_GONE) | BIT(SKAWENNEL_WRONG_KIND),
    SLOT = SLOT_NO_RIGHT | BIT(SKAWENNEL_NO_ABILITY),
    STORE = BIT(SKAWENNEL_NAME_USED) | BIT(SKAWENNEL_NOT_ADDABLE) | BIT(SKAWENNEL_NO_ROOM),
    MAKE = ALWAYS | SLOT | STORE | BIT(SKAWENNEL_NO_PLACE) | BIT(SKAWENNEL_SPENT),
    INSIDE = ALWAYS | SLOT | BIT(SKAWENNEL_OUTSIDE),
    OPENED = ALWAYS | SLOT | BIT(SKAWENNEL_WRONG_TYPE)
};

/* The answers that each call has, on some tables. */
static const uint32_t possible[CALLS] = {
    [0] = BIT(SKAWENNEL_BAD_NUMBER) | BIT(SKAWENNEL_BAD_TABLES),
    [SKAWENNEL_RESTRICT] = ALWAYS,
    [SKAWENNEL_DROP] = ALWAYS,
    [SKAWENNEL_HAND] = ALWAYS | BIT(SKAWENNEL_EMPTY) | BIT(SKAWENNEL_NOT_ADDABLE),
    [SKAWENNEL_MAKE_SEGMENT] = MAKE,
    [SKAWENNEL_MAKE_DIRECTORY] = MAKE,
    [SKAWENNEL_MAKE_TYPE] = MAKE,
    [SKAWENNEL_MAKE_OBJECT] = MAKE,
    [SKAWENNEL_DELETE] = ALWAYS | SLOT | BIT(SKAWENNEL_NO_ENTRY) | BIT(SKAWENNEL_WRONG_ENTRY) | BIT(SKAWENNEL_OCCUPIED),
    [SKAWENNEL_ADD_ENTRY] = ALWAYS | SLOT | STORE,
    [SKAWENNEL_REMOVE_ENTRY] = ALWAYS | SLOT | BIT(SKAWENNEL_NO_ENTRY) | BIT(SKAWENNEL_WRONG_ENTRY),
    [SKAWENNEL_FETCH] = ALWAYS | SLOT | BIT(SKAWENNEL_NO_ENTRY),
    [SKAWENNEL_READ] = INSIDE,
    [SKAWENNEL_WRITE] = INSIDE,
    [SKAWENNEL_COPY] = INSIDE,
    [SKAWENNEL_SET_INNER] = OPENED | BIT(SKAWENNEL_NOT_ADDABLE),
    [SKAWENNEL_GET_INNER] = OPENED,
    [SKAWENNEL_COUNT] = ALWAYS | SLOT_NO_RIGHT,
    [OTHER_CALL] = BIT(SKAWENNEL_BAD_NUMBER) | BIT(SKAWENNEL_BAD_TABLES),
};

/* Of these, the ones that a second checked capability gives too: another slot's, or in delete the entry's own. */
static const uint32_t possible_second[CALLS] = {
    [SKAWENNEL_MAKE_OBJECT] = SLOT,
    [SKAWENNEL_DELETE] = BIT(SKAWENNEL_NO_ABILITY) | BIT(SKAWENNEL_GONE),
    [SKAWENNEL_ADD_ENTRY] = BIT(SKAWENNEL_EMPTY),
    [SKAWENNEL_COPY] = SLOT,
    [SKAWENNEL_SET_INNER] = SLOT_NO_RIGHT,
    [SKAWENNEL_GET_INNER] = SLOT_NO_RIGHT,
};

/* Whether slot a, of a call whose numbers are good, passes what the call asks of it. */
static bool first_passes(const struct layout_machine *m, const struct words_call *x)
{
    static const struct {
        uint16_t right, kind;
    } asked[CALLS] = {
        [SKAWENNEL_MAKE_OBJECT] = {SKAWENNEL_RIGHT_WRITE, SKAWENNEL_KIND_DIRECTORY},
        [SKAWENNEL_DELETE] = {SKAWENNEL_RIGHT_REMOVE, SKAWENNEL_KIND_DIRECTORY},
        [SKAWENNEL_ADD_ENTRY] = {SKAWENNEL_RIGHT_WRITE, SKAWENNEL_KIND_DIRECTORY},
        [SKAWENNEL_COPY] = {SKAWENNEL_RIGHT_READ, SKAWENNEL_KIND_SEGMENT},
        [SKAWENNEL_SET_INNER] = {SKAWENNEL_RIGHT_OPEN, SKAWENNEL_KIND_TYPE},
        [SKAWENNEL_GET_INNER] = {SKAWENNEL_RIGHT_OPEN, SKAWENNEL_KIND_TYPE},
    };
    struct skawennel_capability c = m->packages[x->caller].slots[x->numbers[0]];
    const struct layout_place *p = sample_find(m, c);
    return (c.rights & asked[x->call].right) == asked[x->call].right && p != NULL && p->kind == asked[x->call].kind;
}

static void note(const struct words_call *x, uint16_t answer, const uint16_t *tables)
{
    unsigned call = x->call < CALLS ? x->call : OTHER_CALL;
    if (answer < ANSWERS) {
        met[call][answer]++;
        if (answer != SKAWENNEL_BAD_TABLES && (possible_second[call] & BIT(answer)) != 0 &&
            first_passes(layout_of_const(tables), x)) {
            met_second[call][answer]++;
        }
    }
}

/* ---- One comparison ---- */

static void tell(bool good, const char *what)
{
    if (good) {
        passed++;
    } else if (failed++ < TOLD) {
        printf("%s: %s\n", part, what);
    }
}

static void tell_call(bool good, const struct words_call *x, struct skawennel_outcome l, struct skawennel_outcome r,
                      const char *why)
{
    if (good) {
        passed++;
        return;
    }
    if (failed++ >= TOLD) {
        return;
    }
    printf("%s: %s: library %u %u, reference %u %u: ", part, why, l.answer, l.value, r.answer, r.value);
    for (size_t i = 0; i < LONGEST; i++) {
        if (library.tables[i] != reference.tables[i]) {
            printf("number %zu is %u, not %u: ", i, library.tables[i], reference.tables[i]);
            break;
        }
    }
    words_write(x, stdout);
}

static void set_guards(struct room *r)
{
    for (int i = 0; i < GUARD; i++) {
        r->before[i] = r->after[i] = GUARD_NUMBER;
    }
}

static bool guards_stand(const struct room *r)
{
    for (int i = 0; i < GUARD; i++) {
        if (r->before[i] != GUARD_NUMBER || r->after[i] != GUARD_NUMBER) {
            return false;
        }
    }
    return true;
}

/* Whether the first numbers of two rooms are the same; beyond the tables' length nothing is lent but in `lengths`. */
static bool same(const struct room *a, const struct room *b, size_t length)
{
    return memcmp(a->tables, b->tables, length * sizeof a->tables[0]) == 0;
}

static void copy_room(struct room *to, const struct room *from, size_t length)
{
    memcpy(to->tables, from->tables, length * sizeof to->tables[0]);
}

/* Puts the tables of the reference into the other two rooms. */
static void spread(size_t length)
{
    copy_room(&library, &reference, length);
    copy_room(&earlier, &reference, length);
}

/* One call on both. Before it all three rooms are the same; after it too, with what the reference made of them. */
static struct skawennel_outcome step_both(const struct words_call *x, size_t length)
{
    const uint16_t *n = x->numbers;
    size_t looked_at = length > LENGTH ? length : LENGTH;
    struct skawennel_outcome l, r;
    l = skawennel_step(library.tables, length, x->caller, x->call, n[0], n[1], n[2], n[3], n[4]);
    r = known_good ? ref_step_unchecked(reference.tables, x->caller, x->call, n[0], n[1], n[2], n[3], n[4])
                   : ref_step(reference.tables, length, x->caller, x->call, n[0], n[1], n[2], n[3], n[4]);
    unsigned call = x->call < CALLS ? x->call : OTHER_CALL;
    const char *why = NULL;
    if (l.answer != r.answer || l.value != r.value) {
        why = "outcomes differ";
    } else if (!same(&library, &reference, looked_at)) {
        why = "tables differ";
    } else if (r.answer != 0 && (r.value != 0 || !same(&reference, &earlier, looked_at))) {
        why = "refused, with a value or a change";
    } else if (r.answer >= ANSWERS || (possible[call] & BIT(r.answer)) == 0) {
        why = "the call cannot give that answer";
    } else if (!guards_stand(&library)) {
        why = "a number beside the tables changed";
    }
    tell_call(why == NULL, x, l, r, why);
    note(x, r.answer, earlier.tables);
    if (why != NULL) {
        copy_room(&library, &reference, looked_at);
        set_guards(&library);
    }
    if (r.answer == 0) {
        copy_room(&earlier, &reference, looked_at);
    }
    return r;
}

/* Count on both, by the function of its own; tables are only read. */
static void count_both(uint16_t caller, uint16_t slot, size_t length)
{
    struct words_call x = {caller, SKAWENNEL_COUNT, {slot}};
    struct skawennel_outcome l = skawennel_count(library.tables, length, caller, slot);
    struct skawennel_outcome r = ref_count(reference.tables, length, caller, slot);
    tell_call(l.answer == r.answer && l.value == r.value && same(&library, &earlier, LENGTH), &x, l, r, "count");
}

static void fresh_both(void)
{
    uint16_t l = skawennel_fresh(library.tables, LENGTH), r = ref_fresh(reference.tables, LENGTH);
    tell(l == 0 && r == 0 && same(&library, &reference, LENGTH), "the fresh tables differ");
    spread(LENGTH);
}

static void still_well_formed(void)
{
    tell(ref_well_formed(reference.tables, LENGTH), "calls left tables that are not well formed");
}

static struct layout_machine *machine(void)
{
    return layout_of(reference.tables);
}

static void sample_both(uint32_t percent)
{
    sample_tables(machine(), percent);
    tell(ref_well_formed(reference.tables, LENGTH), "sample tables are not well formed");
    spread(LENGTH);
}

static struct skawennel_outcome call(uint16_t caller, uint16_t number, uint16_t a, uint16_t b, uint16_t c, uint16_t d,
                                     uint16_t e)
{
    return step_both(&(struct words_call){caller, number, {a, b, c, d, e}}, LENGTH);
}

/* ---- Lengths ---- */

/* Fresh, step and count on every length up to well beyond the tables' own, with what is beside them looked at. */
static void lengths(void)
{
    part = "lengths";
    tell(skawennel_tables_length() == LENGTH, "skawennel_tables_length");
    for (size_t length = 0; length <= LONGEST; length += length < LENGTH + 200 ? 1 : 997) {
        if (thinned() && length != LENGTH) {
            continue;
        }
        for (size_t i = 0; i < LONGEST; i++) {
            reference.tables[i] = GUARD_NUMBER;
        }
        spread(LONGEST);
        uint16_t l = skawennel_fresh(library.tables, length), r = ref_fresh(reference.tables, length);
        tell(l == r && same(&library, &reference, LONGEST) && guards_stand(&library), "fresh");
        ref_fresh(reference.tables, LENGTH);
        spread(LENGTH);
        struct skawennel_outcome o = step_both(&(struct words_call){3, SKAWENNEL_MAKE_SEGMENT, {0, 7, 0, 2}}, length);
        tell(o.answer == (length == LENGTH ? 0 : SKAWENNEL_BAD_TABLES), "another length is bad tables");
        count_both(3, 0, length);
        tell(same(&library, &reference, LONGEST), "numbers that were not lent changed");
    }
}

/* ---- Damage ---- */

/* Tables with every kind in package 0, made by calls. Places: 2 segment, 3 type, 4 object, 5 directory. */
static void crafted(void)
{
    ref_fresh(reference.tables, LENGTH);
    spread(LENGTH);
    call(0, SKAWENNEL_MAKE_SEGMENT, 0, 7, 0, 2, 0);
    call(0, SKAWENNEL_MAKE_TYPE, 0, 8, 0, 3, 0);
    call(0, SKAWENNEL_MAKE_OBJECT, 0, 9, 3, 4, 0);
    call(0, SKAWENNEL_MAKE_DIRECTORY, 0, 10, 0, 5, 0);
    call(0, SKAWENNEL_ADD_ENTRY, 5, 7, 2, 0, 0);
    call(0, SKAWENNEL_SET_INNER, 3, 4, 1, 5, 0);
    call(0, SKAWENNEL_WRITE, 2, 31, 500, 0, 0);
}

/* The damage that was just done to the reference's tables has this verdict, by the rules and by both machines. */
static void verdict(bool well_formed, const char *what)
{
    spread(LENGTH);
    tell(ref_well_formed(reference.tables, LENGTH) == well_formed, what);
    struct skawennel_outcome o = call(1, SKAWENNEL_RESTRICT, 0, 255, 9, 0, 0);
    tell((o.answer != SKAWENNEL_BAD_TABLES) == well_formed, what);
    ref_fresh(reference.tables, LENGTH);
    crafted();
}

/* `damage` on the crafted tables, m. */
#define BAD(what, damage)                                                                                                   \
    do {                                                                                                                    \
        damage;                                                                                                             \
        verdict(false, what);                                                                                               \
    } while (0)
#define GOOD(what, damage)                                                                                                  \
    do {                                                                                                                    \
        damage;                                                                                                             \
        verdict(true, what);                                                                                                \
    } while (0)

/* The ways in which one capability can be bad, wherever it stands. */
static void capability_damage(struct skawennel_capability *c)
{
    typedef struct skawennel_capability capability;
    BAD("maker above 7", (*c = (capability){8, 1, 255}));
    BAD("maker 65535", (*c = (capability){65535, 1, 255}));
    BAD("rights above 255", (*c = (capability){0, 1, 256}));
    BAD("serial not issued", (*c = (capability){1, 3, 255}));
    BAD("serial far above the last", (*c = (capability){0, 65535, 0}));
    BAD("serial 0 with a maker", (*c = (capability){1, 0, 0}));
    BAD("serial 0 with rights", (*c = (capability){0, 0, 1}));
    GOOD("the last serial of its maker", (*c = (capability){1, 2, 255}));
    GOOD("no rights", (*c = (capability){7, 1, 0}));
}

static void entry_damage(struct layout_machine *m)
{
    struct layout_entry *e = m->packages[0].places[0].inside.entries, *last = &e[LAYOUT_ENTRIES - 1];
    struct skawennel_capability null = {0, 0, 0};
    BAD("a name with a null capability", e[0].capability = null);
    BAD("a capability without a name", e[0].name = 0);
    BAD("a flag of 2", e[0].distinguished = 2);
    BAD("a flag of 65535", e[0].distinguished = 65535);
    BAD("a flag in an empty entry", last->distinguished = 1);
    BAD("a name alone", last->name = 99);
    BAD("rights alone", last->capability.rights = 1);
    BAD("two neighbours of one name", e[1].name = e[0].name);
    BAD("first and last of one name", *last = e[0]);
    GOOD("first and last of different names", (*last = e[0], last->name = 65535));
    GOOD("an empty entry before a used one", memset(&e[0], 0, sizeof e[0]));
    GOOD("a distinguished entry of an object of another", (e[0].capability = (struct skawennel_capability){1, 1, 0}));
    for (int i = 0; i < LAYOUT_ENTRIES; i++) {
        for (int j = 0; j < LAYOUT_ENTRIES; j++) {
            struct layout_entry one = {1000, {0, 1, 255}, 0};
            memset(e, 0, sizeof m->packages[0].places[0].inside.entries);
            e[i] = e[j] = one;
            e[j].distinguished = 1;
            verdict(i == j, "two entries of one name");
        }
    }
}

static void place_damage(struct layout_machine *m)
{
    struct layout_place *p = m->packages[0].places;
    BAD("kind 5", p[2].kind = 5);
    BAD("kind 65535", p[2].kind = 65535);
    BAD("kind 0 of a used place", p[2].kind = 0);
    BAD("kind alone", p[9].kind = SKAWENNEL_KIND_SEGMENT);
    BAD("serial 0", p[2].serial = 0);
    BAD("serial above the last", p[2].serial = 7);
    BAD("permits of a segment", p[2].permits = 1);
    BAD("permits of a type", p[3].permits = 3);
    BAD("permits 4 of an object", p[4].permits = 4);
    BAD("permits 4 of a directory", p[5].permits = 4);
    GOOD("permits 3 of an object", p[4].permits = 3);
    GOOD("permits 3 of a directory", p[5].permits = 3);
    for (int i = 2; i < 6; i++) {
        if (p[i].kind != SKAWENNEL_KIND_OBJECT) {
            BAD("a type's maker where there is no type", p[i].type_maker = 1);
            BAD("a type's serial where there is no type", p[i].type_serial = 1);
        }
    }
    BAD("a type's maker above 7", p[4].type_maker = 8);
    BAD("a type's serial 0", p[4].type_serial = 0);
    BAD("no type", p[4].type_maker = p[4].type_serial = 0);
    BAD("a type that was not issued", p[4].type_serial = 7);
    GOOD("a type's number that names a segment", p[4].type_serial = 3);
    GOOD("a type of another maker", (p[4].type_maker = 7, p[4].type_serial = 2));
    GOOD("a type that is gone", memset(&p[3], 0, sizeof p[3]));
    GOOD("no objects at all", memset(p, 0, sizeof m->packages[0].places));
    GOOD("an object moved to another place", (p[15] = p[4], memset(&p[4], 0, sizeof p[4])));
    for (int i = 0; i < LAYOUT_PLACES; i++) {
        for (int j = 0; j < LAYOUT_PLACES; j++) {
            memset(p, 0, sizeof m->packages[0].places);
            p[i].kind = SKAWENNEL_KIND_TYPE;
            p[j].kind = SKAWENNEL_KIND_SEGMENT;
            p[i].serial = p[j].serial = 6;
            verdict(i == j, "two places of one number");
        }
    }
    BAD("one number twice", p[3].serial = p[2].serial);
}

static void serial_damage(struct layout_machine *m)
{
    GOOD("a last serial of 65535", m->packages[0].last_serial = 65535);
    BAD("a last serial below a place's", m->packages[0].last_serial = 5);
    BAD("a last serial of 0 under used places", m->packages[1].last_serial = 0);
    BAD("a last serial below a slot's",
        (memset(&m->packages[1].places[1], 0, sizeof(struct layout_place)), m->packages[1].last_serial = 1));
    GOOD("none below", (memset(&m->packages[1], 0, sizeof m->packages[1])));
    GOOD("nothing at all", memset(m, 0, sizeof *m));
}

/* Each number of the unused space of a place, as kind by kind docs/TABLES.md has it, set to 1 and to 65535. */
static void stray_damage(struct layout_machine *m)
{
    static const struct {
        int place, first;
        const char *what;
    } unused[] = {
        {2, LAYOUT_WORDS, "a stray number in a segment"},
        {3, 0, "a stray number in a type"},
        {4, 3 * LAYOUT_INNER, "a stray number in an object"},
        {9, -5, "a stray number in an empty place"},
    };
    for (size_t i = 0; i < sizeof unused / sizeof unused[0]; i++) {
        for (int j = unused[i].first; j < LAYOUT_INSIDE; j++) {
            uint16_t *numbers = (uint16_t *)&m->packages[0].places[unused[i].place];
            numbers[5 + j] = 1;
            verdict(false, unused[i].what);
            numbers[5 + j] = 65535;
            verdict(false, unused[i].what);
        }
    }
    GOOD("any word in a segment", memset(m->packages[0].places[2].inside.words, 0xff, 2 * LAYOUT_WORDS));
}

/* Every way in which tables are not well formed, by name, and neighbours that are. */
static void named_damage(void)
{
    part = "named damage";
    crafted();
    struct layout_machine *m = machine();
    GOOD("no damage", (void)0);
    capability_damage(&m->packages[1].slots[0]);
    capability_damage(&m->packages[7].slots[15]);
    capability_damage(&m->packages[0].places[0].inside.entries[0].capability);
    capability_damage(&m->packages[0].places[5].inside.entries[0].capability);
    capability_damage(&m->packages[0].places[4].inside.inner[0]);
    capability_damage(&m->packages[0].places[4].inside.inner[3]);
    GOOD("a null slot", memset(&m->packages[1].slots[1], 0, 6));
    GOOD("a null inner place", memset(&m->packages[0].places[4].inside.inner[1], 0, 6));
    entry_damage(m);
    place_damage(m);
    serial_damage(m);
    stray_damage(m);
}

/* Every number of the tables in turn set to each of some values. */
static void each_number(void)
{
    static const uint16_t values[] = {0, 1, 2, 3, 4, 5, 7, 8, 255, 256, 65535};
    enum { COUNT = sizeof values / sizeof values[0] };
    static struct room base;
    copy_room(&base, &reference, LENGTH);
    for (size_t i = 0; i < LENGTH; i++) {
        for (size_t j = 0; j < COUNT + 2; j++) {
            uint16_t was = base.tables[i];
            uint16_t value = j < COUNT ? values[j] : j == COUNT ? (uint16_t)(was + 1) : (uint16_t)(was - 1);
            if (value == was || thinned()) {
                continue;
            }
            struct words_call x;
            sample_call(layout_of_const(base.tables), &x);
            library.tables[i] = reference.tables[i] = earlier.tables[i] = value;
            if (step_both(&x, LENGTH).answer == 0) {
                copy_room(&reference, &base, LENGTH);
                spread(LENGTH);
            } else {
                if (j == 0) {
                    count_both(0, 0, LENGTH);
                }
                library.tables[i] = reference.tables[i] = earlier.tables[i] = was;
            }
        }
    }
}

static void damage(void)
{
    named_damage();
    part = "each number, fresh";
    fresh_both();
    each_number();
    part = "each number, made by calls";
    crafted();
    each_number();
    for (uint32_t percent = 40; percent <= 100; percent += 60) {
        part = percent == 40 ? "each number, sample" : "each number, full sample";
        sample_both(percent);
        each_number();
    }
}

/* ---- All cases of the numbers ---- */

static struct room grid_base;

/* One call from the base tables. */
static void grid_call(uint16_t caller, uint16_t number, uint16_t a, uint16_t b, uint16_t c, uint16_t d, uint16_t e)
{
    if (!thinned() && call(caller, number, a, b, c, d, e).answer == 0) {
        copy_room(&reference, &grid_base, LENGTH);
        spread(LENGTH);
    }
}

/* Names for a directory in slot a: 0, two that it has, one that it may have, and one that it hasn't. */
static void grid_names(uint16_t by, uint16_t a, uint16_t names[5])
{
    const struct layout_place *p = a < LAYOUT_SLOTS ? sample_find(machine(), machine()->packages[by].slots[a]) : NULL;
    bool directory = p != NULL && p->kind == SKAWENNEL_KIND_DIRECTORY;
    uint16_t plain = 5, distinguished = 6;
    for (int i = 0; directory && i < LAYOUT_ENTRIES; i++) {
        if (p->inside.entries[i].name != 0) {
            *(p->inside.entries[i].distinguished ? &distinguished : &plain) = p->inside.entries[i].name;
        }
    }
    names[0] = 0;
    names[1] = plain;
    names[2] = distinguished;
    names[3] = 7;
    names[4] = 65535;
}

static void grid_names_calls(uint16_t by, uint16_t a)
{
    uint16_t names[5];
    grid_names(by, a, names);
    for (int i = 0; i < 5; i++) {
        for (uint16_t s = 0; s <= 4; s++) {
            grid_call(by, SKAWENNEL_MAKE_SEGMENT, a, names[i], s, 3, 0);
            grid_call(by, SKAWENNEL_MAKE_DIRECTORY, a, names[i], s, a, 0);
            grid_call(by, SKAWENNEL_MAKE_TYPE, a, names[i], s, 15, 0);
        }
        for (uint16_t c = 0; c <= LAYOUT_SLOTS; c++) {
            grid_call(by, SKAWENNEL_ADD_ENTRY, a, names[i], c, 0, 0);
            grid_call(by, SKAWENNEL_FETCH, a, names[i], c, 0, 0);
            grid_call(by, SKAWENNEL_MAKE_SEGMENT, a, names[i], 0, c, 0);
            for (uint16_t s = 0; s <= 4; s++) {
                grid_call(by, SKAWENNEL_MAKE_OBJECT, a, names[i], c, 4, s);
            }
            grid_call(by, SKAWENNEL_MAKE_OBJECT, a, names[i], c, 16, 0);
        }
    }
    const struct layout_place *p = a < LAYOUT_SLOTS ? sample_find(machine(), machine()->packages[by].slots[a]) : NULL;
    for (int i = 0; i <= LAYOUT_ENTRIES; i++) {
        uint16_t name = i < LAYOUT_ENTRIES && p != NULL && p->kind == 2 ? p->inside.entries[i].name : (uint16_t)i;
        grid_call(by, SKAWENNEL_DELETE, a, name, 0, 0, 0);
        grid_call(by, SKAWENNEL_REMOVE_ENTRY, a, name, 0, 0, 0);
        grid_call(by, SKAWENNEL_FETCH, a, name, 15, 0, 0);
    }
}

static void grid_words_calls(uint16_t by, uint16_t a)
{
    static const uint16_t offsets[] = {0, 1, 15, 30, 31, 32, 33, 256, 65535};
    static const uint16_t parts[][3] = {
        {0, 0, 32}, {0, 1, 31}, {1, 0, 31},  {0, 1, 32},  {1, 0, 32},    {0, 0, 33},    {32, 32, 0},
        {33, 0, 0}, {0, 33, 0}, {31, 0, 1},  {0, 31, 1},  {32, 0, 1},    {0, 32, 1},    {5, 9, 10},
        {9, 5, 10}, {7, 7, 7},  {16, 0, 16}, {0, 16, 16}, {65535, 0, 1}, {0, 65535, 1}, {1, 1, 65535},
    };
    for (size_t i = 0; i < sizeof offsets / sizeof offsets[0]; i++) {
        grid_call(by, SKAWENNEL_READ, a, offsets[i], 0, 0, 0);
        grid_call(by, SKAWENNEL_WRITE, a, offsets[i], 65535, 0, 0);
        grid_call(by, SKAWENNEL_WRITE, a, offsets[i], 0, 0, 0);
    }
    for (uint16_t c = 0; c <= LAYOUT_SLOTS; c++) {
        for (size_t i = 0; i < sizeof parts / sizeof parts[0]; i++) {
            grid_call(by, SKAWENNEL_COPY, a, parts[i][0], c, parts[i][1], parts[i][2]);
        }
    }
}

static void grid_slots_calls(uint16_t by, uint16_t a)
{
    static const uint16_t masks[] = {0, 1, 2, 128, 247, 255, 256, 65535};
    for (uint16_t c = 0; c <= LAYOUT_SLOTS; c++) {
        for (size_t i = 0; i < sizeof masks / sizeof masks[0]; i++) {
            grid_call(by, SKAWENNEL_RESTRICT, a, masks[i], c, 0, 0);
        }
        for (uint16_t to = 0; to <= SKAWENNEL_PACKAGES; to++) {
            grid_call(SKAWENNEL_HOST, SKAWENNEL_HAND, by, a, to, c, 0);
        }
        for (uint16_t i = 0; i <= LAYOUT_INNER; i++) {
            for (uint16_t d = 0; d <= LAYOUT_SLOTS; d += 2) {
                grid_call(by, SKAWENNEL_SET_INNER, a, c, i, d, 0);
                grid_call(by, SKAWENNEL_GET_INNER, a, c, i, d, 0);
            }
        }
    }
    grid_call(by, SKAWENNEL_DROP, a, 0, 0, 0, 0);
    grid_call(by, SKAWENNEL_COUNT, a, 0, 0, 0, 0);
    grid_call(SKAWENNEL_HOST, SKAWENNEL_HAND, 8, a, 0, 0, 0);
    count_both(by, a, LENGTH);
}

/* Every call number and caller up to beyond the last, and each of a to e out of place. */
static void grid_bad_numbers(void)
{
    for (uint16_t caller = 0; caller <= 10; caller++) {
        for (uint16_t number = 0; number <= 20; number++) {
            grid_call(caller, number, 0, 1, 0, 0, 0);
            grid_call(caller, number, 0, 0, 0, 0, 0);
            for (int i = 0; i < 5; i++) {
                for (uint16_t value = 1; value != 0; value *= 2) {
                    uint16_t n[5] = {0, 0, 0, 0, 0};
                    n[i] = value;
                    grid_call(caller, number, n[0], n[1], n[2], n[3], n[4]);
                }
            }
        }
    }
    for (uint32_t number = 0; number < 65536; number += 255) {
        grid_call(0, (uint16_t)number, 0, 1, 0, 0, 0);
        grid_call((uint16_t)number, SKAWENNEL_COUNT, 0, 0, 0, 0, 0);
        grid_call((uint16_t)number, SKAWENNEL_HAND, 0, 0, 0, 0, 0);
        count_both((uint16_t)number, 0, LENGTH);
        count_both(0, (uint16_t)number, LENGTH);
    }
}

static void grid(void)
{
    part = "all cases";
    for (int i = 0; i < 10; i++) {
        if (i == 0) {
            fresh_both();
        } else {
            sample_both((uint32_t)(30 + 7 * i));
        }
        copy_room(&grid_base, &reference, LENGTH);
        known_good = true;
        uint16_t by = (uint16_t)(i % SKAWENNEL_PACKAGES);
        for (uint16_t a = 0; a <= LAYOUT_SLOTS; a++) {
            grid_names_calls(by, a);
            grid_words_calls(by, a);
            grid_slots_calls(by, a);
        }
        if (i < 3) {
            grid_bad_numbers();
        }
        still_well_formed();
    }
    known_good = false;
}

/* ---- Random calls ---- */

/* Tapes of calls from a fresh machine or from sample tables, tables going from call to call. */
static void random_tapes(uint64_t calls)
{
    part = "random tapes";
    known_good = true;
    uint64_t left = 0;
    for (uint64_t i = 0; i < calls; i++) {
        if (left == 0) {
            still_well_formed();
            left = 100 + sample_below(900);
            sample_callers((uint16_t)(1 + sample_below(SKAWENNEL_PACKAGES)));
            if (sample_percent(60)) {
                fresh_both();
            } else {
                sample_both(20 + sample_below(80));
            }
        }
        struct words_call x;
        sample_call(machine(), &x);
        step_both(&x, LENGTH);
        if (i % 8 == 0) {
            uint16_t caller = (uint16_t)sample_below(9), slot = (uint16_t)sample_below(17);
            count_both(caller, slot, LENGTH);
        }
        left--;
    }
    still_well_formed();
    known_good = false;
    sample_callers(SKAWENNEL_PACKAGES);
}

/* Any seven numbers, on tables that go from call to call. */
static void wild_calls(uint64_t calls)
{
    part = "any numbers";
    known_good = true;
    for (uint64_t i = 0; i < calls; i++) {
        if (i % 2000 == 0) {
            still_well_formed();
            sample_both(20 + sample_below(80));
        }
        struct words_call x;
        sample_wild_call(&x);
        step_both(&x, LENGTH);
    }
    still_well_formed();
    known_good = false;
}

/* Some numbers of good tables changed, to anything or to a number that stands elsewhere in them. */
static void random_damage(uint64_t calls)
{
    part = "random damage";
    static struct room base;
    for (uint64_t i = 0; i < calls; i++) {
        if (i % 200 == 0) {
            sample_both(20 + sample_below(80));
            copy_room(&base, &reference, LENGTH);
        }
        for (uint32_t k = 1 + sample_below(2); k > 0; k--) {
            uint32_t at = sample_below(LENGTH);
            reference.tables[at] = sample_percent(50) ? sample_number() : base.tables[sample_below(LENGTH)];
        }
        spread(LENGTH);
        struct words_call x;
        if (sample_percent(20)) {
            sample_wild_call(&x);
        } else {
            sample_call(layout_of_const(base.tables), &x);
        }
        step_both(&x, LENGTH);
        uint16_t caller = (uint16_t)sample_below(8), slot = (uint16_t)sample_below(16);
        count_both(caller, slot, LENGTH);
        copy_room(&reference, &base, LENGTH);
    }
    spread(LENGTH);
}

/* ---- The last serial ---- */

static void spent_in_tables(void)
{
    part = "last serial set";
    for (uint16_t last = 65533; last != 0; last++) {
        for (uint16_t kind = SKAWENNEL_MAKE_SEGMENT; kind <= SKAWENNEL_MAKE_OBJECT; kind++) {
            bool object = kind == SKAWENNEL_MAKE_OBJECT;
            fresh_both();
            call(2, SKAWENNEL_MAKE_TYPE, 0, 1, 0, 2, 0);
            machine()->packages[2].last_serial = last;
            spread(LENGTH);
            uint16_t expected = last;
            for (uint16_t name = 2; name < 6; name++) {
                struct skawennel_outcome o = call(2, kind, 0, name, object ? 2 : 0, 3, 0);
                if (expected == 65535) {
                    tell(o.answer == SKAWENNEL_SPENT && o.value == 0, "a make after the last serial");
                } else {
                    expected++;
                    tell(o.answer == 0 && o.value == expected, "a make before the last serial");
                }
            }
            tell(call(1, kind, 0, 1, 0, 3, 0).answer != SKAWENNEL_SPENT, "another package is spent");
        }
    }
}

/* 65,533 makes and deletes from a fresh machine, then a make: 15. */
static void spent_by_makes(void)
{
    part = "65,533 makes and deletes";
    fresh_both();
    known_good = true;
    for (uint32_t i = 0; i < 65533; i++) {
        uint16_t kind = (uint16_t)(SKAWENNEL_MAKE_SEGMENT + i % 3);
        struct skawennel_outcome o = call(5, kind, 0, 7, 0, 2, 0);
        tell(o.answer == 0 && o.value == 3 + i, "the next serial");
        tell(call(5, SKAWENNEL_DELETE, 0, 7, 0, 0, 0).answer == 0, "its delete");
    }
    for (uint16_t kind = SKAWENNEL_MAKE_SEGMENT; kind <= SKAWENNEL_MAKE_TYPE; kind++) {
        tell(call(5, kind, 0, 7, 0, 2, 0).answer == SKAWENNEL_SPENT, "a make after 65,533");
    }
    tell(call(6, SKAWENNEL_MAKE_SEGMENT, 0, 7, 0, 2, 0).value == 3, "another package's first make");
    still_well_formed();
    known_good = false;
}

/* ---- Sixteen slots as a list ---- */

#if SLOTS
static void slots_both(const struct skawennel_capability *list, size_t length, bool dropping, const uint16_t *n)
{
    struct skawennel_capability l[LAYOUT_SLOTS + 2], r[LAYOUT_SLOTS + 2];
    struct skawennel_outcome lo, ro;
    memcpy(l, list, sizeof l);
    memcpy(r, list, sizeof r);
    if (dropping) {
        lo = skawennel_slots_drop(l, length, n[0]);
        ro = ref_slots_drop(r, length, n[0]);
    } else {
        lo = skawennel_slots_restrict(l, length, n[0], n[1], n[2]);
        ro = ref_slots_restrict(r, length, n[0], n[1], n[2]);
    }
    bool untouched = ro.answer == 0 || memcmp(r, list, sizeof r) == 0;
    tell(lo.answer == ro.answer && lo.value == 0 && ro.value == 0 && memcmp(l, r, sizeof l) == 0 && untouched,
         dropping ? "drop on a list" : "restrict on a list");
}

static void slots_lists(uint64_t calls)
{
    part = "slots as a list";
    struct skawennel_capability list[LAYOUT_SLOTS + 2];
    for (uint64_t i = 0; i < calls; i++) {
        for (int j = 0; j < LAYOUT_SLOTS + 2; j++) {
            list[j].maker = (uint16_t)sample_below(8);
            list[j].serial = (uint16_t)(1 + sample_below(65535));
            list[j].rights = (uint16_t)sample_below(256);
            if (sample_percent(30)) {
                list[j] = (struct skawennel_capability){0, 0, 0};
            }
        }
        if (sample_percent(30)) {
            uint32_t at = sample_below(3 * LAYOUT_SLOTS);
            ((uint16_t *)list)[at] = sample_number();
        }
        size_t length = sample_percent(10) ? sample_below(LAYOUT_SLOTS + 3) : LAYOUT_SLOTS;
        uint16_t a = (uint16_t)sample_below(16), b = (uint16_t)sample_below(256), c = (uint16_t)sample_below(16);
        uint16_t n[3] = {a, b, c};
        if (sample_percent(20)) {
            uint32_t at = sample_below(3);
            n[at] = sample_number();
        }
        slots_both(list, length, sample_percent(30), n);
    }
}
#endif

/* ---- What was met ---- */

static void answers_met(void)
{
    part = "what was met";
    for (unsigned i = 0; i < CALLS; i++) {
        for (unsigned j = 0; j < ANSWERS; j++) {
            char what[64];
            if ((possible[i] & BIT(j)) != 0 && thin <= THIN_ENOUGH) {
                snprintf(what, sizeof what, "call %u never answered %u", i, j);
                tell(met[i][j] > 0, what);
            }
            if ((possible_second[i] & BIT(j)) != 0 && thin <= THIN_ENOUGH) {
                snprintf(what, sizeof what, "call %u never answered %u for its second capability", i, j);
                tell(met_second[i][j] > 0, what);
            }
        }
    }
    printf("%-5s", "call");
    for (unsigned j = 0; j < ANSWERS; j++) {
        printf("%8u", j);
    }
    printf("   (columns: answers; 0 is done)\n");
    for (unsigned i = 0; i < CALLS; i++) {
        printf(i == OTHER_CALL ? "other" : "%-5u", i);
        for (unsigned j = 0; j < ANSWERS; j++) {
            printf("%8" PRIu64, met[i][j]);
        }
        printf("\n");
    }
    if (thin > THIN_ENOUGH) {
        printf("thinned: whether every answer was met is not asked\n");
    }
}

static bool option(char **words, int count, int *at, const char *name, uint64_t *number)
{
    char *end;
    if (strcmp(words[*at], name) != 0 || *at + 1 >= count) {
        return false;
    }
    *number = strtoull(words[++*at], &end, 10);
    return *end == 0 && end != words[*at];
}

int main(int count, char **words)
{
    for (int i = 1; i < count; i++) {
        if (!option(words, count, &i, "--calls", &calls_wanted) && !option(words, count, &i, "--seed", &seed) &&
            !option(words, count, &i, "--thin", &thin)) {
            fprintf(stderr, "usage: compare [--calls N] [--seed S] [--thin K]\n");
            return 2;
        }
    }
    thin = thin == 0 ? 1 : thin;
    sample_seed(seed);
    set_guards(&library);
    lengths();
    damage();
    grid();
    random_tapes(calls_wanted / 10 * 7);
    wild_calls(calls_wanted / 10);
    random_damage(calls_wanted / 10);
    spent_in_tables();
    if (thin == 1) {
        spent_by_makes();
    }
#if SLOTS
    slots_lists(calls_wanted / 10);
#else
    printf("the functions on a list of slots were not compared\n");
#endif
    answers_met();
    printf("%" PRIu64 " passed, %" PRIu64 " failed\n", passed, failed);
    return failed == 0 ? 0 : 1;
}
