#include "sample.h"

#include <string.h>

static uint64_t state = 1;
static uint16_t callers = SKAWENNEL_PACKAGES;

void sample_seed(uint64_t seed)
{
    state = seed;
}

void sample_callers(uint16_t count)
{
    callers = count;
}

/* splitmix64 */
static uint64_t next(void)
{
    uint64_t z = state += 0x9e3779b97f4a7c15u;
    z = (z ^ z >> 30) * 0xbf58476d1ce4e5b9u;
    z = (z ^ z >> 27) * 0x94d049bb133111ebu;
    return z ^ z >> 31;
}

uint32_t sample_below(uint32_t most)
{
    return (uint32_t)((next() >> 32) * most >> 32);
}

bool sample_percent(uint32_t percent)
{
    return sample_below(100) < percent;
}

uint16_t sample_number(void)
{
    static const uint16_t bounds[] = {7, 8, 15, 16, 17, 31, 32, 33, 127, 128, 252, 255, 256, 32767, 32768, 65534, 65535};
    uint32_t way = sample_below(10);
    if (way < 5) {
        return (uint16_t)sample_below(20);
    }
    if (way < 8) {
        return bounds[sample_below(sizeof bounds / sizeof bounds[0])];
    }
    return (uint16_t)sample_below(65536);
}

const struct layout_place *sample_find(const struct layout_machine *m, struct skawennel_capability c)
{
    for (int i = 0; c.maker < SKAWENNEL_PACKAGES && i < LAYOUT_PLACES; i++) {
        const struct layout_place *p = &m->packages[c.maker].places[i];
        if (p->kind != 0 && p->serial == c.serial) {
            return p;
        }
    }
    return NULL;
}

/* ---- Well-formed tables ---- */

/* An issued object number with some rights; often of a living object, often with all rights that matter. */
static struct skawennel_capability some_capability(const struct layout_machine *m)
{
    struct skawennel_capability c = {0, 0, 0};
    uint16_t maker = (uint16_t)sample_below(SKAWENNEL_PACKAGES);
    for (int i = 0; m->packages[maker].last_serial == 0; i++) {
        if (i == SKAWENNEL_PACKAGES) {
            return c;
        }
        maker = (maker + 1) % SKAWENNEL_PACKAGES;
    }
    c.maker = maker;
    c.serial = m->packages[maker].places[sample_below(LAYOUT_PLACES)].serial;
    if (c.serial == 0 || sample_percent(15)) {
        c.serial = (uint16_t)(1 + sample_below(m->packages[maker].last_serial));
    }
    c.rights = sample_percent(60) ? (uint16_t)(252 + sample_below(4)) : (uint16_t)sample_below(256);
    return c;
}

static uint16_t some_last_serial(void)
{
    switch (sample_below(8)) {
    case 0:
        return 65535;
    case 1:
        return (uint16_t)sample_below(3);
    case 2:
        return (uint16_t)sample_below(65536);
    default:
        return (uint16_t)(16 + sample_below(40));
    }
}

static bool serial_taken(const struct layout_package *p, uint16_t serial)
{
    for (int i = 0; i < LAYOUT_PLACES; i++) {
        if (p->places[i].serial == serial) {
            return true;
        }
    }
    return false;
}

/* Serials and kinds of the places, before anything refers to them. */
static void some_places(struct layout_package *p, uint32_t percent)
{
    p->last_serial = some_last_serial();
    for (int i = 0; i < LAYOUT_PLACES; i++) {
        if (p->last_serial == 0 || !sample_percent(percent)) {
            continue;
        }
        uint16_t serial = (uint16_t)(1 + sample_below(p->last_serial < 40 ? p->last_serial : 40));
        if (!serial_taken(p, serial)) {
            p->places[i].serial = sample_percent(5) && !serial_taken(p, p->last_serial) ? p->last_serial : serial;
            p->places[i].kind = (uint16_t)(1 + sample_below(4));
        }
    }
}

static void some_entries(const struct layout_machine *m, struct layout_place *p, uint32_t percent)
{
    uint16_t name = (uint16_t)(1 + sample_below(3));
    for (int i = 0; i < LAYOUT_ENTRIES; i++) {
        if (sample_percent(percent)) {
            p->inside.entries[i].name = name;
            p->inside.entries[i].capability = some_capability(m);
            p->inside.entries[i].distinguished = (uint16_t)sample_below(2);
            name += (uint16_t)(1 + sample_below(sample_percent(5) ? 4000 : 2));
        }
    }
}

static void some_inside(const struct layout_machine *m, struct layout_place *p, uint32_t percent)
{
    switch (p->kind) {
    case SKAWENNEL_KIND_SEGMENT:
        for (int i = 0; i < LAYOUT_WORDS; i++) {
            p->inside.words[i] = (uint16_t)sample_below(65536);
        }
        break;
    case SKAWENNEL_KIND_DIRECTORY:
        p->permits = (uint16_t)sample_below(4);
        some_entries(m, p, sample_percent(15) ? 0 : sample_percent(20) ? 100 : percent);
        break;
    case SKAWENNEL_KIND_OBJECT:
        p->permits = (uint16_t)sample_below(4);
        p->type_maker = some_capability(m).maker;
        p->type_serial = (uint16_t)(1 + sample_below(m->packages[p->type_maker].last_serial));
        for (int i = 0; i < LAYOUT_INNER; i++) {
            if (sample_percent(percent)) {
                p->inside.inner[i] = some_capability(m);
            }
        }
        break;
    default:
        break;
    }
}

/* Objects of living types are rare among any issued numbers: give most objects one. */
static void living_type(const struct layout_machine *m, struct layout_place *object)
{
    for (int tries = 0; tries < 40; tries++) {
        uint16_t maker = (uint16_t)sample_below(SKAWENNEL_PACKAGES);
        const struct layout_place *p = &m->packages[maker].places[sample_below(LAYOUT_PLACES)];
        if (p->kind == SKAWENNEL_KIND_TYPE) {
            object->type_maker = maker;
            object->type_serial = p->serial;
            return;
        }
    }
}

void sample_tables(struct layout_machine *m, uint32_t percent)
{
    memset(m, 0, sizeof *m);
    for (int i = 0; i < SKAWENNEL_PACKAGES; i++) {
        some_places(&m->packages[i], percent);
    }
    for (int i = 0; i < SKAWENNEL_PACKAGES; i++) {
        for (int j = 0; j < LAYOUT_PLACES; j++) {
            some_inside(m, &m->packages[i].places[j], percent);
            if (m->packages[i].places[j].kind == SKAWENNEL_KIND_OBJECT && sample_percent(80)) {
                living_type(m, &m->packages[i].places[j]);
            }
        }
        for (int j = 0; j < LAYOUT_SLOTS; j++) {
            if (sample_percent(percent)) {
                m->packages[i].slots[j] = some_capability(m);
            }
        }
    }
}

/* ---- Likely calls ---- */

/* A slot number; mostly of a slot of the package that has this kind and right, where it has one. */
static uint16_t some_slot(const struct layout_machine *m, uint16_t package, uint16_t kind, uint16_t right)
{
    if (sample_percent(1)) {
        return (uint16_t)(sample_percent(50) ? 16 : sample_below(65536));
    }
    uint16_t first = (uint16_t)sample_below(LAYOUT_SLOTS);
    if (package >= SKAWENNEL_PACKAGES || sample_percent(12)) {
        return first;
    }
    for (uint16_t i = 0; i < LAYOUT_SLOTS; i++) {
        uint16_t slot = (uint16_t)((first + i) % LAYOUT_SLOTS);
        struct skawennel_capability c = m->packages[package].slots[slot];
        const struct layout_place *p = sample_find(m, c);
        if (c.serial != 0 && (c.rights & right) == right && (kind == 0 || (p != NULL && p->kind == kind))) {
            return slot;
        }
    }
    return first;
}

static uint16_t any_slot(void)
{
    return sample_percent(1) ? (uint16_t)(16 + sample_below(3)) : (uint16_t)sample_below(LAYOUT_SLOTS);
}

static const struct layout_place *named_by(const struct layout_machine *m, uint16_t package, uint16_t slot)
{
    if (package >= SKAWENNEL_PACKAGES || slot >= LAYOUT_SLOTS) {
        return NULL;
    }
    return sample_find(m, m->packages[package].slots[slot]);
}

/* A name; so many times in a hundred one of the directory's own with that flag, where it has one. */
static uint16_t some_name(const struct layout_place *p, uint16_t distinguished, uint32_t percent)
{
    if (p != NULL && p->kind == SKAWENNEL_KIND_DIRECTORY && sample_percent(percent)) {
        uint32_t first = sample_below(LAYOUT_ENTRIES);
        for (uint32_t i = 0; i < LAYOUT_ENTRIES; i++) {
            const struct layout_entry *e = &p->inside.entries[(first + i) % LAYOUT_ENTRIES];
            if (e->name != 0 && (e->distinguished == distinguished || sample_percent(10))) {
                return e->name;
            }
        }
    }
    return sample_percent(2) ? sample_number() : (uint16_t)(1 + sample_below(40));
}

static uint16_t some_permits(void)
{
    return sample_percent(1) ? (uint16_t)(4 + sample_below(3)) : sample_percent(50) ? 0 : (uint16_t)sample_below(4);
}

static uint16_t some_offset(void)
{
    return sample_percent(5) ? sample_number() : (uint16_t)sample_below(33);
}

/* An object's slot that goes with the type in slot a, where there is one. */
static uint16_t some_object(const struct layout_machine *m, uint16_t package, uint16_t type)
{
    uint16_t slot = some_slot(m, package, SKAWENNEL_KIND_OBJECT, 0);
    for (int tries = 0; tries < 8 && package < SKAWENNEL_PACKAGES && type < LAYOUT_SLOTS; tries++) {
        const struct layout_place *p = named_by(m, package, slot);
        struct skawennel_capability t = m->packages[package].slots[type];
        if (p != NULL && p->type_maker == t.maker && p->type_serial == t.serial) {
            break;
        }
        slot = some_slot(m, package, SKAWENNEL_KIND_OBJECT, 0);
    }
    return slot;
}

static void fill_make(const struct layout_machine *m, uint16_t by, uint16_t *n)
{
    n[0] = some_slot(m, by, SKAWENNEL_KIND_DIRECTORY, SKAWENNEL_RIGHT_WRITE);
    n[1] = some_name(named_by(m, by, n[0]), 0, 8);
    n[2] = some_permits();
    n[3] = any_slot();
}

static void fill_numbers(const struct layout_machine *m, uint16_t by, uint16_t call, uint16_t *n)
{
    enum { DIRECTORY = SKAWENNEL_KIND_DIRECTORY, SEGMENT = SKAWENNEL_KIND_SEGMENT, TYPE = SKAWENNEL_KIND_TYPE };
    switch (call) {
    case SKAWENNEL_RESTRICT:
        n[0] = some_slot(m, by, 0, 0);
        n[1] = sample_percent(50) ? 255 : (uint16_t)sample_below(sample_percent(5) ? 300 : 256);
        n[2] = any_slot();
        break;
    case SKAWENNEL_DROP:
        n[0] = any_slot();
        break;
    case SKAWENNEL_HAND:
        n[0] = (uint16_t)sample_below(sample_percent(3) ? 10 : 8);
        n[1] = some_slot(m, n[0], 0, SKAWENNEL_RIGHT_STORE_1);
        n[2] = (uint16_t)sample_below(sample_percent(3) ? 10 : 8);
        n[3] = any_slot();
        break;
    case SKAWENNEL_MAKE_SEGMENT:
    case SKAWENNEL_MAKE_DIRECTORY:
    case SKAWENNEL_MAKE_TYPE:
        fill_make(m, by, n);
        break;
    case SKAWENNEL_MAKE_OBJECT:
        fill_make(m, by, n);
        n[4] = n[2];
        n[2] = some_slot(m, by, TYPE, SKAWENNEL_RIGHT_MAKE);
        break;
    case SKAWENNEL_DELETE:
    case SKAWENNEL_REMOVE_ENTRY:
        n[0] = some_slot(m, by, DIRECTORY, SKAWENNEL_RIGHT_REMOVE);
        n[1] = some_name(named_by(m, by, n[0]), call == SKAWENNEL_DELETE, 85);
        break;
    case SKAWENNEL_ADD_ENTRY:
        n[0] = some_slot(m, by, DIRECTORY, SKAWENNEL_RIGHT_WRITE);
        n[1] = some_name(named_by(m, by, n[0]), 0, 8);
        n[2] = some_slot(m, by, 0, 3);
        break;
    case SKAWENNEL_FETCH:
        n[0] = some_slot(m, by, DIRECTORY, SKAWENNEL_RIGHT_READ);
        n[1] = some_name(named_by(m, by, n[0]), 0, 85);
        n[2] = any_slot();
        break;
    case SKAWENNEL_READ:
    case SKAWENNEL_WRITE:
        n[0] = some_slot(m, by, SEGMENT, call == SKAWENNEL_READ ? SKAWENNEL_RIGHT_READ : SKAWENNEL_RIGHT_WRITE);
        n[1] = some_offset();
        n[2] = call == SKAWENNEL_WRITE ? (uint16_t)sample_below(65536) : 0;
        break;
    case SKAWENNEL_COPY:
        n[0] = some_slot(m, by, SEGMENT, SKAWENNEL_RIGHT_READ);
        n[1] = some_offset();
        n[2] = sample_percent(50) ? n[0] : some_slot(m, by, SEGMENT, SKAWENNEL_RIGHT_WRITE);
        n[3] = some_offset();
        n[4] = sample_percent(10) ? some_offset() : (uint16_t)sample_below(33u - (n[1] > n[3] ? n[1] : n[3]) % 33u);
        break;
    case SKAWENNEL_SET_INNER:
    case SKAWENNEL_GET_INNER:
        n[0] = some_slot(m, by, TYPE, SKAWENNEL_RIGHT_OPEN);
        n[1] = some_object(m, by, n[0]);
        n[2] = (uint16_t)sample_below(sample_percent(3) ? 6 : 4);
        n[3] = sample_percent(40) ? some_slot(m, by, 0, 3) : any_slot();
        break;
    default:
        n[0] = some_slot(m, by, DIRECTORY, 0);
        break;
    }
}

void sample_call(const struct layout_machine *m, struct words_call *x)
{
    memset(x, 0, sizeof *x);
    x->call = (uint16_t)(1 + sample_below(SKAWENNEL_COUNT));
    if (x->call == SKAWENNEL_DROP && sample_percent(60)) {
        x->call = SKAWENNEL_FETCH;
    }
    if (x->call == SKAWENNEL_DELETE && sample_percent(40)) {
        x->call = SKAWENNEL_MAKE_DIRECTORY;
    }
    x->caller = x->call == SKAWENNEL_HAND ? SKAWENNEL_HOST : (uint16_t)sample_below(callers);
    fill_numbers(m, x->caller, x->call, x->numbers);
    if (sample_percent(1)) {
        x->caller = (uint16_t)sample_below(10);
    }
    if (sample_percent(1)) {
        uint32_t at = sample_below(5);
        x->numbers[at] = sample_number();
    }
}

void sample_wild_call(struct words_call *x)
{
    x->caller = sample_percent(70) ? (uint16_t)sample_below(9) : sample_number();
    x->call = sample_percent(90) ? (uint16_t)sample_below(19) : sample_number();
    for (int i = 0; i < 5; i++) {
        x->numbers[i] = sample_percent(40) ? 0 : sample_number();
    }
}
