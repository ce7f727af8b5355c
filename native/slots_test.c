/* Calls restrict and drop on good and damaged lists of many lengths, and compares each outcome and every record with the
 * rules, written here once more in C. */
#include "skawennel.h"

#include <stdio.h>
#include <string.h>

enum { LENGTH = 16, ROOM = 24, DONE = 0, BAD_NUMBER = 1, BAD_TABLES = 16 };

typedef struct skawennel_capability record;
typedef struct skawennel_outcome outcome;

/* A list in the middle of more memory, which no call may touch. */
typedef struct {
    record before[2], slots[ROOM], after[2];
} memory;

static unsigned long seen[BAD_TABLES + 1];
static unsigned long checks, failures;

static int is_null(record x)
{
    return x.maker == 0 && x.serial == 0 && x.rights == 0;
}

static int is_sound(record x)
{
    return is_null(x) || (x.maker <= 7 && x.serial >= 1 && x.rights <= 255);
}

static int all_sound(const record *slots, size_t count)
{
    if (count != LENGTH)
        return 0;
    for (size_t i = 0; i < count; i++)
        if (!is_sound(slots[i]))
            return 0;
    return 1;
}

static outcome expect_restrict(record *slots, size_t count, uint16_t a, uint16_t b, uint16_t c)
{
    if (!all_sound(slots, count))
        return (outcome){BAD_TABLES, 0};
    if (a > 15 || b > 255 || c > 15)
        return (outcome){BAD_NUMBER, 0};
    record x = slots[a];
    x.rights &= b;
    slots[c] = x;
    return (outcome){DONE, 0};
}

static outcome expect_drop(record *slots, size_t count, uint16_t a)
{
    if (!all_sound(slots, count))
        return (outcome){BAD_TABLES, 0};
    if (a > 15)
        return (outcome){BAD_NUMBER, 0};
    slots[a] = (record){0, 0, 0};
    return (outcome){DONE, 0};
}

static void compare(const char *what, outcome got, outcome want, const memory *m, const memory *w)
{
    seen[want.answer]++;
    checks += 2;
    if (got.answer != want.answer || got.value != want.value) {
        printf("slots: %s: answer %u value %u, expected %u and %u\n", what, got.answer, got.value, want.answer, want.value);
        failures++;
    }
    if (memcmp(m, w, sizeof *m) != 0) {
        printf("slots: %s: another list than expected\n", what);
        failures++;
    }
}

static void try_restrict(const char *what, const memory *start, size_t count, uint16_t a, uint16_t b, uint16_t c)
{
    memory m = *start, w = *start;
    outcome got = skawennel_slots_restrict(m.slots, count, a, b, c);
    outcome want = expect_restrict(w.slots, count, a, b, c);
    compare(what, got, want, &m, &w);
}

static void try_drop(const char *what, const memory *start, size_t count, uint16_t a)
{
    memory m = *start, w = *start;
    outcome got = skawennel_slots_drop(m.slots, count, a);
    outcome want = expect_drop(w.slots, count, a);
    compare(what, got, want, &m, &w);
}

/* What a case of the paper says of itself, with no rule between. */
static void hold(int yes, const char *what)
{
    checks++;
    if (!yes) {
        printf("slots: %s\n", what);
        failures++;
    }
}

/* Package 5 as a fresh machine has it: the shelf and the desk. */
static memory fresh(void)
{
    memory m;
    memset(&m, 0, sizeof m);
    memset(m.before, 0xA5, sizeof m.before);
    memset(m.after, 0x5A, sizeof m.after);
    m.slots[0] = (record){5, 1, 255};
    m.slots[1] = (record){5, 2, 252};
    return m;
}

static void said_in_words(void)
{
    memory m = fresh();
    outcome r = skawennel_slots_restrict(m.slots, LENGTH, 0, 247, 3);
    hold(r.answer == DONE && r.value == 0, "restrict of the shelf isn't done");
    hold(m.slots[3].maker == 5 && m.slots[3].serial == 1 && m.slots[3].rights == 247, "the restricted shelf isn't 5.1 with 247");
    hold(m.slots[0].rights == 255, "restrict changed the slot it took from");
    r = skawennel_slots_restrict(m.slots, LENGTH, 3, 255, 3);
    hold(r.answer == DONE && m.slots[3].rights == 247, "restrict gave a right back");
    r = skawennel_slots_restrict(m.slots, LENGTH, 9, 255, 3);
    hold(r.answer == DONE && is_null(m.slots[3]), "null doesn't give null");
    r = skawennel_slots_drop(m.slots, LENGTH, 1);
    hold(r.answer == DONE && r.value == 0 && is_null(m.slots[1]), "the dropped desk isn't null");
    r = skawennel_slots_drop(m.slots, LENGTH, 16);
    hold(r.answer == BAD_NUMBER && r.value == 0, "slot 16 isn't BAD NUMBER");
    r = skawennel_slots_drop(m.slots, 15, 0);
    hold(r.answer == BAD_TABLES && m.slots[0].rights == 255, "fifteen records aren't BAD TABLES");
    m.slots[15] = (record){0, 0, 1};
    r = skawennel_slots_drop(m.slots, LENGTH, 16);
    hold(r.answer == BAD_TABLES, "serial 0 with a right isn't BAD TABLES, and before BAD NUMBER");
    m.slots[15] = (record){7, 65535, 0};
    r = skawennel_slots_drop(m.slots, LENGTH, 0);
    hold(r.answer == DONE, "a serial that nobody issued is looked at");
}

static void each_length(void)
{
    memory m = fresh();
    for (size_t count = 0; count <= ROOM; count++) {
        try_drop("each length", &m, count, 1);
        try_restrict("each length", &m, count, 0, 6, 2);
        try_restrict("each length, bad number", &m, count, 0, 256, 2);
    }
}

static void each_damage(void)
{
    static const record damaged[] = {{8, 1, 0}, {65535, 1, 0}, {1, 0, 0}, {0, 0, 1}, {3, 0, 255}, {0, 1, 256}, {7, 65535, 65535}, {8, 0, 256}};
    static const record good[] = {{0, 0, 0}, {0, 1, 0}, {7, 65535, 255}, {7, 1, 0}};
    for (size_t i = 0; i < LENGTH; i++) {
        memory m = fresh();
        for (size_t j = 0; j < sizeof damaged / sizeof *damaged; j++) {
            m.slots[i] = damaged[j];
            try_drop("damaged", &m, LENGTH, (uint16_t)j);
            try_restrict("damaged", &m, LENGTH, (uint16_t)j, 255, (uint16_t)i);
        }
        for (size_t j = 0; j < sizeof good / sizeof *good; j++) {
            m.slots[i] = good[j];
            try_drop("good", &m, LENGTH, (uint16_t)i);
            try_restrict("good", &m, LENGTH, (uint16_t)i, 170, (uint16_t)j);
        }
    }
    /* A damaged record past the sixteenth is nobody's. */
    memory m = fresh();
    m.slots[16] = (record){9, 0, 300};
    try_drop("damaged past the end", &m, LENGTH, 0);
}

static void each_number(void)
{
    memory m = fresh();
    for (uint32_t n = 0; n < 65536; n++) {
        try_drop("each slot", &m, LENGTH, (uint16_t)n);
        try_restrict("each slot to take from", &m, LENGTH, (uint16_t)n, 12, 4);
        try_restrict("each mask", &m, LENGTH, 0, (uint16_t)n, 4);
        try_restrict("each slot to put in", &m, LENGTH, 1, 12, (uint16_t)n);
    }
}

static uint32_t state = 1;

static uint32_t pick(uint32_t below)
{
    state = state * 1664525u + 1013904223u;
    return (uint32_t)(((uint64_t)state * below) >> 32);
}

static void at_random(void)
{
    for (int k = 0; k < 300000; k++) {
        memory m = fresh();
        for (int i = 0; i < ROOM; i++)
            if (pick(4))
                m.slots[i] = (record){(uint16_t)pick(8), (uint16_t)(1 + pick(65535)), (uint16_t)pick(256)};
        if (pick(4) == 0) {
            record *x = &m.slots[pick(ROOM)];
            *(pick(3) == 0 ? &x->maker : pick(2) ? &x->serial : &x->rights) = pick(2) ? (uint16_t)pick(65536) : 0;
        }
        size_t count = pick(8) ? LENGTH : pick(ROOM + 1);
        uint16_t a = (uint16_t)pick(18), b = (uint16_t)pick(260), c = (uint16_t)pick(18);
        if (pick(2))
            try_drop("at random", &m, count, a);
        else
            try_restrict("at random", &m, count, a, b, c);
    }
}

int main(void)
{
    said_in_words();
    each_length();
    each_damage();
    each_number();
    at_random();
    hold(seen[DONE] > 0 && seen[BAD_NUMBER] > 0 && seen[BAD_TABLES] > 0, "an answer was never met");
    printf("slots: %lu done, %lu bad number, %lu bad tables\n", seen[DONE], seen[BAD_NUMBER], seen[BAD_TABLES]);
    printf("%lu passed, %lu failed\n", checks - failures, failures);
    return failures != 0;
}
