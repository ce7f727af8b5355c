/*
 * bench: times of the library against the reference, side by side in one run
 *
 *   bench                                  a step on fresh, half-full and full tables; ratios of the medians
 *   bench --programs TAPE TREE REFERENCE FILE
 *                                          the proved programs against REFERENCE tape|tree, which tests no tables, on the
 *                                          tape of 4,096 records in FILE
 *   bench --only WHICH TABLES STEPS        so many steps and nothing else, for counting instructions; WHICH is library,
 *                                          reference or unchecked, TABLES is fresh, half or full
 *
 * The steps go round a cycle of calls that leaves the tables as they were. `unchecked` is the reference without its test
 * for bad tables, so the difference to `reference` is what that test costs it.
 */
#define _POSIX_C_SOURCE 200809L
#include <fcntl.h>
#include <stdlib.h>
#include <string.h>
#include <sys/wait.h>
#include <time.h>
#include <unistd.h>

#include "layout.h"
#include "reference.h"

enum { ROUNDS = 31, STEPS = 4000, RUNS = 201, RECORDS = 4096 };

static const char *const tables_names[3] = {"fresh", "half", "full"};
static const char *const which_names[3] = {"library", "reference", "unchecked"};

static double now(void)
{
    struct timespec t;
    clock_gettime(CLOCK_MONOTONIC, &t);
    return (double)t.tv_sec * 1e9 + (double)t.tv_nsec;
}

static int compare_doubles(const void *a, const void *b)
{
    double x = *(const double *)a, y = *(const double *)b;
    return (x > y) - (x < y);
}

static double median(double *times, size_t count)
{
    qsort(times, count, sizeof *times, compare_doubles);
    return times[count / 2];
}

/* ---- Tables ---- */

/* Adds a plain entry for the package's own shelf. */
static void fill_entries(struct layout_place *p, uint16_t maker, int first, int count)
{
    for (int i = first; i < count; i++) {
        p->inside.entries[i] = (struct layout_entry){(uint16_t)(100 + i), {maker, 1, 255}, 0};
    }
}

/* One object of a kind that goes round, with all that it can hold. */
static void fill_place(struct layout_place *p, uint16_t maker, uint16_t serial, int entries)
{
    static const uint16_t kinds[7] = {1, 2, 4, 2, 1, 3, 2};
    p->kind = kinds[serial % 7];
    p->serial = serial;
    if (p->kind == SKAWENNEL_KIND_SEGMENT) {
        for (int i = 0; i < LAYOUT_WORDS; i++) {
            p->inside.words[i] = (uint16_t)(1000 + i);
        }
    } else if (p->kind == SKAWENNEL_KIND_DIRECTORY) {
        fill_entries(p, maker, 0, entries);
    } else if (p->kind == SKAWENNEL_KIND_OBJECT) {
        p->type_maker = maker;
        p->type_serial = 5;
        for (int i = 0; i < LAYOUT_INNER; i++) {
            p->inside.inner[i] = (struct skawennel_capability){maker, 1, 255};
        }
    }
}

/* A fresh machine with a segment in package 0's slot 2 and its entry; then of each package's places, slots and entries
   the first so many. */
static void fill(uint16_t *tables, int used)
{
    struct layout_machine *m = layout_of(tables);
    ref_fresh(tables, SKAWENNEL_TABLES_LENGTH);
    ref_step(tables, SKAWENNEL_TABLES_LENGTH, 0, SKAWENNEL_MAKE_SEGMENT, 0, 100, 0, 2, 0);
    for (uint16_t maker = 0; used > 0 && maker < SKAWENNEL_PACKAGES; maker++) {
        struct layout_package *p = &m->packages[maker];
        for (int i = 3; i < used; i++) {
            fill_place(&p->places[i], maker, (uint16_t)(i + 1), used);
            p->slots[i] = (struct skawennel_capability){maker, (uint16_t)(i + 1), 255};
        }
        p->last_serial = 16;
        fill_entries(&p->places[0], maker, 1, used);
        fill_entries(&p->places[1], maker, 0, used);
    }
    if (!ref_well_formed(tables, SKAWENNEL_TABLES_LENGTH)) {
        fputs("bench: the tables are not well formed\n", stderr);
        exit(2);
    }
}

static void tables_of(const char *name, uint16_t *tables)
{
    fill(tables, strcmp(name, "fresh") == 0 ? 0 : strcmp(name, "half") == 0 ? 8 : 16);
}

/* ---- Steps ---- */

enum { CYCLE = 8 };
static const uint16_t cycle[CYCLE][7] = {
    {0, SKAWENNEL_COUNT, 0},
    {0, SKAWENNEL_WRITE, 2, 5, 1005},
    {0, SKAWENNEL_READ, 2, 5},
    {0, SKAWENNEL_COPY, 2, 0, 2, 0, 32},
    {0, SKAWENNEL_FETCH, 0, 100, 2},
    {0, SKAWENNEL_RESTRICT, 2, 255, 2},
    {SKAWENNEL_HOST, SKAWENNEL_HAND, 0, 2, 0, 2},
    {0, SKAWENNEL_WRITE, 0, 5, 1},
};

/* So many steps of one machine; the sum of answers and values, so that none is left out. */
static unsigned long steps(int which, uint16_t *tables, long count)
{
    unsigned long sum = 0;
    for (long i = 0; i < count; i++) {
        const uint16_t *x = cycle[i % CYCLE];
        struct skawennel_outcome o;
        if (which == 0) {
            o = skawennel_step(tables, SKAWENNEL_TABLES_LENGTH, x[0], x[1], x[2], x[3], x[4], x[5], x[6]);
        } else if (which == 1) {
            o = ref_step(tables, SKAWENNEL_TABLES_LENGTH, x[0], x[1], x[2], x[3], x[4], x[5], x[6]);
        } else {
            o = ref_step_unchecked(tables, x[0], x[1], x[2], x[3], x[4], x[5], x[6]);
        }
        sum += o.answer + 31ul * o.value;
    }
    return sum;
}

static void time_steps(void)
{
    static uint16_t tables[3][SKAWENNEL_TABLES_LENGTH];
    static double times[3][ROUNDS];
    printf("ns for a step     library   reference       ratio   unchecked       ratio\n");
    for (int t = 0; t < 3; t++) {
        unsigned long sums[3];
        for (int round = 0; round < ROUNDS; round++) {
            for (int which = 0; which < 3; which++) {
                if (round == 0) {
                    tables_of(tables_names[t], tables[which]);
                }
                double start = now();
                sums[which] = steps(which, tables[which], STEPS);
                times[which][round] = (now() - start) / STEPS;
            }
        }
        if (sums[0] != sums[1] || sums[1] != sums[2] || memcmp(tables[0], tables[1], sizeof tables[0]) != 0) {
            fputs("bench: the machines differ\n", stderr);
            exit(1);
        }
        double l = median(times[0], ROUNDS), r = median(times[1], ROUNDS), u = median(times[2], ROUNDS);
        printf("%-14s%11.1f%12.1f%12.2f%12.1f%12.2f\n", tables_names[t], l, r, l / r, u, l / u);
    }
}

/* ---- Programs ---- */

/* The milliseconds that a program takes on a tape; what it writes is thrown away. */
static double run(const char *program, const char *word, const char *tape)
{
    double start = now();
    pid_t child = fork();
    if (child == 0) {
        int in = open(tape, O_RDONLY), out = open("/dev/null", O_WRONLY);
        if (in < 0 || out < 0 || dup2(in, 0) < 0 || dup2(out, 1) < 0) {
            _exit(127);
        }
        execl(program, program, word, (char *)NULL);
        _exit(127);
    }
    int status;
    if (child < 0 || waitpid(child, &status, 0) < 0 || !WIFEXITED(status) || WEXITSTATUS(status) != 0) {
        fprintf(stderr, "bench: %s cannot be run on %s\n", program, tape);
        exit(2);
    }
    return (now() - start) / 1e6;
}

/* One program whole, and a record of it: what the start of a program costs is taken off. */
static void time_program(const char *word, const char *record, const char *program, const char *reference, const char *tape)
{
    static double times[4][RUNS];
    for (int i = 0; i < RUNS; i++) {
        times[0][i] = run(program, NULL, tape);
        times[1][i] = run(reference, word, tape);
        times[2][i] = run(program, NULL, "/dev/null");
        times[3][i] = run(reference, word, "/dev/null");
    }
    double proved = median(times[0], RUNS), plain = median(times[1], RUNS);
    double proved_record = (proved - median(times[2], RUNS)) * 1e6 / RECORDS;
    double plain_record = (plain - median(times[3], RUNS)) * 1e6 / RECORDS;
    printf("%-8s%-19s%9.3f%12.3f%12.2f\n", word, "program, ms", proved, plain, proved / plain);
    printf("%-8s%-19s%9.1f%12.1f%12.2f\n", word, record, proved_record, plain_record, proved_record / plain_record);
}

int main(int count, char **words)
{
    if (count == 1) {
        time_steps();
        return 0;
    }
    if (count == 6 && strcmp(words[1], "--programs") == 0) {
        printf("%d records%18s%12s%12s\n", RECORDS, "proved", "unchecked", "ratio");
        time_program("tape", "record and line, ns", words[2], words[4], words[5]);
        time_program("tree", "record, ns", words[3], words[4], words[5]);
        return 0;
    }
    for (int which = 0; count == 5 && strcmp(words[1], "--only") == 0 && which < 3; which++) {
        static uint16_t tables[SKAWENNEL_TABLES_LENGTH];
        if (strcmp(words[2], which_names[which]) == 0) {
            tables_of(words[3], tables);
            printf("%lu\n", steps(which, tables, atol(words[4])));
            return 0;
        }
    }
    fputs("usage: bench | bench --programs TAPE TREE REFERENCE FILE | bench --only WHICH TABLES STEPS\n", stderr);
    return 2;
}
