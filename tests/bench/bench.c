/* Times the calls of the library, of the version in C (baseline.c) and of the Rust reference in one process, in turn.
 *
 *   bench DIAGRAMS [REPETITIONS]               a line for each row
 *   bench DIAGRAMS --rows                      the names of rows and versions
 *   bench DIAGRAMS --calls VERSION ROW CALLS   makes so many calls of one row and prints nothing, to count instructions
 *   bench DIAGRAMS --time FILE                 nanoseconds to read a diagram's text and to populate it, by the library
 *
 * DIAGRAMS is the folder with the diagrams of the rows. It only prints; no time decides anything. */
#define _POSIX_C_SOURCE 199309L
#include <inttypes.h>
#include <stdbool.h>
#include <stdio.h>
#include <stdlib.h>
#include <string.h>
#include <time.h>

#include "baseline.h"
#include "legshorgan.h"

void reference_read(const uint8_t *, size_t, uint32_t *, size_t, uint64_t[4]);
void reference_check(const uint32_t *, size_t, uint32_t *, size_t, uint64_t[4]);
void reference_populate(const uint32_t *, size_t, uint32_t *, size_t, uint64_t[4]);
void reference_write(const uint32_t *, size_t, uint8_t *, size_t, uint64_t[4]);
void reference_validate(const uint32_t *, size_t, const uint32_t *, size_t, uint64_t[4]);
void reference_lower(const uint32_t *, size_t, uint32_t, uint32_t *, size_t, uint64_t[4]);
void reference_survey(const uint32_t *, size_t, const uint32_t *, size_t, uint64_t[4]);
void reference_prescribe(const uint32_t *, size_t, uint32_t, uint32_t, uint32_t *, size_t, uint64_t[4]);
void reference_average(const uint32_t *, size_t, uint32_t, double *, uint64_t[4]);

struct version {
    const char *name;
    void (*read)(const uint8_t *, size_t, uint32_t *, size_t, uint64_t[4]);
    void (*check)(const uint32_t *, size_t, uint32_t *, size_t, uint64_t[4]);
    void (*populate)(const uint32_t *, size_t, uint32_t *, size_t, uint64_t[4]);
    void (*write)(const uint32_t *, size_t, uint8_t *, size_t, uint64_t[4]);
    void (*validate)(const uint32_t *, size_t, const uint32_t *, size_t, uint64_t[4]);
    void (*lower)(const uint32_t *, size_t, uint32_t, uint32_t *, size_t, uint64_t[4]);
    void (*survey)(const uint32_t *, size_t, const uint32_t *, size_t, uint64_t[4]);
    void (*prescribe)(const uint32_t *, size_t, uint32_t, uint32_t, uint32_t *, size_t, uint64_t[4]);
    void (*average)(const uint32_t *, size_t, uint32_t, double *, uint64_t[4]);
};

enum { LIBRARY, BASELINE, REFERENCE, VERSIONS };

static const struct version versions[VERSIONS] = {
    {"library", legshorgan_read, legshorgan_check, legshorgan_populate, legshorgan_write, legshorgan_validate,
     legshorgan_lower, legshorgan_survey, legshorgan_prescribe, legshorgan_average},
    {"c", baseline_read, baseline_check, baseline_populate, baseline_write, baseline_validate,
     baseline_lower, baseline_survey, baseline_prescribe, baseline_average},
    {"rust", reference_read, reference_check, reference_populate, reference_write, reference_validate,
     reference_lower, reference_survey, reference_prescribe, reference_average},
};

enum call { READ, CHECK, POPULATE, WRITE, VALIDATE, LOWER, SURVEY, PRESCRIBE, AVERAGE };

static const char *const call_names[] = {"read",  "check",  "populate",  "write",  "validate",
                                         "lower", "survey", "prescribe", "average"};

/* What is counted of a row. */
enum unit { BYTES, ROUNDS, CELLS, SETS, LIMITS };

static const char *const unit_names[] = {"bytes", "rounds", "cells", "sets", "limits"};

struct row {
    const char *diagram;
    enum call call;
    enum unit unit;
};

static const struct row rows[] = {
    {"sample", READ, BYTES},   {"sample", CHECK, ROUNDS},  {"sample", POPULATE, CELLS}, {"sample", VALIDATE, CELLS},
    {"sample", WRITE, BYTES},  {"full", READ, BYTES},      {"full", CHECK, ROUNDS},     {"full", POPULATE, CELLS},
    {"full", VALIDATE, CELLS}, {"full", WRITE, BYTES},     {"slow", READ, BYTES},       {"slow", CHECK, ROUNDS},
    {"table1", READ, BYTES},   {"table1", POPULATE, CELLS}, {"table1", VALIDATE, CELLS},
    {"rows", POPULATE, CELLS}, {"rows", VALIDATE, CELLS},  {"lowered", CHECK, ROUNDS},
    {"limited", READ, BYTES},  {"limited", CHECK, ROUNDS}, {"limited", POPULATE, CELLS}, {"limited", VALIDATE, CELLS},
    {"limited", WRITE, BYTES},
    {"sample", LOWER, SETS},   {"sample", SURVEY, LIMITS}, {"full", LOWER, SETS},       {"full", SURVEY, LIMITS},
    {"sample", PRESCRIBE, CELLS}, {"full", PRESCRIBE, CELLS}, {"slow", PRESCRIBE, ROUNDS},
    {"sample", AVERAGE, ROUNDS}, {"full", AVERAGE, ROUNDS}, {"limited", AVERAGE, ROUNDS}, {"slow", AVERAGE, ROUNDS},
};

enum { ROW_COUNT = sizeof rows / sizeof *rows };

static uint8_t text[8192];
static size_t text_length, table_length, cells_length;
static uint32_t table[LEGSHORGAN_MOST_TABLE], cells[LEGSHORGAN_MOST_CELLS];
static uint32_t bounds[LEGSHORGAN_MOST_SIZES], last_limit;
static uint32_t wanted_set, wanted, last_group;
static uint64_t check_rounds;

/* The result of a call of each version. */
static struct result {
    uint64_t answer[4];
    uint32_t table[LEGSHORGAN_MOST_TABLE], sizes[LEGSHORGAN_MOST_SIZES], cells[LEGSHORGAN_MOST_CELLS];
    uint8_t text[LEGSHORGAN_MOST_TEXT];
    double quotient;
} results[VERSIONS];

static void fail(const char *what, const char *name) {
    fprintf(stderr, "bench: %s: %s\n", what, name);
    exit(1);
}

static void load_file(const char *path) {
    FILE *file = fopen(path, "rb");
    if (!file) fail("cannot be opened", path);
    text_length = fread(text, 1, sizeof text, file);
    fclose(file);
}

/* The text and the table of a diagram. */
static void load(const char *folder, const char *diagram) {
    char path[4096];
    uint64_t answer[4];
    snprintf(path, sizeof path, "%s/%s.txt", folder, diagram);
    load_file(path);
    baseline_read(text, text_length, table, LEGSHORGAN_MOST_TABLE, answer);
    if (answer[0] != 0) fail("refused", diagram);
    table_length = answer[3];
}

/* The cells of its population. */
static void load_cells(void) {
    uint64_t answer[4];
    baseline_populate(table, table_length, cells, LEGSHORGAN_MOST_CELLS, answer);
    if (answer[0] != 0) fail("refused", "populate");
    cells_length = answer[3];
}

static bool is_single(enum call call) {
    return call == LOWER || call == SURVEY;
}

/* The upper bounds that the rounds start from, and the number of its last limit. */
static void load_bounds(void) {
    uint64_t answer[4];
    baseline_start(table, table_length, bounds, LEGSHORGAN_MOST_SIZES, answer);
    if (answer[0] != 0) fail("refused", "start");
    baseline_survey(table, table_length, bounds, LEGSHORGAN_MOST_SIZES, answer);
    last_limit = (uint32_t)answer[3] - 1;
}

/* The first predicate and half of the size that it settles at; where a set is emptied, that set and 1. */
static void load_wanted(void) {
    uint64_t answer[4];
    uint32_t sizes[LEGSHORGAN_MOST_SIZES];
    baseline_check(table, table_length, sizes, LEGSHORGAN_MOST_SIZES, answer);
    wanted_set = answer[0] == 0 ? table[1] + 1 : (uint32_t)answer[1];
    wanted = answer[0] == 0 ? sizes[wanted_set - 1] / 2 : 1;
}

/* The last set, a group, and the rounds that the check makes, which the average does not hand back. */
static void load_group(void) {
    uint64_t answer[4];
    uint32_t sizes[LEGSHORGAN_MOST_SIZES];
    baseline_start(table, table_length, sizes, LEGSHORGAN_MOST_SIZES, answer);
    last_group = (uint32_t)answer[3];
    baseline_check(table, table_length, sizes, LEGSHORGAN_MOST_SIZES, answer);
    check_rounds = answer[2];
}

static void load_row(const char *folder, const struct row *row) {
    load(folder, row->diagram);
    if (row->call == AVERAGE) load_group();
    if (row->call == PRESCRIBE) load_wanted();
    if (row->call == VALIDATE) load_cells();
    if (is_single(row->call)) load_bounds();
}

/* What stands in a result before the first call: the bounds, where the call takes them from there. */
static void prepare(enum call call, struct result *r) {
    memset(r, 0x5a, sizeof *r);
    if (is_single(call)) memcpy(r->sizes, bounds, sizeof bounds);
}

static void make_call(const struct version *v, enum call call, struct result *r) {
    switch (call) {
    case READ: v->read(text, text_length, r->table, LEGSHORGAN_MOST_TABLE, r->answer); break;
    case CHECK: v->check(table, table_length, r->sizes, LEGSHORGAN_MOST_SIZES, r->answer); break;
    case POPULATE: v->populate(table, table_length, r->cells, LEGSHORGAN_MOST_CELLS, r->answer); break;
    case WRITE: v->write(table, table_length, r->text, LEGSHORGAN_MOST_TEXT, r->answer); break;
    case VALIDATE: v->validate(table, table_length, cells, cells_length, r->answer); break;
    case LOWER: v->lower(table, table_length, last_limit, r->sizes, LEGSHORGAN_MOST_SIZES, r->answer); break;
    case SURVEY: v->survey(table, table_length, r->sizes, LEGSHORGAN_MOST_SIZES, r->answer); break;
    case PRESCRIBE: v->prescribe(table, table_length, wanted_set, wanted, r->cells, LEGSHORGAN_MOST_CELLS, r->answer); break;
    case AVERAGE: v->average(table, table_length, last_group, &r->quotient, r->answer); break;
    }
}

static const void *written_by(enum call call, const struct result *r, size_t *bytes) {
    switch (call) {
    case READ: *bytes = sizeof r->table; return r->table;
    case CHECK:
    case LOWER:
    case SURVEY: *bytes = sizeof r->sizes; return r->sizes;
    case POPULATE:
    case PRESCRIBE: *bytes = sizeof r->cells; return r->cells;
    case WRITE: *bytes = sizeof r->text; return r->text;
    case AVERAGE: *bytes = sizeof r->quotient; return &r->quotient;
    default: *bytes = 0; return r->answer;
    }
}

/* All versions give the same answer and write the same. */
static bool agree(enum call call) {
    bool same = true;
    for (int v = 0; v < VERSIONS; v++) {
        prepare(call, &results[v]);
        make_call(&versions[v], call, &results[v]);
        size_t bytes;
        const void *first = written_by(call, &results[0], &bytes), *other = written_by(call, &results[v], &bytes);
        if (memcmp(results[0].answer, results[v].answer, sizeof results[v].answer) != 0) same = false;
        if (memcmp(first, other, bytes) != 0) same = false;
    }
    return same;
}

static uint64_t units_of(const struct row *row) {
    switch (row->unit) {
    case BYTES: return text_length;
    case ROUNDS: return row->call == AVERAGE ? check_rounds : results[LIBRARY].answer[2];
    default: return row->call == VALIDATE ? cells_length : results[LIBRARY].answer[3];
    }
}

/* Time that this process has run. */
static double now(void) {
    struct timespec t;
    clock_gettime(CLOCK_PROCESS_CPUTIME_ID, &t);
    return (double)t.tv_sec * 1e9 + (double)t.tv_nsec;
}

static double time_calls(int v, enum call call, uint64_t calls) {
    double start = now();
    for (uint64_t i = 0; i < calls; i++) make_call(&versions[v], call, &results[v]);
    return (now() - start) / (double)calls;
}

/* As many calls as take 20 milliseconds. */
static uint64_t calls_for(int v, enum call call) {
    uint64_t calls = 1;
    while (time_calls(v, call, calls) * (double)calls < 2e7) calls *= 2;
    return calls;
}

static int compare(const void *a, const void *b) {
    double x = *(const double *)a, y = *(const double *)b;
    return (x > y) - (x < y);
}

static double median(double *xs, size_t n) {
    qsort(xs, n, sizeof *xs, compare);
    return xs[n / 2];
}

enum { MOST_REPETITIONS = 1000 };

/* Medians of the times, and of the quotients of times that were taken one after another. */
static void measure(const struct row *row, size_t repetitions) {
    static double times[VERSIONS][MOST_REPETITIONS], ratios[VERSIONS][MOST_REPETITIONS];
    if (!agree(row->call)) fail("the versions disagree", row->diagram);
    uint64_t units = units_of(row), calls[VERSIONS];
    for (int v = 0; v < VERSIONS; v++) calls[v] = calls_for(v, row->call);
    for (size_t i = 0; i < repetitions; i++) {
        for (int v = 0; v < VERSIONS; v++) times[v][i] = time_calls(v, row->call, calls[v]);
        for (int v = 0; v < VERSIONS; v++) ratios[v][i] = times[LIBRARY][i] / times[v][i];
    }
    double library = median(times[LIBRARY], repetitions), c = median(times[BASELINE], repetitions);
    double rust = median(times[REFERENCE], repetitions);
    printf("%-7s %-9s %8" PRIu64 " %-6s %12.0f %12.0f %12.0f %14.0f %8.2f %8.2f\n", row->diagram, call_names[row->call], units,
           unit_names[row->unit], library, c, rust, (double)units / library * 1e9, median(ratios[BASELINE], repetitions),
           median(ratios[REFERENCE], repetitions));
    fflush(stdout);
}

static void time_file(const char *path) {
    struct result *r = &results[LIBRARY];
    uint64_t answer[4], calls = 1;
    double ns = 0;
    load_file(path);
    while (ns * (double)calls < 2e7) {
        calls *= 2;
        double start = now();
        for (uint64_t i = 0; i < calls; i++) {
            legshorgan_read(text, text_length, table, LEGSHORGAN_MOST_TABLE, answer);
            if (answer[0] == 0) legshorgan_populate(table, answer[3], r->cells, LEGSHORGAN_MOST_CELLS, answer);
        }
        ns = (now() - start) / (double)calls;
    }
    if (answer[0] != 0)
        printf("%.0f refused=%" PRIu64 ",%" PRIu64 ",%" PRIu64 "\n", ns, answer[0], answer[1], answer[2]);
    else
        printf("%.0f cells=%" PRIu64 "\n", ns, answer[3]);
}

static size_t numbered(const char *word, size_t most) {
    char *end;
    unsigned long n = strtoul(word, &end, 10);
    if (*word == '\0' || *end != '\0' || n > most) fail("not a number in range", word);
    return n;
}

int main(int count, char **words) {
    if (count == 3 && strcmp(words[2], "--rows") == 0) {
        for (int v = 0; v < VERSIONS; v++) printf("version %s\n", versions[v].name);
        for (int i = 0; i < ROW_COUNT; i++) printf("row %d %s %s\n", i, rows[i].diagram, call_names[rows[i].call]);
        return 0;
    }
    if (count == 4 && strcmp(words[2], "--time") == 0) {
        time_file(words[3]);
        return 0;
    }
    if (count == 6 && strcmp(words[2], "--calls") == 0) {
        int v = 0;
        while (v < VERSIONS && strcmp(versions[v].name, words[3]) != 0) v++;
        if (v == VERSIONS) fail("no such version", words[3]);
        const struct row *row = &rows[numbered(words[4], ROW_COUNT - 1)];
        size_t calls = numbered(words[5], 1000000);
        load_row(words[1], row);
        if (is_single(row->call)) prepare(row->call, &results[v]);
        for (size_t i = 0; i < calls; i++) make_call(&versions[v], row->call, &results[v]);
        return 0;
    }
    if (count != 2 && count != 3) {
        fprintf(stderr, "bench DIAGRAMS [REPETITIONS | --rows | --calls VERSION ROW CALLS | --time FILE]\n");
        return 2;
    }
    size_t repetitions = count == 3 ? numbered(words[2], MOST_REPETITIONS) : 11;
    if (repetitions == 0) repetitions = 1;
    printf("%-7s %-9s %8s %-6s %12s %12s %12s %14s %8s %8s\n", "diagram", "call", "units", "", "library ns", "C ns", "Rust ns",
           "units/second", "to C", "to Rust");
    for (int i = 0; i < ROW_COUNT; i++) {
        load_row(words[1], &rows[i]);
        measure(&rows[i], repetitions);
    }
    return 0;
}
