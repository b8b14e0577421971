/* Times the list of groups (kb_groups) and a group's file (kb_group) on two files of 32 choices with 16 options each: every pair tied, one
   group; and every pair of even choices and of odd ones, two groups of 16. Both entries read and decode the file first; the line kb_read
   is the reading by itself. A time is processor time of one call, the median of RUNS batches. Fails above the limit, and where the
   number of groups or a length is not as the file has it. */
#include "jobs.h"

#include <time.h>

enum { BATCH = 100, RUNS = 101 };
static const double LIMIT = 1e6;

static job made;
static uint8_t file[KB_FILE], buffer[KB_FILE];
static size_t length;
static int fine = 1;

/* ---- the files */

/* Leaves the tables of two even choices and of two odd ones alone. */
static void part_even_from_odd(void) {
    uint16_t *to = made.tables;
    for (const uint16_t *t = made.tables; t < made.tables + TABLE * made.m; t += TABLE)
        if ((t[0] + t[1]) % 2 == 0) memmove(to, t, 2 * TABLE), to += TABLE;
    made.m = (uint64_t)(to - made.tables) / TABLE;
}

static void write_file(void) {
    length = job_length(&made);
    job_bytes(&made, file);
}

/* ---- the times */

static double now(void) {
    struct timespec t;
    clock_gettime(CLOCK_THREAD_CPUTIME_ID, &t);
    return t.tv_sec * 1e9 + t.tv_nsec;
}

static int ascending(const void *a, const void *b) {
    double x = *(const double *)a, y = *(const double *)b;
    return (x > y) - (x < y);
}

static uint64_t read_file(uint64_t unused) { return (void)unused, kb_read(file, length).n; }
static uint64_t count_groups(uint64_t unused) { return (void)unused, kb_groups(file, length).count; }
static uint64_t write_group(uint64_t group) { return kb_group(file, length, group, buffer, sizeof buffer).length; }

/* Times the call, which replies this number each time. */
static void time_call(const char *name, uint64_t (*call)(uint64_t), uint64_t with, uint64_t expected) {
    double times[RUNS];
    int right = 1;
    for (int r = 0; r < RUNS; r++) {
        double began = now();
        for (int k = 0; k < BATCH; k++) right &= call(with) == expected;
        times[r] = (now() - began) / BATCH;
    }
    qsort(times, RUNS, sizeof times[0], ascending);
    double median = times[RUNS / 2];
    printf("  %-12s %10.0f ns%s%s\n", name, median, right ? "" : "  ANOTHER REPLY", median <= LIMIT ? "" : "  ABOVE THE LIMIT");
    fine &= right && median <= LIMIT;
}

/* The file in `file`, of so many groups of this many choices and tables each. */
static void time_file(const char *name, uint64_t groups, uint64_t choices, uint64_t tables) {
    printf("%s: %zu bytes\n", name, length);
    time_call("kb_read", read_file, 0, made.n);
    time_call("kb_groups", count_groups, 0, groups);
    for (uint64_t group = 0; group < groups; group++) {
        char entry[32];
        snprintf(entry, sizeof entry, "kb_group %d", (int)group);
        time_call(entry, write_group, group, 10 + 4 * choices + 36 * tables);
    }
}

int main(void) {
    make_job(&made, 32, 0xffff, 30, 100, 25);
    write_file();
    time_file("every pair tied", 1, 32, 496);
    part_even_from_odd();
    write_file();
    time_file("two groups of 16", 2, 16, 120);
    printf("limit %.0f ns\n", LIMIT);
    return !fine;
}
