/* Times the proved search against the Rust one on the job files named as arguments, under rule set 111, from no plays. Both run in this process and
   read and decode the file in every run; a time is processor time, the best of several runs, taken in turn. Fails where verdicts differ or the median is above 2.0. */
#include <stdint.h>
#include <stdio.h>
#include <stdlib.h>
#include <string.h>
#include <time.h>

/* 1 won, 0 lost, any other number a refusal. */
uint64_t bench_judge(const uint8_t *file, size_t length, size_t set, uint16_t *room, size_t words);
int rust_judge(const uint8_t *file, size_t length, uint8_t set, size_t plays, uint64_t *turns, uint8_t *leaf);

enum { SET = 111, LONGEST = 17994, WORDS = 128 * 33, RUNS = 15 };
static const double LIMIT = 2.0, ENOUGH = 2e8;

static uint8_t file[LONGEST + 1];
static uint16_t room[WORDS];

static double now(void) {
    struct timespec t;
    clock_gettime(CLOCK_THREAD_CPUTIME_ID, &t);
    return t.tv_sec * 1e9 + t.tv_nsec;
}

static int ascending(const void *a, const void *b) {
    double x = *(const double *)a, y = *(const double *)b;
    return (x > y) - (x < y);
}

int main(int count, char **names) {
    double ratios[256];
    int jobs = 0, wrong = 0;
    printf("%-12s %-5s %9s %12s %12s %7s\n", "job", "", "turns", "ours ms", "Rust ms", "ratio");
    for (int k = 1; k < count && jobs < 256; k++) {
        FILE *in = fopen(names[k], "rb");
        if (!in) { perror(names[k]); return 2; }
        size_t length = fread(file, 1, sizeof file, in);
        fclose(in);
        uint64_t turns = 0, mine = 0;
        int theirs = 0;
        double ours = 1e18, rust = 1e18, began = now();
        /* At least three runs of each; more while they are short. */
        for (int r = 0; r < 3 || (r < RUNS && now() - began < 5 * ENOUGH) || (r < 2000 && now() - began < ENOUGH); r++) {
            uint8_t leaf[32] = {0};
            double t = now();
            theirs = rust_judge(file, length, SET, 0, &turns, leaf);
            double u = now();
            mine = bench_judge(file, length, SET, room, WORDS);
            double v = now();
            if (u - t < rust) rust = u - t;
            if (v - u < ours) ours = v - u;
        }
        char *name = strrchr(names[k], '/');
        int agree = mine == (uint64_t)theirs && mine < 2;
        if (!agree) wrong++;
        ratios[jobs] = ours / rust;
        printf("%-12s %-5s %9lu %12.3f %12.3f %7.2f%s\n", name ? name + 1 : names[k], theirs ? "won" : "lost", (unsigned long)turns, ours / 1e6, rust / 1e6,
               ratios[jobs], agree ? "" : "  VERDICTS DIFFER");
        fflush(stdout);
        jobs++;
    }
    if (jobs == 0) return 2;
    qsort(ratios, jobs, sizeof ratios[0], ascending);
    double median = (ratios[(jobs - 1) / 2] + ratios[jobs / 2]) / 2;
    printf("median ratio %.2f (limit %.1f)\n", median, LIMIT);
    return wrong || median > LIMIT;
}
