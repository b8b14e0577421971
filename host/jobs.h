/* What the C tests share: jobs as numbers and as the bytes of their files, and memory between unreadable pages. */
#ifndef JOBS_H
#define JOBS_H

#include <kickballbox.h>

#include <pthread.h>
#include <stdio.h>
#include <stdlib.h>
#include <string.h>
#include <sys/mman.h>

enum { PAGE = 4096, TABLE = 18, RECORD = 4 + 3 * 16 };

_Static_assert(KB_FILE == 7 + 3 + 4 * 32 + 36 * 496 && KB_ROOM == 128 * 33, "the sizes for 32 choices with every pair tied");

/* The numbers of a file; a table is i, j and its 16 rows. The tables over three choices stand one behind another, as kb_write is handed
   them: i, j, k, a count and that many triples of options, `triple_count` numbers in all. */
typedef struct {
    uint64_t n, m, given, rules, universal;
    uint16_t domains[32];
    uint16_t tables[496 * TABLE];
    size_t triple_count;
    uint16_t triples[32 * RECORD];
} job;

/* Goes through the tables over three choices. */
#define EACH_RECORD(r, j) (const uint16_t *r = (j)->triples; r < (j)->triples + (j)->triple_count; r += 4 + 3 * r[3])

static uint64_t record_count(const job *j) {
    uint64_t count = 0;
    for EACH_RECORD(r, j) count++;
    return count;
}

/* Where the first table over three choices stands. */
static size_t records_at(const job *j) { return 5 + 4 * j->n + 36 * j->m + (j->given ? 3 : 0); }

static size_t job_length(const job *j) { return records_at(j) + 2 * record_count(j) + j->triple_count + 2; }

/* Writes the file of a job, job_length bytes. */
static void job_bytes(const job *j, uint8_t *to) {
#define PUT(byte) (*to++ = (uint8_t)(byte))
    PUT('Q'), PUT('P'), PUT(j->n), PUT(j->m % 256), PUT(j->m / 256);
    if (j->given) PUT('R'), PUT('S'), PUT(j->rules);
    for (uint64_t k = 0; k < j->n; k++)
        PUT('V'), PUT(j->universal >> k & 1 ? 'A' : 'E'), PUT(j->domains[k] % 256), PUT(j->domains[k] / 256);
    for (const uint16_t *t = j->tables; t < j->tables + TABLE * j->m; t += TABLE) {
        PUT('C'), PUT('T'), PUT(t[0]), PUT(t[1]);
        for (int a = 0; a < 16; a++) PUT(t[2 + a] % 256), PUT(t[2 + a] / 256);
    }
    for EACH_RECORD(r, j) {
        PUT('T'), PUT('T');
        for (int b = 0; b < 4 + 3 * r[3]; b++) PUT(r[b]);
    }
    PUT('E'), PUT('N');
#undef PUT
}

/* A number that looks random. */
static uint64_t drawn(void) {
    static uint64_t state = 88172645463325252u;
    state ^= state << 13, state ^= state >> 7, state ^= state << 17;
    return state >> 16;
}

/* A job of n choices with these options: of a hundred choices `universal` the day's, of a hundred pairs `tied` tied, of a hundred pairs of
   options `apart` kept apart. The smallest options go together, so that a game of the shift alone is won by the first path. */
static void make_job(job *j, uint64_t n, uint16_t options, unsigned universal, unsigned tied, unsigned apart) {
    memset(j, 0, sizeof *j);
    j->n = n, j->given = 1, j->rules = 127;
    unsigned smallest = 0;
    while (!(options >> smallest & 1)) smallest++;
    for (uint64_t k = 0; k < n; k++) {
        j->domains[k] = options;
        j->universal |= (uint64_t)(drawn() % 100 < universal) << k;
    }
    for (unsigned i = 0; i < n; i++)
        for (unsigned k = i + 1; k < n; k++) {
            if (drawn() % 100 >= tied) continue;
            uint16_t *t = j->tables + TABLE * j->m++;
            t[0] = (uint16_t)i, t[1] = (uint16_t)k;
            for (unsigned a = 0; a < 16; a++)
                for (unsigned b = 0; b < 16; b++)
                    if ((options >> a & options >> b & 1) && ((a == smallest && b == smallest) || drawn() % 100 >= apart))
                        t[2 + a] |= (uint16_t)(1u << b);
        }
}

/* How many options a mask has. */
static unsigned options_of(uint16_t mask) {
    unsigned count = 0;
    for (; mask != 0; mask &= (uint16_t)(mask - 1)) count++;
    return count;
}

/* Whether the next of `left` is one of the `wanted` to take from them. */
static int take(uint64_t *left, uint64_t *wanted) {
    int taken = drawn() % (*left)-- < *wanted;
    *wanted -= (unsigned)taken;
    return taken;
}

/* Puts this many tables over three choices into a job that has none, or all there are, each of at most `most` triples, 16 at most. The
   smallest options go together. */
static void add_triples(job *j, uint64_t count, uint64_t most) {
    uint64_t n = j->n, left = n < 3 ? 0 : n * (n - 1) * (n - 2) / 6;
    if (count > left) count = left;
    for (unsigned a = 0; a < n; a++)
        for (unsigned b = a + 1; b < n; b++)
            for (unsigned c = b + 1; c < n; c++) {
                if (!take(&left, &count)) continue;
                const uint16_t masks[3] = {j->domains[a], j->domains[b], j->domains[c]};
                uint64_t all = options_of(masks[0]) * options_of(masks[1]) * options_of(masks[2]), wanted = 1 + drawn() % most;
                if (wanted > all) wanted = all;
                uint16_t *r = j->triples + j->triple_count;
                r[0] = (uint16_t)a, r[1] = (uint16_t)b, r[2] = (uint16_t)c, r[3] = 0;
                for (unsigned o = 0; o < 4096; o++) {
                    const unsigned triple[3] = {o / 256, o / 16 % 16, o % 16};
                    if (!(masks[0] >> triple[0] & masks[1] >> triple[1] & masks[2] >> triple[2] & 1)) continue;
                    if (r[3] == 0) all--, wanted--;
                    else if (!take(&all, &wanted)) continue;
                    for (int k = 0; k < 3; k++) r[4 + 3 * r[3] + k] = (uint16_t)triple[k];
                    r[3]++;
                }
                j->triple_count += 4 + 3u * r[3];
            }
}

/* Readable and writable memory of this size, whole pages, with an unreadable page below and one above. */
static uint8_t *between_pages(size_t size) {
    uint8_t *all = mmap(NULL, size + 2 * PAGE, PROT_NONE, MAP_PRIVATE | MAP_ANONYMOUS, -1, 0);
    if (all == MAP_FAILED || mprotect(all + PAGE, size, PROT_READ | PROT_WRITE) != 0) {
        perror("mmap");
        exit(2);
    }
    return all + PAGE;
}

/* Runs a function on a thread of its own on this stack. */
static void run_on(uint8_t *stack, size_t size, void *(*run)(void *), void *with) {
    pthread_t thread;
    pthread_attr_t attributes;
    if (pthread_attr_init(&attributes) != 0 || pthread_attr_setstack(&attributes, stack, size) != 0
        || pthread_create(&thread, &attributes, run, with) != 0 || pthread_join(thread, NULL) != 0) {
        fprintf(stderr, "no thread on %zu bytes of stack\n", size);
        exit(2);
    }
    pthread_attr_destroy(&attributes);
}

#endif
