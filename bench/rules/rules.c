/* Times each rule alone, by its entry, on a file of 32 variables with 496 constraints of 16 values, and prints nanoseconds a call.
   Every entry reads and decodes the file first; the line `decode` is that part by itself. */
#include <stdint.h>
#include <stdio.h>
#include <string.h>
#include <time.h>

uint64_t bench_decode(const uint8_t *file, size_t length);
uint64_t bench_arc(const uint8_t *file, size_t length, uint16_t *list, size_t n);
uint64_t bench_forward(const uint8_t *file, size_t length, uint16_t *list, size_t n, size_t x, size_t a);
uint64_t bench_look_ahead(const uint8_t *file, size_t length, const uint16_t *list, size_t n, size_t x);
uint64_t bench_pure(const uint8_t *file, size_t length, const uint16_t *list, size_t n, size_t x);
uint64_t bench_interchangeable(const uint8_t *file, size_t length, const uint16_t *list, size_t n, size_t x);

static uint8_t file[17994];
static size_t length;
static uint64_t state = 88172645463325252u;

static uint32_t next(void) {
    state ^= state << 13; state ^= state >> 7; state ^= state << 17;
    return (uint32_t)(state >> 32);
}

static void put(uint8_t b) { file[length++] = b; }

/* Every third variable universal; each pair of values compatible with probability 3 in 4, so that rules find work and no early end. */
static void make(void) {
    put('Q'); put('P'); put(32); put(496 % 256); put(496 / 256);
    for (int i = 0; i < 32; i++) { put('V'); put(i % 3 == 2 ? 'A' : 'E'); put(255); put(255); }
    for (int i = 0; i < 32; i++)
        for (int j = i + 1; j < 32; j++) {
            put('C'); put('T'); put(i); put(j);
            for (int a = 0; a < 16; a++) {
                uint16_t row = (uint16_t)(next() | next());
                if (i % 3 == 2 || j % 3 == 2) row = 65535;
                put(row % 256); put(row / 256);
            }
        }
    put('E'); put('N');
}

static double now(void) {
    struct timespec t;
    clock_gettime(CLOCK_MONOTONIC, &t);
    return t.tv_sec * 1e9 + t.tv_nsec;
}

int main(void) {
    uint16_t full[32], list[32];
    uint64_t sum = 0;
    const int rounds = 2000;
    make();
    for (int i = 0; i < 32; i++) full[i] = 65535;
#define TIME(name, call) { double t = now(); for (int k = 0; k < rounds; k++) { memcpy(list, full, sizeof full); sum += call; } \
        printf("%-16s %10.0f ns\n", name, (now() - t) / rounds); }
    TIME("decode", bench_decode(file, length))
    TIME("arc", bench_arc(file, length, list, 32))
    TIME("forward check", bench_forward(file, length, list, 32, 0, k % 16))
    TIME("look ahead", bench_look_ahead(file, length, list, 32, 2))
    TIME("pure", bench_pure(file, length, list, 32, k % 32))
    TIME("interchangeable", bench_interchangeable(file, length, list, 32, k % 32))
    return sum == 1;
}
