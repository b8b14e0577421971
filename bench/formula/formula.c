/* Times the formula's text (kb_formula) on the job whose text is the longest, and the judge of texts (kb_judge_formula) on the job files named as
   arguments. A plain judge of texts, below, counts the work: the same order, and a branch ends at the same clauses. A call is one for the booleans that are
   left; a boolean is tried when it gets a value. A time is processor time, the best of several runs; it has reading the file, the text and its index in it.
   Fails where a limit is passed or a verdict differs from the plain judge's or from kb_judge's.
   `formula count FILES` only counts, and gives a text up after MOST calls. */
#include <kickballbox.h>

#include <stdio.h>
#include <stdlib.h>
#include <string.h>
#include <time.h>

enum { SET = 111, RUNS = 15, MOST = 20000000, PLACES = 513, CLAUSES = 127008 };
static const double LONGEST_LIMIT = 60e6, TRY_LIMIT = 150, ENOUGH = 1e9;

static uint8_t file[KB_FILE + 1], text[KB_FORMULA + 1];
static size_t length;

/* ---- the plain judge */

/* A formula: the side of each boolean; the literals of all clauses, a 0 behind each clause's; of each clause where its literals begin; of each boolean
   the clauses whose last one it is, as a chain. Clauses are numbered from 1 on. */
static int booleans, clauses, values[PLACES], universal[PLACES], head[PLACES];
static int literals[KB_FORMULA / 2], begins[CLAUSES + 1], next[CLAUSES + 1];
static uint64_t calls, tried;

static void wrong(const char *why) {
    fprintf(stderr, "formula: %s\n", why);
    exit(2);
}

static long number(char **at) {
    char *end;
    long x = strtol(*at, &end, 10);
    if (end == *at) wrong("no number where the text needs one");
    *at = end;
    return x;
}

/* Reads the text, which ends with a zero byte. */
static void read_text(char *at) {
    int count = 0, used = 0;
    if (strncmp(at, "p cnf ", 6) != 0) wrong("no header");
    at += 6;
    booleans = number(&at), clauses = number(&at);
    if (booleans >= PLACES || clauses > CLAUSES || *at++ != '\n') wrong("a header of another shape");
    memset(universal, 0, sizeof universal), memset(head, 0, sizeof head);
    for (; *at == 'a' || *at == 'e'; at++) {
        int side = *at++ == 'a';
        for (long b; (b = number(&at)) != 0; universal[b] = side)
            if (b != ++count || b > booleans) wrong("a prefix out of order");
    }
    if (count != booleans) wrong("not as many booleans as the header says");
    for (int k = 1; k <= clauses; k++) {
        int last = 0;
        begins[k] = used;
        for (long x; (x = number(&at)) != 0; last = labs(x), literals[used++] = x)
            if (labs(x) <= last || labs(x) > booleans) wrong("literals out of order");
        literals[used++] = 0;
        next[k] = head[last], head[last] = k;
    }
    if (strcmp(at, "\n") != 0) wrong("not as many clauses as the header says");
}

/* Whether every clause whose last boolean is v holds. */
static int kept(int v) {
    for (int k = head[v]; k; k = next[k]) {
        const int *x = literals + begins[k];
        while (*x && values[abs(*x)] != (*x > 0)) x++;
        if (!*x) return 0;
    }
    return 1;
}

/* Whether the formula with the booleans from v on to come is won; 2 where there were too many calls. */
static int rest(int v) {
    if (calls++ == MOST) return 2;
    if (v > booleans) return 1;
    for (values[v] = 0; values[v] < 2; values[v]++) {
        tried++;
        int won = kept(v) ? rest(v + 1) : 0;
        if (won != universal[v]) return won;
    }
    return universal[v];
}

static int plain(void) {
    calls = tried = 0;
    return head[0] ? 0 : rest(1);
}

/* ---- the jobs */

/* 32 choices of 16 options, the first six the shift's, and every pair with a table that has no good pair: no accepted job has a longer text
   (bench/formula/longest.py). */
static void make_longest(void) {
    uint8_t *to = file;
#define PUT(byte) (*to++ = (uint8_t)(byte))
    PUT('Q'), PUT('P'), PUT(32), PUT(496 % 256), PUT(496 / 256);
    for (int k = 0; k < 32; k++) PUT('V'), PUT(k < 6 ? 'E' : 'A'), PUT(255), PUT(255);
    for (int i = 0; i < 32; i++)
        for (int j = i + 1; j < 32; j++) {
            PUT('C'), PUT('T'), PUT(i), PUT(j);
            for (int a = 0; a < 32; a++) PUT(0);
        }
    PUT('E'), PUT('N');
#undef PUT
    length = (size_t)(to - file);
}

static void read_file(const char *name) {
    FILE *in = fopen(name, "rb");
    if (!in) {
        perror(name);
        exit(2);
    }
    length = fread(file, 1, sizeof file, in);
    fclose(in);
}

/* Writes the text of the job and reads it; replies its length. */
static size_t written(void) {
    kb_written w = kb_formula(file, length, text, KB_FORMULA);
    if (w.kind != KB_FINISHED) wrong("refused");
    text[w.length] = 0;
    read_text((char *)text);
    return w.length;
}

static const char *base(const char *name) {
    const char *slash = strrchr(name, '/');
    return slash ? slash + 1 : name;
}

static int count_alone(int count, char **names) {
    for (int k = 0; k < count; k++) {
        read_file(names[k]);
        size_t bytes = written();
        int won = plain();
        printf("%s %s %d %d %zu %lu %lu\n", base(names[k]), won == 2 ? "long" : won ? "won" : "lost", booleans, clauses, bytes, (unsigned long)calls,
               (unsigned long)tried);
    }
    return 0;
}

/* ---- the times */

static double now(void) {
    struct timespec t;
    clock_gettime(CLOCK_THREAD_CPUTIME_ID, &t);
    return t.tv_sec * 1e9 + t.tv_nsec;
}

/* At least three runs; more while they are short. */
static int again(int runs, double began) { return runs < 3 || (runs < RUNS && now() - began < ENOUGH); }

static int time_longest(void) {
    double best = 1e18, began = now();
    uint64_t bytes = 0;
    make_longest();
    for (int r = 0; again(r, began); r++) {
        double t = now();
        kb_written w = kb_formula(file, length, text, KB_FORMULA);
        double u = now();
        if (w.kind != KB_FINISHED) wrong("the longest text is refused");
        bytes = w.length;
        if (u - t < best) best = u - t;
    }
    int fine = bytes == KB_FORMULA && best <= LONGEST_LIMIT;
    printf("longest text: %lu bytes, %.1f ms (limit %.0f)%s\n", (unsigned long)bytes, best / 1e6, LONGEST_LIMIT / 1e6,
           bytes != KB_FORMULA ? "  NOT AS LONG AS THE HEADER SAYS" : fine ? "" : "  ABOVE THE LIMIT");
    return fine;
}

static int time_judge(const char *name, double *per) {
    double best = 1e18;
    kb_formula_judgement j = {0};
    read_file(name);
    size_t bytes = written();
    int won = plain();
    if (won == 2) wrong("too many calls");
    kb_judgement game = kb_judge(file, length, 0, 0, 0, 0, 0, 0, SET);
    double began = now();
    for (int r = 0; again(r, began); r++) {
        double t = now();
        j = kb_judge_formula(file, length, text, KB_FORMULA);
        double u = now();
        if (u - t < best) best = u - t;
    }
    *per = best / (double)tried;
    int agree = j.kind == KB_FINISHED && game.kind == KB_FINISHED && (int)j.won == won && (int)game.won == won && j.length == bytes;
    printf("%-12s %-5s %8d %8d %7zu %9lu %9lu %9.2f %7.1f%s%s\n", base(name), won ? "won" : "lost", booleans, clauses, bytes, (unsigned long)calls,
           (unsigned long)tried, best / 1e6, *per, agree ? "" : "  VERDICTS DIFFER", *per <= TRY_LIMIT ? "" : "  ABOVE THE LIMIT");
    fflush(stdout);
    return agree && *per <= TRY_LIMIT;
}

int main(int count, char **names) {
    if (count > 1 && strcmp(names[1], "count") == 0) return count_alone(count - 2, names + 2);
    int fine = time_longest();
    double most = 0;
    printf("%-12s %-5s %8s %8s %7s %9s %9s %9s %7s\n", "job", "", "booleans", "clauses", "bytes", "calls", "tried", "ms", "ns");
    for (int k = 1; k < count; k++) {
        double per = 0;
        if (!time_judge(names[k], &per)) fine = 0;
        if (per > most) most = per;
    }
    printf("at most %.1f ns for each boolean tried (limit %.0f)\n", most, TRY_LIMIT);
    return !fine;
}
