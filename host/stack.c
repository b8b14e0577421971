/* Measures the stack that the entries need, on files of 32 choices, some of which stand for tables over three choices, with every turn of the
   search entered, and that of kb_judge_formula on prefixes of up to 512 booleans: each call runs on a stack of its own that is painted
   before, and the lowest byte that changed tells. Prints one line, whether KB_STACK and KB_FORMULA_STACK hold; with an argument also the
   measure of each entry. */
#define _GNU_SOURCE
#include "jobs.h"

enum { SIZE = 2 * KB_STACK, FORMULA_SIZE = 2 * KB_FORMULA_STACK, PAINT = 0xa5, THREES = 12 };

static job made;
static uint8_t file[KB_FILE], buffer[KB_FILE], formula[KB_FORMULA];
static size_t length;
static uint64_t rules;
static const kb_position fresh, played = {3, 1, {0}};
static kb_session session;
static uint16_t masks[32], list[32], room[KB_ROOM];
static const uint8_t calls[] = {0, 254, 1, 255, 0, 9, 192, 255, 255};
static volatile uint64_t sink;

/* Every entry on a file of 32 choices, those of its tables over three counted, and one field of its reply; kb_judge_formula by itself. */
#define ENTRIES(X)                                                                                                                        \
    X(kb_read, kb_read(file, length).n)                                                                                                   \
    X(kb_look_up, kb_look_up(file, length, made.n - 2, made.n - 1).found)                                                                 \
    X(kb_look_up_triples, kb_look_up_triples(file, length, THREES - 1).found)                                                             \
    X(kb_write, kb_write(buffer, KB_FILE, made.n, made.m, made.given, made.rules, made.universal, made.domains, made.n, made.tables,      \
                         TABLE * made.m, made.triples, made.triple_count).length)                                                         \
    X(kb_report, kb_report(file, length, buffer, KB_TEXT).length)                                                                         \
    X(kb_play, kb_play(file, length, fresh, 0).answer.kind)                                                                               \
    X(kb_take_back, kb_take_back(file, length, played).answer.kind)                                                                       \
    X(kb_lock, kb_lock(file, length, played).answer.kind)                                                                                 \
    X(kb_unlock, kb_unlock(file, length, played, 0).answer.kind)                                                                          \
    X(kb_session_play, kb_session_play(file, length, &session, 0).kind)                                                                   \
    X(kb_session_lock, kb_session_lock(file, length, &session).kind)                                                                      \
    X(kb_session_unlock, kb_session_unlock(file, length, &session, 0).kind)                                                               \
    X(kb_session_take_back, kb_session_take_back(file, length, &session).kind)                                                            \
    X(kb_open, kb_open(file, length, played).masks[19])                                                                                   \
    X(kb_judge, kb_judge(file, length, 0, 0, 0, 0, 0, 0, rules).won)                                                                      \
    X(kb_mark, kb_mark(file, length, 0, 0, 0, 0, 0, 0, rules).winning)                                                                    \
    X(kb_judge_in, kb_judge_in(file, length, fresh, rules, room, KB_ROOM).won)                                                            \
    X(kb_mark_in, kb_mark_in(file, length, fresh, rules, room, KB_ROOM).winning)                                                          \
    X(kb_search, kb_search(file, length, fresh, rules).won)                                                                               \
    X(kb_replay, kb_replay(file, length, calls, sizeof calls, rules).marks.winning)                                                       \
    X(kb_arc, kb_arc(file, length, list, 32).lost)                                                                                        \
    X(kb_forward_check, kb_forward_check(file, length, list, 32, 0, 0).lost)                                                              \
    X(kb_look_ahead, kb_look_ahead(file, length, list, 32, 0).lost)                                                                       \
    X(kb_pure, kb_pure(file, length, list, 32, 0).pure)                                                                                   \
    X(kb_interchangeable, kb_interchangeable(file, length, list, 32, 0).values)                                                           \
    X(kb_formula, kb_formula(file, length, formula, KB_FORMULA).length)                                                                   \
    X(kb_groups, kb_groups(file, length).count)                                                                                           \
    X(kb_group, kb_group(file, length, 0, buffer, KB_FILE).length)

/* The frame of such a function is part of the measure: a few hundred bytes. */
#define CALL(name, field) static void *call_##name(void *unused) { sink = (field); return unused; }
#define ROW(name, field) {#name, call_##name, 0},

ENTRIES(CALL)
CALL(kb_judge_formula, kb_judge_formula(file, length, formula, KB_FORMULA).length)

static struct {
    const char *name;
    void *(*call)(void *);
    size_t most;
} entries[] = {ENTRIES(ROW)};

enum { COUNT = sizeof entries / sizeof entries[0] };

static void *idle(void *unused) { return unused; }

/* Bytes of a painted stack of this size that a thread with this function changed. */
static size_t used(uint8_t *stack, size_t size, void *(*call)(void *)) {
    memset(stack, PAINT, size);
    run_on(stack, size, call, NULL);
    size_t lowest = 0;
    while (lowest < size && stack[lowest] == PAINT) lowest++;
    return size - lowest;
}

/* The file of the job, and the masks of its ordinary job's choices. */
static void write_file(void) {
    length = job_length(&made);
    job_bytes(&made, file);
    memcpy(masks, made.domains, sizeof masks);
    uint16_t *hidden = masks + made.n;
    for EACH_RECORD(r, &made) *hidden++ = (uint16_t)((1u << r[3]) - 1);
}

/* What kb_judge_formula needs, on jobs that it judges soon: 512 booleans and no table; the same with a day's choice in front; choices of
   one option with every pair tied; and a job that is lost at once, since choices 0 and 1 never go together. */
static size_t judge_formula_need(uint8_t *stack, size_t thread) {
    size_t most = 0;
    for (int round = 0; round < 4; round++) {
        make_job(&made, 32, round == 2 ? 1 : 0xffff, 0, round == 2 ? 100 : 0, 0);
        if (round == 1) made.universal = 1;
        if (round == 3) made.domains[0] = made.domains[1] = made.m = made.tables[1] = 1;
        write_file();
        size_t own = used(stack, FORMULA_SIZE, call_kb_judge_formula) - thread;
        if (sink == 0) return SIZE_MAX; /* refused, so nothing is measured */
        if (own > most) most = own;
    }
    return most;
}

int main(int count, char **words) {
    static const uint64_t sets[] = {127, 3, 2, 99, 63, 34};
    uint8_t *stack = between_pages(FORMULA_SIZE);
    size_t thread = used(stack, SIZE, idle);
    int within = 1;
    (void)words;
    for (unsigned round = 0; round < 60; round++) {
        int threes = round % 4 == 3;
        make_job(&made, threes ? 32 - THREES : 32, 3, round % 3 == 0 ? 0 : round % 5, round % 2 ? 5 : 100, round % 7 * 3);
        if (threes) add_triples(&made, THREES, 16);
        write_file();
        if (kb_read(file, length).t != (threes ? THREES : 0)) fprintf(stderr, "stack: a file is not as made\n"), exit(2);
        for (int s = 0; s < 6; s++) {
            rules = sets[s];
            for (int e = 0; e < COUNT; e++) {
                memcpy(list, masks, sizeof list);
                size_t own = used(stack, SIZE, entries[e].call) - thread;
                if (own > entries[e].most) entries[e].most = own;
            }
        }
    }
    for (int e = 0; e < COUNT; e++) {
        if (count > 1) printf("%s %zu\n", entries[e].name, entries[e].most);
        within &= entries[e].most <= KB_STACK;
    }
    size_t formula_need = judge_formula_need(stack, thread);
    int formula_within = formula_need <= KB_FORMULA_STACK;
    if (count > 1) printf("kb_judge_formula %zu\n", formula_need);
    printf("stack: %d entries %s, kb_judge_formula %s\n", COUNT, within ? "within KB_STACK" : "of which some are ABOVE KB_STACK",
           formula_within ? "within KB_FORMULA_STACK" : "ABOVE KB_FORMULA_STACK");
    return !(within && formula_within);
}
