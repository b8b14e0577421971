/* Hostile callers: every entry with no memory at all, with files cut anywhere, with numbers at the edges of every width, with memory that
   is short, exact or followed by bytes of others, with lists that overlap, on many threads and on a small stack. Each reply and every byte
   lent are compared with what a plain model here says of them.

       hostile THREADS

   Prints how many comparisons were made and how many were wrong, and fails if one was. With fewer than 64 threads it tries fewer numbers
   and cuts, for valgrind. Memory is lent in exact blocks of the heap, where valgrind sees a byte too many, and beside unreadable pages. */
#define _GNU_SOURCE
#include "model.h"

#include <stdarg.h>

typedef enum {
    INTERFACE, READ, LOOK_UP, LOOK_UP_TRIPLES, WRITE, REPORT, PLAY, TAKE_BACK, LOCK, UNLOCK, SESSION_PLAY, SESSION_TAKE_BACK, SESSION_LOCK,
    SESSION_UNLOCK, OPEN, JUDGE, MARK, JUDGE_IN, MARK_IN, SEARCH, REPLAY, ARC, FORWARD_CHECK, LOOK_AHEAD, PURE, INTERCHANGEABLE, FORMULA,
    JUDGE_FORMULA, GROUPS, GROUP, ENTRIES
} entry;

static const char *const names[ENTRIES] = {
    "kb_interface", "kb_read", "kb_look_up", "kb_look_up_triples", "kb_write", "kb_report", "kb_play", "kb_take_back", "kb_lock",
    "kb_unlock", "kb_session_play", "kb_session_take_back", "kb_session_lock", "kb_session_unlock", "kb_open", "kb_judge", "kb_mark",
    "kb_judge_in", "kb_mark_in", "kb_search", "kb_replay", "kb_arc", "kb_forward_check", "kb_look_ahead", "kb_pure",
    "kb_interchangeable", "kb_formula", "kb_judge_formula", "kb_groups", "kb_group",
};

/* The most bytes that a call is lent, whole pages. */
enum { MOST = 16 * PAGE };

/* What a call is given. `job` has the numbers of the file, `whole` those of its ordinary job; `number` and `place` say why the file is
   refused, 0 and 0 if it is accepted. `record` is a place among its tables over three choices. `text` is the text of the job's formula, its
   first MOST bytes; `soon` says that its judge ends soon, however many booleans it has. `lent` is the memory that the call may write, or the
   list that it reads, and `size` its bytes; `list` is what a lent list holds. From n on stands what kb_write is handed, its rule set as
   `set`. */
typedef struct {
    const job *job, *whole;
    const uint8_t *file;
    size_t length;
    uint64_t number, place;
    const uint8_t *text;
    size_t text_length;
    int soon;
    kb_position position;
    uint64_t rules, option, unlock_to, i, j, record, x, a, group;
    const uint8_t *calls;
    size_t call_count;
    uint16_t list[40];
    uint8_t *lent;
    size_t size;
    uint64_t n, m, given, set, universal;
    const uint16_t *domains, *tables, *triples;
    size_t domain_count, table_count, triple_count;
} arguments;

/* What a call replies, and the memory lent to it afterwards. No reply has padding. */
typedef struct {
    union {
        uint64_t interface;
        kb_answer answer;
        kb_reading reading;
        kb_found found;
        kb_found_triples found_triples;
        kb_written written;
        kb_moved moved;
        kb_opened opened;
        kb_judgement judgement;
        kb_marks marks;
        kb_searched searched;
        kb_replayed replayed;
        kb_ruled ruled;
        kb_checked checked;
        kb_looked looked;
        kb_named_values named_values;
        kb_values values;
        kb_formula_judgement formula_judgement;
        kb_group_list group_list;
    } reply;
    uint8_t lent[MOST];
} outcome;

_Static_assert(sizeof(kb_opened) == 24 + 96 && sizeof(kb_searched) == 48 + 128 && sizeof(kb_moved) == 24 + 48
               && sizeof(kb_group_list) == 32 + 32 && sizeof(kb_named_values) == 40 + 32, "replies without padding");

enum { DIRT = 0x5a };

static uint64_t checks, wrongs;
static int threads;

/* ---- one call */

static int lends_list(entry e) { return e >= ARC && e <= INTERCHANGEABLE; }
static int by_value(entry e) { return e >= PLAY && e <= UNLOCK; }
static int lends_session(entry e) { return e >= SESSION_PLAY && e <= SESSION_UNLOCK; }
static int lends_room(entry e) { return e == JUDGE_IN || e == MARK_IN; }
static int writes_formula(entry e) { return e == FORMULA || e == JUDGE_FORMULA; }
static size_t room_bytes(const job *j) { return 2 * 128 * (j->n + record_count(j) + 1); }

/* The length of the file of the group asked for; of the whole file where there is no such group. */
static size_t asked_length(const arguments *g) {
    uint32_t groups[32];
    return g->group < groups_of(g->whole, groups) ? group_length(g->whole, groups[g->group]) : job_length(g->whole);
}

/* How much memory this entry is lent in an ordinary call. A formula's text of more than MOST bytes does not fit then. */
static size_t ordinary_size(entry e, const arguments *g) {
    const job *j = g->job;
    return e == WRITE ? job_length(j) : e == REPORT ? KB_TEXT : lends_session(e) ? sizeof(kb_session) : lends_room(e) ? room_bytes(j)
         : lends_list(e) ? 2 * g->whole->n : writes_formula(e) ? (g->text_length < MOST ? g->text_length : MOST) : e == GROUP ? asked_length(g) : 0;
}

/* Whether to make the call with this much memory. The judge of formulas may go through all values of all booleans: it is asked only where
   these are few, where it is known to end soon, and where it refuses. */
static int asked(entry e, const arguments *g, size_t size) {
    return e != JUDGE_FORMULA || g->number != 0 || size < g->text_length || g->soon || boolean_count(g->whole) <= 24;
}

/* What the lent memory holds before the call. */
static void fill(entry e, const arguments *g, uint8_t *to) {
    if (g->size == 0) return;
    if (lends_session(e)) memcpy(to, &g->position, sizeof g->position);
    else if (lends_list(e)) memcpy(to, g->list, g->size);
    else memset(to, DIRT, g->size);
}

static void call(entry e, const arguments *g, outcome *o) {
    const uint8_t *f = g->file;
    size_t l = g->length, w = g->size / 2;
    uint16_t *words = (void *)g->lent;
    uint64_t p[4]; /* the places, the lowest byte first as this machine has it */
    memcpy(p, g->position.values, sizeof p);
    memset(&o->reply, 0, sizeof o->reply);
    switch (e) {
    case INTERFACE: o->reply.interface = kb_interface(); break;
    case READ: o->reply.reading = kb_read(f, l); break;
    case LOOK_UP: o->reply.found = kb_look_up(f, l, g->i, g->j); break;
    case LOOK_UP_TRIPLES: o->reply.found_triples = kb_look_up_triples(f, l, g->record); break;
    case WRITE:
        o->reply.written = kb_write(g->lent, g->size, g->n, g->m, g->given, g->set, g->universal, g->domains, g->domain_count, g->tables,
                                    g->table_count, g->triples, g->triple_count);
        break;
    case REPORT: o->reply.written = kb_report(f, l, g->lent, g->size); break;
    case PLAY: o->reply.moved = kb_play(f, l, g->position, g->option); break;
    case TAKE_BACK: o->reply.moved = kb_take_back(f, l, g->position); break;
    case LOCK: o->reply.moved = kb_lock(f, l, g->position); break;
    case UNLOCK: o->reply.moved = kb_unlock(f, l, g->position, g->unlock_to); break;
    case SESSION_PLAY: o->reply.answer = kb_session_play(f, l, (void *)g->lent, g->option); break;
    case SESSION_TAKE_BACK: o->reply.answer = kb_session_take_back(f, l, (void *)g->lent); break;
    case SESSION_LOCK: o->reply.answer = kb_session_lock(f, l, (void *)g->lent); break;
    case SESSION_UNLOCK: o->reply.answer = kb_session_unlock(f, l, (void *)g->lent, g->unlock_to); break;
    case OPEN: o->reply.opened = kb_open(f, l, g->position); break;
    case JUDGE:
        o->reply.judgement = kb_judge(f, l, g->position.plays, g->position.depth, p[0], p[1], p[2], p[3], g->rules);
        break;
    case MARK: o->reply.marks = kb_mark(f, l, g->position.plays, g->position.depth, p[0], p[1], p[2], p[3], g->rules); break;
    case JUDGE_IN: o->reply.judgement = kb_judge_in(f, l, g->position, g->rules, words, w); break;
    case MARK_IN: o->reply.marks = kb_mark_in(f, l, g->position, g->rules, words, w); break;
    case SEARCH: o->reply.searched = kb_search(f, l, g->position, g->rules); break;
    case REPLAY: o->reply.replayed = kb_replay(f, l, g->calls, g->call_count, g->rules); break;
    case ARC: o->reply.ruled = kb_arc(f, l, words, w); break;
    case FORWARD_CHECK: o->reply.checked = kb_forward_check(f, l, words, w, g->x, g->a); break;
    case LOOK_AHEAD: o->reply.looked = kb_look_ahead(f, l, words, w, g->x); break;
    case PURE: o->reply.named_values = kb_pure(f, l, words, w, g->x); break;
    case INTERCHANGEABLE: o->reply.values = kb_interchangeable(f, l, words, w, g->x); break;
    case FORMULA: o->reply.written = kb_formula(f, l, g->lent, g->size); break;
    case JUDGE_FORMULA: o->reply.formula_judgement = kb_judge_formula(f, l, g->lent, g->size); break;
    case GROUPS: o->reply.group_list = kb_groups(f, l); break;
    case GROUP: o->reply.written = kb_group(f, l, g->group, g->lent, g->size); break;
    case ENTRIES: break;
    }
    if (g->size != 0) memcpy(o->lent, g->lent, g->size);
}

/* ---- what the header says of a call */

/* Whether the list of tables over three choices stops within one. */
static int stops_within(const arguments *g) {
    size_t at = 0, left;
    while ((left = g->triple_count - at) >= 4 && (left - 4) / 3 >= g->triples[at + 3]) at += 4 + 3u * g->triples[at + 3];
    return left != 0;
}

/* Whether this is no table over three choices, the last before it having the number `last`, or 0. */
static int no_record(const arguments *g, const uint16_t *r, uint32_t last) {
    if (r[0] >= r[1] || r[1] >= r[2] || r[2] >= g->n || r[3] < 1 || r[3] > 16 || last >= 1024u * r[0] + 32u * r[1] + r[2]) return 1;
    for (const uint16_t *t = r + 4; t < r + 4 + 3 * r[3]; t += 3) {
        for (int k = 0; k < 3; k++)
            if (!has(g->domains[r[k]], t[k])) return 1;
        if (t > r + 4 && 256 * t[-3] + 16 * t[-2] + t[-1] >= 256 * t[0] + 16 * t[1] + t[2]) return 1;
    }
    return 0;
}

/* Why kb_write refuses these numbers, the buffer's length aside. */
static uint64_t refused_write(const arguments *g) {
    uint64_t n = g->n, above = 0;
    if (n < 1 || n > 32 || g->m > n * (n - 1) / 2) return 3;
    if (g->domain_count != n || g->table_count != TABLE * g->m || stops_within(g)) return 13;
    if (g->given != 0 && g->set > 127) return 8;
    if (g->universal >> n) return 11;
    for (uint64_t k = 0; k < n; k++)
        if (g->domains[k] == 0) return 4;
    for (const uint16_t *t = g->tables; t < g->tables + TABLE * g->m; t += TABLE) {
        if (!(t[0] < t[1] && t[1] < n)) return 5;
        if (t[0] * 32u + t[1] < above) return 6;
        above = t[0] * 32u + t[1] + 1;
        for (unsigned a = 0; a < 16; a++)
            if ((!has(g->domains[t[0]], a) && t[2 + a]) || (t[2 + a] & ~g->domains[t[1]])) return 7;
    }
    uint64_t all = n;
    uint32_t last = 0;
    for (size_t at = 0; at < g->triple_count; at += 4 + 3u * g->triples[at + 3]) {
        const uint16_t *r = g->triples + at;
        if (++all > 32) return 27;
        if (no_record(g, r, last)) return 26;
        last = 1024u * r[0] + 32u * r[1] + r[2];
    }
    return 0;
}

static int fits_list(const arguments *g) {
    if (g->size != 2 * g->whole->n) return 0;
    for (uint64_t k = 0; k < g->whole->n; k++)
        if (g->list[k] == 0 || g->list[k] & ~g->whole->domains[k]) return 0;
    return 1;
}

/* Why the entry refuses the call though it accepts the file; 0 where it does not. */
static uint64_t refused(entry e, const arguments *g) {
    const job *j = g->job;
    uint64_t plays = g->position.plays, depth = g->position.depth;
    uint32_t groups[32];
    if (e == LOOK_UP) return g->i < g->j && g->j < j->n ? 0 : 11;
    if (e == REPLAY) return g->rules > 127 ? 8 : 0;
    if (e < PLAY) return 0;
    if (writes_formula(e)) return g->size < g->text_length ? 12 : 0;
    if (e == GROUP) return g->group < groups_of(g->whole, groups) ? 0 : 11;
    if (e == GROUPS) return 0;
    if (lends_list(e)) {
        if (!fits_list(g)) return 13;
        if (e != ARC && g->x >= g->whole->n) return 11;
        return e == FORWARD_CHECK && !has(g->list[g->x], g->a) ? 10 : 0;
    }
    if (e >= JUDGE && g->rules > 127) return 8;
    if (!fits(j, &g->position)) return 23;
    if (e == PLAY || e == SESSION_PLAY) return plays == j->n ? 20 : has(j->domains[plays], g->option) ? 0 : 10;
    if (e == TAKE_BACK || e == SESSION_TAKE_BACK) return plays == 0 ? 21 : plays == depth ? 24 : 0;
    if (e == UNLOCK || e == SESSION_UNLOCK) return g->unlock_to > depth ? 25 : 0;
    if ((e == MARK || e == MARK_IN) && plays == j->n) return 22;
    return lends_room(e) && g->size < room_bytes(j) ? 12 : 0;
}

static void marks_of(const job *j, kb_position p, kb_marks *marks) {
    if (p.plays == j->n) marks->kind = KB_REFUSED, marks->number = 22;
    else marks->winning = winning(j, p), marks->domain = j->domains[p.plays];
}

static size_t append(char *text, size_t at, const char *format, ...) {
    va_list rest;
    va_start(rest, format);
    at += (size_t)vsnprintf(text + at, KB_TEXT + 1 - at, format, rest);
    va_end(rest);
    return at;
}

/* The text of the judging program. */
static size_t text_of(const arguments *g, char *text) {
    const job *j = g->job;
    kb_position fresh = {0, 0, {0}};
    if (g->number != 0) return append(text, 0, "refused %d at %d\n", (int)g->number, (int)g->place);
    size_t at = append(text, 0, "choices %d\ntables %d\nrules %d\n", (int)j->n, (int)j->m, j->given ? (int)j->rules : 3);
    at = append(text, at, "answer %s\nnext 0 %s\n", verdict(j, fresh) ? "yes" : "no", universal(j, 0) ? "day" : "shift");
    for (unsigned a = 0; a < 16; a++)
        if (has(j->domains[0], a)) at = append(text, at, "option %u %s\n", a, winning(j, fresh) >> a & 1 ? "good" : "bad");
    return at;
}

/* Puts so many bytes into the lent memory if they fit, else refuses with 12. */
static void written(const arguments *g, outcome *o, const void *bytes, size_t length) {
    if (length > g->size) o->reply.written = (kb_written){KB_REFUSED, 12, 0, 0};
    else o->reply.written.length = length, memcpy(o->lent, bytes, length);
}

/* The fields of a finished search that the model does not know are taken from the reply, if they can hold: the list is within the
   position's; a conflict set has choices played alone; a leaf breaks no table and begins with the plays. They are the ordinary job's. */
static void searched(const arguments *g, kb_searched *want, const kb_searched *got) {
    const job *j = g->whole;
    int good = got->loss <= 1 && !(got->won && got->loss), leaf = 1;
    want->won = (uint64_t)verdict(g->job, g->position);
    for (uint64_t k = 0; k < 32; k++) {
        uint16_t mask = k >= j->n ? 0 : k < g->position.plays ? (uint16_t)(1u << g->position.values[k]) : j->domains[k];
        good &= (got->list[k] & ~mask) == 0;
        leaf &= k < j->n ? has(mask, got->leaf[k]) : got->leaf[k] == 0;
        for (uint64_t i = 0; leaf && k < j->n && i < k; i++) leaf &= goes(j, i, got->leaf[i], k, got->leaf[k]);
    }
    if (!good) return;
    want->loss = got->loss;
    memcpy(want->list, got->list, sizeof want->list);
    if (want->won && leaf) memcpy(want->leaf, got->leaf, sizeof want->leaf);
    if (!want->won && got->conflict >> g->position.plays == 0) want->conflict = got->conflict;
}

/* Puts a position into the reply, or into the session. */
static void moved(entry e, outcome *o, const kb_position *p) {
    if (lends_session(e)) memcpy(o->lent, p, sizeof *p);
    else o->reply.moved.position = *p;
}

/* All that a call must reply and leave. */
static void expect(entry e, const arguments *g, outcome *o, const outcome *got) {
    static uint8_t bytes[KB_FILE];
    char text[KB_TEXT + 1];
    const job *j = g->job, *whole = g->whole;
    uint16_t list[40];
    uint32_t groups[32];
    memset(&o->reply, 0, sizeof o->reply);
    fill(e, g, o->lent);
    if (by_value(e)) moved(e, o, &g->position);
    if (e == INTERFACE) {
        o->reply.interface = KB_INTERFACE;
        return;
    }
    if (e == REPORT) {
        written(g, o, text, text_of(g, text));
        return;
    }
    if (e != WRITE && g->number != 0) {
        o->reply.answer = (kb_answer){KB_REFUSED_AT, g->number, g->place};
        if (e == REPLAY) memcpy(&o->reply.replayed.opened, &o->reply.answer, sizeof o->reply.answer);
        return;
    }
    uint64_t number = e == WRITE ? refused_write(g) : refused(e, g);
    if (number != 0) o->reply.answer = (kb_answer){KB_REFUSED, number, 0};
    if (number != 0 && e != REPLAY) return;
    memcpy(list, g->list, sizeof list);
    kb_position p = g->position;
    switch (e) {
    case READ:
        o->reply.reading = (kb_reading){0, 0, 0, j->n, j->m, record_count(j), j->universal, j->given != 0, j->given ? j->rules : 3, {0}};
        memcpy(o->reply.reading.domains, j->domains, 2 * j->n);
        break;
    case LOOK_UP: {
        const uint16_t *t = table(j, g->i, g->j);
        if (t == NULL) break;
        uint64_t behind = j->m - (uint64_t)(t - j->tables) / TABLE;
        o->reply.found = (kb_found){0, 0, 0, 1, records_at(j) - 36 * behind + 4};
        break;
    }
    case LOOK_UP_TRIPLES: {
        uint64_t record = 0;
        for EACH_RECORD(r, j)
            if (record++ == g->record)
                o->reply.found_triples = (kb_found_triples){0, 0, 0, 1, records_at(j) + 2 * record + (size_t)(r - j->triples), 4 + 3u * r[3]};
        break;
    }
    case WRITE: {
        static job own;
        own = (job){.n = g->n, .m = g->m, .given = g->given, .rules = g->set, .universal = g->universal};
        memcpy(own.domains, g->domains, 2 * g->n);
        if (g->m != 0) memcpy(own.tables, g->tables, 2 * TABLE * g->m);
        own.triple_count = g->triple_count;
        if (g->triple_count != 0) memcpy(own.triples, g->triples, 2 * g->triple_count);
        job_bytes(&own, bytes);
        written(g, o, bytes, job_length(&own));
        break;
    }
    case PLAY: case SESSION_PLAY: p.values[p.plays++] = (uint8_t)g->option, moved(e, o, &p); break;
    case TAKE_BACK: case SESSION_TAKE_BACK: p.values[--p.plays] = 0, moved(e, o, &p); break;
    case LOCK: case SESSION_LOCK: p.depth = p.plays, moved(e, o, &p); break;
    case UNLOCK: case SESSION_UNLOCK: p.depth = g->unlock_to, moved(e, o, &p); break;
    case OPEN: open_options(j, &p, &o->reply.opened); break;
    case JUDGE_IN: memset(o->lent, 0, room_bytes(j)); /* fall through */
    case JUDGE: o->reply.judgement.won = (uint64_t)verdict(j, p); break;
    case MARK_IN: memset(o->lent, 0, room_bytes(j)); /* fall through */
    case MARK: marks_of(j, p, &o->reply.marks); break;
    case SEARCH: searched(g, &o->reply.searched, &got->reply.searched); break;
    case REPLAY:
        p = standing(j, g->calls, g->call_count);
        if (number == 0) marks_of(j, p, &o->reply.replayed.marks);
        open_options(j, &p, &o->reply.replayed.opened);
        break;
    case ARC: o->reply.ruled.lost = (uint64_t)arc(whole, list), memcpy(o->lent, list, g->size); break;
    case FORWARD_CHECK:
        o->reply.checked.lost = (uint64_t)forward(whole, list, g->x, (unsigned)g->a, &o->reply.checked.variable);
        memcpy(o->lent, list, g->size);
        break;
    case LOOK_AHEAD: o->reply.looked.lost = (uint64_t)ahead(whole, list, g->x, &o->reply.looked.value, &o->reply.looked.variable); break;
    case PURE: pure(whole, list, g->x, &o->reply.named_values); break;
    case INTERCHANGEABLE: o->reply.values.values = unlike_smaller(whole, list, g->x); break;
    case FORMULA:
        o->reply.written.length = g->text_length;
        memcpy(o->lent, g->text, g->text_length);
        break;
    case JUDGE_FORMULA:
        o->reply.formula_judgement.won = (uint64_t)verdict(j, (kb_position){0, 0, {0}}), o->reply.formula_judgement.length = g->text_length;
        memcpy(o->lent, g->text, g->text_length);
        break;
    case GROUPS:
        o->reply.group_list.count = groups_of(whole, groups);
        for (uint64_t k = 0; k < whole->n; k++)
            while (!(groups[o->reply.group_list.group[k]] >> k & 1)) o->reply.group_list.group[k]++;
        break;
    case GROUP: {
        static job own;
        groups_of(whole, groups);
        group_job(whole, groups[g->group], &own);
        job_bytes(&own, bytes);
        written(g, o, bytes, job_length(&own));
        break;
    }
    default: break;
    }
}

/* ---- comparing */

static void compare(const char *what, entry e, const void *got, const void *want, size_t size) {
    checks++;
    if (size == 0 || memcmp(got, want, size) == 0) return;
    if (wrongs++ < 20) printf("hostile: %s: %s differs\n", what, names[e]);
}

/* Makes the call and compares its reply and the memory lent to it. */
static void attempt(const char *what, entry e, const arguments *g) {
    static outcome got, want;
    if (!asked(e, g, g->size)) return;
    fill(e, g, g->lent);
    call(e, g, &got);
    expect(e, g, &want, &got);
    compare(what, e, &got.reply, &want.reply, sizeof got.reply);
    if (g->size != 0) compare(what, e, got.lent, want.lent, g->size);
}

/* ---- memory to lend */

enum { HEAP, LOW, HIGH, WAYS };
enum { FILES, LENT, LISTS, TRIPLES, PLACES };

static uint8_t *arenas[PLACES];
static void *blocks[PLACES];

/* Exactly this many bytes: a block of the heap, or the bytes behind or before an unreadable page. Good until the next of its place. */
static uint8_t *lend(int place, int way, size_t size) {
    if (arenas[place] == NULL) arenas[place] = between_pages(MOST);
    free(blocks[place]);
    blocks[place] = way == HEAP ? malloc(size) : NULL;
    return way == HEAP ? blocks[place] : way == LOW ? arenas[place] : arenas[place] + MOST - size;
}

static void *lend_copy(int place, int way, const void *bytes, size_t size) {
    uint8_t *to = lend(place, way, size);
    if (size != 0) memcpy(to, bytes, size);
    return to;
}

static uint8_t bytes[KB_FILE + 1], formula[MOST];

/* An ordinary call on this job, its file in `bytes`, its ordinary job in `whole` and its formula's text in `formula`. */
static arguments ordinary(const job *j) {
    static job whole;
    static const uint8_t calls[] = {0, 254, 2, 255, 255, 193, 192, 255, 255, 254, 2, 7, 15, 195};
    arguments g = {.job = j, .whole = &whole, .file = bytes, .length = job_length(j), .text = formula, .rules = 127, .j = 1, .calls = calls,
                   .call_count = sizeof calls, .n = j->n, .m = j->m, .given = j->given, .set = j->rules, .universal = j->universal,
                   .domains = j->domains, .domain_count = j->n, .tables = j->tables, .table_count = TABLE * j->m,
                   .triples = j->triples, .triple_count = j->triple_count};
    job_bytes(j, bytes);
    ordinary_job(j, &whole);
    g.text_length = formula_text(&whole, formula, sizeof formula);
    memcpy(g.list, whole.domains, sizeof whole.domains);
    return g;
}

/* The call with this much memory, lent in this way. */
static void attempt_with(const char *what, entry e, arguments g, int way, size_t size) {
    g.size = size;
    g.lent = lend(LENT, way, size);
    attempt(what, e, &g);
}

static void attempt_each(const char *what, const arguments *g, int way) {
    for (entry e = 0; e < ENTRIES; e++) attempt_with(what, e, *g, way, ordinary_size(e, g));
}

/* How far to go on to the next of many: in a run with fewer threads, to a few of them. */
static uint64_t step(uint64_t few) { return threads < 64 ? few : 1; }

static uint16_t some_option(uint16_t mask) {
    unsigned a = drawn() % 16;
    while (!has(mask, a)) a = (a + 1) % 16;
    return (uint16_t)a;
}

/* Leaves choice k the options of this mask alone, some of which it has. */
static void narrow(job *j, uint64_t k, uint16_t mask) {
    j->domains[k] &= mask;
    for (uint16_t *t = j->tables; t < j->tables + TABLE * j->m; t += TABLE)
        for (unsigned a = 0; a < 16; a++) {
            if (t[0] == k && !has(mask, a)) t[2 + a] = 0;
            if (t[1] == k) t[2 + a] &= mask;
        }
}

/* All options, about half of them or about a quarter, and one at least. */
static uint16_t some_mask(void) {
    uint64_t half = drawn(), other = drawn(), kind = drawn() % 3;
    return (uint16_t)((kind == 0 ? 0xffff : kind == 1 ? half : half & other) | 1u << drawn() % 16);
}

static void some_job(job *j) {
    static const uint16_t options[] = {0x8005, 3, 0xa001, 0x0180};
    make_job(j, 1 + drawn() % 5, options[drawn() % 4], drawn() % 70, 30 + drawn() % 71, drawn() % 60);
    for (uint64_t k = 0; k < j->n; k++)
        if (drawn() % 4 == 0) narrow(j, k, (uint16_t)(1u << some_option(j->domains[k])));
    if (drawn() % 2 == 0) add_triples(j, drawn() % 3, 1 + drawn() % 6);
    j->given = drawn() % 2, j->rules = drawn() % 128;
}

static kb_position some_position(const job *j, uint64_t plays) {
    kb_position p = {plays, drawn() % (plays + 1), {0}};
    for (uint64_t k = 0; k < plays && k < j->n; k++) p.values[k] = (uint8_t)some_option(j->domains[k]);
    return p;
}

/* This many plays, some depth, some list and some numbers that the job allows. */
static void some_numbers(arguments *g, uint64_t plays) {
    const job *j = g->job;
    uint32_t groups[32];
    g->position = some_position(j, plays);
    for (uint64_t k = 0; k < g->whole->n; k++) {
        g->list[k] = g->whole->domains[k] & (uint16_t)drawn();
        if (g->list[k] == 0) g->list[k] = g->whole->domains[k];
    }
    g->rules = drawn() % 128, g->option = some_option(j->domains[plays % j->n]), g->unlock_to = drawn() % (g->position.depth + 1);
    g->j = drawn() % j->n, g->i = g->j ? drawn() % g->j : 0;
    g->record = drawn() % (record_count(j) + 1);
    g->x = drawn() % g->whole->n, g->a = some_option(g->list[g->x]);
    g->group = drawn() % groups_of(g->whole, groups);
}

/* ---- the parts */

static job made;

/* No memory: NULL, and a pointer to an unreadable page. */
static void nothing(void) {
    static const job none;
    uint8_t *unreadable = lend(LENT, LOW, 0) + MOST;
    for (int k = 0; k < 2; k++) {
        uint8_t *nowhere = k ? unreadable : NULL;
        kb_session session;
        for (entry e = 0; e < ENTRIES; e++) {
            arguments g = {.job = &none, .whole = &none, .file = nowhere, .number = 1, .calls = nowhere, .lent = nowhere,
                           .domains = (void *)nowhere, .tables = (void *)nowhere, .triples = (void *)nowhere};
            if (lends_session(e)) g.lent = (void *)&session, g.size = sizeof session;
            attempt("no file", e, &g);
            make_job(&made, 2, 3, 50, 100, 20);
            g = ordinary(&made);
            g.calls = nowhere, g.call_count = 0, g.lent = nowhere;
            if (lends_session(e)) g.lent = (void *)&session, g.size = sizeof session;
            attempt("nothing lent", e, &g);
            g.domains = (void *)nowhere, g.domain_count = 0;
            if (e == WRITE) attempt("no domains", e, &g);
            g = ordinary(&made);
            g.lent = nowhere, g.tables = (void *)nowhere, g.table_count = 0;
            if (e == WRITE) attempt("no tables", e, &g);
            make_job(&made, 3, 3, 50, 100, 20);
            add_triples(&made, 1, 4);
            g = ordinary(&made);
            g.triples = (void *)nowhere, g.triple_count = 0;
            if (e == WRITE) attempt_with("no triples", e, g, HEAP, job_length(&made));
            if (e == LOOK_UP_TRIPLES) attempt("triples", e, &g);
        }
    }
}

/* Calls that the job allows, in memory lent in every way. */
static void allowed(void) {
    for (uint64_t round = 0; round < 600; round += step(20)) {
        some_job(&made);
        arguments g = ordinary(&made);
        some_numbers(&g, drawn() % (made.n + 1));
        uint8_t calls[24];
        for (size_t k = 0; k < sizeof calls; k++) {
            static const uint8_t locks[] = {254, 254, 192, 193, 194, 195};
            uint64_t kind = drawn() % 15;
            calls[k] = kind < 5 ? 255 : kind < 8 ? locks[drawn() % sizeof locks] : kind < 9 ? (uint8_t)drawn()
                     : (uint8_t)some_option(made.domains[0]);
        }
        g.call_count = drawn() % (sizeof calls + 1);
        for (int way = 0; way < WAYS; way++) {
            g.file = lend_copy(FILES, way, bytes, g.length);
            g.calls = lend_copy(LISTS, way, calls, g.call_count);
            attempt_each("allowed", &g, way);
        }
    }
}

/* The first byte of the record that a file cut here lacks. */
static uint64_t cut_record(const job *j, size_t length) {
    uint64_t place = 0, next = 5;
    for (uint64_t k = 0; next <= length; k++) {
        uint64_t v = k - (j->given ? 1 : 0);
        place = next;
        if ((!j->given || k > 0) && v >= j->n + j->m) break;
        next += j->given && k == 0 ? 3 : v < j->n ? 4 : 36;
    }
    if (next > length) return place;
    for EACH_RECORD(r, j) {
        if (next + 6 + 3 * r[3] > length) return next;
        next += 6 + 3 * r[3];
    }
    return next;
}

/* Files cut anywhere and one byte too long, in memory of exactly that size; the other arguments allowed, then all of them wrong. */
static void cuts_of(const job *j, size_t by) {
    arguments g = ordinary(j);
    some_numbers(&g, 1);
    bytes[g.length] = 'E';
    for (size_t length = 0; length <= job_length(j) + 1; length += length + 1 < job_length(j) ? by : 1) {
        if (length == job_length(j)) continue;
        arguments h = g;
        int longer = length > job_length(j);
        h.length = length, h.number = longer ? 9 : 1, h.place = longer ? job_length(j) : cut_record(j, length);
        for (int wrong = 0; wrong < 2; wrong++) {
            if (wrong) {
                h.rules = 256, h.list[0] = 0;
                h.position.plays = h.position.depth = h.unlock_to = h.i = h.record = h.x = h.a = h.option = h.group = UINT64_MAX;
            }
            for (int way = 0; way < WAYS; way++) {
                h.file = lend_copy(FILES, way, bytes, length);
                for (entry e = 0; e < ENTRIES; e++) {
                    int little = wrong && (lends_room(e) || writes_formula(e) || e == GROUP);
                    if (e != WRITE) attempt_with("cut", e, h, way, little ? 2 : ordinary_size(e, &h));
                }
            }
        }
    }
}

static void cuts(void) {
    make_job(&made, 1, 0x20, 0, 0, 0);
    made.given = 0;
    cuts_of(&made, 1);
    make_job(&made, 2, 3, 50, 100, 20);
    cuts_of(&made, 1);
    make_job(&made, 5, 0x8005, 40, 80, 30);
    cuts_of(&made, step(37));
    for (uint64_t records = 1; records < 4; records++) {
        make_job(&made, 3 + records % 2, 0x8005, 40, 10, 30);
        made.given = records % 2;
        add_triples(&made, records, 16);
        cuts_of(&made, step(11));
    }
    make_job(&made, 32, 0xffff, 30, 100, 50);
    cuts_of(&made, threads < 64 ? 4999 : 97);
}

/* Numbers from two below to seventeen above the edges of the widths, and about 32. */
enum { AROUND = 20, EDGES = 8 * AROUND };

static uint64_t edge(uint64_t k) {
    static const uint64_t from[] = {0, 32, 1u << 7, 1u << 8, 1u << 16, (uint64_t)1 << 32, (uint64_t)1 << 63, UINT64_MAX};
    return from[k / AROUND] + k % AROUND - 2;
}

enum { NUMBERS = 16 };

static uint64_t *number_of(arguments *g, uint64_t which) {
    uint64_t *const all[NUMBERS] = {&g->rules, &g->option, &g->unlock_to, &g->i, &g->j, &g->record, &g->x, &g->a, &g->group,
                                    &g->position.plays, &g->position.depth, &g->n, &g->m, &g->given, &g->set, &g->universal};
    return all[which];
}

/* Each number of a call at every edge, for each entry. */
static void numbers(void) {
    for (int round = 0; round < 6; round++) {
        some_job(&made);
        arguments g = ordinary(&made), h;
        some_numbers(&g, round % 3 == 0 ? 0 : round % 3 == 1 ? made.n : drawn() % (made.n + 1));
        for (uint64_t which = 0; which < NUMBERS; which++)
            for (uint64_t k = 0; k < EDGES; k += step(9)) {
                h = g;
                *number_of(&h, which) = edge(k);
                attempt_each("a number at an edge", &h, HEAP);
            }
        for (uint64_t k = 0; k < EDGES; k += step(9))
            for (uint64_t l = 0; l < EDGES; l += step(9)) {
                h = g;
                h.i = h.x = edge(k), h.j = h.a = edge(l);
                attempt_with("a pair at an edge", LOOK_UP, h, HEAP, 0);
                attempt_with("a choice and an option at an edge", FORWARD_CHECK, h, HEAP, 2 * h.whole->n);
            }
    }
    make_job(&made, 32, 3, 30, 3, 0);
    for (uint64_t k = 0; k < EDGES; k++) {
        arguments g = ordinary(&made);
        g.universal = edge(k);
        attempt_with("a bit of the day's", WRITE, g, HEAP, job_length(&made));
    }
}

/* Several things wrong at once, so that the order of the tests shows. */
static void several(void) {
    for (uint64_t round = 0; round < 6000; round += step(20)) {
        some_job(&made);
        arguments g = ordinary(&made);
        some_numbers(&g, drawn() % (made.n + 1));
        for (uint64_t k = drawn() % 5; k > 0; k--) *number_of(&g, drawn() % NUMBERS) = edge(drawn() % EDGES);
        if (drawn() % 4 == 0) g.list[drawn() % g.whole->n] = drawn() % 2 ? 0 : 0xffff;
        if (drawn() % 4 == 0) g.position.values[drawn() % 32] = (uint8_t)drawn();
        for (entry e = 0; e < ENTRIES; e++) {
            size_t size = ordinary_size(e, &g);
            attempt_with("several at once", e, g, HEAP, !lends_session(e) && size != 0 && drawn() % 4 == 0 ? size - 2 : size);
        }
    }
}

/* Every byte at every place of a position; then long games, in which every number of packed places counts. */
static void positions(void) {
    some_job(&made);
    arguments g = ordinary(&made);
    for (uint64_t place = 0; place < 32; place++)
        for (unsigned value = 0; value < 256; value += (unsigned)step(17))
            for (uint64_t plays = 0; plays <= made.n + 1; plays++) {
                g.position = some_position(&made, plays);
                g.position.values[place] = (uint8_t)value;
                for (entry e = PLAY; e <= OPEN; e++) attempt_with("a byte of a position", e, g, HEAP, ordinary_size(e, &g));
                if (value % 16 == 1 || place < made.n) attempt_with("a byte of a position", JUDGE, g, HEAP, 0);
            }
    for (uint64_t round = 0; round < 40; round += step(4)) {
        uint64_t records = round % 2 ? drawn() % 9 : 0;
        make_job(&made, 32 - records, 6, 30, 5, 20);
        add_triples(&made, records, 8);
        g = ordinary(&made);
        g.position = some_position(&made, made.n - 4 + round % 5);
        for (entry e = PLAY; e <= SEARCH; e++) attempt_with("a long game", e, g, HEAP, ordinary_size(e, &g));
    }
}

/* Every depth that fits, one above the plays and the largest. Whatever judges, marks, opens or searches replies the same at each that
   fits. */
static void depths(void) {
    static outcome unheld, held;
    for (uint64_t round = 0; round < 300; round += step(15)) {
        some_job(&made);
        arguments g = ordinary(&made);
        some_numbers(&g, drawn() % (made.n + 1));
        uint64_t plays = g.position.plays;
        for (entry e = PLAY; e <= SEARCH; e++)
            for (uint64_t depth = 0; depth <= plays + 2; depth++) {
                arguments h = g;
                h.position.depth = depth <= plays + 1 ? depth : UINT64_MAX;
                attempt_with("a depth", e, h, HEAP, ordinary_size(e, &h));
                if (e < OPEN || depth > plays) continue;
                h.size = ordinary_size(e, &h), h.lent = lend(LENT, HEAP, h.size);
                call(e, &h, depth == 0 ? &unheld : &held);
                if (depth != 0) compare("another depth", e, &held.reply, &unheld.reply, sizeof held.reply);
            }
    }
}

/* What the writer is handed, one number of its lists wrong, or two. */
static void wrong_lists(void) {
    for (uint64_t round = 0; round < 3000; round += step(10)) {
        some_job(&made);
        arguments g = ordinary(&made);
        uint16_t domains[32], tables[10 * TABLE], triples[5 * RECORD] = {0};
        memcpy(domains, made.domains, sizeof domains);
        memcpy(tables, made.tables, sizeof tables);
        memcpy(triples, made.triples, 2 * made.triple_count);
        for (uint64_t k = 0; k < 1 + round % 2; k++) {
            static const uint16_t odd[] = {0, 1, 2, 0x8000, 0xffff, 0x8005, 0x7ffa, 4};
            size_t at = drawn() % (made.n + TABLE * made.m), head = (at - made.n) / TABLE * TABLE;
            if (at < made.n) domains[at] = odd[drawn() % 8];
            else tables[drawn() % 2 ? at - made.n : head + drawn() % 2] = odd[drawn() % 8];
        }
        int way = (int)(round % WAYS);
        g.domain_count = made.n - (drawn() % 8 == 0) + (drawn() % 8 == 0);
        g.table_count = TABLE * made.m - (made.m != 0 && drawn() % 16 == 0) + (made.m < 10 && drawn() % 16 == 0);
        g.domains = lend_copy(LISTS, way, domains, 2 * g.domain_count);
        g.tables = lend_copy(FILES, way, tables, 2 * g.table_count);
        g.triples = lend_copy(TRIPLES, way, triples, 2 * g.triple_count);
        attempt_with("a wrong list", WRITE, g, way, job_length(&made) - (drawn() % 4 == 0));
    }
}

/* Tables over three choices as kb_write is handed them: the list cut anywhere, one number of it any of these, two records in each other's
   place, a record twice; with some fault of what is tested before, or a buffer that is too short. */
static void wrong_triples(void) {
    for (uint64_t round = 0; round < 400; round += step(20)) {
        make_job(&made, 3 + drawn() % 3, 0x8005, 30, 20, 30);
        add_triples(&made, 1 + drawn() % 4, 16);
        arguments g = ordinary(&made);
        uint16_t triples[5 * RECORD];
        size_t count = made.triple_count;
        memcpy(triples, made.triples, sizeof triples);
        if (drawn() % 8 == 0) g.universal = UINT64_MAX;
        if (drawn() % 8 == 0) g.given = 1, g.set = 128;
        for (size_t at = 0; at <= count; at++) {
            int way = (int)((round + at) % WAYS);
            size_t size = job_length(&made) - (drawn() % 4 == 0);
            g.triple_count = at;
            g.triples = lend_copy(TRIPLES, way, triples, 2 * at);
            attempt_with("triples cut", WRITE, g, way, size);
            if (at == count) continue;
            static const uint16_t odd[] = {0, 1, 2, 3, 4, 5, 15, 16, 17, 31, 32, 255, 256, 257, 258, 0x8000, 0xff00, 0xffff};
            uint16_t before = triples[at];
            triples[at] = drawn() % 3 ? odd[drawn() % (sizeof odd / sizeof odd[0])] : (uint16_t)(before + 256 * (drawn() % 256));
            g.triple_count = count;
            g.triples = lend_copy(TRIPLES, way, triples, 2 * count);
            attempt_with("a wrong triple", WRITE, g, way, size);
            triples[at] = before;
        }
        size_t first = 4 + 3u * triples[3];
        memmove(triples, triples + first, 2 * (count - first));
        memcpy(triples + count - first, made.triples, 2 * first);
        g.triples = lend_copy(TRIPLES, LOW, triples, 2 * count), g.triple_count = count;
        attempt_with("the first record last", WRITE, g, HEAP, job_length(&made));
        memcpy(triples, made.triples, 2 * count);
        if (count + first > sizeof triples / 2) continue;
        memmove(triples + first, triples, 2 * count);
        g.triples = lend_copy(TRIPLES, HIGH, triples, 2 * (count + first)), g.triple_count = count + first;
        attempt_with("a record twice", WRITE, g, HEAP, job_length(&made) + 2 * first);
    }
    /* One record more than there may be: with one wrong number anywhere, and cut anywhere. */
    for (uint64_t n = 26; n <= 32; n++) {
        make_job(&made, n, 3, 30, 0, 0);
        arguments g = ordinary(&made);
        uint16_t triples[8 * RECORD];
        add_triples(&made, 33 - n, 2);
        memcpy(triples, made.triples, sizeof triples);
        for (size_t at = 0; at < made.triple_count; at++) {
            triples[at] += 16;
            g.triples = lend_copy(TRIPLES, LOW, triples, 2 * made.triple_count), g.triple_count = made.triple_count;
            attempt_with("one record more", WRITE, g, HEAP, KB_FILE);
            triples[at] -= 16;
            g.triples = lend_copy(TRIPLES, HIGH, triples, 2 * at), g.triple_count = at;
            attempt_with("one record more, cut", WRITE, g, HEAP, KB_FILE);
        }
        g.triples = lend_copy(TRIPLES, HIGH, triples, 2 * made.triple_count), g.triple_count = made.triple_count;
        attempt_with("one record more", WRITE, g, HEAP, KB_FILE);
    }
}

/* A file with one table over three choices too many, that is refused with 27 where its body is whole and with 1 where it is not; and a file
   whose first such table has a wrong count: 26. */
static void refused_files(void) {
    for (uint64_t n = 29; n <= 32; n++)
        for (int fault = 0; fault < 2; fault++) {
            make_job(&made, n, 3, 30, 3, 0);
            made.given = n % 2;
            if (n < 32) add_triples(&made, 32 - n, 3);
            arguments g = ordinary(&made);
            size_t at = job_length(&made) - 2;
            const uint8_t more[] = {'T', 'T', 0, 1, 2, 1, 0, 0, 0, 'E', 'N'};
            if (fault && n == 32) continue;
            if (fault) at = records_at(&made), bytes[at + 5] = 0, g.number = 26;
            else memcpy(bytes + at, more, sizeof more), g.length = at + sizeof more, g.number = 27;
            g.place = at;
            /* a count of 0 has a body of 4 bytes: what stands behind it is read as marks, and the record is refused before them */
            for (int way = 0; way < WAYS; way++) {
                arguments h = g;
                h.file = lend_copy(FILES, way, bytes, g.length);
                for (entry e = 0; e < ENTRIES; e++)
                    if (e != WRITE) attempt_with("a refused file", e, h, way, ordinary_size(e, &h));
                for (size_t cut = 1; !fault && cut < 9; cut++) {
                    h.length = at + cut, h.number = 1, h.place = at;
                    h.file = lend_copy(FILES, way, bytes, h.length);
                    for (entry e = 0; e < ENTRIES; e++)
                        if (e != WRITE) attempt_with("a refused file, cut", e, h, way, ordinary_size(e, &h));
                }
            }
        }
}

/* Texts of formulas of up to MOST bytes and longer ones, of choices with any number of options, in buffers that are short, exact and
   longer; then prefixes of hundreds of booleans: won by the first path, so for each option of a day's first choice, and lost at once. */
static void formulas(void) {
    arguments g;
    for (uint64_t round = 0; round < 300; round += step(15)) {
        make_job(&made, 1 + drawn() % 9, 0xffff, drawn() % 101, 20 + drawn() % 81, drawn() % 40);
        for (uint64_t k = 0; k < made.n; k++) narrow(&made, k, some_mask());
        if (drawn() % 2 == 0) add_triples(&made, drawn() % 3, 1 + drawn() % 16);
        g = ordinary(&made);
        const size_t sizes[] = {0, 1, g.text_length / 2, g.text_length - 1, g.text_length, g.text_length + 1, g.text_length + 40};
        for (int k = 0; k < WAYS * 7; k++)
            for (entry e = FORMULA; e <= JUDGE_FORMULA && sizes[k / WAYS] <= MOST; e++)
                attempt_with("a formula", e, g, k % WAYS, sizes[k / WAYS]);
    }
    for (int round = 0; round < 3; round++) {
        make_job(&made, 32, 0xffff, 0, 0, 0);
        if (round == 1) made.universal = 1;
        if (round == 2) made.m = made.tables[1] = 1, narrow(&made, 0, 3), narrow(&made, 1, 6);
        g = ordinary(&made);
        g.soon = 1;
        for (int way = 0; way < WAYS; way++) attempt_with("a long prefix", JUDGE_FORMULA, g, way, g.text_length);
    }
}

/* Jobs of up to 32 choices and of one group to many: each group in buffers that are short, exact and longer, and the numbers behind. */
static void splits(void) {
    for (uint64_t round = 0; round < 300; round += step(15)) {
        uint64_t n = 1 + drawn() % 32;
        make_job(&made, n, 0x8005, drawn() % 101, (unsigned)(drawn() % (1 + 200 / n)), drawn() % 60);
        if (drawn() % 2 == 0) add_triples(&made, drawn() % (33 - n), 1 + drawn() % 16);
        made.given = drawn() % 2, made.rules = drawn() % 128;
        uint32_t groups[32];
        arguments g = ordinary(&made);
        uint64_t count = groups_of(g.whole, groups);
        attempt_with("groups", GROUPS, g, HEAP, 0);
        for (g.group = 0; g.group < count + 2; g.group++) {
            size_t length = asked_length(&g);
            const size_t sizes[] = {0, 1, length / 2, length - 1, length, length + 1, length + 40};
            for (int k = 0; k < WAYS * 7; k++) attempt_with("a group", GROUP, g, k % WAYS, sizes[k / WAYS]);
        }
    }
}

/* Memory that is short by any size, exact, and longer, and lists that fit or do not. */
static void sizes(void) {
    for (int way = 0; way < WAYS; way++) {
        make_job(&made, 3, 0x8005, 30, 100, 20);
        add_triples(&made, (uint64_t)way % 2, 9);
        arguments g = ordinary(&made);
        g.position = (kb_position){1, 1, {2}};
        for (size_t size = 0; size <= job_length(&made) + 40; size++) attempt_with("a buffer", WRITE, g, way, size);
        for (size_t size = 0; size <= KB_TEXT; size += size < 200 ? 1 : 103) attempt_with("a buffer", REPORT, g, way, size);
        for (size_t size = 0; size <= g.text_length + 40; size += step(20)) {
            attempt_with("a buffer", FORMULA, g, way, size);
            attempt_with("a buffer", JUDGE_FORMULA, g, way, size);
        }
        for (size_t size = 0; size <= asked_length(&g) + 40; size++) attempt_with("a buffer", GROUP, g, way, size);
        for (size_t size = 0; size <= room_bytes(&made) + 200; size += 2 * step(50)) {
            attempt_with("a room", JUDGE_IN, g, way, size);
            attempt_with("a room", MARK_IN, g, way, size);
        }
        for (size_t more = 0; more < 5; more++) {
            attempt_with("a room", JUDGE_IN, g, way, room_bytes(&made) - 4 + 2 * more);
            attempt_with("a room", MARK_IN, g, way, room_bytes(&made) - 4 + 2 * more);
        }
        for (size_t masks = 0; masks <= 40; masks++)
            for (entry e = ARC; e <= INTERCHANGEABLE; e++) attempt_with("a list", e, g, way, 2 * masks);
        for (unsigned at = 0; at < g.whole->n; at++)
            for (unsigned mask = 0; mask < 65536; mask += mask < 40 ? 1 : (unsigned)step(40) * 257) {
                arguments h = g;
                h.list[at] = (uint16_t)mask;
                for (entry e = ARC; e <= INTERCHANGEABLE; e++) attempt_with("a mask of a list", e, h, way, 2 * h.whole->n);
            }
    }
}

/* Lists that share memory with the file or with each other, all of them only read. */
static void overlaps(void) {
    static uint16_t words[64];
    uint8_t *odd = (uint8_t *)words + 1;
    /* The file itself as the calls, up to every byte. */
    for (uint64_t round = 0; round < 20; round += step(7)) {
        some_job(&made);
        arguments g = ordinary(&made);
        g.calls = g.file;
        for (g.call_count = 0; g.call_count <= g.length; g.call_count++) attempt_with("the file as calls", REPLAY, g, HEAP, 0);
    }
    /* A file at an odd address has its masks and rows at even ones. One choice: the list is the file's mask; two: rows 0 and 1. */
    for (uint64_t n = 1; n <= 2; n++) {
        make_job(&made, n, 3, 50, 100, 0);
        made.given = 0;
        arguments g = ordinary(&made);
        memcpy(odd, bytes, g.length);
        g.file = odd, g.lent = odd + (n == 1 ? 7 : 17), g.size = 2 * n;
        memcpy(g.list, g.lent, g.size);
        for (entry e = LOOK_AHEAD; e <= INTERCHANGEABLE; e++) attempt("a list in the file", e, &g);
    }
    /* The last two domains are the pair of the only table; then lists that coincide and are refused. */
    make_job(&made, 3, 3, 0, 0, 0);
    uint16_t both[40] = {5, 1, 2, 2};
    arguments g = ordinary(&made);
    g.m = 1, g.given = 0, g.domains = both, g.tables = both + 1, g.table_count = TABLE;
    attempt_with("lists that overlap", WRITE, g, HEAP, 7 + 12 + 36);
    g.n = g.domain_count = TABLE, g.tables = both;
    for (unsigned k = 0; k < TABLE; k++) both[k] = (uint16_t)(k + 1);
    attempt_with("lists that coincide", WRITE, g, HEAP, 300);
    both[0] = 3, both[1] = 2;
    attempt_with("lists that coincide", WRITE, g, HEAP, 300);
    both[5] = 0;
    attempt_with("lists that coincide", WRITE, g, HEAP, 300);
}

/* ---- threads */

/* Calls on one file that differ in their other arguments, and what each entry replies and leaves when it runs alone. */
enum { VARIANTS = 4 };

static arguments variants[VARIANTS];
static outcome alone[VARIANTS][ENTRIES];

/* A thread that calls: the variant and the entry, what it got, memory of its own to lend. */
typedef struct {
    int variant;
    entry which;
    outcome got;
    _Alignas(8) uint8_t memory[MOST];
    uint64_t wrong;
} caller;

static void call_own(caller *c) {
    arguments g = variants[c->variant];
    g.size = ordinary_size(c->which, &g), g.lent = c->memory;
    fill(c->which, &g, c->memory);
    call(c->which, &g, &c->got);
}

static int as_alone(const caller *c) {
    const outcome *want = &alone[c->variant][c->which];
    return memcmp(&c->got.reply, &want->reply, sizeof want->reply) == 0
        && memcmp(c->got.lent, want->lent, ordinary_size(c->which, &variants[c->variant])) == 0;
}

/* Whether the entry is called in the variant. */
static int tried(const caller *c) {
    const arguments *g = &variants[c->variant];
    return asked(c->which, g, ordinary_size(c->which, g));
}

/* Every entry alone in every variant. */
static void call_alone(void) {
    static caller c;
    for (c.variant = 0; c.variant < VARIANTS; c.variant++)
        for (c.which = 0; c.which < ENTRIES; c.which++) {
            if (!tried(&c)) continue;
            call_own(&c);
            alone[c.variant][c.which] = c.got;
        }
}

static pthread_barrier_t gate;

static int rounds(void) { return threads < 64 ? 20 : 400; }

static void *call_many(void *with) {
    caller *c = with;
    pthread_barrier_wait(&gate);
    for (int k = 0; k < rounds() * ENTRIES; k++) {
        c->which = (c->which + 1) % ENTRIES;
        call_own(c);
        c->wrong += !as_alone(c);
    }
    return NULL;
}

/* Many threads at once on one file, with won and lost positions among the variants. */
static void crowd(void) {
    static caller callers[64];
    pthread_t ids[64];
    do {
        make_job(&made, 5, 0x8005, 30, 60, 20);
        add_triples(&made, 1, 3);
        for (int v = 0; v < VARIANTS; v++) {
            variants[v] = ordinary(&made);
            some_numbers(&variants[v], (uint64_t)v);
        }
    } while (verdict(&made, variants[0].position) == verdict(&made, variants[3].position));
    for (int v = 0; v < VARIANTS; v++) attempt_each("before the threads", &variants[v], HEAP);
    call_alone();
    pthread_barrier_init(&gate, NULL, (unsigned)threads);
    for (int k = 0; k < threads; k++) {
        callers[k].variant = k % VARIANTS;
        if (pthread_create(&ids[k], NULL, call_many, &callers[k]) != 0) {
            fprintf(stderr, "hostile: no thread\n");
            exit(2);
        }
    }
    for (int k = 0; k < threads; k++) {
        pthread_join(ids[k], NULL);
        checks += (uint64_t)rounds() * ENTRIES;
        if (callers[k].wrong != 0) printf("hostile: thread %d: %d replies differ\n", k, (int)callers[k].wrong);
        wrongs += callers[k].wrong;
    }
    pthread_barrier_destroy(&gate);
}

static void *call_once(void *with) {
    call_own(with);
    return NULL;
}

/* Every entry on a stack of KB_STACK bytes above an unreadable page, on jobs of 32 choices with every turn entered, after up to 3 plays;
   the judge of formulas on one of KB_FORMULA_STACK bytes, on 512 booleans in the last round. CALLER is for the thread's own data and the
   frames above the call, with a sanitizer's additions. */
static void small_stack(void) {
    static caller c;
    enum { CALLER = 16384, LAST = 8 };
    uint8_t *stack = between_pages(KB_FORMULA_STACK + CALLER);
    for (unsigned round = 0; round <= LAST; round++) {
        if (round == LAST) make_job(&made, 32, 0xffff, 0, 0, 0);
        else make_job(&made, round % 4 == 3 ? 20 : 32, 3, round % 2 ? 0 : 3, round % 3 ? 5 : 100, round * 2);
        add_triples(&made, round == LAST ? 0 : 32 - made.n, 8);
        for (int v = 0; v < VARIANTS; v++) {
            static const uint64_t sets[VARIANTS] = {127, 3, 99, 63};
            variants[v] = ordinary(&made);
            variants[v].position.plays = (uint64_t)v, variants[v].rules = sets[v], variants[v].soon = round == LAST;
        }
        call_alone();
        for (c.variant = 0; c.variant < VARIANTS; c.variant++)
            for (c.which = 0; c.which < ENTRIES; c.which++) {
                if (!tried(&c)) continue;
                run_on(stack, (c.which == JUDGE_FORMULA ? KB_FORMULA_STACK : KB_STACK) + CALLER, call_once, &c);
                checks++;
                if (as_alone(&c)) continue;
                wrongs++;
                printf("hostile: on a small stack: %s differs\n", names[c.which]);
            }
    }
}

int main(int count, char **words) {
    threads = count == 2 ? atoi(words[1]) : 0;
    if (threads < 1 || threads > 64) {
        fprintf(stderr, "usage: hostile THREADS, 1 to 64\n");
        return 2;
    }
    setvbuf(stdout, NULL, _IOLBF, 0);
    nothing();
    allowed();
    cuts();
    numbers();
    several();
    positions();
    depths();
    wrong_lists();
    wrong_triples();
    refused_files();
    formulas();
    splits();
    sizes();
    overlaps();
    crowd();
    small_stack();
    for (int place = 0; place < PLACES; place++) free(blocks[place]);
    printf("hostile: %llu checks, %llu wrong\n", (unsigned long long)checks, (unsigned long long)wrongs);
    return wrongs != 0;
}
