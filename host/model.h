/* The game and the first five rules on the numbers of a job, each as document 01 words it, for small jobs, the text of the job's formula,
   as card 1 of document 02 words it, its groups, as card 4 does, what rule 4 names, as card 5 does, the position that calls reach, as
   card 6 does, and tables over three choices, as card 7 does: a plain model beside which the entries are tried. It shares nothing with
   the library. */
#ifndef MODEL_H
#define MODEL_H

#include "jobs.h"

static int has(uint64_t mask, uint64_t option) { return option < 16 && (mask >> option & 1); }
static int universal(const job *j, uint64_t k) { return j->universal >> k & 1; }

/* The table of i < k, or NULL. */
static const uint16_t *table(const job *j, uint64_t i, uint64_t k) {
    for (const uint16_t *t = j->tables; t < j->tables + TABLE * j->m; t += TABLE)
        if (t[0] == i && t[1] == k) return t;
    return NULL;
}

static int tied(const job *j, uint64_t i, uint64_t k) { return table(j, i < k ? i : k, i < k ? k : i) != NULL; }

static int goes(const job *j, uint64_t i, unsigned a, uint64_t k, unsigned b) {
    const uint16_t *t = table(j, i < k ? i : k, i < k ? k : i);
    return t == NULL || (i < k ? t[2 + a] >> b : t[2 + b] >> a) & 1;
}

/* The options of `mask` of choice k that option a of choice i goes with. */
static uint16_t going(const job *j, uint64_t i, unsigned a, uint64_t k, uint16_t mask) {
    uint16_t left = 0;
    for (unsigned b = 0; b < 16; b++)
        if (has(mask, b) && goes(j, i, a, k, b)) left |= (uint16_t)(1u << b);
    return left;
}

static int fits(const job *j, const kb_position *p) {
    if (p->plays > j->n || p->depth > p->plays) return 0;
    for (uint64_t k = 0; k < 32; k++)
        if (k < p->plays ? !has(j->domains[k], p->values[k]) : p->values[k] != 0) return 0;
    return 1;
}

/* Whether the last of so many plays keeps to every table, of two choices or of three, that has no later choice. */
static int keeps(const job *j, const kb_position *p, uint64_t plays) {
    const uint8_t *v = p->values;
    if (plays == 0) return 1;
    for (uint64_t i = 0; i < plays - 1; i++)
        if (!goes(j, i, v[i], plays - 1, v[plays - 1])) return 0;
    for EACH_RECORD(r, j) {
        int good = r[2] != plays - 1;
        for (const uint16_t *t = r + 4; t < r + 4 + 3 * r[3]; t += 3) good |= t[0] == v[r[0]] && t[1] == v[r[1]] && t[2] == v[r[2]];
        if (!good) return 0;
    }
    return 1;
}

/* Whether the game is won: every play by itself, to the last. */
static int won(const job *j, kb_position p) {
    uint64_t k = p.plays;
    if (!keeps(j, &p, k)) return 0;
    if (k == j->n) return 1;
    p.plays++;
    for (unsigned a = 0; a < 16; a++) {
        if (!has(j->domains[k], a)) continue;
        p.values[k] = (uint8_t)a;
        if (won(j, p) != universal(j, k)) return !universal(j, k);
    }
    return universal(j, k);
}

/* A position's verdict; `won` itself looks at the last play alone. */
static int verdict(const job *j, kb_position p) {
    for (uint64_t plays = 1; plays < p.plays; plays++)
        if (!keeps(j, &p, plays)) return 0;
    return won(j, p);
}

static uint64_t winning(const job *j, kb_position p) {
    uint64_t mask = 0, k = p.plays++;
    for (unsigned a = 0; a < 16; a++) {
        p.values[k] = (uint8_t)a;
        if (has(j->domains[k], a) && verdict(j, p)) mask |= 1u << a;
    }
    return mask;
}

/* Whether nothing is usable any more: a play, or what is left of an unplayed choice, got stuck on an earlier play. */
static int stuck(const job *j, const kb_position *p) {
    for (uint64_t k = 0; k < j->n; k++) {
        uint16_t all = k < p->plays ? (uint16_t)(1u << p->values[k]) : j->domains[k], left = all;
        for (uint64_t i = 0; i < k && i < p->plays; i++) left = going(j, i, p->values[i], k, left);
        if (universal(j, k) ? left != all : left == 0) return 1;
    }
    return 0;
}

static void open_options(const job *j, const kb_position *p, kb_opened *o) {
    uint64_t shown = stuck(j, p) ? p->plays : j->n;
    for (uint64_t k = 0; k < shown; k++) {
        uint16_t mask = k < p->plays ? (uint16_t)(1u << p->values[k]) : j->domains[k];
        for (uint64_t i = 0; k >= p->plays && !universal(j, k) && i < p->plays; i++) mask = going(j, i, p->values[i], k, mask);
        o->masks[k] = mask;
        for (unsigned a = 0; a < 16; a++) o->counts[k] += has(mask, a);
    }
}

/* Rule 1. Removes dead options until none is left, and says whether that is a loss. */
static int arc(const job *j, uint16_t *list) {
    int lost = 0;
    for (int more = 1; more;) {
        more = 0;
        for (uint64_t i = 0; i < j->n; i++)
            for (uint64_t k = 0; !universal(j, i) && k < j->n; k++)
                for (unsigned a = 0; k != i && tied(j, i, k) && a < 16; a++) {
                    uint16_t left = has(list[i], a) ? going(j, i, a, k, list[k]) : 0;
                    int dead = universal(j, k) && k > i ? left != list[k] : left == 0;
                    if (has(list[i], a) && dead) list[i] &= (uint16_t) ~(1u << a), more = 1;
                }
    }
    for (uint64_t i = 0; i < j->n; i++) {
        lost |= list[i] == 0;
        for (uint64_t k = 0; universal(j, i) && k < j->n; k++)
            for (unsigned a = 0; k != i && tied(j, i, k) && a < 16; a++) {
                uint16_t left = going(j, i, a, k, list[k]);
                if (has(list[i], a) && (universal(j, k) ? left != list[k] : k > i && left == 0)) lost = 1;
            }
    }
    return lost;
}

/* Rule 2. Says whether it is a loss, and the first choice where it got stuck. */
static int forward(const job *j, uint16_t *list, uint64_t x, unsigned a, uint64_t *named) {
    int lost = 0;
    list[x] = (uint16_t)(1u << a);
    for (uint64_t k = x + 1; k < j->n; k++) {
        uint16_t left = going(j, x, a, k, list[k]);
        int stuck = universal(j, k) ? left != list[k] : left == 0;
        if (!universal(j, k)) list[k] = left;
        if (stuck && !lost) *named = k;
        lost |= stuck;
    }
    return lost;
}

/* Rule 3. Says whether it finds a loss, and the first option and choice that show it. */
static int ahead(const job *j, const uint16_t *list, uint64_t x, uint64_t *option, uint64_t *named) {
    uint16_t copy[32];
    for (unsigned a = 0; universal(j, x) && a < 16; a++) {
        memcpy(copy, list, 2 * j->n);
        if (has(list[x], a) && forward(j, copy, x, a, named)) return *option = a, 1;
    }
    return 0;
}

/* Rule 4. For each option the first choice, and its first option, that it does not go with; the options without such are pure. `to` is
   zero before. */
static void pure(const job *j, const uint16_t *list, uint64_t x, kb_named_values *to) {
    for (unsigned a = 0; a < 16; a++) {
        int named = 0;
        if (!has(list[x], a)) continue;
        for (uint64_t k = 0; k < j->n; k++)
            for (unsigned b = 0; b < 16; b++) {
                if (named || k == x || !has(list[k], b) || goes(j, x, a, k, b)) continue;
                to->variables[a] = (uint8_t)k, to->values[a] = (uint8_t)b, named = 1;
            }
        *(named ? &to->impure : &to->pure) |= 1u << a;
    }
}

/* Rule 5: the options of x that have no smaller one alike. */
static uint16_t unlike_smaller(const job *j, const uint16_t *list, uint64_t x) {
    uint16_t mask = 0;
    for (unsigned a = 0; a < 16; a++) {
        int keep = has(list[x], a);
        for (unsigned b = 0; b < a; b++) {
            int alike = has(list[x], b);
            for (uint64_t k = 0; k < j->n; k++) alike &= k == x || going(j, x, a, k, list[k]) == going(j, x, b, k, list[k]);
            keep &= !alike;
        }
        if (keep) mask |= (uint16_t)(1u << a);
    }
    return mask;
}

/* The position that calls reach, by the plain list of the plays that stand and the depth beside it. */
static kb_position standing(const job *j, const uint8_t *calls, size_t count) {
    kb_position p = {0, 0, {0}};
    for (size_t c = 0; c < count; c++)
        if (calls[c] == 255) {
            if (p.plays != p.depth) p.values[--p.plays] = 0;
        } else if (calls[c] == 254) {
            p.depth = p.plays;
        } else if (calls[c] >= 192) {
            if (calls[c] - 192u <= p.depth) p.depth = calls[c] - 192u;
        } else if (p.plays < j->n && has(j->domains[p.plays], calls[c])) p.values[p.plays++] = calls[c];
    return p;
}

/* ---- the ordinary job */

/* Puts a table with no rows yet behind all that are below it by i and k, and before the others. */
static uint16_t *put_table(job *j, uint16_t i, uint16_t k) {
    uint16_t *t = j->tables + TABLE * j->m++;
    for (; t > j->tables && 32 * t[-TABLE] + t[1 - TABLE] > 32 * i + k; t -= TABLE) memcpy(t, t - TABLE, 2 * TABLE);
    memset(t, 0, 2 * TABLE);
    t[0] = i, t[1] = k;
    return t;
}

/* The job without tables over three choices: for each of them a choice of the shift's behind all others, whose options are the places of
   its triples, and a table between it and each of the three. */
static void ordinary_job(const job *j, job *to) {
    *to = *j;
    to->triple_count = 0;
    for EACH_RECORD(r, j) {
        uint64_t hidden = to->n++;
        to->domains[hidden] = (uint16_t)((1u << r[3]) - 1);
        for (int k = 0; k < 3; k++) {
            uint16_t *t = put_table(to, r[k], (uint16_t)hidden);
            for (unsigned g = 0; g < r[3]; g++) t[2 + r[4 + 3 * g + (unsigned)k]] |= (uint16_t)(1u << g);
        }
    }
}

/* ---- the job's formula */

/* A text of which the first `most` bytes are kept; `length` counts all. */
typedef struct {
    uint8_t *bytes;
    size_t most, length;
} writing;

static void put_words(writing *t, const char *words) {
    for (; *words != '\0'; words++, t->length++)
        if (t->length < t->most) t->bytes[t->length] = (uint8_t)*words;
}

/* A number, after a sign or nothing and before a space or a line's end. */
static void put_number(writing *t, const char *sign, unsigned number, const char *behind) {
    char digits[] = "0000000000";
    char *first = digits + sizeof digits - 1;
    do *--first = (char)('0' + number % 10), number /= 10;
    while (number != 0);
    put_words(t, sign), put_words(t, first), put_words(t, behind);
}

/* A choice as booleans: its options ascending, the number of its first boolean, and how many it has. */
typedef struct {
    unsigned options[16], count, first, width;
    int day;
} coded;

/* Codes the choices. How many booleans the formula has, the closing one too. */
static unsigned code_choices(const job *j, coded *to) {
    unsigned booleans = 0;
    for (uint64_t k = 0; k < j->n; k++, to++) {
        *to = (coded){.first = booleans + 1, .width = 1, .day = universal(j, k)};
        for (unsigned a = 0; a < 16; a++)
            if (has(j->domains[k], a)) to->options[to->count++] = a;
        while (1u << to->width < to->count) to->width++;
        if (!to->day) to->width = to->count;
        booleans += to->width;
    }
    return booleans + (universal(j, j->n - 1) ? 1 : 0);
}

static unsigned boolean_count(const job *j) {
    coded choices[32];
    return code_choices(j, choices);
}

/* Its booleans. */
static void put_own(writing *t, const coded *c) {
    for (unsigned b = 0; b < c->width; b++) put_number(t, "", c->first + b, " ");
}

/* The codes of a day's choice, the booleans of a shift's: how many, and the literals that one of them makes false. */
static unsigned codes(const coded *c) { return c->day ? 1u << c->width : c->width; }

static void put_against(writing *t, const coded *c, unsigned code) {
    if (!c->day) put_number(t, "-", c->first + code, " ");
    for (unsigned bit = 0; c->day && bit < c->width; bit++) put_number(t, code >> bit & 1 ? "-" : "", c->first + bit, " ");
}

/* The clauses that keep the options at these places apart: how many. */
static unsigned put_clash(writing *t, const coded *i, unsigned a, const coded *k, unsigned b) {
    unsigned count = 0;
    for (unsigned lower = 0; lower < codes(i); lower++)
        for (unsigned higher = 0; lower % i->count == a && higher < codes(k); higher++) {
            if (higher % k->count != b) continue;
            put_against(t, i, lower), put_against(t, k, higher), put_words(t, "0\n");
            count++;
        }
    return count;
}

/* All clauses: how many. */
static unsigned put_clauses(writing *t, const job *j, const coded *choices, unsigned booleans) {
    unsigned count = 0;
    for (const coded *c = choices; c < choices + j->n; c++)
        if (!c->day) put_own(t, c), put_words(t, "0\n"), count++;
    for (const uint16_t *rows = j->tables; rows < j->tables + TABLE * j->m; rows += TABLE) {
        const coded *i = choices + rows[0], *k = choices + rows[1];
        for (unsigned a = 0; a < i->count; a++)
            for (unsigned b = 0; b < k->count; b++)
                if (!(rows[2 + i->options[a]] >> k->options[b] & 1)) count += put_clash(t, i, a, k, b);
    }
    if (choices[j->n - 1].day) put_number(t, "", booleans, " 0\n"), count++;
    return count;
}

/* The text of the job's formula, so many bytes of it at most: its length. */
static size_t formula_text(const job *j, uint8_t *bytes, size_t most) {
    coded choices[32];
    unsigned booleans = code_choices(j, choices);
    writing none = {NULL, 0, 0}, t = {bytes, most, 0};
    put_number(&t, "p cnf ", booleans, " ");
    put_number(&t, "", put_clauses(&none, j, choices, booleans), "\n");
    for (uint64_t k = 0; k < j->n; k++) {
        if (k == 0 || choices[k].day != choices[k - 1].day) put_words(&t, choices[k].day ? "a " : "e ");
        put_own(&t, &choices[k]);
        if (k + 1 == j->n || choices[k].day != choices[k + 1].day) put_words(&t, "0\n");
    }
    if (choices[j->n - 1].day) put_number(&t, "e ", booleans, " 0\n");
    put_clauses(&t, j, choices, booleans);
    return t.length;
}

/* ---- the job's groups */

/* The choices that hang together with choice k, as bits: over and over all tables, until none joins another choice. */
static uint32_t group_with(const job *j, uint64_t k) {
    uint32_t all = 1u << k, before = 0;
    while (all != before) {
        before = all;
        for (const uint16_t *t = j->tables; t < j->tables + TABLE * j->m; t += TABLE) {
            uint32_t both = 1u << t[0] | 1u << t[1];
            if (all & both) all |= both;
        }
    }
    return all;
}

/* The groups as bits, by their smallest choices: how many. */
static uint64_t groups_of(const job *j, uint32_t *groups) {
    uint64_t count = 0;
    uint32_t seen = 0;
    for (uint64_t k = 0; k < j->n; k++) {
        if (seen >> k & 1) continue;
        groups[count] = group_with(j, k);
        seen |= groups[count++];
    }
    return count;
}

/* The length of the file of this group. */
static size_t group_length(const job *j, uint32_t group) {
    size_t length = 7 + (j->given ? 3 : 0);
    for (uint64_t k = 0; k < j->n; k++) length += group >> k & 1 ? 4 : 0;
    for (const uint16_t *t = j->tables; t < j->tables + TABLE * j->m; t += TABLE) length += group >> t[0] & 1 ? 36 : 0;
    return length;
}

/* The job of this group, its choices renumbered in order. */
static void group_job(const job *j, uint32_t group, job *to) {
    uint16_t places[32];
    to->n = to->m = to->universal = 0, to->given = j->given, to->rules = j->rules;
    for (uint64_t k = 0; k < j->n; k++) {
        if (!(group >> k & 1)) continue;
        to->universal |= (uint64_t)universal(j, k) << to->n;
        to->domains[to->n] = j->domains[k], places[k] = (uint16_t)to->n++;
    }
    for (const uint16_t *t = j->tables; t < j->tables + TABLE * j->m; t += TABLE) {
        uint16_t *own = to->tables + TABLE * to->m;
        if (!(group >> t[0] & 1)) continue;
        memcpy(own, t, 2 * TABLE);
        own[0] = places[t[0]], own[1] = places[t[1]], to->m++;
    }
}

#endif
