/* Kickballbox for a C host: job files read, looked up, written, played, judged, marked, written as boolean formulas, and split into the
   groups of choices that hang together.

   The functions are in libhost.a (`host/library` writes it), for x86-64 Linux. Each is proved to end, to stay inside the memory that it
   is lent, to reply what is said here and to write nothing else, for every argument; crates/host has the statements.

   What a caller owes: a pointer is good for the length that comes with it (bytes, or 16-bit numbers, which are aligned); what a
   function writes overlaps nothing else that it is lent. A length of 0 may come with any pointer, NULL too. What is only read may
   overlap. The session's pointer is never NULL.

   Every number is 64 bits wide and is tested whole: 256 is no rule set, and 2^64 - 1 plays are too many.

   Each reply begins with

       kind      KB_FINISHED     the reply's own fields hold
                 KB_REFUSED      refused; `number` says why
                 KB_REFUSED_AT   the file is refused; `number` says why (1 to 9, 26, 27) and `place` at which byte
       number    0 in a finished reply
       place     0 but for KB_REFUSED_AT

   and a field that says nothing is zero. A refused call writes nothing. Every function that takes a file reads it first and refuses it
   with KB_REFUSED_AT (but kb_report, which tells the refusal as a text); what else a function refuses stands beside it, in the order
   of its tests.

       1 Short    5 Pair     9 Tail      20 Full     a play when all choices are played
       2 Mark     6 Order   10 Option    21 Bare     a take-back when none is played
       3 Count    7 Stray   11 Choice    22 Done     marks asked when all choices are played
       4 Domain   8 Rules   12 Room      23 Misfit   a position that the file does not allow
                            13 List      24 Locked   a take-back when all plays are held
                                         25 Depth    an unlock to more plays than are held
      26 Triple   of a table over three choices: a wrong index, count, option or order
      27 Many     choices and tables over three choices, more than 32 together

   11 Choice is also the number of a group that the file does not have (kb_group).

   A table over three choices (a record TT of the file) holds the triples of options that are good together. Verdict and marks are those of
   the game in which these tables are looked at as well. kb_search, the rules alone, kb_formula, kb_judge_formula, kb_groups and kb_group
   work on the ordinary job, in which no table is over three choices: it has the file's n choices, behind them one of the shift's for each of
   the t tables over three choices, whose options are the places of its triples, counted from 0, and beside the file's tables of two choices
   one to each of the three, which ties a place to the option that the triple there has. These are n + t choices, at most 32; without tables
   over three choices it is the job of the file itself. Plays, positions, marks and open options speak of the file's own n choices
   everywhere; open options and kb_look_up go by its tables of two choices alone.

   No function keeps anything from call to call or takes memory from the heap, so calls may run side by side on several threads, as
   long as none writes what another is lent.

   Stack: give a call KB_STACK bytes below its caller's frame, whatever the file, but kb_judge_formula KB_FORMULA_STACK: 992 KB of its
   frame are an index of the clauses, and it calls itself once for each boolean, 512 at most. The measured need is less: the proof
   knows of no stack; host/stack.c measures it (54,960 bytes at the deepest, kb_group; 50,784 for kb_report with 32 choices played
   one below another; about 1.1 MB for kb_judge_formula). */
#ifndef KICKBALLBOX_H
#define KICKBALLBOX_H

#include <stddef.h>
#include <stdint.h>

#ifdef __cplusplus
extern "C" {
#endif

/* Raised by every change of a function or a struct below. A program asks `kb_interface() == KB_INTERFACE` once, before any other
   call: else header and library are not of one make. */
#define KB_INTERFACE 7

#define KB_FINISHED 0
#define KB_REFUSED 1
#define KB_REFUSED_AT 2

#define KB_STACK 131072
#define KB_FORMULA_STACK 1572864

/* Bytes of buffer that suffice for every text of kb_report, words of room that suffice for every file, and the longest accepted
   file in bytes. Of a longer input the first 18,763 bytes decide, and who wants a refused file's number and place gives so many of them:
   behind the longest tables a record TT may stand at 17,992, and only with its whole body, 4 bytes and up to 3·255, behind the 2 of its
   mark, is it refused with 27 and not with 1. */
#define KB_TEXT 1024
#define KB_ROOM 4224
#define KB_FILE 17994

/* Bytes of buffer that suffice for every text of kb_formula. Computed and not proved; a text that did not fit would be refused with 12. */
#define KB_FORMULA 4131214

/* A position: how many choices are played, how many of these plays, the first ones, are held (the lock depth), and 32 places, the options
   played in order of play and zero elsewhere. The fresh position is all zero. Any contents may be handed in: what the file does not allow
   is refused with 23, and so is a depth above the plays. Marks, open options and verdicts do not depend on the depth. */
typedef struct {
    uint64_t plays;
    uint64_t depth;
    uint8_t values[32];
} kb_position;

/* A position that is lent to kb_session_play, kb_session_take_back, kb_session_lock and kb_session_unlock, which alter it. */
typedef kb_position kb_session;

/* What a file says. Bit k of `universal` is set where choice k is the day's; bit a of domains[k] where option a is in the mask
   of choice k. From n on both are zero. */
typedef struct {
    uint64_t kind;
    uint64_t number;
    uint64_t place;
    uint64_t n;         /* choices */
    uint64_t m;         /* tables of two choices */
    uint64_t t;         /* tables over three choices */
    uint64_t universal;
    uint64_t given;     /* 1 where the file names a rule set, else 0 */
    uint64_t rules;     /* the rule set to judge by: the file's, else USUAL */
    uint16_t domains[32];
} kb_reading;

/* Whether a table ties two choices, and where the first of its 32 row bytes stands in the file. */
typedef struct {
    uint64_t kind;
    uint64_t number;
    uint64_t place;
    uint64_t found;     /* 1 or 0 */
    uint64_t rows;
} kb_found;

/* Whether there is a table over three choices of this number, where its body begins in the file, and how many bytes that has: i, j, k and
   the count, a byte each, then for each triple an option of i, of j and of k, a byte each. */
typedef struct {
    uint64_t kind;
    uint64_t number;
    uint64_t place;
    uint64_t found;     /* 1 or 0 */
    uint64_t body;
    uint64_t length;
} kb_found_triples;

/* How many bytes were written. */
typedef struct {
    uint64_t kind;
    uint64_t number;
    uint64_t place;
    uint64_t length;
} kb_written;

/* What a call answers that replies nothing else. */
typedef struct {
    uint64_t kind;
    uint64_t number;
    uint64_t place;
} kb_answer;

/* What a play, a take-back, a lock or an unlock answers, and the position that it leads to: of a refused call the one that it was
   given. */
typedef struct {
    kb_answer answer;
    kb_position position;
} kb_moved;

/* The open options of each choice as a mask, and how many they are. From n on both are zero. */
typedef struct {
    uint64_t kind;
    uint64_t number;
    uint64_t place;
    uint16_t masks[32];
    uint8_t counts[32];
} kb_opened;

typedef struct {
    uint64_t kind;
    uint64_t number;
    uint64_t place;
    uint64_t won;       /* 1 or 0 */
} kb_judgement;

/* Masks of options of the next choice: those that win, and all that the file has there. */
typedef struct {
    uint64_t kind;
    uint64_t number;
    uint64_t place;
    uint64_t winning;
    uint64_t domain;
} kb_marks;

/* What marking and the open options reply at the position that a list of calls reaches. Each has a kind of its own. */
typedef struct {
    kb_marks marks;
    kb_opened opened;
} kb_replayed;

/* Whether arc found a loss. */
typedef struct {
    uint64_t kind;
    uint64_t number;
    uint64_t place;
    uint64_t lost;      /* 1 or 0 */
} kb_ruled;

/* Whether a forward check is a loss. If so, `variable` names the lowest later choice that was emptied (the shift's) or that holds a
   clash (the day's); else nothing is named, and it is zero. */
typedef struct {
    uint64_t kind;
    uint64_t number;
    uint64_t place;
    uint64_t lost;      /* 1: a choice is named; or 0 */
    uint64_t variable;
} kb_checked;

/* Whether look ahead finds a loss. If so, `value` names the smallest option whose forward check is a loss, and `variable` the choice
   that this check names; else nothing is named, and both are zero. */
typedef struct {
    uint64_t kind;
    uint64_t number;
    uint64_t place;
    uint64_t lost;      /* 1: an option and a choice are named; or 0 */
    uint64_t value;
    uint64_t variable;
} kb_looked;

/* A mask of options. */
typedef struct {
    uint64_t kind;
    uint64_t number;
    uint64_t place;
    uint64_t values;
} kb_values;

/* The pure options of a choice, and the others of the list's mask. For each of these others, a, `variables[a]` names the first choice in
   order of play, the choice itself left out, of which the list has an option that a does not go with, and `values[a]` its smallest such
   option; else nothing is named, and both are zero. Choice 0 and option 0 are names too: `impure` tells where there is one. */
typedef struct {
    uint64_t kind;
    uint64_t number;
    uint64_t place;
    uint64_t pure;      /* bit a: option a is pure */
    uint64_t impure;    /* bit a: option a is in the list's mask and not pure: at a a choice and an option are named */
    uint8_t variables[16];
    uint8_t values[16];
} kb_named_values;

/* What a search finds: the verdict; whether the rules of its first turn found a loss, and the list that they reached; the conflict
   set of a lost search, bit k for choice k; the leaf of a won one, an option for each choice. The choices are those of the ordinary job:
   from n + t on list and leaf are zero. */
typedef struct {
    uint64_t kind;
    uint64_t number;
    uint64_t place;
    uint64_t won;       /* 1 or 0 */
    uint64_t loss;      /* 1 or 0 */
    uint64_t conflict;
    uint16_t list[32];
    uint16_t leaf[32];
} kb_searched;

/* Whether the job's formula is true, which it is exactly if the job is won, and how many bytes its text has. */
typedef struct {
    uint64_t kind;
    uint64_t number;
    uint64_t place;
    uint64_t won;       /* 1 or 0 */
    uint64_t length;
} kb_formula_judgement;

/* How many groups the choices of the ordinary job form, and the group of each. From n + t on it is zero. At most n groups: the choice of
   a table over three choices is in the group of its three. */
typedef struct {
    uint64_t kind;
    uint64_t number;
    uint64_t place;
    uint64_t count;
    uint8_t group[32];
} kb_group_list;

/* KB_INTERFACE of the library. */
uint64_t kb_interface(void);

/* ---- files */

/* Reads a file. Refuses it with 1 to 9, 26 or 27 and the place. */
kb_reading kb_read(const uint8_t *file, size_t length);

/* Looks up the table of the choices i and j. Refuses the file; then 11 unless i < j < n. */
kb_found kb_look_up(const uint8_t *file, size_t length, uint64_t i, uint64_t j);

/* Looks up the table over three choices of this number, from 0 in the file's order. Refuses the file alone; of a number of t or above,
   however large, `found` is 0. */
kb_found_triples kb_look_up_triples(const uint8_t *file, size_t length, uint64_t number);

/* Writes the file of these numbers at the front of the buffer: n choices, m tables of two choices, the rule set `rules` unless `given` is
   0, bit k of `universal` for a choice k of the day's, n domains, 18 numbers a table of two choices (i, j, its 16 rows), and the tables
   over three choices one behind another, as many as the list holds: i, j, k, a count, and for each triple counted an option of i, of j
   and of k. i < j < k < n, the count is 1 to 16, each option is in its choice's mask, triples ascend strictly, and so do these tables by
   (i, j, k). Replies the length; bytes behind it keep their contents. Refuses with 3 (n or m), 13 (not n domains, not 18·m numbers, or
   triples that stop within a table: fewer than four numbers are left, or fewer than the count asks for), 8 (a rule set above 127), 11 (a
   bit of `universal` at n or above), 4 (a domain without an option), 5, 6, 7 (table by table), then for one table over three choices
   after the other 27 (n and these tables so far are more than 32) and 26 (else one of the above fails), 12 (the buffer is shorter than
   the file). */
kb_written kb_write(uint8_t *buffer, size_t size, uint64_t n, uint64_t m, uint64_t given, uint64_t rules, uint64_t universal,
                    const uint16_t *domains, size_t domain_count, const uint16_t *tables, size_t table_count, const uint16_t *triples,
                    size_t triple_count);

/* Writes what the judging program prints of these bytes at the front of the buffer, a line `refused 2 at 5` of a refused file.
   Replies the length, at most KB_TEXT; bytes behind it keep their contents. Refuses with 12 (the buffer is shorter than the text). */
kb_written kb_report(const uint8_t *file, size_t length, uint8_t *buffer, size_t size);

/* ---- plays */

/* Plays this option of the next choice; the depth stays. Refuses the file; then 23; 20; 10 (an option that is not in the choice's mask). */
kb_moved kb_play(const uint8_t *file, size_t length, kb_position position, uint64_t option);

/* Takes the last play back; the depth stays. Refuses the file; then 23; 21; 24 (all plays are held). */
kb_moved kb_take_back(const uint8_t *file, size_t length, kb_position position);

/* Holds all plays: sets the depth to their number. Refuses the file; then 23. */
kb_moved kb_lock(const uint8_t *file, size_t length, kb_position position);

/* Holds the first `number` plays alone: sets the depth to this number. Refuses the file; then 23; 25 (fewer plays are held). */
kb_moved kb_unlock(const uint8_t *file, size_t length, kb_position position, uint64_t number);

/* The same on a session, which is left as it was where the call is refused. */
kb_answer kb_session_play(const uint8_t *file, size_t length, kb_session *session, uint64_t option);
kb_answer kb_session_take_back(const uint8_t *file, size_t length, kb_session *session);
kb_answer kb_session_lock(const uint8_t *file, size_t length, kb_session *session);
kb_answer kb_session_unlock(const uint8_t *file, size_t length, kb_session *session, uint64_t number);

/* The open options of every choice, those still usable: a played one's own option, all of a day's choice, and of a shift's choice
   those that go with every play. Nothing is usable at any unplayed choice if two plays clash, if no option of an unplayed shift's
   choice goes with every play, or if a play clashes with an option of an unplayed day's choice. Tables over three choices count for
   nothing here. Refuses the file; then 23. */
kb_opened kb_open(const uint8_t *file, size_t length, kb_position position);

/* ---- judging */

/* Whether the position is won under this rule set. The position comes as numbers: the plays, the depth, and the 32 places packed into
   four, eight each, the lowest byte first: place k is byte k % 8 of number k / 8. Refuses the file; then 8 (a rule set above 127); 23. */
kb_judgement kb_judge(const uint8_t *file, size_t length, uint64_t plays, uint64_t depth, uint64_t places0, uint64_t places1,
                      uint64_t places2, uint64_t places3, uint64_t rules);

/* Marks the options of the next choice. Refuses the file; then 8; 23; 22. */
kb_marks kb_mark(const uint8_t *file, size_t length, uint64_t plays, uint64_t depth, uint64_t places0, uint64_t places1,
                 uint64_t places2, uint64_t places3, uint64_t rules);

/* The same of a position by value, in lent room, 16-bit numbers of any contents: the 128·(n + t + 1) words that a call needs are zero
   afterwards, those behind them as they were. Refuse as above, and last with 12 (fewer words). */
kb_judgement kb_judge_in(const uint8_t *file, size_t length, kb_position position, uint64_t rules, uint16_t *room, size_t words);
kb_marks kb_mark_in(const uint8_t *file, size_t length, kb_position position, uint64_t rules, uint16_t *room, size_t words);

/* What a search from the position finds under this rule set, in the ordinary job. Refuses as kb_judge does. */
kb_searched kb_search(const uint8_t *file, size_t length, kb_position position, uint64_t rules);

/* Runs calls from the fresh position, each a byte: 255 a take-back, 254 a lock, 192 to 253 an unlock to that number less 192, any other
   a play of that option; a refused one changes nothing. Replies kb_mark and kb_open of the position reached, each with its own refusals:
   8 and 22 are those of the marks alone. */
kb_replayed kb_replay(const uint8_t *file, size_t length, const uint8_t *calls, size_t call_count, uint64_t rules);

/* ---- rules alone

   On a lent list of a mask for each of the n + t choices of the ordinary job, none zero, each within that choice's: first those of the
   file's n choices, then for each table over three choices, in the file's order, places of its triples; all of them are (1 << count) - 1,
   where count is byte 3 of the body that kb_look_up_triples finds. `masks` is n + t. All refuse the file; then 13 (the list is none such);
   those with a choice then 11 (n + t or above). The choices named are those of the ordinary job too. */

/* Arc (rule 1): the list is left without dead options, also in a loss. */
kb_ruled kb_arc(const uint8_t *file, size_t length, uint16_t *list, size_t masks);

/* Forward check (rule 2) of option a of choice x: the list is left as checked, also in a loss, and a loss names where it got stuck.
   Refuses last with 10 (an option that is not in the list's mask). */
kb_checked kb_forward_check(const uint8_t *file, size_t length, uint16_t *list, size_t masks, uint64_t x, uint64_t a);

/* Look ahead (rule 3) at choice x: whether the forward check of one of its options is a loss, if it is the day's; of a shift's choice
   it finds none. The list is only read. */
kb_looked kb_look_ahead(const uint8_t *file, size_t length, const uint16_t *list, size_t masks, uint64_t x);

/* The pure options of choice x (rule 4): those that go with every option that the list has at any other choice. For each other option of
   the list's mask it names the first choice, in order of play, and of that the first option, that it does not go with. The list is only
   read. */
kb_named_values kb_pure(const uint8_t *file, size_t length, const uint16_t *list, size_t masks, uint64_t x);

/* The smallest of each group of options of choice x that are alike (rule 5). The list is only read. */
kb_values kb_interchangeable(const uint8_t *file, size_t length, const uint16_t *list, size_t masks, uint64_t x);

/* ---- formulas

   The ordinary job as a quantified boolean formula in QDIMACS, the text that QBF solvers read: the line `p cnf` with the numbers of
   booleans and clauses, then the prefix, then the clauses. Single spaces part the numbers, a line feed ends each line, there are no
   comments.

       booleans  one for each option of a shift's choice, existential; k for a day's choice of d options, universal, k the least number
                 of at least 1 with 2^k at least d: code c, low bit first, stands for the option at place c mod d, ascending. They are
                 numbered from 1 in order of play, then by option or bit. If the last choice is the day's, one more, existential,
                 closes the prefix
       prefix    a line `e` or `a` for each run of choices of one side
       clauses   of each shift's choice, that one of its options at least holds; of each clash of a table, one for each pair of
                 booleans or codes that stand for it; that the closing boolean holds. Tables ascend by their two choices; clashes
                 ascend, and codes within a clash, in both the lower choice's slowest; literals ascend by their boolean

   Both refuse the file; then 12 (the buffer is shorter than the text). The file's rule set counts for nothing here. */

/* Writes the text at the front of the buffer. Replies its length; bytes behind it keep their contents. */
kb_written kb_formula(const uint8_t *file, size_t length, uint8_t *buffer, size_t size);

/* Writes it and judges the text that stands there, one boolean after another; a branch ends at the first clause that is false. Its time
   is exponential in the number of booleans by nature, and no rule shortens it: it is for small jobs, a stock QBF solver for large ones. */
kb_formula_judgement kb_judge_formula(const uint8_t *file, size_t length, uint8_t *buffer, size_t size);

/* ---- groups

   Two choices of the ordinary job hang together if a chain of tables joins them; a table joins its two choices whatever it permits, and one
   over three choices its three, in whose group its own choice is. Each choice lies in one group and no table joins two groups, so the job is
   won exactly if the job of each group is. Groups are numbered from 0 by their smallest choice. */

/* Lists the groups. Refuses the file. */
kb_group_list kb_groups(const uint8_t *file, size_t length);

/* Writes this group as a job file at the front of the buffer: its choices with their masks, renumbered in order, each the shift's or the
   day's as it was, all its tables, none over three choices, and the file's rule set, if it has one. Replies the length; bytes behind it keep
   their contents. KB_FILE bytes suffice for every group. Refuses the file; then 11 (no such group); 12 (the buffer is shorter than the
   group's file). */
kb_written kb_group(const uint8_t *file, size_t length, uint64_t group, uint8_t *buffer, size_t size);

#ifdef __cplusplus
}
#endif

#endif
