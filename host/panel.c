/* A panel in the terminal: shows what a job file says, then plays it as standard input tells, with the verdict, how many plays are held,
   the marks and the open options after each command.

       panel FILE

       play 3       plays option 3 of the next choice
       back         takes the last play back
       lock         holds all plays, so that none can be taken back
       unlock 2     holds the first 2 plays alone, where so many are held
       open         shows the open options of every choice
       rules 111    judges and marks under this rule set from now on
       quit         ends, as the end of input does

   What the solver refuses is shown by number and changes nothing. It ends with 0; with 1 if the file is refused; with 2 if the library is
   of another make, the file cannot be got at or the usage is wrong. */
#define _POSIX_C_SOURCE 200809L
#include <kickballbox.h>

#include <errno.h>
#include <inttypes.h>
#include <stdio.h>
#include <string.h>
#include <unistd.h>

enum { LINE = 100, DECIDING = 18763 };

/* Room for the bytes that decide on any input, its refusal too (KB_FILE in the header): what follows changes nothing. */
static uint8_t file[DECIDING];
static size_t length;
static kb_reading reading;
static kb_session session;
static uint64_t rules;
static uint16_t room[KB_ROOM];

/* ---- what is shown */

static const char *side(uint64_t choice) {
    return reading.universal >> choice & 1 ? "day" : "shift";
}

static void show_options(uint64_t mask) {
    for (int a = 0; a < 16; a++)
        if (mask >> a & 1) printf(" %d", a);
    printf("\n");
}

/* A table over three choices: which they are, and the triples of options that are good together. */
static void show_triples(uint64_t number) {
    kb_found_triples found = kb_look_up_triples(file, length, number);
    const uint8_t *body = file + found.body;
    printf("triples of %d %d %d:", body[0], body[1], body[2]);
    for (uint64_t at = 4; at < found.length; at += 3)
        printf("%s %d %d %d", at == 4 ? "" : ",", body[at], body[at + 1], body[at + 2]);
    printf("\n");
}

static void show_file(void) {
    printf("choices %" PRIu64 "\ntables %" PRIu64 "\n", reading.n, reading.m);
    for (uint64_t q = 0; q < reading.t; q++) show_triples(q);
    printf("rules %" PRIu64 "%s\n", reading.rules, reading.given ? "" : " by default");
    for (uint64_t k = 0; k < reading.n; k++) {
        printf("choice %" PRIu64 " %s", k, side(k));
        show_options(reading.domains[k]);
    }
}

static void show_state(void) {
    kb_judgement judgement = kb_judge_in(file, length, session, rules, room, KB_ROOM);
    kb_marks marks = kb_mark_in(file, length, session, rules, room, KB_ROOM);
    kb_opened opened = kb_open(file, length, session);
    printf("answer %s\n", judgement.won ? "yes" : "no");
    if (session.depth != 0) printf("held %" PRIu64 "\n", session.depth);
    if (marks.kind != KB_FINISHED) {
        printf("all choices are played\n");
        return;
    }
    printf("next %" PRIu64 " %s\n", session.plays, side(session.plays));
    for (int a = 0; a < 16; a++)
        if (marks.domain >> a & 1) printf("option %d %s\n", a, marks.winning >> a & 1 ? "good" : "bad");
    printf("open");
    if (opened.counts[session.plays] == 0) printf(" none");
    show_options(opened.masks[session.plays]);
}

static void show_refusal(uint64_t number) {
    const char *why = number == 8    ? "rule set above 127"
                      : number == 10 ? "option not in the mask"
                      : number == 20 ? "all choices are played"
                      : number == 21 ? "no choice is played"
                      : number == 24 ? "all plays are held"
                      : number == 25 ? "fewer plays are held"
                                     : "unexpected";
    printf("refused %" PRIu64 ": %s\n", number, why);
}

/* ---- the commands */

static void show_answer(kb_answer answer) {
    if (answer.kind == KB_FINISHED) show_state();
    else show_refusal(answer.number);
}

static void play(uint64_t option) {
    show_answer(kb_session_play(file, length, &session, option));
}

static void take_back(uint64_t unused) {
    (void)unused;
    show_answer(kb_session_take_back(file, length, &session));
}

static void lock(uint64_t unused) {
    (void)unused;
    show_answer(kb_session_lock(file, length, &session));
}

static void unlock(uint64_t number) {
    show_answer(kb_session_unlock(file, length, &session, number));
}

static void show_open(uint64_t unused) {
    (void)unused;
    kb_opened opened = kb_open(file, length, session);
    for (uint64_t k = 0; k < reading.n; k++) {
        printf("choice %" PRIu64 " %s, %d open%s", k, side(k), opened.counts[k], opened.counts[k] ? ":" : "");
        show_options(opened.masks[k]);
    }
}

static void use_rules(uint64_t set) {
    kb_judgement judgement = kb_judge_in(file, length, session, set, room, KB_ROOM);
    if (judgement.kind != KB_FINISHED) {
        show_refusal(judgement.number);
        return;
    }
    rules = set;
    printf("rules %" PRIu64 "\n", rules);
    show_state();
}

static const struct {
    const char *word;
    int numbers;
    void (*run)(uint64_t number);
} commands[] = {{"play", 1, play},      {"back", 0, take_back},  {"lock", 0, lock}, {"unlock", 1, unlock},
                {"open", 0, show_open}, {"rules", 1, use_rules}, {"quit", 0, NULL}};

enum { COMMANDS = sizeof commands / sizeof commands[0], QUIT = COMMANDS - 1, NONE = -1 };

/* ---- the lines of standard input */

/* Reads a line, cut to LINE bytes, and says how long it was, or -1 at the end of input. No word has a byte 0: it is read as `?`. */
static long read_line(char line[LINE + 1]) {
    long bytes = 0;
    int c;
    while ((c = getchar()) != EOF && c != '\n') {
        if (bytes < LINE) line[bytes] = c == 0 ? '?' : (char)c;
        bytes++;
    }
    line[bytes < LINE ? bytes : LINE] = '\0';
    return c == EOF && bytes == 0 ? -1 : bytes;
}

/* Says what is wrong with the word as a number of 64 bits, or NULL. */
static const char *parse(const char *word, uint64_t *number) {
    if (word[strspn(word, "0123456789")] != '\0') return "not a number";
    for (*number = 0; *word != '\0'; word++) {
        uint64_t digit = (uint64_t)(*word - '0');
        if (*number > (UINT64_MAX - digit) / 10) return "number beyond 64 bits";
        *number = 10 * *number + digit;
    }
    return NULL;
}

/* Takes a line apart into the place of its command, or NONE where it is blank, and its number. Says what is wrong with it, or NULL. */
static const char *understand(char *line, int *command, uint64_t *number) {
    static const char blanks[] = " \t\r";
    const char *word = strtok(line, blanks);
    *number = 0;
    *command = 0;
    if (word == NULL) {
        *command = NONE;
        return NULL;
    }
    while (*command < COMMANDS && strcmp(word, commands[*command].word) != 0) ++*command;
    if (*command == COMMANDS) return "unknown command";
    const char *argument = commands[*command].numbers ? strtok(NULL, blanks) : NULL;
    if (commands[*command].numbers && argument == NULL) return "number missing";
    if (strtok(NULL, blanks) != NULL) return "too many words";
    return argument == NULL ? NULL : parse(argument, number);
}

static int read_file(const char *name) {
    FILE *from = fopen(name, "rb");
    if (from == NULL) return 0;
    length = fread(file, 1, sizeof file, from);
    int whole = !ferror(from);
    return fclose(from) == 0 && whole;
}

int main(int count, char **words) {
    char line[LINE + 1];
    int command;
    uint64_t number;
    if (kb_interface() != KB_INTERFACE) {
        fprintf(stderr, "panel: the library has interface %" PRIu64 ", the header %d\n", kb_interface(), KB_INTERFACE);
        return 2;
    }
    if (count != 2) {
        fprintf(stderr, "usage: panel FILE\n");
        return 2;
    }
    if (!read_file(words[1])) {
        fprintf(stderr, "panel: %s: %s\n", words[1], strerror(errno));
        return 2;
    }
    reading = kb_read(file, length);
    if (reading.kind != KB_FINISHED) {
        printf("refused %" PRIu64 " at %" PRIu64 "\n", reading.number, reading.place);
        return 1;
    }
    rules = reading.rules;
    show_file();
    show_state();
    int typed = isatty(STDIN_FILENO);
    for (;;) {
        if (typed) printf("> ");
        fflush(stdout);
        long bytes = read_line(line);
        if (bytes < 0) break;
        const char *wrong = bytes > LINE ? "too long" : understand(line, &command, &number);
        if (wrong != NULL) printf("wrong line: %s\n", wrong);
        else if (command == QUIT) return 0;
        else if (command != NONE) commands[command].run(number);
    }
    if (typed) printf("\n");
    return 0;
}
