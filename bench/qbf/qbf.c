/* Puts the texts of jobs through a QBF solver and compares its verdict with kb_judge's under all rules and with kb_judge_formula's. The first argument is the
   solver: it takes the name of a file in QDIMACS and ends with 10 for true, 20 for false. The second is the folder for the texts, the others are job files; a
   refused one is passed over. GENERATED jobs follow. Solver and judge of texts run in processes of their own, which are stopped after some seconds: the judge
   of texts does not come to an end on the two large examples. Fails where a verdict differs or the solver ends without one. */
#define _GNU_SOURCE
#include <jobs.h>

#include <fcntl.h>
#include <signal.h>
#include <sys/wait.h>
#include <unistd.h>

enum { GENERATED = 500, SOLVER_LIMIT = 60, JUDGE_LIMIT = 3, RULES = 127, TRUE = 10, FALSE = 20, STOPPED = 1000, NONE = 1001 };

static const char *solver, *folder;
static uint8_t file[KB_FILE + 1], text[KB_FORMULA];
static size_t length;
static int accepted, won, lost, differing, unsolved, unjudged;

/* How the child ends; none of its output is shown. */
static int ended(pid_t child) {
    int status;
    if (child < 0 || waitpid(child, &status, 0) != child) {
        perror("qbf");
        exit(2);
    }
    return WIFEXITED(status) ? WEXITSTATUS(status) : WTERMSIG(status) == SIGALRM ? STOPPED : NONE;
}

static int solved(const char *name) {
    pid_t child = fork();
    if (child == 0) {
        int nowhere = open("/dev/null", O_WRONLY);
        dup2(nowhere, 1), dup2(nowhere, 2);
        alarm(SOLVER_LIMIT);
        execlp(solver, solver, name, (char *)NULL);
        _exit(127);
    }
    return ended(child);
}

static int judged(uint64_t bytes) {
    pid_t child = fork();
    if (child == 0) {
        alarm(JUDGE_LIMIT);
        kb_formula_judgement j = kb_judge_formula(file, length, text, KB_FORMULA);
        _exit(j.kind != KB_FINISHED || j.length != bytes ? 1 : j.won ? TRUE : FALSE);
    }
    return ended(child);
}

static const char *told(int verdict) {
    return verdict == TRUE ? "won" : verdict == FALSE ? "lost" : verdict == STOPPED ? "too long" : "no verdict";
}

/* Compares the three verdicts on the job in `file`. */
static void compare(const char *name) {
    char path[4096];
    if (kb_read(file, length).kind != KB_FINISHED) return;
    accepted++;
    kb_written w = kb_formula(file, length, text, KB_FORMULA);
    kb_judgement j = kb_judge(file, length, 0, 0, 0, 0, 0, 0, RULES);
    snprintf(path, sizeof path, "%s/%s.qdimacs", folder, name);
    FILE *out = fopen(path, "wb");
    if (!out || fwrite(text, 1, w.length, out) != w.length || fclose(out) != 0) {
        perror(path);
        exit(2);
    }
    int game = w.kind != KB_FINISHED || j.kind != KB_FINISHED ? NONE : j.won ? TRUE : FALSE;
    int theirs = solved(path), ours = judged(w.length);
    won += game == TRUE, lost += game == FALSE;
    unsolved += theirs == STOPPED, unjudged += ours == STOPPED;
    if (game == NONE || (theirs != STOPPED && theirs != game) || (ours != STOPPED && ours != game)) {
        differing++;
        printf("%s: kb_judge %s, kb_judge_formula %s, %s %s\n", path, told(game), told(ours), solver, told(theirs));
    }
}

static void compare_file(const char *path) {
    char name[256];
    FILE *in = fopen(path, "rb");
    if (!in) {
        perror(path);
        exit(2);
    }
    length = fread(file, 1, sizeof file, in);
    fclose(in);
    const char *slash = strrchr(path, '/');
    snprintf(name, sizeof name, "%.*s", (int)strcspn(slash ? slash + 1 : path, "."), slash ? slash + 1 : path);
    compare(name);
}

/* A mask of this many options. */
static uint16_t options(unsigned count) {
    uint16_t mask = 0;
    while (count > 0) {
        uint16_t one = (uint16_t)(1u << drawn() % 16);
        if (!(mask & one)) mask |= one, count--;
    }
    return mask;
}

/* 2 to 8 choices of 1 to 6 options; the last choice is the day's in every second job. Pairs of options are kept apart by their choices' sides: two of the day's
   hardly ever, else a job is lost at once. */
static void generate(job *j, unsigned number) {
    memset(j, 0, sizeof *j);
    j->n = 2 + drawn() % 7;
    unsigned share = 20 + drawn() % 60, tied = 40 + drawn() % 60, both = 20 + drawn() % 50, mixed = drawn() % 25;
    for (uint64_t k = 0; k < j->n; k++) {
        j->domains[k] = options(1 + drawn() % 6);
        int day = k + 1 == j->n ? number % 2 : drawn() % 100 < share;
        j->universal |= (uint64_t)day << k;
    }
    for (unsigned i = 0; i < j->n; i++)
        for (unsigned k = i + 1; k < j->n; k++) {
            if (drawn() % 100 >= tied) continue;
            int days = (int)((j->universal >> i & 1) + (j->universal >> k & 1));
            unsigned apart = days == 0 ? 10 * both : days == 1 ? 10 * mixed : 1;
            uint16_t *t = j->tables + TABLE * j->m++;
            t[0] = (uint16_t)i, t[1] = (uint16_t)k;
            for (unsigned a = 0; a < 16; a++)
                for (unsigned b = 0; b < 16; b++)
                    if ((j->domains[i] >> a & j->domains[k] >> b & 1) && drawn() % 1000 >= apart) t[2 + a] |= (uint16_t)(1u << b);
        }
}

int main(int count, char **arguments) {
    static job j;
    char name[64];
    if (count < 3) return 2;
    solver = arguments[1], folder = arguments[2];
    for (int k = 3; k < count; k++) compare_file(arguments[k]);
    int examples = accepted;
    for (unsigned k = 0; k < GENERATED; k++) {
        generate(&j, k);
        job_bytes(&j, file);
        length = job_length(&j);
        snprintf(name, sizeof name, "generated%03u", k);
        compare(name);
    }
    printf("%s: %d texts compared (%d job files, %d generated jobs): %d won, %d lost, %d differ; too long for the judge of texts (%d s): %d", solver,
           accepted - unsolved, examples, accepted - examples, won, lost, differing, JUDGE_LIMIT, unjudged);
    if (unsolved > 0) printf("; not compared, too long for the solver (%d s): %d", SOLVER_LIMIT, unsolved);
    printf("\n");
    return differing > 0 || unsolved == accepted;
}
