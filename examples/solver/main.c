// Unverified: several solvers that share clauses and each write a stream for lrupd. An example,
// not part of lrupd.
//
//     solver [--share LBD] [--imports] [--seed N] [--first S --streams N] [--progress] FORMULA STREAM...
//
// Each STREAM has a thread. The streams are 1, 2, .. of lrupd's command line; or, with --first and
// --streams, S, S + 1, .. of N, and other processes write the rest. --share gives the largest LBD
// of clauses that other threads get (default 4; 0: none). With --imports a stream has a line for
// each clause that its thread took over. Standard output has the size of each stream, the answer,
// and for a satisfiable formula a checked assignment. The status is 20 if the formula is refuted,
// 10 if it is satisfied, 1 if something failed.
#include <signal.h>
#include <stdio.h>
#include <stdlib.h>
#include <string.h>
#include <threads.h>
#include <time.h>

#include "errors.h"
#include "solver.h"

static double seconds(void) {
    struct timespec now;
    timespec_get(&now, TIME_UTC);
    return (double)now.tv_sec + (double)now.tv_nsec * 1e-9;
}

// Shows once a second how many lines each stream has.
static int show_progress(void *argument) {
    Portfolio *portfolio = argument;
    const struct timespec pause = { .tv_sec = 1 };
    for (int second = 1; thrd_sleep(&pause, NULL) == 0; second++) {
        char text[1024];
        int used = snprintf(text, sizeof text, "%3d s, lines:", second);
        for (int k = 0; k < portfolio->solvers; k++)
            used += snprintf(text + used, sizeof text - (size_t)used, " %9lu",
                             portfolio->solver[k].proof.added);
        fprintf(stderr, "%s\n", text);
    }
    return 0;
}

static int work(void *argument) {
    solver_run(argument);
    return 0;
}

static uint64_t number_of(char **words) {
    char *end;
    if (words[1] == NULL) fail("no number after", words[0]);
    unsigned long long number = strtoull(words[1], &end, 10);
    if (*words[1] < '0' || *words[1] > '9' || *end != 0) fail("not a number:", words[1]);
    return number;
}

// The first word that isn't an option.
static char **read_options(Portfolio *portfolio, char **words, bool *progress) {
    for (; *words != NULL && strncmp(*words, "--", 2) == 0; words++) {
        if (strcmp(*words, "--progress") == 0)
            *progress = true;
        else if (strcmp(*words, "--imports") == 0)
            portfolio->imports = true;
        else if (strcmp(*words, "--share") == 0)
            portfolio->share = (unsigned)number_of(words++);
        else if (strcmp(*words, "--seed") == 0)
            portfolio->seed = number_of(words++);
        else if (strcmp(*words, "--first") == 0)
            portfolio->first = (int)number_of(words++);
        else if (strcmp(*words, "--streams") == 0)
            portfolio->streams = (int)number_of(words++);
        else
            fail("no such option:", *words);
    }
    return words;
}

// Opens the streams in lrupd's order: with FIFOs, each side waits for the other.
static void open_all(Portfolio *portfolio, char **paths) {
    for (int k = 0; k < portfolio->solvers; k++) {
        Solver *solver = &portfolio->solver[k];
        solver->portfolio = portfolio;
        solver->place = k;
        solver_open(solver);
        proof_open(&solver->proof, paths[k], portfolio->formula.clauses, portfolio->first + k,
                   portfolio->streams);
    }
}

static void run_all(Portfolio *portfolio) {
    thrd_t *threads = zeroed((size_t)portfolio->solvers, sizeof *threads);
    for (int k = 0; k < portfolio->solvers; k++)
        if (thrd_create(&threads[k], work, &portfolio->solver[k]) != thrd_success)
            fail("cannot start", "a thread");
    for (int k = 0; k < portfolio->solvers; k++) thrd_join(threads[k], NULL);
}

static bool is_satisfied(const Formula *formula, const signed char *values) {
    for (size_t clause = 0; clause < formula->clauses; clause++) {
        bool satisfied = false;
        for (size_t k = formula->starts.items[clause]; k < formula->starts.items[clause + 1]; k++) {
            Literal literal = formula->literals.items[k];
            satisfied |= values[variable_of(literal)] == (literal & 1 ? -1 : 1);
        }
        if (!satisfied) return false;
    }
    return true;
}

static void tell(const Portfolio *portfolio, double time) {
    unsigned long bytes = 0, imported = 0;
    for (int k = 0; k < portfolio->solvers; k++) {
        const Proof *proof = &portfolio->solver[k].proof;
        printf("c stream %d: %lu added, %lu deleted\n", portfolio->first + k, proof->added,
               proof->deleted);
        bytes += proof->bytes;
        imported += proof->imported;
    }
    if (portfolio->imports) printf("c %lu imports\n", imported);
    printf("c %lu bytes in %.2f s\n", bytes, time);
    puts(portfolio->answer == SATISFIABLE ? "s SATISFIABLE" : "s UNSATISFIABLE");
    if (portfolio->answer != SATISFIABLE) return;
    if (!is_satisfied(&portfolio->formula, portfolio->model))
        fail("the assignment satisfies", "nothing");
    for (int k = 0; k < portfolio->formula.variables; k++)
        printf("v %d\n", portfolio->model[k] > 0 ? k + 1 : -(k + 1));
    puts("v 0");
}

int main(int count, char **words) {
    static Portfolio portfolio = { .share = 4, .first = 1 };
    bool progress = false;
    errors_name("solver", NULL);
    char **paths = read_options(&portfolio, words + 1, &progress);
    portfolio.solvers = count - (int)(paths - words) - 1;
    if (portfolio.streams == 0) portfolio.streams = portfolio.solvers;
    if (portfolio.solvers < 1 || portfolio.first < 1 ||
        portfolio.first + portfolio.solvers - 1 > portfolio.streams)
        fail("usage: solver [--share LBD] [--imports] [--seed N] [--first S --streams N] "
             "[--progress]",
             "FORMULA STREAM...");
    if (portfolio.solvers == 1) portfolio.share = 0;
    signal(SIGPIPE, SIG_IGN);  // a write fails instead once the reader has closed its end
    formula_read(&portfolio.formula, paths[0]);
    portfolio.solver = zeroed((size_t)portfolio.solvers, sizeof *portfolio.solver);
    open_all(&portfolio, paths + 1);
    double start = seconds();
    thrd_t thread;
    if (progress && thrd_create(&thread, show_progress, &portfolio) != thrd_success)
        fail("cannot start", "a thread");
    run_all(&portfolio);
    tell(&portfolio, seconds() - start);
    return portfolio.answer;
}
