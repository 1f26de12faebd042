// Unverified and untrusted: lrupd, or any LRAT checker, checks the output. lrup-trim keeps those
// lines of a run's streams, or of a record of rounds, that the empty clause needs. man/lrup-trim.1
// describes it, and is also the source of its --help.
#define _POSIX_C_SOURCE 200809L
#include <ctype.h>
#include <stdio.h>
#include <stdlib.h>
#include <string.h>
#include <sys/stat.h>

#include "packed.h"
#include "row.h"
#include "trim.h"

// The command line.

static const char help[] =
#include "lrup-trim.help.h"
    ;

static struct {
    Output core, stream, lrat;
    bool rehints, sizes;
    Output rehinted;  // a temporary file
    const char *assume;
} given;
static const Option options[] = { { .name = "core", .value = &given.core.path },
                                  { .name = "stream", .value = &given.stream.path },
                                  { .name = "lrat", .value = &given.lrat.path },
                                  { .name = "assume", .value = &given.assume },
                                  { .name = "re-hint", .flag = &given.rehints },
                                  { .name = "sizes", .flag = &given.sizes },
                                  HELP_AND_VERSION };

// Puts the temporary file beside an output, since it is as large as the output.
static void name_rehinted(void) {
    const char *output = given.lrat.path ? given.lrat.path : given.core.path;
    char *path = zeroed(strlen(output) + sizeof ".re-hint", 1);
    strcpy(path, output);
    given.rehinted.path = strcat(path, ".re-hint");
}

// Checks the outputs before the long work begins.
static void check_outputs(void) {
    struct stat found;
    if (given.stream.path && !given.core.path) refuse("--stream without", "--core");
    if (given.rehints && !given.core.path && !given.lrat.path)
        refuse("--re-hint without", "--core or --lrat");
    if (given.rehints) name_rehinted();
    const char *const outputs[] = { given.core.path, given.stream.path, given.lrat.path,
                                    given.rehinted.path };
    for (size_t k = 0; k < sizeof outputs / sizeof *outputs; k++)
        if (outputs[k] && lstat(outputs[k], &found) == 0)
            stop("%s: exists, not overwritten", outputs[k]);
}

static void assume(Proof *proof, const char *path) {
    size_t length;
    const int64_t *literals = numbers_read(path, &length);
    proof->assumed = zeroed(2 * (size_t)proof->formula.variables, 1);
    for (size_t k = 0; literals && k < length; k++) {
        if ((literals[k] == 0) != (k == length - 1) ||
            llabs(literals[k]) > proof->formula.variables)
            literals = NULL;
        else if (literals[k] != 0)
            proof->assumed[literal_of(literals[k])] = 1;
    }
    if (!literals)
        stop("%s: not one line of literals over FORMULA's variables and a final 0", path);
}

// Prints a text, and a word, quoted for a shell as lrup-solve quotes words.
static void print(const char *text, const char *word) {
    bool is_plain = *word != 0;
    for (const char *at = word; *at; at++)
        is_plain &= isalnum((unsigned char)*at) || strchr("-_./+=,:@%", *at);
    printf("%s%s", text, is_plain ? word : "'");
    for (; !is_plain && *word; word++) printf(*word == '\'' ? "'\\''" : "%c", *word);
    if (!is_plain) putchar('\'');
}

// lrupd doesn't unpack its formula. Here bash does.
static void print_formula(const char *path) {
    const char *program = packer_of(path);
    if (program) printf(" <(%s -dc", program);
    print(" ", path);
    if (program) putchar(')');
}

static bool fits_into_row(const Proof *proof, const Output *output) {
    return 1 + output->below + proof->literals + proof->kept + proof->room <= MOST_WORDS;
}

// Prints an output's size, and the command that checks the output: in one run, or in rounds if a
// row is too small.
static void tell(const Proof *proof, const Output *output, const char *formula) {
    if (!output->path) return;
    bool fits = fits_into_row(proof, output);
    print("c ", output->path);
    printf(": %llu bytes of %llu: ", (unsigned long long)output->bytes,
           (unsigned long long)proof->bytes);
    if (!fits) {
        print("lrup-exact --rounds live ", formula);
        print(" ", output->path);
        printf(" | { read ready && ");
    }
    if (given.assume)
        print("lrupd --assume ", given.assume);
    else
        printf("lrupd");
    if (!fits) {
        printf(" --rounds live");
        print_formula(formula);
        puts(" live/round-1.stream-1; }");
    } else {
        printf(" --lines %llu --room %llu", (unsigned long long)proof->kept,
               (unsigned long long)proof->room);
        print_formula(formula);
        print(" ", output->path);
        putchar('\n');
    }
}

static void run(Proof *proof, const Texts *files) {
    const char *formula = files->items[0];
    if (proof->folder) record_check(proof->folder, formula);
    formula_read(&proof->formula, formula);
    proof->clauses = proof->formula.clauses;
    proof->literals = proof->formula.literals.length;
    if (given.assume) assume(proof, given.assume);
    if (!proof->folder) round_add(proof, files->items + 1, (uint32_t)files->length - 1);
    order(proof);
    mark(proof);
    if (given.rehints) rehint(proof, &given.rehinted);
    if (given.stream.path || given.lrat.path) lines_write(proof, &given.stream, &given.lrat);
    if (given.core.path) core_write(proof, &given.core, formula);
}

int main(int count, char **words) {
    static Proof proof;
    errors_name("lrup-trim", outputs_remove);
    files_watch("lrup-trim", outputs_remove);
    const Texts *files = arguments_read("lrup-trim", help, options, count, words);
    check_outputs();
    proof.folder = folder_of(files);
    file_check(files->items[0]);
    signals_handle(outputs_remove);
    run(&proof, files);
    if (given.sizes)
        printf("%llu %llu %d %d\n", (unsigned long long)proof.kept, (unsigned long long)proof.room,
               fits_into_row(&proof, &given.stream), fits_into_row(&proof, &given.lrat));
    printf("c %llu of %llu clauses, %llu lines of %llu\n", (unsigned long long)proof.core,
           (unsigned long long)proof.clauses, (unsigned long long)proof.kept,
           (unsigned long long)proof.lines);
    if (!given.sizes) tell(&proof, &given.stream, given.core.path);
    tell(&proof, &given.lrat, files->items[0]);
    if (fflush(stdout) != 0) stop("cannot write to standard output");
    outputs_keep();
    return 0;
}
