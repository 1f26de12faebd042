// Unverified, like the whole tool. Writes the core, and the lines that are needed. No file is
// overwritten, and none is left incomplete.
#define _GNU_SOURCE
#include <errno.h>
#include <fcntl.h>
#include <signal.h>
#include <stdlib.h>
#include <string.h>
#include <unistd.h>

#include "checks.h"
#include "errors.h"
#include "write.h"
#include "trim.h"

enum { OUTPUTS = 4 };

static const char *volatile made[OUTPUTS];
static volatile int made_length;
static Output *output;  // the one being written

void outputs_remove(void) {
    for (int k = 0; k < made_length; k++) unlink(made[k]);
}

void outputs_keep(void) { made_length = 0; }

static void to_output(const char *bytes, size_t length) {
    if (!write_whole(output->file, bytes, length)) {
        position_set(NULL, 0);
        stop("%s: %s", output->path, strerror(errno));
    }
    output->bytes += length;
}

// A signal that ends the program comes once the file is in the list.
void output_open(Output *place) {
    sigset_t all, before;
    output = place;
    sigfillset(&all);
    sigprocmask(SIG_BLOCK, &all, &before);
    made[made_length] = output->path;
    output->file = open(output->path, O_WRONLY | O_CREAT | O_EXCL | O_CLOEXEC, 0666);
    int error = errno;
    if (output->file >= 0) made_length++;
    sigprocmask(SIG_SETMASK, &before, NULL);
    if (output->file < 0) stop("%s: %s", output->path, strerror(error));
    write_to(to_output);
}

void output_close(void) {
    write_flush();
    if (close(output->file) != 0) stop("%s: %s", output->path, strerror(errno));
}

// The core has FORMULA's variables, and its clauses are in FORMULA's order. A comment before a
// clause gives the clause's number in FORMULA, as in lrupd's checkpoints.

static bool is_same(const Formula *one, size_t clause, const Formula *other, size_t another) {
    const size_t *starts = one->starts.items + clause, *others = other->starts.items + another;
    size_t length = starts[1] - starts[0];
    if (others[1] - others[0] != length) return false;
    return length == 0 || memcmp(one->literals.items + starts[0], other->literals.items + others[0],
                                 length * sizeof(Literal)) == 0;
}

static void core_check(const Proof *proof, const char *core, const char *formula) {
    Formula whole = { 0 }, found = { 0 };
    size_t place = 0;
    formula_read(&whole, formula);
    formula_read(&found, core);
    for (Number k = 1; k <= proof->formula.clauses; k++) {
        size_t name = name_of(proof, k);
        if (proof->last_use[k] == 0) continue;
        if (name > whole.clauses || place >= found.clauses ||
            !is_same(&whole, name - 1, &found, place++))
            stop("%s: clause %zu isn't clause %zu of %s: was one of them changed?", core, place,
                 name, formula);
    }
    if (found.clauses != place || found.variables != whole.variables)
        stop("%s: changed since it was written", core);
    formula_free(&whole);
    formula_free(&found);
}

// Frees the clauses of FORMULA, which core_check then reads again.
void core_write(Proof *proof, Output *core, const char *path) {
    Formula *formula = &proof->formula;
    output_open(core);
    write_bytes("p cnf ", 6);
    write_number((uint64_t)formula->variables, ' ');
    write_number(proof->core, '\n');
    for (size_t k = 0; k < formula->clauses; k++) {
        if (proof->last_use[k + 1] == 0) continue;
        write_bytes("c id ", 5);
        write_number(name_of(proof, (Number)k + 1), '\n');
        size_t start = formula->starts.items[k], length = formula->starts.items[k + 1] - start;
        write_literals(length > 0 ? formula->literals.items + start : NULL, length);
        write_bytes("\n", 1);
    }
    output_close();
    formula_free(formula);
    core_check(proof, core->path, path);
}

// Lines are read piece by piece, and each piece is written to each output.

enum { PIECE = 1 << 16 };  // literals and hints

// first, count: in `cited`; clause, length: in `literals`.
typedef struct {
    Number number;
    size_t first, count, clause, length;
} Kept;

static LIST_OF(Kept) lines;
static LIST_OF(Number) cited;
static Numbers literals;
static Identities list;

static inline uint64_t identity_of(const Proof *proof, Number number) {
    assert(proof->place[number] > 0);
    if (number > proof->formula.clauses) return output->below + proof->place[number];
    return output->whole ? name_of(proof, number) : proof->place[number];
}

static void write_line(const Proof *proof, const Kept *line) {
    size_t count = line->count;
    const Number *hints = count > 0 ? cited.items + line->first : NULL;
    uint64_t identity = identity_of(proof, line->number);
    RESERVE(&list, count);
    list.length = count;
    for (size_t k = 0; k < count; k++) list.items[k] = identity_of(proof, hints[k]);
    write_number(identity, ' ');
    write_written(literals.items + line->clause, line->length);
    write_bytes(" ", 1);
    write_numbers(list.items, list.length);
    if (line->number == proof->target) return;
    list.length = 0;
    for (size_t k = 0; k < count; k++)
        if (proof->last_use[hints[k]] == line->number) PUSH(&list, identity_of(proof, hints[k]));
    write_deletion(identity, &list);
}

static void piece_write(const Proof *proof, Output *const outputs[2]) {
    for (int k = 0; k < 2; k++) {
        if (!outputs[k]->path) continue;
        output = outputs[k];
        for (size_t line = 0; line < lines.length; line++) write_line(proof, &lines.items[line]);
        write_flush();
    }
    lines.length = cited.length = literals.length = 0;
}

static int by_variable(const void *one, const void *other) {
    int64_t first = *(const int64_t *)one, second = *(const int64_t *)other;
    int64_t order = llabs(first) != llabs(second) ? llabs(first) - llabs(second) : first - second;
    return (order > 0) - (order < 0);
}

// Sorts the literals by variable, and drops repeated ones, as other LRAT checkers require. Returns
// how many are left.
static size_t literals_take(const Reading *reading) {
    size_t kept = literals.length;
    RESERVE(&literals, literals.length + reading->length + 1);
    int64_t *items = literals.items + literals.length;
    memcpy(items, reading->literals, reading->length * sizeof *items);
    qsort(items, reading->length, sizeof *items, by_variable);
    for (size_t k = 0; k < reading->length; k++)
        if (k == 0 || items[k] != literals.items[kept - 1]) literals.items[kept++] = items[k];
    kept -= literals.length;
    literals.length += kept;
    return kept;
}

// The lines that a needed line cites come before it, and are needed.
static void line_take(Proof *proof, const Stream *stream, Number number) {
    const Round *round = &proof->rounds.items[stream->round];
    Reading reading = line_again(stream, number);
    Kept line = { number, cited.length, reading.count, literals.length, 0 };
    proof->room += line.length = literals_take(&reading);
    RESERVE(&cited, cited.length + line.count);
    for (size_t k = 0; k < line.count; k++) {
        Number hint = number_of(proof, round, (uint64_t)reading.cited[k]);
        if (proof->place[hint] == 0) stream_changed(stream);
        cited.items[cited.length++] = hint;
    }
    PUSH(&lines, line);
}

// In an output over FORMULA, the first line deletes all clauses but the core.
static void lines_begin(Proof *proof, Output *place, bool whole) {
    if (!place->path) return;
    output_open(place);
    place->whole = whole;
    place->below = whole ? proof->clauses : proof->core;
    list.length = 0;
    Number next = 1;  // FORMULA's next clause
    for (Number k = 1; k <= proof->formula.clauses && whole; k++) {
        if (proof->last_use[k] == 0) continue;
        for (; next < name_of(proof, k); next++) PUSH(&list, next);
        next++;
    }
    for (; next <= proof->clauses && whole; next++) PUSH(&list, next);
    write_deletion(proof->clauses, &list);
    write_flush();
}

void lines_write(Proof *proof, Output *stream, Output *lrat) {
    Output *const outputs[2] = { stream, lrat };
    Number place = 0, derived = 0;
    proof->place = zeroed(proof->numbers, sizeof *proof->place);
    for (Number k = 1; k <= proof->formula.clauses; k++)
        proof->place[k] = proof->last_use[k] != 0 ? ++place : 0;
    lines_begin(proof, stream, false);
    lines_begin(proof, lrat, true);
    for (size_t k = 0; k < proof->runs.length; k++) {
        Run run = proof->runs.items[k];
        for (Number number = run.from; number < run.to; number++) {
            if (proof->last_use[number] == 0) continue;
            line_take(proof, stream_with(proof, run.from), number);
            proof->place[number] = ++derived;
            if (cited.length + literals.length >= PIECE) piece_write(proof, outputs);
        }
    }
    piece_write(proof, outputs);
    for (int k = 0; k < 2; k++) {
        output = outputs[k];
        if (output->path) output_close();
    }
}
