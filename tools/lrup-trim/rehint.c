// Unverified, like the whole tool. Option --re-hint: the filter gets the needed lines over the
// core, without their hints and without deletions. By unit propagation it finds hints that
// need fewer lines in all.
#include "errors.h"
#include "filter.h"
#include "trim.h"

// Copies the core, and the numbers of its clauses.
static void core_of(const Proof *proof, Formula *core, Number *names) {
    const Formula *whole = &proof->formula;
    core->variables = whole->variables;
    PUSH(&core->starts, 0);
    for (size_t k = 0; k < whole->clauses; k++) {
        if (proof->last_use[k + 1] == 0) continue;
        for (size_t at = whole->starts.items[k]; at < whole->starts.items[k + 1]; at++)
            PUSH(&core->literals, whole->literals.items[at]);
        PUSH(&core->starts, core->literals.length);
        names[core->clauses++] = (Number)k + 1;
    }
}

static void line_derive(Filter *filter, const Stream *stream, Number number) {
    Reading reading = line_again(stream, number);
    filter_add(filter, &(Addition){ .literals = reading.literals, .length = reading.length });
}

static void lines_derive(const Proof *proof, Filter *filter) {
    uint64_t lines = 0;
    filter_open(filter, false);
    for (size_t k = 0; k < proof->runs.length; k++) {
        Run run = proof->runs.items[k];
        for (Number number = run.from; number < run.to; number++) {
            if (proof->last_use[number] == 0) continue;
            position_set("needed line", ++lines);
            line_derive(filter, stream_with(proof, run.from), number);
        }
    }
    position_set(NULL, 0);
}

// Frees everything except the assumptions.
static void proof_free(Proof *proof) {
    for (size_t k = 0; k < proof->streams.length; k++) {
        Stream *stream = &proof->streams.items[k];
        grow(stream->path, 0);
        grow(stream->hints, 0);
        grow(stream->places, 0);
    }
    for (size_t k = 0; k < proof->rounds.length; k++) grow(proof->rounds.items[k].carried, 0);
    grow(proof->streams.items, 0);
    grow(proof->rounds.items, 0);
    grow(proof->runs.items, 0);
    grow(proof->last_use, 0);
    formula_free(&proof->formula);
}

void rehint(Proof *proof, Output *lines) {
    Proof again = { .clauses = proof->clauses,
                    .literals = proof->literals,
                    .assumed = proof->assumed };
    static Filter filter = { .stream = 1, .streams = 1 };  // never freed
    again.names = zeroed(proof->core, sizeof *again.names);
    core_of(proof, &again.formula, again.names);
    core_of(proof, &filter.formula, again.names);
    output_open(lines);
    lines_derive(proof, &filter);
    output_close();
    uint64_t count = proof->lines, bytes = proof->bytes;
    proof_free(proof);
    *proof = again;
    round_add(proof, &lines->path, 1);
    order(proof);
    mark(proof);
    outputs_remove();
    outputs_keep();
    proof->lines = count;
    proof->bytes = bytes;
}
