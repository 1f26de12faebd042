// Unverified: the filter turns the proofs that solvers write into exact streams for lrupd. lrupd
// checks these like any other stream.
#ifndef FILTER_H
#define FILTER_H

#include <stdbool.h>
#include <stddef.h>
#include <stdint.h>

#include "checks.h"
#include "clauses.h"
#include "formula.h"
#include "hints.h"
#include "input.h"
#include "others.h"
#include "propagation.h"
#include "windows.h"

typedef struct Filter Filter;

// Callbacks of a program that contains the filter.
typedef struct {
    bool (*should_stop)(void);  // before each step: whether to stop reading the proof
    // before the search for a chain; the clause: filter->literals
    void (*before_line)(const Filter *filter);
    // once the line is in the buffer; its identity: filter->last
    void (*after_line)(const Filter *filter);
    // once a clause was added that another filter of the proof derives; the clause: as above
    void (*after_other_clause)(const Filter *filter);
    // the identity of the clause that the engine gave away at this position
    uint64_t (*identity_of_gift)(uint64_t engine, uint64_t position);
    void (*raise_floor)(uint64_t engine,
                        uint64_t position);  // no earlier clause will be taken over
    // whether the solver starts without this clause; NULL: it has all clauses
    bool (*solver_lacks)(uint64_t clause, uint64_t length);
} Hooks;

// For a literal that a chain needs: how many clauses of the chain use it, and how many hints derive
// it without a lemma.
typedef struct {
    uint32_t uses, hints;
} Weight;

struct Filter {
    Formula formula;
    uint64_t stream, streams;
    Windows windows;
    uint64_t additions;      // how many came before this step, without tautologies
    uint64_t meeting;        // the formula's clause that ends a round in windows; 0: none
    Literals met;            // its literals
    uint64_t originals;      // clauses of the formula that the proof is of
    bool named;              // the additions have names
    bool has_own_names;      // the solver names the formula's clauses, too
    ClauseRef unnamed;       // of these, the first one that it hasn't named yet; 0: none
    bool is_too_long;        // the filter stops since a line would be too long
    uint64_t last;           // the identity of the last line written
    uint64_t spared;         // no round deletes the formula's first `spared` clauses
    bool keeps_identities;   // the stream has LRAT's identities
    bool renumbered;         // some clause has another identity in the stream than in the proof
    bool frat;               // the proof's names aren't identities, not even the formula's
    bool keeps_clauses;      // deletions aren't written: lrupd keeps the clauses
    bool ignores_deletions;  // the proof's deletions
    int marked;              // how many marks precede the next addition
    uint64_t steps;          // that were read
    uint64_t other_hints;    // steps whose hints weren't right as they were given
    bool refuted;            // the stream has the empty clause, and needs nothing more
    bool busy;               // a chain is being built: no clause may move
    const Hooks *hooks;      // NULL: none
    Others others;
    Clauses clauses;
    Propagation propagation;
    Hints hints;
    Clauses dropped;    // names only: the deleted clauses of other streams
    Literals literals;  // of the step, each once; while it is read, they are marked in `hints`
    uint64_t hash;      // of these literals
    ClauseRefs given;
    Identities chain;
    Literals spare, left;  // a lemma's literals; those that a shortened clause keeps
    ClauseRefs lemmas;     // lemmas that only the next line needs
    Weight *weights;       // by variable; 0 except while a chain is split; NULL at first
};

typedef struct {
    bool named;
    int64_t name;
    const int64_t *literals, *hints;
    size_t length, hinted;
    const Line *line;  // the step's line if it is spelled as in a stream, or NULL
} Addition;

// The stream that an identity above the formula's belongs to. Small numbers are divided faster.
static inline uint64_t filter_stream_of(const Filter *filter, uint64_t identity) {
    uint64_t place = identity - filter->formula.clauses - 1, streams = filter->streams;
    bool is_small = (place | streams) >> 32 == 0;
    return (is_small ? (uint32_t)place % (uint32_t)streams : place % streams) + 1;
}

// call between steps; it checks rarely enough to take no longer than the steps do
void filter_check(const Filter *filter);

static inline bool filter_ends(const Filter *filter) {
    CHECK(filter_check(filter));
    return filter->hooks && filter->hooks->should_stop();
}

void filter_unmark(Filter *filter);  // the literals of the step, which then has none

void filter_open(Filter *filter, bool frat);
// before the first step, if the filter was opened for FRAT and the proof has another form
void filter_name_formula(Filter *filter);
void filter_add(Filter *filter, const Addition *addition);
void filter_add_marked(Filter *filter, bool tautology);  // the marked literals, without hints
void filter_import(Filter *filter, int64_t identity, const int64_t *literals, size_t length);
// name: the solver's, or 0
void filter_take_over(Filter *filter, uint64_t identity, uint64_t name, const int64_t *literals,
                      size_t length);
void filter_name_next(Filter *filter, uint64_t name);
void filter_delete(Filter *filter, const int64_t *names, size_t length);
void filter_delete_literals(Filter *filter, const int64_t *literals, size_t length);
void filter_delete_marked(Filter *filter);  // a clause with the marked literals
void filter_original(Filter *filter, int64_t name, const int64_t *literals, size_t length);
void filter_rename(Filter *filter, const int64_t *pairs, size_t length);
void filter_write_deletion(Filter *filter);  // of the identities in filter->chain
// of filter->literals and filter->chain
ClauseRef filter_write_line(Filter *filter, uint64_t identity);
uint64_t filter_next_identity(const Filter *filter);
// stops, since a line would be too long
_Noreturn void filter_stop_too_long(Filter *filter);

// Windows. A filter's additions are numbered from 0 in each round.
static inline bool filter_has_windows(const Filter *filter) { return filter->windows.filters > 1; }
// Adds a clause, and imports the same one of each other filter of the proof, which do this before
// the same step. lrupd waits for them, so that a deletion comes after all lines that may need what
// it deletes.
void filter_meet(Filter *filter);

#endif
