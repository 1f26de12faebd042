// Unverified: an example of solvers that write streams for lrupd, not part of lrupd. Shared by the
// solver's files.
#ifndef SOLVER_H
#define SOLVER_H

#include <stdatomic.h>
#include <stdbool.h>
#include <stddef.h>
#include <stdint.h>

#include "formula.h"

// proof.c: the stream of one solver.
typedef struct {
    int file;
    const char *path;
    uint64_t next, step;  // the identity of the next line; the distance between identities
    uint64_t last;        // the identity of the last line
    size_t used;
    char buffer[1 << 16];
    atomic_ulong added, deleted, imported, bytes;
} Proof;

void proof_open(Proof *proof, const char *path, uint64_t clauses, int stream, int streams);
uint64_t proof_add(Proof *proof, const Literal *literals, size_t length, const Identities *hints);
void proof_delete(Proof *proof, const Identities *identities);
void proof_import(Proof *proof, uint64_t identity, const Literal *literals, size_t length);
void proof_flush(Proof *proof);
void proof_close(Proof *proof);

// sharing.c: what one solver gives to all others, in an outbox that each reads at its own pace.
typedef struct {
    uint64_t identity;
    unsigned lbd, length;
    Literal literals[];
} Gift;

#define GIFTS_OF_A_PAGE 1024
typedef struct Page {
    Gift *gifts[GIFTS_OF_A_PAGE];
    struct Page *next;
} Page;

typedef struct {
    Page *first, *last;
    atomic_size_t given;
} Outbox;
typedef struct {
    Page *page;
    size_t taken;
} Inbox;

void outbox_open(Outbox *outbox);
void outbox_give(Outbox *outbox, Gift *gift);
const Gift *inbox_take(Inbox *inbox, Outbox *outbox);
Gift *gift_of(uint64_t identity, unsigned lbd, const Literal *literals, size_t length);

typedef struct Clause {
    uint64_t identity;
    unsigned length;
    unsigned lbd;  // the number of its literals' levels when it was learnt; 0 for the formula's
    bool given;    // other solvers may cite it
    bool removed;
    Literal literals[];  // the first two are watched; a reason's first literal is the implied one
} Clause;

typedef struct {
    Clause *clause;
    Literal other;
} Watch;
typedef LIST_OF(Watch) Watches;
typedef LIST_OF(Clause *) Clauses;
typedef LIST_OF(Gift *) Gifts;

typedef enum { UNKNOWN = 0, SATISFIABLE = 10, UNSATISFIABLE = 20 } Answer;

// Shared by all solvers of the process.
typedef struct Portfolio {
    Formula formula;
    int solvers;         // threads, each with its stream
    int streams, first;  // streams in all, and the first one here
    unsigned share;      // clauses of at most this LBD are given away; 0: none
    uint64_t seed;
    bool imports;
    struct Solver *solver;
    atomic_int answer;
    signed char *model;  // by variable, if satisfiable
} Portfolio;

typedef struct Solver {
    Portfolio *portfolio;
    int place;  // from 0, in the portfolio
    Proof proof;
    Outbox outbox;
    Inbox *inboxes;
    Gifts gifts;  // written, but not yet given away

    signed char *values;  // by literal: 1 true, -1 false, 0 open
    signed char *phases;  // by variable: its last value
    int *levels;          // by variable
    // by variable: the clause that implied its value; NULL for decisions, and at level 0
    Clause **reasons;
    uint64_t *units;  // by variable: the identity of its unit clause at level 0
    // the true literals in order; for each level, the trail's length before it
    Literals trail, decisions;
    // how far the trail is propagated; how far its unit clauses are written
    size_t propagated, named;
    Watches *watches;  // by literal
    Clauses clauses;   // learnt here or taken over

    double *activity, bump;
    int *heap, *heap_place;  // of variables, the most active first; where each is, or -1
    size_t heap_length;

    unsigned char *marks;  // learn.c's, by variable
    Literals marked, learnt;
    Identities hints;
    uint64_t *level_stamps, stamp;

    uint64_t random, conflicts, restarts, next_restart, next_reduction, reductions;
} Solver;

// learn.c
// leaves the clause in `learnt`, and its chain in `hints`
void find_clause(Solver *solver, Clause *conflict);
unsigned lbd_of(Solver *solver, const Literals *literals);
void name_units(Solver *solver);
void refute(Solver *solver, const Clause *conflict);

// search.c
void solver_open(Solver *solver);
void solver_run(Solver *solver);
void bump_variable(Solver *solver, int variable);
static inline int level_of(const Solver *solver) { return (int)solver->decisions.length; }

#endif
