// Unverified: unit propagation with two watched literals. Literals at the root, which follow
// without assumptions, stay on the trail.
#ifndef PROPAGATION_H
#define PROPAGATION_H

#include <stdbool.h>
#include <stddef.h>
#include <stdint.h>

#include "clauses.h"

// `other` is twice the other watched literal, plus 1 if the clause has no other literals.
typedef struct {
    ClauseRef clause;
    uint32_t other;
} Watch;
typedef struct {
    Watch *items;
    uint32_t length, capacity;
} Watches;
typedef LIST_OF(uint32_t) Positions;  // on the trail

// marks of variables while a conflict is traced; MET: assumed and needed
enum { UNSEEN, ASSUMED, MET, NEEDED };

typedef struct {
    Clauses *clauses;
    int variables;
    signed char *values;         // by literal: 1 true, -1 false, 0 open
    unsigned char *has_unit;     // by variable: whether a unit clause of it was added
    ClauseRef *reasons;          // by variable
    uint32_t *positions;         // by variable, on the trail
    unsigned char *seen;         // by variable; all UNSEEN except while a conflict is traced
    Watches *watches[2];         // by literal: of recently needed clauses, and of the others
    Literals trail;              // the true literals in order, those at the root first
    size_t propagated[2], root;  // how far each of the two lists is propagated; the root's length
    size_t chains;               // since clauses last aged
    ClauseRefs waiting;          // clauses that aren't watched yet
    bool used;
    ClauseRef conflict;  // at the root; 0: none
    Literals marked;     // the variables whose marks have to be reset
    Positions needed;    // of the literals that a clause depends on
    Positions missing;   // of root literals that a chain needs but that lack unit clauses
} Propagation;

void propagation_open(Propagation *propagation, Clauses *clauses, int variables);
void propagation_settle(Propagation *propagation);
// leaves the assumptions on the trail
ClauseRef propagation_conflict(Propagation *propagation, const Literals *literals);
void propagation_backtrack(Propagation *propagation);
bool propagation_trace(Propagation *propagation, const Literals *literals, ClauseRef conflict,
                       Identities *chain);
void propagation_trace_all(Propagation *propagation, const Literals *literals, ClauseRef conflict,
                           Identities *chain);
void propagation_mark(Propagation *propagation, const Literals *literals, unsigned char what);
void propagation_need(Propagation *propagation, ClauseRef ref, Literals *met);
void propagation_need_all(Propagation *propagation, Literals *met);
void propagation_chain(const Propagation *propagation, ClauseRef ref, Identities *chain);
bool propagation_needs(const Propagation *propagation, ClauseRef ref);
bool propagation_may_need(const Propagation *propagation, ClauseRef ref);
void propagation_move(Propagation *propagation, const uint64_t *old);
void propagation_close(Propagation *propagation);
void propagation_check(const Propagation *propagation);  // while nothing is assumed

static inline ClauseRef reason_at(const Propagation *propagation, size_t position) {
    return propagation->reasons[variable_of(propagation->trail.items[position])];
}

#endif
