// Unverified, like the whole filter. Unit propagation over all current clauses, and the chain that
// leads to a conflict.
#include <limits.h>
#include <stdlib.h>
#include <string.h>

#include "checks.h"
#include "propagation.h"

enum { CORE, NONCORE };  // the two lists of watches
// clauses age after LEAST_TURN chains, and one more chain for each WORDS_A_CHAIN words
enum { LEAST_TURN = 256, WORDS_A_CHAIN = 1024 };

void propagation_open(Propagation *propagation, Clauses *clauses, int variables) {
    size_t count = (size_t)variables;
    *propagation = (Propagation){ .clauses = clauses, .variables = variables };
    propagation->values = zeroed(2 * count, sizeof *propagation->values);
    propagation->has_unit = zeroed(count, sizeof *propagation->has_unit);
    propagation->reasons = zeroed(count, sizeof *propagation->reasons);
    propagation->positions = zeroed(count, sizeof *propagation->positions);
    propagation->seen = zeroed(count, sizeof *propagation->seen);
    propagation->trail.items = grow(NULL, count * sizeof *propagation->trail.items);
    for (unsigned k = CORE; k <= NONCORE; k++)
        propagation->watches[k] = zeroed(2 * count, sizeof *propagation->watches[k]);
}

// No variable is on the trail twice, so the trail has room for all.
static inline void assign(Propagation *propagation, Literal literal, ClauseRef reason) {
    assert(propagation->values[literal] == 0 &&
           propagation->trail.length < (size_t)propagation->variables);
    propagation->values[literal] = 1;
    propagation->values[complement_of(literal)] = -1;
    propagation->reasons[variable_of(literal)] = reason;
    propagation->positions[variable_of(literal)] = (uint32_t)propagation->trail.length;
    propagation->trail.items[propagation->trail.length++] = literal;
    __builtin_prefetch(propagation->watches[CORE][complement_of(literal)].items);
}

static inline unsigned list_of(const Clause *clause) {
    return clause->flags & RECENT ? CORE : NONCORE;
}

static inline void watch(Propagation *propagation, unsigned which, Literal literal, Watch entry) {
    PUSH(&propagation->watches[which][literal], entry);
}

// Puts literals that aren't false first. A unit clause is the best reason for its literal, since it
// needs no other clause.
static void install(Propagation *propagation, ClauseRef ref) {
    Clause *clause = clause_at(propagation->clauses, ref);
    const signed char *values = propagation->values;
    Literal *literals = clause->literals;
    unsigned open = 0;
    if (clause->length == 1) propagation->has_unit[variable_of(literals[0])] = 1;
    for (unsigned k = 0; k < clause->length && open < 2; k++) {
        Literal literal = literals[k];
        if (values[literal] < 0) continue;
        literals[k] = literals[open];
        literals[open++] = literal;
    }
    if (open == 0) {
        if (propagation->conflict == 0) propagation->conflict = ref;
        return;
    }
    if (clause->length == 1 && values[literals[0]] > 0) {
        ClauseRef *reason = &propagation->reasons[variable_of(literals[0])];
        if (clause_at(propagation->clauses, *reason)->length > 1) *reason = ref;
    }
    if (open == 1 && values[literals[0]] == 0) assign(propagation, literals[0], ref);
    for (unsigned k = 0; k < 2 && clause->length > 1; k++)
        watch(propagation, list_of(clause), literals[k],
              (Watch){ ref, 2 * (uint32_t)literals[1 - k] + (clause->length == 2) });
}

// Returns the literal to watch instead of one that has become false, or the false one itself; also
// gives the other watched literal. The clause has at least three literals. A satisfied clause isn't
// written to, so that its cache line stays clean.
static inline Literal watch_another(Clause *clause, const signed char *values, Literal falsified,
                                    Literal *other) {
    Literal *literals = clause->literals, first = literals[0] ^ literals[1] ^ falsified;
    *other = first;
    if (values[first] > 0) return falsified;
    literals[0] = first;
    literals[1] = falsified;
    for (Literal *at = literals + 2, *end = literals + clause->length; at < end; at++) {
        Literal literal = *at;
        if (values[literal] < 0) continue;
        literals[1] = literal;
        *at = falsified;
        return literal;
    }
    return falsified;
}

// Moves a literal that isn't false to the third position of a long clause, if the clause has such a
// literal. The search starts where the last one ended: the literals before that are usually still
// false.
static __attribute__((noinline, cold)) void bring_forward(const Propagation *propagation,
                                                          ClauseRef long_one) {
    Clause *clause = clause_at(propagation->clauses, long_one);
    Literal *literals = clause->literals;
    unsigned length = clause->length, place = (unsigned)literals[length];
    for (unsigned tried = 2; tried < length; tried++, place = place + 1 < length ? place + 1 : 2) {
        Literal literal = literals[place];
        if (propagation->values[literal] < 0) continue;
        literals[place] = literals[2];
        literals[2] = literal;
        literals[length] = (Literal)place;
        return;
    }
}

// Visits all clauses of a list that watch the literal, and returns the conflict, or 0. A visited
// clause moves to the list where it now belongs.
static ClauseRef visit(Propagation *propagation, unsigned which, Literal falsified) {
    Watches *list = &propagation->watches[which][falsified];
    if (list->length == 0) return 0;  // `items` may be NULL
    Watch *kept = list->items, *at = kept, *end = at + list->length;
    const signed char *values = propagation->values;
    uint64_t *row = propagation->clauses->row;
    ClauseRef conflict = 0;
    while (at != end && conflict == 0) {
        Watch entry = *at++;
        Literal other = (Literal)(entry.other >> 1);
        if (values[other] > 0) {
            *kept++ = entry;
            continue;
        }
        Clause *clause = (Clause *)(row + entry.clause);
        if (clause->flags & (DEAD | LONG)) {
            if (clause->flags & DEAD) continue;
            bring_forward(propagation, entry.clause);
        }
        Literal watched = falsified;
        if (!(entry.other & 1)) {
            watched = watch_another(clause, values, falsified, &other);
            entry.other = 2 * (uint32_t)other;
        }
        unsigned now = list_of(clause);
        if (watched == falsified && now == which)
            *kept++ = entry;
        else
            watch(propagation, now, watched, entry);
        if (watched != falsified || values[other] > 0) continue;
        if (values[other] < 0)
            conflict = entry.clause;
        else
            assign(propagation, other, entry.clause);
    }
    if (kept != at) memmove(kept, at, (size_t)(end - at) * sizeof *at);
    list->length = (uint32_t)(kept - list->items + (end - at));
    return conflict;
}

#ifdef CHECKED
// How many of the clause's literals are false.
static unsigned count_false(const Propagation *propagation, ClauseRef ref) {
    const Clause *clause = clause_at(propagation->clauses, ref);
    unsigned count = 0;
    for (unsigned k = 0; k < clause->length; k++)
        count += propagation->values[clause->literals[k]] < 0;
    return count;
}
#endif

// Propagates with the recently needed clauses as far as possible before it visits the others: the
// recent ones are fewer, and the conflict is usually among them.
static ClauseRef propagate(Propagation *propagation) {
    ClauseRef conflict = 0;
    while (conflict == 0) {
        unsigned which = propagation->propagated[CORE] < propagation->trail.length ? CORE : NONCORE;
        if (propagation->propagated[which] == propagation->trail.length) break;
        conflict = visit(propagation, which,
                         complement_of(propagation->trail.items[propagation->propagated[which]++]));
    }
    assert(conflict == 0 ||
           count_false(propagation, conflict) == clause_at(propagation->clauses, conflict)->length);
    return conflict;
}

// Adds the waiting clauses, and propagates what follows from them at the root.
void propagation_settle(Propagation *propagation) {
    assert(propagation->trail.length == propagation->root);
    propagation->used = true;
    for (size_t k = 0; k < propagation->waiting.length; k++) {
        ClauseRef ref = propagation->waiting.items[k];
        if (!(clause_at(propagation->clauses, ref)->flags & DEAD)) install(propagation, ref);
    }
    propagation->waiting.length = 0;
    if (propagation->conflict == 0) propagation->conflict = propagate(propagation);
    propagation->root = propagation->trail.length;
}

// Whether the clause is a reason or the conflict at the root. As long as hints suffice, nothing is
// propagated, and no clause is needed.
bool propagation_needs(const Propagation *propagation, ClauseRef ref) {
    if (!propagation->used) return false;
    const Clause *clause = clause_at(propagation->clauses, ref);
    if (ref == propagation->conflict) return true;
    for (unsigned k = 0; k < 2 && k < clause->length; k++) {
        Literal literal = clause->literals[k];
        if (propagation->values[literal] > 0 && propagation->reasons[variable_of(literal)] == ref)
            return true;
    }
    return false;
}

// Whether the clause may be a reason or the conflict at the root, in whatever order clauses are
// propagated: one of its literals at most isn't false, is true, and has no unit clause that was
// added. Once there is a conflict, the order matters.
bool propagation_may_need(const Propagation *propagation, ClauseRef ref) {
    if (!propagation->used) return false;
    if (propagation_needs(propagation, ref)) return true;
    const Clause *clause = clause_at(propagation->clauses, ref);
    int unit = -1;
    for (unsigned k = 0; k < clause->length; k++) {
        if (propagation->values[clause->literals[k]] < 0) continue;
        if (propagation->values[clause->literals[k]] == 0 || unit >= 0) return false;
        unit = variable_of(clause->literals[k]);
    }
    return unit < 0 || clause->length == 1 || !propagation->has_unit[unit];
}

// Ages the clauses, but only once in many calls, so that this takes little time.
static void age(Propagation *propagation) {
    if (++propagation->chains < LEAST_TURN + propagation->clauses->used / WORDS_A_CHAIN) return;
    propagation->chains = 0;
    clauses_age(propagation->clauses);
}

// The chain of a conflict.

static inline void mark(Propagation *propagation, int variable, unsigned char what) {
    propagation->seen[variable] = what;
    PUSH(&propagation->marked, variable);
}

// Adds a clause to the chain. Returns how many of its literals aren't false at the root and weren't
// needed before.
static inline size_t mark_reason(Propagation *propagation, ClauseRef ref, Identities *chain) {
    Clause *clause = clause_at(propagation->clauses, ref);
    size_t found = 0;
    clause->flags |= RECENT;
    PUSH(chain, clause->identity);
    for (unsigned k = 0; k < clause->length; k++) {
        int variable = variable_of(clause->literals[k]);
        if (propagation->seen[variable] != UNSEEN) continue;
        mark(propagation, variable, NEEDED);
        if (propagation->positions[variable] >= propagation->root)
            found++;
        else
            PUSH(&propagation->missing, propagation->positions[variable]);
    }
    return found;
}

// Adds to the chain the unit clauses of those root literals that have one.
static void mark_units(Propagation *propagation, Identities *chain) {
    Positions *missing = &propagation->missing;
    size_t kept = 0;
    for (size_t k = 0; k < missing->length; k++) {
        const Clause *reason =
            clause_at(propagation->clauses, reason_at(propagation, missing->items[k]));
        if (reason->length == 1)
            PUSH(chain, reason->identity);
        else
            missing->items[kept++] = missing->items[k];
    }
    missing->length = kept;
}

void propagation_mark(Propagation *propagation, const Literals *literals, unsigned char what) {
    for (size_t k = 0; k < literals->length; k++)
        propagation->seen[variable_of(literals->items[k])] = what;
}

// Goes back along the trail from the conflict, which is the last hint. The clause's own literals
// are false without a reason. Returns false if some literals at the root have no unit clause yet;
// the chain then has all other hints.
bool propagation_trace(Propagation *propagation, const Literals *literals, ClauseRef conflict,
                       Identities *chain) {
    chain->length = propagation->missing.length = 0;
    for (size_t k = 0; k < literals->length; k++)
        mark(propagation, variable_of(literals->items[k]), ASSUMED);
    size_t open = mark_reason(propagation, conflict, chain);
    for (size_t position = propagation->trail.length; open > 0;) {
        int variable = variable_of(propagation->trail.items[--position]);
        if (propagation->seen[variable] != NEEDED) continue;
        open += mark_reason(propagation, propagation->reasons[variable], chain) - 1;
    }
    mark_units(propagation, chain);
    identities_reverse(chain);
    for (size_t k = 0; k < propagation->marked.length; k++)
        propagation->seen[propagation->marked.items[k]] = UNSEEN;
    propagation->marked.length = 0;
    assert(chain->length > 0);
    return propagation->missing.length == 0;
}

// Collects the positions of the literals that the clause depends on, and its assumed literals,
// except those that were collected before.
void propagation_need(Propagation *propagation, ClauseRef ref, Literals *met) {
    Clause *clause = clause_at(propagation->clauses, ref);
    clause->flags |= RECENT;
    for (unsigned k = 0; k < clause->length; k++) {
        Literal literal = clause->literals[k];
        unsigned char *seen = &propagation->seen[variable_of(literal)];
        if (*seen == UNSEEN)
            PUSH(&propagation->needed, propagation->positions[variable_of(literal)]);
        else if (*seen == ASSUMED)
            PUSH(met, literal);
        else
            continue;
        *seen = *seen == UNSEEN ? NEEDED : MET;
    }
}

static int by_position(const void *one, const void *other) {
    uint32_t left = *(const uint32_t *)one, right = *(const uint32_t *)other;
    return left < right ? -1 : left > right;
}

// Calls `propagation_need` for the reasons of the collected literals, for the reasons of the
// literals that this adds, and so on; then sorts the positions, and resets the marks.
void propagation_need_all(Propagation *propagation, Literals *met) {
    Positions *needed = &propagation->needed;
    for (size_t k = 0; k < needed->length; k++)
        propagation_need(propagation, reason_at(propagation, needed->items[k]), met);
    if (needed->length > 1)
        qsort(needed->items, needed->length, sizeof *needed->items, by_position);
    for (size_t k = 0; k < needed->length; k++)
        propagation->seen[variable_of(propagation->trail.items[needed->items[k]])] = UNSEEN;
    propagation_mark(propagation, met, ASSUMED);
}

// Makes a chain of the reasons at the needed positions, with the clause last.
void propagation_chain(const Propagation *propagation, ClauseRef ref, Identities *chain) {
    const Positions *needed = &propagation->needed;
    chain->length = 0;
    for (size_t k = 0; k < needed->length; k++)
        PUSH(chain,
             clause_at(propagation->clauses, reason_at(propagation, needed->items[k]))->identity);
    PUSH(chain, clause_at(propagation->clauses, ref)->identity);
}

// Traces literals at the root, too, for streams in which they can't get unit clauses.
void propagation_trace_all(Propagation *propagation, const Literals *literals, ClauseRef conflict,
                           Identities *chain) {
    Literals met = { 0 };
    propagation->needed.length = 0;
    propagation_mark(propagation, literals, ASSUMED);
    propagation_need(propagation, conflict, &met);
    propagation_need_all(propagation, &met);
    propagation_mark(propagation, literals, UNSEEN);
    propagation_chain(propagation, conflict, chain);
    met.items = grow(met.items, 0);
}

// The reason of the literal that comes first on the trail, among the clause's literals that are
// true at the root; 0 if none is true.
static ClauseRef first_reason(const Propagation *propagation, const Literals *literals) {
    uint32_t first = UINT32_MAX;
    ClauseRef reason = 0;
    for (size_t k = 0; k < literals->length; k++) {
        int variable = variable_of(literals->items[k]);
        if (propagation->values[literals->items[k]] <= 0 ||
            propagation->positions[variable] >= first)
            continue;
        first = propagation->positions[variable];
        reason = propagation->reasons[variable];
    }
    return reason;
}

void propagation_backtrack(Propagation *propagation) {
    while (propagation->trail.length > propagation->root) {
        Literal literal = propagation->trail.items[--propagation->trail.length];
        propagation->values[literal] = propagation->values[complement_of(literal)] = 0;
    }
    for (unsigned k = CORE; k <= NONCORE; k++)
        if (propagation->propagated[k] > propagation->root)
            propagation->propagated[k] = propagation->root;
}

// A clause that is false if these literals are false, or 0. Call after `propagation_settle`.
ClauseRef propagation_conflict(Propagation *propagation, const Literals *literals) {
    assert(propagation->waiting.length == 0 && propagation->trail.length == propagation->root);
    age(propagation);
    ClauseRef conflict = first_reason(propagation, literals);
    if (conflict == 0) conflict = propagation->conflict;
    if (conflict != 0) return conflict;
    for (size_t k = literals->length; k-- > 0;)
        if (propagation->values[literals->items[k]] == 0)
            assign(propagation, complement_of(literals->items[k]), 0);
    return propagate(propagation);
}

// Updates references after a move. Clauses that are true at the root needn't be watched any more.

static bool is_satisfied(const Propagation *propagation, ClauseRef ref) {
    const Clause *clause = clause_at(propagation->clauses, ref);
    for (unsigned k = 0; k < clause->length; k++)
        if (propagation->values[clause->literals[k]] > 0) return true;
    return false;
}

static void move_watches(Propagation *propagation, Watches *list, const uint64_t *old) {
    uint32_t kept = 0;
    for (uint32_t k = 0; k < list->length; k++) {
        ClauseRef ref = clauses_moved(old, list->items[k].clause);
        if (ref != 0 && !is_satisfied(propagation, ref))
            list->items[kept++] = (Watch){ ref, list->items[k].other };
    }
    list->length = kept;
}

// Call while nothing is assumed.
void propagation_move(Propagation *propagation, const uint64_t *old) {
    assert(propagation->trail.length == propagation->root);
    size_t kept = 0;
    for (size_t k = 0; k < propagation->waiting.length; k++) {
        ClauseRef ref = clauses_moved(old, propagation->waiting.items[k]);
        if (ref != 0) propagation->waiting.items[kept++] = ref;
    }
    propagation->waiting.length = kept;
    for (size_t k = 0; k < propagation->trail.length; k++) {
        Literal literal = propagation->trail.items[k];
        ClauseRef *reason = &propagation->reasons[variable_of(literal)];
        *reason = clauses_moved(old, *reason);
    }
    propagation->conflict = clauses_moved(old, propagation->conflict);
    for (int literal = 0; literal < 2 * propagation->variables; literal++)
        for (unsigned k = CORE; k <= NONCORE; k++)
            move_watches(propagation, &propagation->watches[k][literal], old);
}

void propagation_close(Propagation *propagation) {
    for (int literal = 0; literal < 2 * propagation->variables; literal++)
        for (unsigned k = CORE; k <= NONCORE; k++) grow(propagation->watches[k][literal].items, 0);
    for (unsigned k = CORE; k <= NONCORE; k++) grow(propagation->watches[k], 0);
    grow(propagation->values, 0);
    grow(propagation->has_unit, 0);
    grow(propagation->reasons, 0);
    grow(propagation->positions, 0);
    grow(propagation->seen, 0);
    grow(propagation->trail.items, 0);
    grow(propagation->waiting.items, 0);
    grow(propagation->marked.items, 0);
    grow(propagation->needed.items, 0);
    grow(propagation->missing.items, 0);
}

#ifdef CHECKED
// Invariants.

// A literal that isn't assumed has a reason: a clause that has it once, and whose other literals
// became false earlier.
static void reason_check(const Propagation *propagation, size_t position) {
    Literal literal = propagation->trail.items[position];
    const Clause *clause = clause_at(propagation->clauses, reason_at(propagation, position));
    unsigned own = 0;
    assert(reason_at(propagation, position) != 0 && !(clause->flags & DEAD));
    for (unsigned k = 0; k < clause->length; k++) {
        Literal other = clause->literals[k];
        own += other == literal;
        assert(other == literal || (propagation->values[other] < 0 &&
                                    propagation->positions[variable_of(other)] < position));
        assert(other != literal || k < 2);
    }
    assert(own == 1);
}

// The trail has the true literals, each once, and all are at the root. Nothing is being traced.
static void trail_check(const Propagation *propagation) {
    size_t length = propagation->trail.length, open = 0;
    assert(length == propagation->root && propagation->propagated[CORE] <= length &&
           propagation->propagated[NONCORE] <= length);
    for (int variable = 0; variable < propagation->variables; variable++) {
        const signed char *values = propagation->values + 2 * variable;
        assert(values[0] == -values[1] && propagation->seen[variable] == UNSEEN);
        open += values[0] == 0;
    }
    assert(open + length == (size_t)propagation->variables && propagation->marked.length == 0);
    for (size_t position = 0; position < length; position++) {
        Literal literal = propagation->trail.items[position];
        assert(propagation->values[literal] == 1 &&
               propagation->positions[variable_of(literal)] == position);
        reason_check(propagation, position);
    }
}

// Each entry is in the list of one of the clause's first two literals, and names another of the
// clause's literals. Counts the entries of each clause.
static void watch_check(const Propagation *propagation, Literal literal, Watch entry,
                        unsigned char *counts) {
    const Clause *clause = clause_at(propagation->clauses, entry.clause);
    unsigned named = 0;
    assert(entry.clause > 0 && entry.clause < propagation->clauses->used);
    if (clause->flags & DEAD) return;
    assert(clause->length > 1 &&
           (clause->literals[0] == literal || clause->literals[1] == literal));
    assert((entry.other & 1) == (clause->length == 2) && (Literal)(entry.other >> 1) != literal);
    while (named < clause->length && clause->literals[named] != (Literal)(entry.other >> 1))
        named++;
    assert(named < clause->length && counts[entry.clause] < 2);
    counts[entry.clause]++;
}

static unsigned char *watches_check(const Propagation *propagation) {
    unsigned char *counts = zeroed(propagation->clauses->used, 1);
    for (unsigned k = CORE; k <= NONCORE; k++)
        for (int literal = 0; literal < 2 * propagation->variables; literal++) {
            const Watches *list = &propagation->watches[k][literal];
            for (uint32_t n = 0; n < list->length; n++)
                watch_check(propagation, literal, list->items[n], counts);
        }
    return counts;
}

// If there is no conflict at the root, each clause, except tautologies and waiting clauses, is true
// there, or watched by two open literals.
void propagation_check(const Propagation *propagation) {
    const Clauses *clauses = propagation->clauses;
    if (propagation->conflict != 0) return;
    trail_check(propagation);
    unsigned char *counts = watches_check(propagation);
    for (size_t k = 0; k < propagation->waiting.length; k++)
        counts[propagation->waiting.items[k]] = UCHAR_MAX;
    for (ClauseRef ref = 0; (ref = clauses_after(clauses, ref)) != 0;) {
        const Clause *clause = clause_at(clauses, ref);
        if (counts[ref] == UCHAR_MAX || clause->flags & TAUTOLOGY || is_satisfied(propagation, ref))
            continue;
        assert(counts[ref] == 2);
        for (unsigned k = 0; k < 2; k++) assert(propagation->values[clause->literals[k]] == 0);
    }
    free(counts);
}
#endif
