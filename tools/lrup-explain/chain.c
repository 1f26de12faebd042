// Unverified, like the whole tool. Finds a right chain for the clause of a line by unit
// propagation: over the line's hints first, and then over all clauses that the line may cite.
//
// Unit clauses without an identity make the clause's literals false at the beginning of the trail.
// Then each hint that can be used is added, in the given order, after the clauses that make its
// literals false. Clauses that the conflict doesn't need are left out at the end.
#include "propagation.h"
#include "explain.h"

typedef struct {
    Propagation propagation;
    Clauses clauses;
    ClauseRefs hints, chain;  // in the line's order; the chain so far
    signed char *values;      // by literal, under the chain so far
    unsigned char *needed;    // by variable; all 0 except during `add_reasons`
    bool is_found;
} Search;

// Propagation prefers recent clauses, so clauses that are to come first are marked as recent.
static ClauseRef take(Search *search, uint64_t identity, const Literal *literals, size_t length,
                      bool comes_first) {
    ClauseRef ref = clauses_add(&search->clauses, identity, literals, length, false);
    if (!comes_first) clause_at(&search->clauses, ref)->flags = length > MANY ? LONG : 0;
    PUSH(&search->propagation.waiting, ref);
    return ref;
}

static ClauseRef take_known(Search *search, const Replay *replay, uint64_t identity,
                            bool comes_first) {
    const Clause *clause = clause_at(&replay->store, clause_of(replay, identity));
    return take(search, identity, clause->literals, clause->length, comes_first);
}

static void take_hints(Search *search, const Replay *replay, const Stream *stream, uint64_t also) {
    for (size_t k = 0; k < replay->line.count; k++) {
        uint64_t hint = (uint64_t)replay->line.cited[k];
        if (hint <= replay->last && clause_of(replay, hint) != 0 &&
            (hint == also || is_usable(replay, stream, hint)))
            PUSH(&search->hints, take_known(search, replay, hint, true));
    }
    propagation_settle(&search->propagation);
}

static void take_others(Search *search, const Replay *replay, const Stream *stream) {
    uint64_t last = last_derived(replay);
    for (uint64_t identity = 1; identity <= last; identity++)
        if (is_usable(replay, stream, identity)) take_known(search, replay, identity, false);
    propagation_settle(&search->propagation);
}

static void open_search(Search *search, const Replay *replay, const Stream *stream, uint64_t also) {
    *search = (Search){ .values = zeroed(2 * (size_t)replay->variables, 1),
                        .needed = zeroed((size_t)replay->variables, 1) };
    propagation_open(&search->propagation, &search->clauses, replay->variables);
    for (size_t k = 0; k < replay->line.length; k++) {
        Literal literal = complement_of(literal_of(replay->line.literals[k]));
        if (search->values[literal] == 0) take(search, 0, &literal, 1, true);
        search->values[literal] = 1;
        search->values[complement_of(literal)] = -1;
    }
    propagation_settle(&search->propagation);
    take_hints(search, replay, stream, also);
    if (search->propagation.conflict == 0) take_others(search, replay, stream);
}

// The chain.

// How many of the clause's literals aren't false, and the last of these.
static unsigned open_literals(const Search *search, ClauseRef ref, Literal *open) {
    const Clause *clause = clause_at(&search->clauses, ref);
    unsigned count = 0;
    for (unsigned k = 0; k < clause->length; k++) {
        if (search->values[clause->literals[k]] < 0) continue;
        *open = clause->literals[k];
        count++;
    }
    return count;
}

// Adds the clause to the chain if it is unit, or the conflict, which ends the chain.
static void append_if_unit(Search *search, ClauseRef ref) {
    Literal open = 0;
    unsigned count = open_literals(search, ref, &open);
    if (search->is_found || count > 1 || (count == 1 && search->values[open] > 0)) return;
    PUSH(&search->chain, ref);
    search->is_found = count == 0;
    if (count == 0) return;
    search->values[open] = 1;
    search->values[complement_of(open)] = -1;
}

// Whether propagation makes the literal false, but the chain so far doesn't.
static bool is_wanted(const Search *search, Literal literal) {
    return search->propagation.values[literal] < 0 && search->values[literal] >= 0;
}

static size_t position_of(const Search *search, Literal literal) {
    return search->propagation.positions[variable_of(literal)];
}

static void mark_needed(Search *search, ClauseRef ref, Literal left, size_t *end) {
    const Clause *clause = clause_at(&search->clauses, ref);
    for (unsigned k = 0; k < clause->length; k++) {
        if (!is_wanted(search, clause->literals[k]) || clause->literals[k] == left) continue;
        search->needed[variable_of(clause->literals[k])] = 1;
        if (position_of(search, clause->literals[k]) >= *end)
            *end = position_of(search, clause->literals[k]) + 1;
    }
}

// For each literal of the clause except `left`, adds the clauses by which propagation made it
// false, in the order of propagation.
static void add_reasons(Search *search, ClauseRef ref, Literal left) {
    const Propagation *propagation = &search->propagation;
    size_t end = 0;  // after the last position needed
    mark_needed(search, ref, left, &end);
    for (size_t position = end; position-- > 0;)
        if (search->needed[variable_of(propagation->trail.items[position])])
            mark_needed(search, reason_at(propagation, position), CONFLICT, &end);
    for (size_t position = 0; position < end; position++) {
        int variable = variable_of(propagation->trail.items[position]);
        if (search->needed[variable]) append_if_unit(search, propagation->reasons[variable]);
        search->needed[variable] = 0;
    }
}

// The literal that will be left when the hint is unit: the one that propagation doesn't make false,
// or, if there is none, the last one that it makes false.
static Literal left_by(const Search *search, ClauseRef ref) {
    const Clause *clause = clause_at(&search->clauses, ref);
    Literal open = CONFLICT, last = CONFLICT;
    for (unsigned k = 0; k < clause->length; k++) {
        Literal literal = clause->literals[k];
        if (search->values[literal] > 0) return NEITHER;
        if (search->values[literal] < 0) continue;
        if (search->propagation.values[literal] < 0) {
            if (last == CONFLICT || position_of(search, literal) > position_of(search, last))
                last = literal;
        } else if (open != CONFLICT) {
            return NEITHER;
        } else {
            open = literal;
        }
    }
    return open == CONFLICT ? last : open;
}

// Collects the needed hints, backwards from the conflict.
static void collect(Search *search, Identities *hints) {
    ClauseRefs *chain = &search->chain;
    size_t first = chain->length;
    for (size_t k = chain->length; k-- > 0;) {
        const Clause *clause = clause_at(&search->clauses, chain->items[k]);
        bool is_needed = k + 1 == chain->length;
        for (unsigned at = 0; at < clause->length; at++)
            is_needed |= search->values[clause->literals[at]] > 0 &&
                         search->needed[variable_of(clause->literals[at])];
        for (unsigned at = 0; at < clause->length && is_needed; at++)
            search->needed[variable_of(clause->literals[at])] = 1;
        if (is_needed) chain->items[--first] = chain->items[k];
    }
    hints->length = 0;
    for (size_t k = first; k < chain->length; k++)
        PUSH(hints, clause_at(&search->clauses, chain->items[k])->identity);
}

// How many clauses that the line may cite have no true literal. Hints are in the store twice, but
// are counted once.
static size_t count_open(const Search *search) {
    size_t count = 0;
    for (ClauseRef ref = clauses_after(&search->clauses, 0); ref != 0;
         ref = clauses_after(&search->clauses, ref)) {
        const Clause *clause = clause_at(&search->clauses, ref);
        unsigned k = 0;
        while (k < clause->length && search->propagation.values[clause->literals[k]] <= 0) k++;
        count += k == clause->length && !(clause->flags & RECENT);
    }
    return count;
}

static void close_search(Search *search) {
    propagation_close(&search->propagation);
    grow(search->clauses.row, 0);
    grow(search->hints.items, 0);
    grow(search->chain.items, 0);
    grow(search->values, 0);
    grow(search->needed, 0);
}

Chain chain_find(const Replay *replay, const Stream *stream, uint64_t also) {
    static Identities hints;
    Search search;
    open_search(&search, replay, stream, also);
    for (size_t k = 0; k < search.hints.length && !search.is_found; k++) {
        ClauseRef hint = search.hints.items[k];
        Literal left = left_by(&search, hint);
        if (left == NEITHER) continue;
        add_reasons(&search, hint, left);
        append_if_unit(&search, hint);
    }
    ClauseRef conflict = search.propagation.conflict;
    if (conflict && !search.is_found) {
        add_reasons(&search, conflict, CONFLICT);
        append_if_unit(&search, conflict);
    }
    Chain chain = { .is_found = search.is_found,
                    .true_literals = search.propagation.trail.length,
                    .open_clauses = count_open(&search) };
    if (search.is_found) collect(&search, &hints);
    chain.hints = hints;
    close_search(&search);
    return chain;
}
