// Unverified, like the whole solver; lrupd checks each chain. From a conflict to a learnt clause
// and its hints.
#include "solver.h"

enum { UNMARKED, SEEN, REMOVABLE, KEPT, IN_CLAUSE, RESOLVED };
enum { DEEPEST = 500 };  // the deepest recursion of minimisation

static void mark(Solver *solver, int variable, unsigned char what) {
    if (solver->marks[variable] == UNMARKED) PUSH(&solver->marked, variable);
    solver->marks[variable] = what;
}

static void clear_marks(Solver *solver) {
    for (size_t k = 0; k < solver->marked.length; k++)
        solver->marks[solver->marked.items[k]] = UNMARKED;
    solver->marked.length = 0;
}

// How many of a clause's literals are of the last level and haven't been seen before; its literals
// of the levels between 0 and the last go into the learnt clause.
static int look_at(Solver *solver, const Clause *clause) {
    int found = 0;
    for (unsigned k = 0; k < clause->length; k++) {
        Literal literal = clause->literals[k];
        int variable = variable_of(literal);
        if (solver->marks[variable] != UNMARKED || solver->levels[variable] == 0) continue;
        mark(solver, variable, SEEN);
        bump_variable(solver, variable);
        if (solver->levels[variable] == level_of(solver))
            found++;
        else
            PUSH(&solver->learnt, literal);
    }
    return found;
}

// The first unique implication point: resolves back along the trail until one literal of the last
// level is left.
static void analyse(Solver *solver, const Clause *conflict) {
    solver->learnt.length = 0;
    PUSH(&solver->learnt, 0);
    size_t place = solver->trail.length;
    int open = look_at(solver, conflict);
    for (;;) {
        do place--;
        while (solver->marks[variable_of(solver->trail.items[place])] == UNMARKED);
        Literal literal = solver->trail.items[place];
        if (--open == 0) {
            solver->learnt.items[0] = complement_of(literal);
            return;
        }
        open += look_at(solver, solver->reasons[variable_of(literal)]);
    }
}

// Whether the clause's other literals imply that this one is false, through reasons on the trail.
static bool redundant(Solver *solver, Literal literal, int depth) {
    int variable = variable_of(literal), seen = solver->marks[variable];
    const Clause *reason = solver->reasons[variable];
    if (solver->levels[variable] == 0 || seen == REMOVABLE || (seen == SEEN && depth > 0))
        return true;
    if (seen == KEPT || reason == NULL || depth == DEEPEST) return false;
    for (unsigned k = 1; k < reason->length; k++) {
        if (redundant(solver, reason->literals[k], depth + 1)) continue;
        if (seen == UNMARKED) mark(solver, variable, KEPT);
        return false;
    }
    mark(solver, variable, REMOVABLE);
    return true;
}

static void minimise(Solver *solver) {
    size_t kept = 1;
    for (size_t k = 1; k < solver->learnt.length; k++) {
        Literal literal = solver->learnt.items[k];
        if (!redundant(solver, literal, 0)) solver->learnt.items[kept++] = literal;
    }
    solver->learnt.length = kept;
    clear_marks(solver);
}

// When the chain comes to a clause, all its literals except the one that it implies have to be
// false: a literal of the learnt clause is false from the start; a literal of level 0 needs its
// unit clause; any other literal needs its reason, which is then another clause of the chain.
// Returns how many such reasons are new.
static int need(Solver *solver, const Clause *clause, Identities *level_zero) {
    int found = 0;
    for (unsigned k = 0; k < clause->length; k++) {
        int variable = variable_of(clause->literals[k]);
        if (solver->marks[variable] != UNMARKED) continue;  // each clause once
        mark(solver, variable, RESOLVED);
        if (solver->levels[variable] > 0)
            found++;
        else
            PUSH(level_zero, solver->units[variable]);
    }
    return found;
}

// Collects the exact chain of the learnt clause, from its end: the conflict is the last hint, since
// no hint may follow it. Before it come the reasons that analysis resolved, and those of literals
// that minimisation removed, in the order of the trail, which is the order in which they become
// unit; so we go back along the trail, and reverse the list. The reason of a literal in the learnt
// clause is no hint: all its literals would be false, so it would be a conflict too early. The unit
// clauses of level 0 come first, in any order: they are unit at once.
static void find_hints(Solver *solver, const Clause *conflict) {
    Identities *hints = &solver->hints, level_zero = { 0 };
    for (size_t k = 0; k < solver->learnt.length; k++)
        mark(solver, variable_of(solver->learnt.items[k]), IN_CLAUSE);
    hints->length = 0;
    PUSH(hints, conflict->identity);
    int open = need(solver, conflict, &level_zero);
    for (size_t place = solver->trail.length; open > 0;) {
        int variable = variable_of(solver->trail.items[--place]);
        if (solver->marks[variable] != RESOLVED) continue;
        open += need(solver, solver->reasons[variable], &level_zero) - 1;
        PUSH(hints, solver->reasons[variable]->identity);
    }
    for (size_t k = 0; k < level_zero.length; k++) PUSH(hints, level_zero.items[k]);
    grow(level_zero.items, 0);
    identities_reverse(hints);
    clear_marks(solver);
}

void find_clause(Solver *solver, Clause *conflict) {
    analyse(solver, conflict);
    minimise(solver);
    find_hints(solver, conflict);
}

unsigned lbd_of(Solver *solver, const Literals *literals) {
    unsigned count = 0;
    solver->stamp++;
    for (size_t k = 0; k < literals->length; k++) {
        uint64_t *stamp = &solver->level_stamps[solver->levels[variable_of(literals->items[k])]];
        count += *stamp != solver->stamp;
        *stamp = solver->stamp;
    }
    return count;
}

// The hints are the unit clauses of the clause's literals after the first `skipped` ones, and then
// the clause itself.
static void hint_at_level_zero(Solver *solver, const Clause *clause, unsigned skipped) {
    solver->hints.length = 0;
    for (unsigned k = skipped; k < clause->length; k++)
        PUSH(&solver->hints, solver->units[variable_of(clause->literals[k])]);
    PUSH(&solver->hints, clause->identity);
}

// Gives each literal that is true at level 0 a unit clause with its own line, in the order of the
// trail. Then the literal needs one hint in a chain, not its whole derivation, and its reason may
// be deleted.
void name_units(Solver *solver) {
    for (; solver->named < solver->trail.length; solver->named++) {
        Literal literal = solver->trail.items[solver->named];
        int variable = variable_of(literal);
        Clause *reason = solver->reasons[variable];
        solver->reasons[variable] = NULL;
        if (solver->units[variable] != 0) continue;
        if (reason->length == 1) {
            solver->units[variable] = reason->identity;
            continue;
        }
        hint_at_level_zero(solver, reason, 1);
        solver->units[variable] = proof_add(&solver->proof, &literal, 1, &solver->hints);
        if (solver->portfolio->share > 0)
            PUSH(&solver->gifts, gift_of(solver->units[variable], 1, &literal, 1));
    }
}

// Derives the empty clause from a conflict at level 0.
void refute(Solver *solver, const Clause *conflict) {
    name_units(solver);
    hint_at_level_zero(solver, conflict, 0);
    proof_add(&solver->proof, NULL, 0, &solver->hints);
}
