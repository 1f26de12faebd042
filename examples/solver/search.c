// Unverified, like the whole solver. The search: decisions, propagation with two watched literals,
// restarts, exchange, reduction.
#include <stdlib.h>
#include <string.h>

#include "solver.h"

enum { RESTART_UNIT = 60, REDUCTION_FIRST = 2000, REDUCTION_STEP = 500, KEPT_LBD = 2 };

static uint64_t next_random(Solver *solver) {
    solver->random ^= solver->random << 13;
    solver->random ^= solver->random >> 7;
    solver->random ^= solver->random << 17;
    return solver->random;
}

// The heap of variables.

static void heap_put(Solver *solver, size_t place, int variable) {
    solver->heap[place] = variable;
    solver->heap_place[variable] = (int)place;
}

static void heap_up(Solver *solver, size_t place) {
    int variable = solver->heap[place];
    for (; place > 0; place = (place - 1) / 2) {
        int parent = solver->heap[(place - 1) / 2];
        if (solver->activity[parent] >= solver->activity[variable]) break;
        heap_put(solver, place, parent);
    }
    heap_put(solver, place, variable);
}

static void heap_down(Solver *solver, size_t place) {
    int variable = solver->heap[place];
    for (size_t child; (child = 2 * place + 1) < solver->heap_length; place = child) {
        if (child + 1 < solver->heap_length &&
            solver->activity[solver->heap[child + 1]] > solver->activity[solver->heap[child]])
            child++;
        if (solver->activity[solver->heap[child]] <= solver->activity[variable]) break;
        heap_put(solver, place, solver->heap[child]);
    }
    heap_put(solver, place, variable);
}

static void heap_insert(Solver *solver, int variable) {
    if (solver->heap_place[variable] >= 0) return;
    heap_put(solver, solver->heap_length++, variable);
    heap_up(solver, solver->heap_length - 1);
}

static int heap_pop(Solver *solver) {
    int variable = solver->heap[0], last = solver->heap[--solver->heap_length];
    solver->heap_place[variable] = -1;
    if (solver->heap_length > 0) {
        heap_put(solver, 0, last);
        heap_down(solver, 0);
    }
    return variable;
}

void bump_variable(Solver *solver, int variable) {
    solver->activity[variable] += solver->bump;
    if (solver->activity[variable] > 1e100) {
        for (int k = 0; k < solver->portfolio->formula.variables; k++)
            solver->activity[k] *= 1e-100;
        solver->bump *= 1e-100;
    }
    if (solver->heap_place[variable] >= 0) heap_up(solver, (size_t)solver->heap_place[variable]);
}

// Assignment and propagation.

static void assign(Solver *solver, Literal literal, Clause *reason) {
    int variable = variable_of(literal);
    solver->values[literal] = 1;
    solver->values[complement_of(literal)] = -1;
    solver->levels[variable] = level_of(solver);
    solver->reasons[variable] = reason;
    PUSH(&solver->trail, literal);
}

static void go_back(Solver *solver, int level) {
    if (level_of(solver) <= level) return;
    size_t length = (size_t)solver->decisions.items[level];
    while (solver->trail.length > length) {
        Literal literal = solver->trail.items[--solver->trail.length];
        int variable = variable_of(literal);
        solver->values[literal] = solver->values[complement_of(literal)] = 0;
        solver->phases[variable] = literal & 1 ? -1 : 1;
        solver->reasons[variable] = NULL;
        heap_insert(solver, variable);
    }
    solver->decisions.length = (size_t)level;
    solver->propagated = length;
}

static Clause *new_clause(uint64_t identity, unsigned lbd, const Literal *literals, size_t length) {
    Clause *clause = grow(NULL, sizeof *clause + length * sizeof *literals);
    *clause = (Clause){ .identity = identity, .length = (unsigned)length, .lbd = lbd };
    memcpy(clause->literals, literals, length * sizeof *literals);
    return clause;
}

static void watch(Solver *solver, Clause *clause) {
    for (int k = 0; k < 2; k++)
        PUSH(&solver->watches[clause->literals[k]], ((Watch){ clause, clause->literals[1 - k] }));
}

// Replaces the second watched literal, which is false, by another one that isn't; returns false if
// the clause has no such literal.
static bool watch_another(Solver *solver, Clause *clause) {
    for (unsigned k = 2; k < clause->length; k++) {
        Literal literal = clause->literals[k];
        if (solver->values[literal] < 0) continue;
        clause->literals[k] = clause->literals[1];
        clause->literals[1] = literal;
        PUSH(&solver->watches[literal], ((Watch){ clause, clause->literals[0] }));
        return true;
    }
    return false;
}

// Visits the clauses that watch a literal which has become false. A clause without another literal
// to watch implies its other watched literal, or is the conflict.
static Clause *visit(Solver *solver, Literal falsified) {
    Watches *list = &solver->watches[falsified];
    Clause *conflict = NULL;
    size_t kept = 0;
    for (size_t k = 0; k < list->length; k++) {
        Watch entry = list->items[k];
        list->items[kept++] = entry;
        if (conflict != NULL || solver->values[entry.other] > 0) continue;
        Clause *clause = entry.clause;
        Literal first = clause->literals[0] ^ clause->literals[1] ^ falsified;
        clause->literals[0] = first;
        clause->literals[1] = falsified;
        if (solver->values[first] > 0)
            list->items[kept - 1].other = first;
        else if (watch_another(solver, clause))
            kept--;
        else if (solver->values[first] < 0)
            conflict = clause;
        else
            assign(solver, first, clause);
    }
    list->length = kept;
    return conflict;
}

static Clause *propagate(Solver *solver) {
    Clause *conflict = NULL;
    while (conflict == NULL && solver->propagated < solver->trail.length)
        conflict = visit(solver, complement_of(solver->trail.items[solver->propagated++]));
    return conflict;
}

// Adds a clause at level 0, watched by literals that aren't false. Returns the clause if all its
// literals are false.
static Clause *install(Solver *solver, Clause *clause) {
    unsigned open = 0;
    for (unsigned k = 0; k < clause->length && open < 2; k++) {
        Literal literal = clause->literals[k];
        if (solver->values[literal] < 0) continue;
        clause->literals[k] = clause->literals[open];
        clause->literals[open++] = literal;
    }
    if (open == 0) return clause;
    if (open == 1 && solver->values[clause->literals[0]] == 0)
        assign(solver, clause->literals[0], clause);
    if (clause->length > 1) watch(solver, clause);
    return NULL;
}

// Adds the formula's clauses. A clause with a literal and its complement is never unit, and never a
// hint, so it is left out.
static Clause *install_formula(Solver *solver) {
    const Formula *formula = &solver->portfolio->formula;
    Literals literals = { 0 };
    Clause *conflict = NULL;
    for (size_t k = 0; k < formula->clauses && conflict == NULL; k++) {
        formula_clause(formula, k, &literals);
        if (literals_clash(literals.items, literals.length)) continue;
        conflict = install(solver, new_clause(k + 1, 0, literals.items, literals.length));
    }
    grow(literals.items, 0);
    return conflict;
}

// Exchange, at level 0.

// Flushes the lines of clauses before it gives the clauses away, all at once: the others may cite a
// clause as soon as they have it, and lrupd then looks for its line.
static void give(Solver *solver) {
    if (solver->gifts.length == 0) return;
    proof_flush(&solver->proof);
    for (size_t k = 0; k < solver->gifts.length; k++)
        outbox_give(&solver->outbox, solver->gifts.items[k]);
    solver->gifts.length = 0;
}

// A clause of another solver keeps its identity, and needs no line here; with --imports, an import
// states its literals in the stream. A clause that is true at level 0 isn't taken over.
static Clause *take_over(Solver *solver, const Gift *gift) {
    for (unsigned k = 0; k < gift->length; k++)
        if (solver->values[gift->literals[k]] > 0) return NULL;
    if (solver->portfolio->imports)
        proof_import(&solver->proof, gift->identity, gift->literals, gift->length);
    Clause *clause = new_clause(gift->identity, gift->lbd, gift->literals, gift->length);
    if (gift->length > 1) PUSH(&solver->clauses, clause);
    return install(solver, clause);
}

static Clause *take(Solver *solver) {
    Portfolio *portfolio = solver->portfolio;
    Clause *conflict = NULL;
    const Gift *gift;
    for (int k = 0; k < portfolio->solvers; k++)
        while (k != solver->place && conflict == NULL &&
               (gift = inbox_take(&solver->inboxes[k], &portfolio->solver[k].outbox)) != NULL)
            conflict = take_over(solver, gift);
    return conflict;
}

// Reduction, at level 0, where no clause is a reason any more.

static int worse_first(const void *one, const void *other) {
    const Clause *left = *(Clause *const *)one, *right = *(Clause *const *)other;
    if (left->lbd != right->lbd) return left->lbd > right->lbd ? -1 : 1;
    return left->length > right->length ? -1 : left->length < right->length;
}

static void forget_watches(Solver *solver) {
    for (int literal = 0; literal < 2 * solver->portfolio->formula.variables; literal++) {
        Watches *list = &solver->watches[literal];
        size_t kept = 0;
        for (size_t k = 0; k < list->length; k++)
            if (!list->items[k].clause->removed) list->items[kept++] = list->items[k];
        list->length = kept;
    }
}

// Deletes the worse half. A clause of this solver that others have gets no deletion in the stream:
// they may still cite it. For other solvers' clauses the deletion only says that this stream won't
// cite them again.
static void reduce(Solver *solver) {
    Clauses *clauses = &solver->clauses;
    Identities *deleted = &solver->hints;
    size_t kept = 0, half = clauses->length / 2;
    if (half == 0) return;
    qsort(clauses->items, clauses->length, sizeof *clauses->items, worse_first);
    deleted->length = 0;
    for (size_t k = 0; k < half; k++) {
        Clause *clause = clauses->items[k];
        clause->removed = clause->lbd > KEPT_LBD;
        if (clause->removed && !clause->given) PUSH(deleted, clause->identity);
    }
    proof_delete(&solver->proof, deleted);
    forget_watches(solver);
    for (size_t k = 0; k < clauses->length; k++) {
        if (clauses->items[k]->removed)
            grow(clauses->items[k], 0);
        else
            clauses->items[kept++] = clauses->items[k];
    }
    clauses->length = kept;
}

// Luby's sequence: 1, 1, 2, 1, 1, 2, 4, .. The first index is 1.
static uint64_t luby(uint64_t place) {
    uint64_t power = 1;
    while (2 * power <= place + 1) power *= 2;
    return power == place + 1 ? power / 2 : luby(place + 1 - power);
}

static Clause *restart(Solver *solver) {
    go_back(solver, 0);
    solver->next_restart = solver->conflicts + RESTART_UNIT * luby(++solver->restarts);
    if (solver->conflicts >= solver->next_reduction) {
        solver->next_reduction =
            solver->conflicts + REDUCTION_FIRST + REDUCTION_STEP * ++solver->reductions;
        reduce(solver);
    }
    give(solver);
    return take(solver);
}

// Adds the learnt clause, whose first literal is the only one of the last level; the second has to
// be of the next level below.
static void learn(Solver *solver, Clause *conflict) {
    find_clause(solver, conflict);
    Literal *literals = solver->learnt.items;
    size_t length = solver->learnt.length;
    unsigned lbd = lbd_of(solver, &solver->learnt);
    uint64_t identity = proof_add(&solver->proof, literals, length, &solver->hints);
    for (size_t k = 2; k < length; k++) {
        if (solver->levels[variable_of(literals[k])] <= solver->levels[variable_of(literals[1])])
            continue;
        Literal literal = literals[k];
        literals[k] = literals[1];
        literals[1] = literal;
    }
    bool given = lbd <= solver->portfolio->share;
    if (given) PUSH(&solver->gifts, gift_of(identity, lbd, literals, length));
    go_back(solver, length == 1 ? 0 : solver->levels[variable_of(literals[1])]);
    if (length == 1) {
        solver->units[variable_of(literals[0])] = identity;
        assign(solver, literals[0], NULL);
        return;
    }
    Clause *clause = new_clause(identity, lbd, literals, length);
    clause->given = given;
    PUSH(&solver->clauses, clause);
    watch(solver, clause);
    assign(solver, literals[0], clause);
}

// False if every variable has a value.
static bool decide(Solver *solver) {
    while (solver->heap_length > 0) {
        int variable = heap_pop(solver);
        if (solver->values[2 * variable] != 0) continue;
        PUSH(&solver->decisions, (int)solver->trail.length);
        assign(solver, solver->phases[variable] < 0 ? 2 * variable + 1 : 2 * variable, NULL);
        return true;
    }
    return false;
}

static void tell_model(Solver *solver) {
    int variables = solver->portfolio->formula.variables, wanted = UNKNOWN;
    signed char *model = zeroed((size_t)variables, 1);
    for (int k = 0; k < variables; k++) model[k] = solver->values[2 * k];
    if (atomic_compare_exchange_strong(&solver->portfolio->answer, &wanted, SATISFIABLE))
        solver->portfolio->model = model;
}

static void tell_refutation(Solver *solver, const Clause *conflict) {
    int wanted = UNKNOWN;
    refute(solver, conflict);
    atomic_compare_exchange_strong(&solver->portfolio->answer, &wanted, UNSATISFIABLE);
}

// If another solver has the answer, the stream ends, too, after a whole line.
void solver_run(Solver *solver) {
    Clause *conflict = install_formula(solver);
    while (atomic_load_explicit(&solver->portfolio->answer, memory_order_relaxed) == UNKNOWN) {
        if (conflict == NULL) conflict = propagate(solver);
        if (conflict != NULL && level_of(solver) == 0) {
            tell_refutation(solver, conflict);
            break;
        }
        if (conflict != NULL) {
            learn(solver, conflict);
            solver->bump /= 0.95;
            conflict = ++solver->conflicts >= solver->next_restart ? restart(solver) : NULL;
            continue;
        }
        if (level_of(solver) == 0) name_units(solver);
        if (!decide(solver)) {
            tell_model(solver);
            break;
        }
    }
    proof_close(&solver->proof);
}

// Each solver begins with a different order of the variables, and with different values.
void solver_open(Solver *solver) {
    size_t variables = (size_t)solver->portfolio->formula.variables;
    solver->random = (solver->portfolio->seed + 1) * 0x9E3779B97F4A7C15u +
                     (uint64_t)solver->place * 0xBF58476D1CE4E5B9u;
    if (solver->random == 0) solver->random = 1;
    solver->values = zeroed(2 * variables, 1);
    solver->phases = zeroed(variables, 1);
    solver->levels = zeroed(variables, sizeof *solver->levels);
    solver->reasons = zeroed(variables, sizeof *solver->reasons);
    solver->units = zeroed(variables, sizeof *solver->units);
    solver->watches = zeroed(2 * variables, sizeof *solver->watches);
    solver->activity = zeroed(variables, sizeof *solver->activity);
    solver->heap = zeroed(variables, sizeof *solver->heap);
    solver->heap_place = zeroed(variables, sizeof *solver->heap_place);
    solver->marks = zeroed(variables, 1);
    solver->level_stamps = zeroed(variables + 1, sizeof *solver->level_stamps);
    solver->inboxes = zeroed((size_t)solver->portfolio->solvers, sizeof *solver->inboxes);
    outbox_open(&solver->outbox);
    solver->bump = 1;
    solver->next_restart = RESTART_UNIT;
    solver->next_reduction = REDUCTION_FIRST;
    for (int k = 0; k < (int)variables; k++) {
        int polarity = solver->place % 4;  // all false, all true, or mixed
        bool positive = polarity == 0 ? false : polarity == 1 ? true : next_random(solver) >> 63;
        solver->phases[k] = positive ? 1 : -1;
        solver->activity[k] = (double)(next_random(solver) >> 40) * 1e-9;
        solver->heap_place[k] = -1;
        heap_insert(solver, k);
    }
}
