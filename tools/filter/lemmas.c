// Unverified, like the whole filter. Lemmas, lines that the proof doesn't have. A literal at the
// root gets a unit clause once a chain needs it, so that no chain derives it again. A chain that is
// too long for a line is cut, beginning at its end: a lemma says that the literals needed by the
// part that is cut off don't all hold, and replaces the conflict. If there are too many of these
// literals for a clause, the chain is split by literals: a lemma says that a needed literal holds,
// or one of the clause's own literals does.
#include "errors.h"
#include "lemmas.h"
#include "line_limits.h"

enum { MOST_NEEDED = IDENTITIES_OF_A_LINE - 1 };  // literals of one clause, with a hint each
enum { WORTH_A_LEMMA = 16 };  // hints, and one more for each literal of the clause
enum { NONE = -1 };

_Static_assert((int)MOST_NEEDED <= (int)LITERALS_OF_A_LINE,
               "a lemma has as many literals as a clause may need");

// The end of a conflict's chain, from a position on the trail: its hints, and the literals that it
// needs from before that position, which a lemma would have. `met` counts the clause's own
// literals, `open` the others, and `marked` the variables marked so far.
typedef struct {
    size_t position, hints, open, met, marked;
} Cut;

// Writes the lemma that a clause and all its reasons imply: the lemma's literals are the assumed
// ones on which these clauses depend.
static ClauseRef write_lemma(Filter *filter, ClauseRef ref) {
    Propagation *propagation = &filter->propagation;
    Literals literals = filter->literals;
    int marked = filter->marked;
    filter->literals = filter->spare;
    filter->literals.length = propagation->needed.length = 0;
    filter->marked = 0;
    filter->keeps_identities = false;
    propagation_need(propagation, ref, &filter->literals);
    propagation_need_all(propagation, &filter->literals);
    if (propagation->needed.length > MOST_NEEDED || filter->literals.length > LITERALS_OF_A_LINE)
        filter_stop_too_long(filter);
    if (filter->hooks) filter->hooks->before_line(filter);
    propagation_chain(propagation, ref, &filter->chain);
    ClauseRef lemma = filter_write_line(filter, filter_next_identity(filter));
    if (filter->hooks) filter->hooks->after_line(filter);
    filter->spare = filter->literals;
    filter->literals = literals;
    filter->marked = marked;
    return lemma;
}

// Writes a lemma, which becomes the reason of this variable's literal. The lemma of a literal at
// the root is kept.
static void give_lemma(Filter *filter, int variable) {
    Propagation *propagation = &filter->propagation;
    propagation->seen[variable] = ASSUMED;
    ClauseRef lemma = write_lemma(filter, propagation->reasons[variable]);
    propagation->seen[variable] = UNSEEN;
    propagation->reasons[variable] = lemma;
    if (propagation->positions[variable] >= propagation->root) PUSH(&filter->lemmas, lemma);
}

// Writes the lemma that a clause implies. The clause's literals in `left` stay in the lemma.
static ClauseRef write_shorter(Filter *filter, ClauseRef ref) {
    Literals *left = &filter->left;
    propagation_mark(&filter->propagation, left, ASSUMED);
    ClauseRef shorter = write_lemma(filter, ref);
    propagation_mark(&filter->propagation, left, UNSEEN);
    left->length = 0;
    PUSH(&filter->lemmas, shorter);
    return shorter;
}

// Removes false literals from the clause, as many as a line may have hints for. Each removed
// literal has a lemma. The literal of `own` is true, and stays in the clause.
static ClauseRef shorten(Filter *filter, ClauseRef ref, int own) {
    Propagation *propagation = &filter->propagation;
    const Clause *clause = clause_at(&filter->clauses, ref);
    Literals *left = &filter->left;
    size_t found = 0;
    for (unsigned k = 0; k < clause->length; k++) {
        int variable = variable_of(clause->literals[k]);
        if (propagation->seen[variable] == UNSEEN && (variable == own || ++found > MOST_NEEDED))
            PUSH(left, clause->literals[k]);
    }
    return write_shorter(filter, ref);
}

// Cuts.

static bool has_unit(const Filter *filter, int variable) {
    return clause_at(&filter->clauses, filter->propagation.reasons[variable])->length == 1;
}

// Adds a clause to the cut, and the literals that it needs but no later clause does. A unit clause
// is a hint in each line that needs it.
static void extend(Filter *filter, ClauseRef ref, Cut *cut) {
    Propagation *propagation = &filter->propagation;
    const Clause *clause = clause_at(&filter->clauses, ref);
    cut->hints++;
    for (unsigned k = 0; k < clause->length; k++) {
        int variable = variable_of(clause->literals[k]);
        unsigned char *seen = &propagation->seen[variable];
        if (*seen == NEEDED || *seen == MET) continue;
        if (*seen == ASSUMED)
            cut->met++;
        else if (has_unit(filter, variable))
            cut->hints++;
        else
            cut->open++;
        *seen = *seen == ASSUMED ? MET : NEEDED;
        PUSH(&propagation->marked, variable);
    }
    cut->marked = propagation->marked.length;
}

// The best cut has the fewest literals per hint. It has more than half of the hints that a line may
// have, and at most MOST_NEEDED literals. So a chain's lemmas have at most twice as many literals
// as the chain has hints, and few clauses are visited twice.
static bool is_better(const Cut *cut, const Cut *best) {
    size_t literals = cut->open + cut->met;
    if (cut->hints <= IDENTITIES_OF_A_LINE / 2 || literals > MOST_NEEDED) return false;
    return literals * best->hints <= (best->open + best->met) * cut->hints;
}

// Goes back along the trail from the position. True if all fits into one line; if not, `best` is
// the best cut, or has no hints if no cut was found.
static bool find_cut(Filter *filter, ClauseRef conflict, size_t position, Cut *best) {
    const Propagation *propagation = &filter->propagation;
    Cut cut = { .position = position };
    *best = (Cut){ 0 };
    extend(filter, conflict, &cut);
    while (cut.open > 0 && cut.hints <= IDENTITIES_OF_A_LINE) {
        int variable = variable_of(propagation->trail.items[cut.position - 1]);
        if (propagation->seen[variable] == NEEDED && !has_unit(filter, variable)) {
            if (is_better(&cut, best)) *best = cut;
            cut.open--;
            extend(filter, propagation->reasons[variable], &cut);
        }
        cut.position--;
    }
    return cut.hints <= IDENTITIES_OF_A_LINE;
}

static void leave_open(Filter *filter, const Cut *cut) {
    const Propagation *propagation = &filter->propagation;
    for (size_t k = 0; k < cut->marked; k++) {
        int variable = propagation->marked.items[k];
        if (propagation->seen[variable] != NEEDED ||
            propagation->positions[variable] >= cut->position)
            continue;
        if (!has_unit(filter, variable))
            PUSH(&filter->left, propagation->trail.items[propagation->positions[variable]]);
    }
    assert(filter->left.length == cut->open);
}

static void forget_marks(Propagation *propagation) {
    for (size_t k = 0; k < propagation->marked.length; k++) {
        unsigned char *seen = &propagation->seen[propagation->marked.items[k]];
        *seen = *seen == MET ? ASSUMED : UNSEEN;
    }
    propagation->marked.length = 0;
}

// Replaces the conflict by a shorter one as long as a cut is found. False if the rest of the chain
// doesn't fit into a line.
static bool cut_chain(Filter *filter, ClauseRef *conflict) {
    Cut best = { .position = filter->propagation.trail.length };
    for (;;) {
        bool fits = find_cut(filter, *conflict, best.position, &best);
        if (!fits && best.hints > 0) leave_open(filter, &best);
        forget_marks(&filter->propagation);
        if (fits || best.hints == 0) return fits;
        *conflict = write_shorter(filter, *conflict);
    }
}

// Lemmas for literals.

// Counts the hints of the clause's chain: those that derive the literals which the clause needs,
// and one for the clause. `needed` becomes the number of these literals.
static uint64_t hints_for(const Filter *filter, ClauseRef ref, int own, size_t floor,
                          size_t *needed) {
    const Propagation *propagation = &filter->propagation;
    const Clause *clause = clause_at(&filter->clauses, ref);
    uint64_t hints = 1;
    *needed = 0;
    for (unsigned k = 0; k < clause->length; k++) {
        int variable = variable_of(clause->literals[k]);
        if (variable == own || propagation->seen[variable] != UNSEEN) continue;
        hints += propagation->positions[variable] >= floor ? filter->weights[variable].hints : 1;
        ++*needed;
    }
    return hints;
}

// Makes the clause's chain fit into a line: writes lemmas for literals that take too many hints,
// and then shortens the clause. Literals below the floor have unit clauses.
static ClauseRef fit(Filter *filter, ClauseRef ref, int own, size_t floor, uint32_t *hints) {
    const Propagation *propagation = &filter->propagation;
    size_t needed;
    uint64_t all = hints_for(filter, ref, own, floor, &needed);
    if (all > IDENTITIES_OF_A_LINE) {
        size_t share = needed < MOST_NEEDED ? MOST_NEEDED / needed : 1;
        for (unsigned k = 0; k < clause_at(&filter->clauses, ref)->length; k++) {
            int variable = variable_of(clause_at(&filter->clauses, ref)->literals[k]);
            if (variable == own || propagation->seen[variable] != UNSEEN ||
                propagation->positions[variable] < floor)
                continue;
            if (filter->weights[variable].hints <= share) continue;
            give_lemma(filter, variable);
            filter->weights[variable].hints = 1;
        }
        while ((all = hints_for(filter, ref, own, floor, &needed)) > IDENTITIES_OF_A_LINE)
            ref = shorten(filter, ref, own);
    }
    *hints = (uint32_t)all;
    return ref;
}

static void use(Filter *filter, ClauseRef ref, int own, size_t floor) {
    const Propagation *propagation = &filter->propagation;
    const Clause *clause = clause_at(&filter->clauses, ref);
    for (unsigned k = 0; k < clause->length; k++) {
        int variable = variable_of(clause->literals[k]);
        if (variable == own || propagation->seen[variable] != UNSEEN ||
            propagation->positions[variable] < floor)
            continue;
        filter->weights[variable].uses++;
    }
}

// Counts the uses of all literals that the conflict needs, from the floor on.
static void count_uses(Filter *filter, ClauseRef conflict, size_t floor) {
    const Propagation *propagation = &filter->propagation;
    use(filter, conflict, NONE, floor);
    for (size_t position = propagation->trail.length; position-- > floor;) {
        int variable = variable_of(propagation->trail.items[position]);
        if (filter->weights[variable].uses > 0)
            use(filter, propagation->reasons[variable], variable, floor);
    }
}

// Goes along the trail. A literal that several clauses need gets a lemma, unless deriving it again
// is as cheap. Thus few hints are written twice.
static void weigh(Filter *filter, size_t floor, size_t worth) {
    Propagation *propagation = &filter->propagation;
    for (size_t position = floor; position < propagation->trail.length; position++) {
        int variable = variable_of(propagation->trail.items[position]);
        Weight *weight = &filter->weights[variable];
        if (weight->uses == 0) continue;
        propagation->reasons[variable] =
            fit(filter, propagation->reasons[variable], variable, floor, &weight->hints);
        if ((uint64_t)(weight->uses - 1) * weight->hints <= worth || weight->hints == 1) continue;
        give_lemma(filter, variable);
        weight->hints = 1;
    }
}

// Returns the conflict, or a shorter one, whose chain fits into a line.
static ClauseRef split(Filter *filter, ClauseRef conflict, size_t floor, size_t worth) {
    const Propagation *propagation = &filter->propagation;
    uint32_t hints;
    if (cut_chain(filter, &conflict)) return conflict;
    if (filter->weights == NULL)
        filter->weights = zeroed((size_t)propagation->variables, sizeof *filter->weights);
    count_uses(filter, conflict, floor);
    weigh(filter, floor, worth);
    conflict = fit(filter, conflict, NONE, floor, &hints);
    for (size_t position = floor; position < propagation->trail.length; position++)
        filter->weights[variable_of(propagation->trail.items[position])] = (Weight){ 0 };
    return conflict;
}

// Gives unit clauses to the literals that the trace missed, and to those that they depend on, in
// the order of the trail; but writes at most that many lemmas.
static void give_units(Filter *filter, uint64_t most) {
    Propagation *propagation = &filter->propagation;
    Positions *missing = &propagation->missing, *needed = &propagation->needed;
    needed->length = 0;
    for (size_t k = 0; k < missing->length; k++) {
        PUSH(needed, missing->items[k]);
        propagation->seen[variable_of(propagation->trail.items[missing->items[k]])] = NEEDED;
    }
    filter->spare.length = missing->length = 0;
    propagation_need_all(propagation, &filter->spare);
    for (size_t k = 0; k < needed->length; k++) PUSH(missing, needed->items[k]);
    for (size_t k = 0; k < missing->length && most > 0; k++) {
        int variable = variable_of(propagation->trail.items[missing->items[k]]);
        ClauseRef *reason = &propagation->reasons[variable];
        if (clause_at(&filter->clauses, *reason)->length == 1) continue;
        while (clause_at(&filter->clauses, *reason)->length > IDENTITIES_OF_A_LINE) {
            if (most < ANY_LEMMAS) return;
            *reason = shorten(filter, *reason, variable);
        }
        give_lemma(filter, variable);
        if (most < ANY_LEMMAS) most--;
    }
}

ClauseRef lemmas_for(Filter *filter, ClauseRef conflict, uint64_t most) {
    Propagation *propagation = &filter->propagation;
    size_t hints = filter->chain.length + propagation->missing.length;
    if (propagation->missing.length > 0) give_units(filter, most);
    if (hints <= IDENTITIES_OF_A_LINE || most < ANY_LEMMAS) return conflict;
    propagation_mark(propagation, &filter->literals, ASSUMED);
    conflict = split(filter, conflict, propagation->root, WORTH_A_LEMMA + filter->literals.length);
    propagation_mark(propagation, &filter->literals, UNSEEN);
    return conflict;
}

// Only the empty clause is needed now, so no literal gets a unit clause that the chain can do
// without.
void lemmas_refute(Filter *filter, uint64_t most) {
    ClauseRef conflict = filter->propagation.conflict;
    filter->busy = true;
    if (most == ANY_LEMMAS) conflict = split(filter, conflict, 0, WORTH_A_LEMMA);
    write_lemma(filter, conflict);
    filter->refuted = true;
    filter->busy = false;
}
