// Unverified, like the whole filter. Turns each step of a proof into any number of lines of the
// stream, or ends the program.
#include <stdio.h>

#include "errors.h"
#include "filter.h"
#include "hash.h"
#include "lemmas.h"
#include "line_limits.h"
#include "write.h"

enum { DEAD_WORDS = 1 << 15 };  // fewer aren't given back
// filter_check checks after each step what is small, and visits this many words for each step of
// what is larger.
enum { SMALL = 1 << 11, WORDS_OF_A_STEP = 1 << 8 };

// A tautology is never unit or a conflict.
static void make_known(Filter *filter, ClauseRef ref, uint64_t hash) {
    if (clause_at(&filter->clauses, ref)->flags & TAUTOLOGY) return;
    PUSH(&filter->propagation.waiting, ref);
    if (!filter->frat) clauses_keep_set(&filter->clauses, ref, hash);
}

static void meet_by(Filter *filter, uint64_t clause) {
    filter->meeting = clause;
    filter->met.length = 0;
    for (size_t k = 0; k < filter->literals.length; k++)
        PUSH(&filter->met, filter->literals.items[k]);
}

// In FRAT, the proof names the formula's clauses; otherwise their order gives the names. Of
// `formula`, only the two counts are kept. LRAT's identities aren't used in rounds, since gaps
// between them would count towards the row's lines.
void filter_open(Filter *filter, bool frat) {
    Formula *formula = &filter->formula;
    Literals *literals = &filter->literals;
    filter->frat = frat;
    filter->keeps_identities =
        (!filter->hooks && filter->streams == 1) || filter->others.length > 0;
    propagation_open(&filter->propagation, &filter->clauses, formula->variables);
    hints_open(&filter->hints, &filter->clauses, formula->variables);
    for (size_t k = 0; k < formula->clauses; k++) {
        uint64_t length = formula->starts.items[k + 1] - formula->starts.items[k];
        if (filter->hooks && filter->hooks->solver_lacks && filter->hooks->solver_lacks(k, length))
            continue;
        formula_clause(formula, k, literals);
        bool tautology = literals_clash(literals->items, literals->length);
        ClauseRef ref =
            clauses_add(&filter->clauses, k + 1, literals->items, literals->length, tautology);
        if (!frat) clauses_name(&filter->clauses, k + 1, ref);
        make_known(filter, ref, clauses_hash(&filter->clauses, ref));
        bool is_shorter = filter->meeting == 0 || literals->length < filter->met.length;
        if (filter_has_windows(filter) && !tautology && is_shorter) meet_by(filter, k + 1);
    }
    literals->length = 0;
    filter->originals = formula->clauses;
    if (frat) clauses_keep_sets(&filter->clauses);
    formula_free(formula);
}

// Names delete clauses without unlinking them from the sets, so that only FRAT begins with sets.
void filter_name_formula(Filter *filter) {
    uint64_t name = 0;
    clauses_forget_sets(&filter->clauses);
    for (ClauseRef ref = 0; (ref = clauses_after(&filter->clauses, ref)) != 0;)
        clauses_name(&filter->clauses, ++name, ref);
    filter->frat = false;
}

// Names the next clause of the formula. The first call forgets all names that its order gave.
void filter_name_next(Filter *filter, uint64_t name) {
    if (!filter->has_own_names) {
        clauses_forget_names(&filter->clauses);
        filter->unnamed = clauses_after(&filter->clauses, 0);
        filter->has_own_names = filter->renumbered = true;
    }
    if (filter->unnamed == 0) stop("more original clauses than the formula has");
    clauses_name(&filter->clauses, name, filter->unnamed);
    filter->unnamed = clauses_after(&filter->clauses, filter->unnamed);
}

// Reads the literals of a step without repetitions, and marks them. False if the formula lacks one
// of the variables.
static bool mark_literals(Filter *filter, const int64_t *numbers, size_t length, bool *tautology) {
    unsigned char *marks = filter->hints.marks;
    int64_t variables = filter->formula.variables;
    Literals *literals = &filter->literals;
    *tautology = false;
    for (size_t k = 0; k < length; k++) {
        if (numbers[k] > variables || numbers[k] < -variables) return false;
        Literal literal = literal_of(numbers[k]);
        if (marks[literal] != OPEN) continue;
        marks[literal] = TOUCHED;
        *tautology |= marks[complement_of(literal)] != OPEN;
        PUSH(literals, literal);
    }
    filter->hash = hash_literals(literals->items, literals->length);
    return true;
}

void filter_unmark(Filter *filter) {
    for (size_t k = 0; k < filter->literals.length; k++)
        filter->hints.marks[filter->literals.items[k]] = OPEN;
    filter->literals.length = 0;
}

static bool mark_or_stop(Filter *filter, const int64_t *numbers, size_t length) {
    bool tautology;
    if (mark_literals(filter, numbers, length, &tautology)) return tautology;
    int64_t variables = filter->formula.variables;
    while (*numbers <= variables && *numbers >= -variables) numbers++;
    stop("a variable that the formula doesn't have: %lld, above the header's %lld",
         *numbers < 0 ? -(long long)*numbers : (long long)*numbers, (long long)variables);
}

// The clause with this name if another stream derived it, or 0.
static ClauseRef find_other(Filter *filter, int64_t name) {
    uint64_t identity = (uint64_t)name;
    if (filter->frat || name <= (int64_t)filter->formula.clauses) return 0;
    Other *other = others_find(&filter->others, filter_stream_of(filter, identity));
    if (other == NULL) return 0;
    ClauseRef ref = other_clause(other, &filter->clauses, identity);
    if (ref == 0) return 0;
    clauses_name(&filter->clauses, identity, ref);
    make_known(filter, ref, clauses_hash(&filter->clauses, ref));
    return ref;
}

static inline ClauseRef find(Filter *filter, int64_t name) {
    ClauseRef ref = clauses_named(&filter->clauses, (uint64_t)name);
    return ref != 0 || filter->others.length == 0 ? ref : find_other(filter, name);
}

static Found try_hints(Filter *filter, const Addition *addition) {
    ClauseRefs *given = &filter->given;
    RESERVE(given, addition->hinted);
    for (size_t k = 0; k < addition->hinted; k++) {
        given->items[k] = find(filter, addition->hints[k]);
        if (given->items[k] != 0) __builtin_prefetch(clause_at(&filter->clauses, given->items[k]));
    }
    given->length = addition->hinted;
    return hints_chain(&filter->hints, given, &filter->chain);
}

_Noreturn void filter_stop_too_long(Filter *filter) {
    filter->is_too_long = true;
    stop("longer than a line may be");
}

uint64_t filter_next_identity(const Filter *filter) {
    uint64_t identity =
        filter->last ? filter->last + filter->streams : filter->formula.clauses + filter->stream;
    if (identity > LAST_IDENTITY) stop("an identity of more than %d digits", DIGITS);
    return identity;
}

// Windows.

// The identity of this step's addition if that filter derives it.
static uint64_t identity_by(const Filter *filter, uint64_t number) {
    uint64_t additions = windows_own(&filter->windows, number) + 1,
             place = IDENTITIES_OF_AN_ADDITION * additions - 1,
             stream = filter->stream - filter->windows.number + number,
             identity = filter->formula.clauses + stream + place * filter->streams;
    if (identity > LAST_IDENTITY) stop("an identity of more than %d digits", DIGITS);
    return identity;
}

// The stream's next identity; or the identity that LRAT gives, if there is only one stream or other
// streams may cite the clause.
static uint64_t new_identity(const Filter *filter, const Addition *addition) {
    int64_t formula = (int64_t)filter->formula.clauses, name = addition->name;
    if (addition->named && filter->keeps_identities && !filter->frat) {
        if (name <= formula || name <= (int64_t)filter->last ||
            filter_stream_of(filter, (uint64_t)name) != filter->stream)
            stop("the identity %lld isn't the stream's own, or isn't above the previous one",
                 (long long)name);
        return (uint64_t)name;
    }
    return filter_has_windows(filter) ? identity_by(filter, filter->windows.owner)
                                      : filter_next_identity(filter);
}

// How many lines that the proof doesn't have can get identities before this addition. LRAT streams
// that may cite each other have no identities to spare.
static uint64_t lemmas_possible(const Filter *filter, const Addition *addition) {
    if (filter_has_windows(filter)) return IDENTITIES_OF_AN_ADDITION - 1;
    bool is_alone = (filter->hooks || filter->streams == 1) && filter->others.length == 0;
    bool any = !addition->named || filter->frat || is_alone ||
               (filter->renumbered && !filter->keeps_identities);
    return any ? ANY_LEMMAS : 0;
}

static ClauseRef add_clause(Filter *filter, uint64_t identity) {
    assert(identity > filter->last && identity > filter->formula.clauses &&
           filter_stream_of(filter, identity) == filter->stream);
    filter->last = identity;
    return clauses_add(&filter->clauses, identity, filter->literals.items, filter->literals.length,
                       false);
}

static void write_line(const Filter *filter) {
    write_number(filter->last, ' ');
    write_literals(filter->literals.items, filter->literals.length);
    write_bytes(" ", 1);
    write_numbers(filter->chain.items, filter->chain.length);
}

ClauseRef filter_write_line(Filter *filter, uint64_t identity) {
    ClauseRef ref = add_clause(filter, identity);
    write_line(filter);
    return ref;
}

static void write_addition(Filter *filter, const Addition *addition, Found found) {
    bool same = found == SAME_CHAIN;
    if (same && addition->line && !filter->renumbered &&
        addition->length == filter->literals.length) {
        write_bytes((const char *)addition->line->start,
                    (size_t)(addition->line->end - addition->line->start) + 1);
        return;
    }
    if (same) filter->chain.length = 0;
    for (size_t k = 0; k < (same ? filter->given.length : 0); k++)
        PUSH(&filter->chain, clause_at(&filter->clauses, filter->given.items[k])->identity);
    write_line(filter);
}

// Adds the clause's literals, except the pivot's complement, to those of the step. False if the
// clause has the complement of another literal of the step, too.
static bool resolve(Filter *filter, const Clause *clause, Literal complement) {
    for (unsigned k = 0; k < clause->length; k++) {
        Literal literal = clause->literals[k];
        if (literal == complement || filter->hints.marks[literal] != OPEN) continue;
        if (filter->hints.marks[complement_of(literal)] != OPEN) return false;
        PUSH(&filter->literals, literal);
    }
    return true;
}

static bool has_literal(const Clause *clause, Literal literal) {
    for (unsigned k = 0; k < clause->length; k++)
        if (clause->literals[k] == literal) return true;
    return false;
}

// Whether the clause, which isn't RUP, is RAT on its first literal, that is, whether each resolvent
// with another clause follows. Used only for a message, before the program ends.
static bool is_rat(Filter *filter) {
    Literals *literals = &filter->literals;
    size_t length = literals->length;
    Literal complement = length > 0 ? complement_of(literals->items[0]) : 0;
    bool follows = length > 0;
    for (ClauseRef ref = 0; follows && (ref = clauses_after(&filter->clauses, ref)) != 0;) {
        const Clause *clause = clause_at(&filter->clauses, ref);
        if (!has_literal(clause, complement)) continue;
        propagation_backtrack(&filter->propagation);
        follows = !resolve(filter, clause, complement) ||
                  propagation_conflict(&filter->propagation, literals) != 0;
        literals->length = length;
    }
    return follows;
}

enum { LONGEST_SHOWN = 120 };

static _Noreturn void stop_without_cause(Filter *filter, const char *none) {
    char clause[LONGEST_SHOWN + 20];
    size_t length = 0;
    const Literals *literals = &filter->literals;
    for (size_t k = 0; k < literals->length && length < LONGEST_SHOWN; k++)
        length += (size_t)snprintf(clause + length, sizeof clause - length, "%d ",
                                   as_written(literals->items[k]));
    snprintf(clause + length, sizeof clause - length, length < LONGEST_SHOWN ? "0" : "..");
    if (is_rat(filter))
        stop("%s: the clause %s is a RAT step, which lrupd doesn't check", none, clause);
    stop("%s: the clause %s doesn't follow from those that weren't deleted, and it isn't RAT", none,
         clause);
}

// If the step cites a clause that isn't there, that is the most likely reason.
static _Noreturn void stop_without_conflict(Filter *filter, const Addition *addition) {
    static const char none[] = "no conflict by unit propagation";
    int64_t missing = 0;
    for (size_t k = addition->hinted; k-- > 0;)
        if (clauses_named(&filter->clauses, (uint64_t)addition->hints[k]) == 0)
            missing = addition->hints[k];
    if (missing == 0) stop_without_cause(filter, none);
    long long name = missing;
    bool is_alone = filter->frat || (filter->hooks && filter->others.length == 0);
    bool may_be_shared = !is_alone && missing > (int64_t)filter->formula.clauses;
    unsigned long long stream =
        may_be_shared ? filter_stream_of(filter, (uint64_t)missing) : filter->stream;
    if (may_be_shared && filter->streams == 1)
        stop("%s, and the step cites the clause %lld, which isn't there: if it is another "
             "stream's, use --streams and --other",
             none, name);
    if (stream == filter->stream || clauses_named(&filter->dropped, (uint64_t)missing) != 0)
        stop("%s, and the step cites the clause %lld, which isn't there", none, name);
    if (others_find(&filter->others, stream))
        stop("%s, and the step cites the clause %lld, which isn't in --other %llu", none, name,
             stream);
    stop("%s, and the step cites the clause %lld of stream %llu: it needs an import, "
         "or --other %llu=STREAM",
         none, name, stream, stream);
}

// Finds a chain by unit propagation. A round may end before each lemma that the chain needs.
static void propagate_chain(Filter *filter, const Addition *addition, uint64_t lemmas) {
    Propagation *propagation = &filter->propagation;
    ClauseRef conflict = propagation_conflict(propagation, &filter->literals);
    if (conflict == 0) stop_without_conflict(filter, addition);
    if (filter->literals.length > LITERALS_OF_A_LINE) filter_stop_too_long(filter);
    if (lemmas == 0) {
        propagation_trace_all(propagation, &filter->literals, conflict, &filter->chain);
    } else if (!propagation_trace(propagation, &filter->literals, conflict, &filter->chain) ||
               filter->chain.length > IDENTITIES_OF_A_LINE) {
        filter->busy = true;
        conflict = lemmas_for(filter, conflict, lemmas);
        if (filter->hooks) filter->hooks->before_line(filter);
        if (!propagation_trace(propagation, &filter->literals, conflict, &filter->chain))
            propagation_trace_all(propagation, &filter->literals, conflict, &filter->chain);
        assert(lemmas < ANY_LEMMAS || filter->chain.length <= IDENTITIES_OF_A_LINE);
        filter->busy = false;
    }
    propagation_backtrack(propagation);
}

// Makes a chain from the hints or, if that fails, by unit propagation. NO_CHAIN if the empty clause
// has been derived instead of this clause.
static Found find_chain(Filter *filter, const Addition *addition) {
    uint64_t lemmas = lemmas_possible(filter, addition);
    Found found = addition->hinted > 0 ? try_hints(filter, addition) : NO_CHAIN;
    filter->other_hints += addition->hinted > 0 && !filter->hints.are_right;
    size_t hints = found == SAME_CHAIN ? addition->hinted : filter->chain.length;
    if (found == NO_CHAIN || (hints > IDENTITIES_OF_A_LINE && lemmas > 0)) {
        propagation_settle(&filter->propagation);
        if (lemmas > 0 && filter->propagation.conflict != 0)
            return lemmas_refute(filter, lemmas), NO_CHAIN;
        propagate_chain(filter, addition, lemmas);
        found = SOME_CHAIN;
        hints = filter->chain.length;
    }
    if (hints > IDENTITIES_OF_A_LINE || filter->literals.length > LITERALS_OF_A_LINE)
        filter_stop_too_long(filter);
    return found;
}

static void forget_lemmas(Filter *filter);

static void keep(Filter *filter, const Addition *addition, ClauseRef ref) {
    const Clause *clause = clause_at(&filter->clauses, ref);
    filter->renumbered |= addition->named && addition->name != (int64_t)clause->identity;
    if (addition->named) clauses_name(&filter->clauses, (uint64_t)addition->name, ref);
    make_known(filter, ref, filter->hash);
}

// Adds a clause that another filter derives. Without hints, that filter propagates now. The clause
// isn't recent: clauses of other windows are needed less often than those of this filter's own.
static void leave_to_another(Filter *filter, const Addition *addition) {
    if (addition->hinted == 0 && !filter->propagation.used)
        propagation_settle(&filter->propagation);
    ClauseRef ref = clauses_add(&filter->clauses, identity_by(filter, filter->windows.owner),
                                filter->literals.items, filter->literals.length, false);
    clause_at(&filter->clauses, ref)->flags -= RECENT;  // as clauses_add makes it
    keep(filter, addition, ref);
    if (filter->hooks) filter->hooks->after_other_clause(filter);
}

static void derive(Filter *filter, const Addition *addition) {
    Found found = find_chain(filter, addition);
    if (found == NO_CHAIN) return;
    filter->refuted = filter->literals.length == 0 && lemmas_possible(filter, addition) > 0;
    ClauseRef ref = add_clause(filter, new_identity(filter, addition));
    keep(filter, addition, ref);
    write_addition(filter, addition, found);
    if (filter->hooks) filter->hooks->after_line(filter);
    forget_lemmas(filter);
}

static void add(Filter *filter, const Addition *addition) {
    filter->named |= addition->named;
    if (filter->hooks) filter->hooks->before_line(filter);
    if (filter_has_windows(filter) && filter->windows.owner != filter->windows.number)
        leave_to_another(filter, addition);
    else
        derive(filter, addition);
    filter->additions++;
    if (filter_has_windows(filter)) windows_pass(&filter->windows);
}

// A tautology is of no use, and lrupd refuses it.
static void add_marked(Filter *filter, const Addition *addition, bool tautology) {
    if (addition->named && clauses_named(&filter->clauses, (uint64_t)addition->name) != 0)
        stop("the identity %lld is used twice", (long long)addition->name);
    if (!tautology && !filter->refuted) add(filter, addition);
    filter->marked = 0;
    filter_unmark(filter);
    CHECK(filter_check(filter));
}

void filter_add(Filter *filter, const Addition *addition) {
    filter->steps++;
    int64_t least = 0;
    for (size_t k = 0; k < addition->hinted; k++)
        least = addition->hints[k] < least ? addition->hints[k] : least;
    if (least < 0)
        stop("a RAT step (negative hints), which lrupd doesn't check: switch off the "
             "techniques that make them");
    add_marked(filter, addition, mark_or_stop(filter, addition->literals, addition->length));
}

void filter_add_marked(Filter *filter, bool tautology) {
    filter->steps++;
    add_marked(filter, &(Addition){ .named = false }, tautology);
}

// Whether the marked literals are those of the clause.
static bool same_literals(const Filter *filter, const Clause *clause) {
    if (clause->length != filter->literals.length) return false;
    for (unsigned k = 0; k < clause->length; k++)
        if (filter->hints.marks[clause->literals[k]] == OPEN) return false;
    return true;
}

static void write_import(uint64_t identity, const int64_t *literals, size_t length) {
    write_number(identity, ' ');
    write_bytes("i ", 2);
    write_written(literals, length);
    write_bytes("\n", 1);
}

// From now on, steps may use the clause.
void filter_import(Filter *filter, int64_t identity, const int64_t *literals, size_t length) {
    filter->steps++;
    int64_t formula = (int64_t)filter->formula.clauses;
    if (filter->hooks && filter->others.length == 0)
        stop("an import, but the solver shares nothing");
    if (filter->refuted) return;
    if (identity < 1 ||
        (identity > formula && filter_stream_of(filter, (uint64_t)identity) == filter->stream))
        stop("an import of %lld, which isn't a clause of the formula or of another stream",
             (long long)identity);
    bool tautology = mark_or_stop(filter, literals, length);
    if (length > LITERALS_OF_A_LINE) filter_stop_too_long(filter);
    if (identity > formula && filter->renumbered && !filter->keeps_identities)
        stop("an import, but the proof's identities aren't those of its stream");
    filter->keeps_identities |= identity > formula;
    ClauseRef ref = find(filter, identity);
    if (clauses_named(&filter->dropped, (uint64_t)identity) != 0 ||
        (ref == 0 && identity <= formula))
        stop("an import of %lld, which was deleted", (long long)identity);
    if (ref == 0) {
        ref = clauses_add(&filter->clauses, (uint64_t)identity, filter->literals.items,
                          filter->literals.length, tautology);
        clauses_name(&filter->clauses, (uint64_t)identity, ref);
        make_known(filter, ref, filter->hash);
    } else if (!same_literals(filter, clause_at(&filter->clauses, ref))) {
        stop("the literals of the import aren't those of the clause %lld", (long long)identity);
    }
    filter_unmark(filter);
    write_import((uint64_t)identity, literals, length);
}

void filter_meet(Filter *filter) {
    Literals of_step = filter->literals;
    uint64_t number = filter->windows.number;
    int64_t *numbers = zeroed(filter->met.length + 1, sizeof *numbers);
    for (size_t k = 0; k < filter->met.length; k++) numbers[k] = as_written(filter->met.items[k]);
    filter->literals = filter->met;
    filter->chain.length = 0;
    PUSH(&filter->chain, filter->meeting);
    clauses_delete(&filter->clauses, filter_write_line(filter, identity_by(filter, number)));
    filter->literals = of_step;
    for (uint64_t other = 0; other < filter->windows.filters; other++)
        if (other != number) write_import(identity_by(filter, other), numbers, filter->met.length);
    grow(numbers, 0);
}

// Like an import, but the name isn't the identity.
void filter_take_over(Filter *filter, uint64_t identity, uint64_t name, const int64_t *literals,
                      size_t length) {
    bool tautology = mark_or_stop(filter, literals, length);
    if (length > LITERALS_OF_A_LINE) filter_stop_too_long(filter);
    ClauseRef ref = clauses_add(&filter->clauses, identity, filter->literals.items,
                                filter->literals.length, tautology);
    if (name != 0) clauses_name(&filter->clauses, name, ref);
    make_known(filter, ref, filter->hash);
    filter_unmark(filter);
    write_import(identity, literals, length);
}

// Deletions.

// Gives back the memory of deleted clauses if it is at least half of the row, and large compared
// with what a move visits.
static void give_back(Filter *filter) {
    Clauses *clauses = &filter->clauses;
    if (filter->busy) return;
    size_t least = DEAD_WORDS + (size_t)filter->formula.variables + clauses->near.length / 4;
    if (clauses->dead < least || 2 * clauses->dead < clauses->used) return;
    uint64_t *old = clauses_begin_move(clauses);
    filter->unnamed = clauses_moved(old, filter->unnamed);
    propagation_move(&filter->propagation, old);
    clauses_end_move(clauses, old);
}

// Whether a clause that the proof deletes stays, since it is or may be a reason at the root. Filters
// that share a proof agree on this, though a literal may have another reason in each.
static bool is_needed(const Filter *filter, ClauseRef ref) {
    return filter_has_windows(filter) ? propagation_may_need(&filter->propagation, ref)
                                      : propagation_needs(&filter->propagation, ref);
}

// Callers don't pass a clause that is the reason of a literal at the root: it may be needed again.
static void delete (Filter *filter, ClauseRef ref) {
    uint64_t identity = clause_at(&filter->clauses, ref)->identity;
    clauses_delete(&filter->clauses, ref);
    if (filter->keeps_clauses) return;
    PUSH(&filter->chain, identity);
    if (identity <= filter->formula.clauses || filter_stream_of(filter, identity) == filter->stream)
        return;
    if (clauses_named(&filter->dropped, identity) == 0) clauses_name(&filter->dropped, identity, 1);
}

void filter_write_deletion(Filter *filter) {
    write_deletion(filter->last ? filter->last : 1, &filter->chain);
    give_back(filter);
}

// Deletes the lemmas of the line that was just written.
static void forget_lemmas(Filter *filter) {
    if (filter->lemmas.length == 0) return;
    filter->chain.length = 0;
    for (size_t k = 0; k < filter->lemmas.length; k++) delete (filter, filter->lemmas.items[k]);
    filter->lemmas.length = 0;
    filter_write_deletion(filter);
}

// Names without clauses are skipped. FRAT may use a name again.
void filter_delete(Filter *filter, const int64_t *names, size_t length) {
    filter->steps++;
    if (filter->refuted) return;
    if (filter->propagation.used) propagation_settle(&filter->propagation);
    filter->chain.length = 0;
    for (size_t k = 0; k < length; k++) {
        ClauseRef ref = clauses_named(&filter->clauses, (uint64_t)names[k]);
        if (ref == 0) continue;
        bool needed = filter->ignores_deletions || is_needed(filter, ref);
        if (!needed || filter->frat) clauses_forget_name(&filter->clauses, (uint64_t)names[k]);
        if (!needed) delete (filter, ref);
    }
    filter_write_deletion(filter);
}

// A clause with the marked literals that hasn't been taken yet, or 0. Unmarks them.
static ClauseRef take_marked(Filter *filter) {
    ClauseRef ref = clauses_take_set(&filter->clauses, filter->hash, filter->literals.length,
                                     filter->hints.marks);
    filter_unmark(filter);
    return ref;
}

// A clause with these literals that hasn't been taken yet, or 0.
static ClauseRef take_set(Filter *filter, const int64_t *literals, size_t length) {
    bool tautology;
    if (mark_literals(filter, literals, length, &tautology)) return take_marked(filter);
    filter_unmark(filter);
    return 0;
}

// Prepares a deletion by literals. Returns whether it matters.
static bool begin_deletion(Filter *filter) {
    filter->steps++;
    if (filter->refuted) return false;
    if (filter->clauses.sets == NULL) clauses_keep_sets(&filter->clauses);
    propagation_settle(&filter->propagation);
    filter->chain.length = 0;
    return true;
}

// Deletes a clause that was taken, unless there is none or it is needed.
static void end_deletion(Filter *filter, ClauseRef ref) {
    if (ref == 0 || filter->ignores_deletions || is_needed(filter, ref)) return;
    delete (filter, ref);
    filter_write_deletion(filter);
}

void filter_delete_literals(Filter *filter, const int64_t *literals, size_t length) {
    if (begin_deletion(filter)) end_deletion(filter, take_set(filter, literals, length));
}

void filter_delete_marked(Filter *filter) {
    if (begin_deletion(filter))
        end_deletion(filter, take_marked(filter));
    else
        filter_unmark(filter);
}

// Steps that only FRAT has.

void filter_original(Filter *filter, int64_t name, const int64_t *literals, size_t length) {
    filter->steps++;
    if (clauses_named(&filter->clauses, (uint64_t)name) != 0)
        stop("the identity %lld is used twice", (long long)name);
    ClauseRef ref = take_set(filter, literals, length);
    if (ref == 0) stop("an original clause that the formula doesn't have, or not that many times");
    clauses_name(&filter->clauses, (uint64_t)name, ref);
}

// Each pair is an old name and a new one; all change at once.
void filter_rename(Filter *filter, const int64_t *pairs, size_t length) {
    filter->steps++;
    ClauseRefs *given = &filter->given;
    given->length = 0;
    for (size_t k = 0; k + 1 < length; k += 2) {
        PUSH(given, clauses_named(&filter->clauses, (uint64_t)pairs[k]));
        clauses_forget_name(&filter->clauses, (uint64_t)pairs[k]);
    }
    for (size_t k = 0; k < given->length; k++) {
        int64_t name = pairs[2 * k + 1];
        if (clauses_named(&filter->clauses, (uint64_t)name) != 0)
            stop("the identity %lld is used twice", (long long)name);
        if (given->items[k] != 0) clauses_name(&filter->clauses, (uint64_t)name, given->items[k]);
    }
}

#ifdef CHECKED
// Invariants.

// Unless some clause has been renumbered, each clause's name is its identity in the stream.
static void identities_check(const Filter *filter) {
    const Clauses *clauses = &filter->clauses;
    for (ClauseRef ref = 0; (ref = clauses_after(clauses, ref)) != 0;) {
        uint64_t identity = clause_at(clauses, ref)->identity;
        assert(identity > 0);
        assert(identity <= filter->formula.clauses ||
               filter_stream_of(filter, identity) != filter->stream || identity <= filter->last);
    }
    for (size_t name = 0; name < clauses->near.length && !filter->frat && !filter->renumbered;
         name++)
        assert(clauses->near.items[name] == 0 ||
               clause_at(clauses, clauses->near.items[name])->identity == name);
}

void filter_check(const Filter *filter) {
    static size_t taken;  // words: WORDS_OF_A_STEP for each step since the last check
    size_t words = filter->clauses.used + (size_t)filter->formula.variables;
    if (words < filter->clauses.near.length) words = filter->clauses.near.length;
    taken += WORDS_OF_A_STEP;
    if ((words > SMALL && taken < words) || filter->refuted) return;
    taken = 0;
    assert(filter->literals.length == 0 && filter->lemmas.length == 0 && filter->left.length == 0 &&
           !filter->busy);
    for (int k = 0; filter->weights && k < filter->formula.variables; k++)
        assert(filter->weights[k].uses == 0 && filter->weights[k].hints == 0);
    clauses_check(&filter->clauses);
    for (size_t k = 0; k < filter->others.length; k++)
        clauses_check(&filter->others.items[k].clauses);
    hints_check(&filter->hints, filter->formula.variables);
    propagation_check(&filter->propagation);
    identities_check(filter);
}
#endif
