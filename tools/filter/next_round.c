// Unverified, like the whole filter. A chain of runs: what a stream deletes at the end of a run, so
// that it isn't saved, and the clauses' identities in the next run, which reads what was saved.
#include <string.h>

#include "checks.h"
#include "errors.h"
#include "lists.h"
#include "next_round.h"

static bool is_own(const Filter *filter, uint64_t identity) {
    return filter_stream_of(filter, identity) == filter->stream;
}

// Marks the clause if the stream may delete it. The marks of the formula's clauses come first, then
// those of the stream's own. A clause that was taken over under a wrong identity, which lrupd
// refuses, may have an identity that the stream hasn't used yet.
static void mark(const Filter *filter, unsigned char *marks, uint64_t identity) {
    uint64_t formula = filter->formula.clauses;
    if (identity <= formula)
        marks[identity - 1] = 1;
    else if (identity <= filter->last && is_own(filter, identity))
        marks[formula + (identity - formula - 1) / filter->streams] = 1;
}

// Whether the stream may have added this clause. In windows, a lemma that it added is there.
static bool may_delete(const Filter *filter, uint64_t identity) {
    uint64_t place = (identity - filter->formula.clauses - 1) / filter->streams;
    bool is_of_lemma = place % IDENTITIES_OF_AN_ADDITION != IDENTITIES_OF_AN_ADDITION - 1;
    return !(filter_has_windows(filter) && is_of_lemma);
}

// Deletes the clauses of the formula and of the stream, except those that are spared, those in
// `kept` and, if another round follows, those that the filter has. The stream hasn't deleted any of
// these clauses before.
void round_delete(Filter *filter, const Identities *kept, bool goes_on) {
    uint64_t formula = filter->formula.clauses, first = formula + filter->stream;
    uint64_t own = filter->last ? (filter->last - first) / filter->streams + 1 : 0;
    unsigned char *marks = zeroed(formula + own, 1);
    for (ClauseRef ref = 0; goes_on && (ref = clauses_after(&filter->clauses, ref)) != 0;)
        mark(filter, marks, clause_at(&filter->clauses, ref)->identity);
    for (size_t k = 0; k < kept->length; k++) mark(filter, marks, kept->items[k]);
    filter->chain.length = 0;
    for (uint64_t k = filter->spared; k < formula + own; k++) {
        uint64_t identity = k < formula ? k + 1 : first + (k - formula) * filter->streams;
        if (!marks[k] && (k < formula || may_delete(filter, identity)))
            PUSH(&filter->chain, identity);
    }
    grow(marks, 0);
    filter_write_deletion(filter);
}

// How many clauses a run saves if the stream ends after `round_delete` with an empty `kept`.
uint64_t round_clauses(const Filter *filter, uint64_t *literals) {
    uint64_t count = 0;
    *literals = 0;
    for (ClauseRef ref = 0; (ref = clauses_after(&filter->clauses, ref)) != 0; count++)
        *literals += clause_at(&filter->clauses, ref)->length;
    return count;
}

// Call before each line. If the row has no room for it, the stream ends here, since lrupd would
// refuse the line; `next_round` makes room, or ends the program.
void round_make_room(const Filter *filter, bool (*has_room)(uint64_t literals),
                     void (*next_round)(uint64_t literals)) {
    size_t length = filter->literals.length;
    while (!has_room(length)) next_round(length);
}

// Continues with the saved clauses, as the stream of the given number. From now on, the proof's
// names aren't identities.
void round_begin(Filter *filter, const Checkpoint *checkpoint, uint64_t stream, uint64_t streams) {
    for (ClauseRef ref = 0; (ref = clauses_after(&filter->clauses, ref)) != 0;) {
        Clause *clause = clause_at(&filter->clauses, ref);
        uint64_t new_one = checkpoint_place(checkpoint, clause->identity);
        assert(new_one <= checkpoint->old.length);
        if (new_one == 0)
            stop("lrupd hasn't saved the clause %llu, which the solver has",
                 (unsigned long long)clause->identity);
        clause->identity = new_one;
    }
    filter->formula.clauses = checkpoint->old.length;
    filter->stream = stream;
    filter->streams = streams;
    filter->last = 0;
    windows_begin_round(&filter->windows);
    filter->keeps_identities = false;
    filter->renumbered = true;
}
