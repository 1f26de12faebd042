// Unverified, like the whole filter. Other solvers' streams, in LRAT text, read as far as their
// clauses are cited.
#include <stdlib.h>

#include "errors.h"
#include "others.h"

enum { DEAD_WORDS = 1 << 15 };

void others_open(Others *others, uint64_t number, const char *path, int variables) {
    Other other = { .number = number, .variables = variables };
    input_open(&other.input, path);
    PUSH(others, other);
}

Other *others_find(const Others *others, uint64_t number) {
    for (size_t k = others->length; k-- > 0;)  // the last one given counts
        if (others->items[k].number == number) return &others->items[k];
    return NULL;
}

static void keep(Other *other, const Words *words) {
    const int64_t *numbers = words->numbers.items;
    Literals *literals = &other->literals;
    literals->length = 0;
    for (size_t k = 1; k < words->first_zero; k++) {
        if (numbers[k] < LEAST_NUMBER) stop("%s: not a number", other->input.path);
        if (numbers[k] > other->variables || numbers[k] < -other->variables)
            stop("%s: a variable that the formula doesn't have: %lld, above the header's %d",
                 other->input.path, llabs(numbers[k]), other->variables);
        PUSH(literals, literal_of(numbers[k]));
    }
    if (numbers[0] <= (int64_t)other->last || words->zeros == 0 || words->first_zero == 0)
        stop("%s: not a step of LRAT text, or an identity that isn't above the previous one",
             other->input.path);
    other->last = (uint64_t)numbers[0];
    size_t length = literals_sort(literals->items, literals->length);
    bool tautology = literals_clash(literals->items, length);
    ClauseRef ref = clauses_add(&other->clauses, other->last, literals->items, length, tautology);
    clauses_name(&other->clauses, other->last, ref);
}

static void read_to(Other *other, uint64_t identity) {
    Line line;
    while (other->last < identity && input_line(&other->input, &line)) {
        words_read(&other->words, line);
        const Numbers *numbers = &other->words.numbers;
        if (numbers->length < 2 || numbers->items[0] == LETTER('c')) continue;
        if (numbers->items[1] != LETTER('d') && numbers->items[1] != LETTER('i'))
            keep(other, &other->words);
    }
}

// Moves the clause with this identity from the other stream to `clauses`; 0 if there is no such
// clause, or if it has been moved already.
ClauseRef other_clause(Other *other, Clauses *clauses, uint64_t identity) {
    read_to(other, identity);
    ClauseRef ref = clauses_named(&other->clauses, identity);
    if (ref == 0) return 0;
    const Clause *clause = clause_at(&other->clauses, ref);
    ClauseRef taken =
        clauses_add(clauses, identity, clause->literals, clause->length, clause->flags & TAUTOLOGY);
    clauses_forget_name(&other->clauses, identity);
    clauses_delete(&other->clauses, ref);
    if (other->clauses.dead > DEAD_WORDS && 2 * other->clauses.dead > other->clauses.used)
        clauses_end_move(&other->clauses, clauses_begin_move(&other->clauses));
    return taken;
}
