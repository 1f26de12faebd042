// Unverified, like the whole filter. Keeps the clauses that the proof has at the moment.
#include <stdlib.h>
#include <string.h>

#include "checks.h"
#include "clauses.h"
#include "errors.h"
#include "hash.h"
#include "lists.h"

enum { FIRST_WORDS = 1 << 12, FIRST_SETS = 1 << 10, FIRST_FAR = 1 << 6, GAP = 64 };

static size_t words_of(size_t length) {
    return (sizeof(Clause) + (length + (length > MANY)) * sizeof(Literal) + 7) / 8;
}

static void make_room(Clauses *clauses, size_t words) {
    if (clauses->used == 0) clauses->used = 1;  // no clause has index 0
    if (words <= clauses->capacity - clauses->used && clauses->capacity > 0) return;
    size_t capacity = clauses->capacity ? clauses->capacity : FIRST_WORDS;
    while (capacity - clauses->used < words) capacity *= 2;
    if (capacity > UINT32_MAX) capacity = UINT32_MAX;
    if (capacity - clauses->used < words) fail("out of", "memory");
    clauses->row = grow(clauses->row, capacity * sizeof *clauses->row);
    clauses->capacity = capacity;
}

ClauseRef clauses_add(Clauses *clauses, uint64_t identity, const Literal *literals, size_t length,
                      bool tautology) {
    size_t words = words_of(length);
    make_room(clauses, words);
    ClauseRef ref = (ClauseRef)clauses->used;
    clauses->used += words;
    Clause *clause = clause_at(clauses, ref);
    unsigned flags = (unsigned)(RECENT + (tautology ? TAUTOLOGY : 0) + (length > MANY ? LONG : 0));
    *clause = (Clause){ .identity = identity,
                        .length = length & ((1u << LENGTH_BITS) - 1),
                        .flags = flags & ((1u << FLAG_BITS) - 1) };
    if (length > 0) memcpy(clause->literals, literals, length * sizeof *literals);
    if (length > MANY) clause->literals[length] = 2;
    return ref;
}

// Names. Dense names are in an array, the others in a hash table.

static size_t far_place(const Clauses *clauses, uint64_t name) {
    size_t place = hash_number(name) & (clauses->far_capacity - 1);
    while (clauses->far[place].clause != 0 && clauses->far[place].name != name)
        place = (place + 1) & (clauses->far_capacity - 1);
    return place;
}

ClauseRef clauses_named_far(const Clauses *clauses, uint64_t name) {
    return clauses->far[far_place(clauses, name)].clause;
}

static void grow_near(Clauses *clauses, uint64_t name) {
    RESERVE(&clauses->near, name + FIRST_FAR / 2);
    while (clauses->near.length < clauses->near.capacity) PUSH(&clauses->near, 0);
}

static void grow_far(Clauses *clauses) {
    Named *old = clauses->far;
    size_t capacity = clauses->far_capacity;
    clauses->far_capacity = capacity ? 2 * capacity : FIRST_FAR;
    clauses->far = zeroed(clauses->far_capacity, sizeof *clauses->far);
    for (size_t k = 0; k < capacity; k++)
        if (old[k].clause != 0) clauses->far[far_place(clauses, old[k].name)] = old[k];
    free(old);
}

// The name must be new.
void clauses_name(Clauses *clauses, uint64_t name, ClauseRef ref) {
    clauses->names++;
    if (name >= clauses->near.length && name / GAP < clauses->names + 1) grow_near(clauses, name);
    if (name < clauses->near.length) {
        clauses->near.items[name] = ref;
        return;
    }
    if (2 * clauses->far_length >= clauses->far_capacity) grow_far(clauses);
    clauses->far[far_place(clauses, name)] = (Named){ name, ref };
    clauses->far_length++;
}

// Moves later entries up, so that no gap hides them from a search.
static void forget_far(Clauses *clauses, uint64_t name) {
    size_t most = clauses->far_capacity - 1, gap = far_place(clauses, name);
    if (clauses->far[gap].clause == 0) return;
    clauses->far_length--;
    for (size_t k = (gap + 1) & most; clauses->far[k].clause != 0; k = (k + 1) & most) {
        size_t wanted = hash_number(clauses->far[k].name) & most;
        if (((k - wanted) & most) < ((k - gap) & most)) continue;
        clauses->far[gap] = clauses->far[k];
        gap = k;
    }
    clauses->far[gap].clause = 0;
}

void clauses_forget_name(Clauses *clauses, uint64_t name) {
    if (name < clauses->near.length && clauses->near.items[name] != 0)
        clauses->near.items[name] = 0;
    else if (clauses->far_length > 0)
        forget_far(clauses, name);
}

void clauses_forget_names(Clauses *clauses) {
    clauses->near.items = grow(clauses->near.items, 0);
    clauses->near.length = clauses->near.capacity = 0;
    clauses->far = grow(clauses->far, 0);
    clauses->far_length = clauses->far_capacity = 0;
    clauses->names = 0;
}

// Sets of literals.

static size_t set_place(const Clauses *clauses, uint64_t hash) {
    return hash_number(hash) & (clauses->sets_capacity - 1);
}

uint64_t clauses_hash(const Clauses *clauses, ClauseRef ref) {
    const Clause *clause = clause_at(clauses, ref);
    return hash_literals(clause->literals, clause->length);
}

static void link_set(Clauses *clauses, ClauseRef ref, uint64_t hash) {
    size_t set = set_place(clauses, hash);
    clause_at(clauses, ref)->next = clauses->sets[set];
    clauses->sets[set] = ref;
}

// Links the clauses of a list again, from last to first, so that equal clauses keep their order.
static void link_again(Clauses *clauses, ClauseRef ref) {
    ClauseRef reversed = 0;
    while (ref != 0) {
        Clause *clause = clause_at(clauses, ref);
        ClauseRef next = clause->next;
        clause->next = reversed;
        reversed = ref;
        ref = next;
    }
    while (reversed != 0) {
        ClauseRef next = clause_at(clauses, reversed)->next;
        link_set(clauses, reversed, clauses_hash(clauses, reversed));
        reversed = next;
    }
}

static void grow_sets(Clauses *clauses) {
    ClauseRef *old = clauses->sets;
    size_t capacity = clauses->sets_capacity;
    clauses->sets_capacity *= 2;
    clauses->sets = zeroed(clauses->sets_capacity, sizeof *clauses->sets);
    for (size_t k = 0; k < capacity; k++) link_again(clauses, old[k]);
    free(old);
}

void clauses_keep_set(Clauses *clauses, ClauseRef ref, uint64_t hash) {
    if (clauses->sets == NULL) return;
    if (clauses->sets_length++ >= clauses->sets_capacity) grow_sets(clauses);
    link_set(clauses, ref, hash);
}

void clauses_keep_sets(Clauses *clauses) {
    clauses->sets_capacity = FIRST_SETS;
    clauses->sets = zeroed(clauses->sets_capacity, sizeof *clauses->sets);
    for (ClauseRef ref = 0; (ref = clauses_after(clauses, ref)) != 0;)
        clauses_keep_set(clauses, ref, clauses_hash(clauses, ref));
}

void clauses_forget_sets(Clauses *clauses) {
    clauses->sets = grow(clauses->sets, 0);
    clauses->sets_length = clauses->sets_capacity = 0;
}

// Unlinks and returns the latest clause that has just the marked literals, or returns 0 if there is
// none. The hash is theirs, and the length says how many they are.
ClauseRef clauses_take_set(Clauses *clauses, uint64_t hash, size_t length,
                           const unsigned char *marks) {
    ClauseRef *link = &clauses->sets[set_place(clauses, hash)];
    for (; *link != 0; link = &clause_at(clauses, *link)->next) {
        const Clause *clause = clause_at(clauses, *link);
        size_t same = 0;
        if (clause->length != length) continue;
        while (same < length && marks[clause->literals[same]]) same++;
        if (same < length) continue;
        ClauseRef ref = *link;
        *link = clause->next;
        clauses->sets_length--;
        return ref;
    }
    return 0;
}

// Deletion, and memory that is given back.

void clauses_delete(Clauses *clauses, ClauseRef ref) {
    Clause *clause = clause_at(clauses, ref);
    assert(!(clause->flags & DEAD));
    clause->flags |= DEAD;
    clauses->dead += words_of(clause->length);
}

ClauseRef clauses_after(const Clauses *clauses, ClauseRef ref) {
    size_t at = ref == 0 ? 1 : ref + words_of(clause_at(clauses, ref)->length);
    while (at < clauses->used && clause_at(clauses, (ClauseRef)at)->flags & DEAD)
        at += words_of(clause_at(clauses, (ClauseRef)at)->length);
    return at < clauses->used ? (ClauseRef)at : 0;
}

// A clause that isn't needed again stops being recent after three calls.
void clauses_age(Clauses *clauses) {
    for (ClauseRef ref = 0; (ref = clauses_after(clauses, ref)) != 0;)
        if (clause_at(clauses, ref)->flags & RECENT) clause_at(clauses, ref)->flags -= AGE;
}

// After the call, `next` in the old row is each clause's new reference.
uint64_t *clauses_begin_move(Clauses *clauses) {
    uint64_t *old = clauses->row;
    size_t end = clauses->used;
    clauses->row = NULL;
    clauses->used = clauses->capacity = 0;
    make_room(clauses, end - clauses->dead);
    for (size_t at = 1; at < end;) {
        Clause *clause = (Clause *)(old + at);
        size_t words = words_of(clause->length);
        if (!(clause->flags & DEAD)) {
            memcpy(clauses->row + clauses->used, clause, words * sizeof *old);
            clause->next = (ClauseRef)clauses->used;
            clauses->used += words;
        }
        at += words;
    }
    assert(clauses->used + clauses->dead == (end > 0 ? end : 1));
    clauses->dead = 0;
    return old;
}

ClauseRef clauses_moved(const uint64_t *old, ClauseRef ref) {
    const Clause *clause = (const Clause *)(old + ref);
    return ref == 0 || clause->flags & DEAD ? 0 : clause->next;
}

// Updates the names and the lists of sets. No name and no list refers to a deleted clause.
void clauses_end_move(Clauses *clauses, uint64_t *old) {
    for (size_t k = 0; k < clauses->near.length; k++)
        clauses->near.items[k] = clauses_moved(old, clauses->near.items[k]);
    for (size_t k = 0; k < clauses->far_capacity; k++) {
        ClauseRef moved = clauses_moved(old, clauses->far[k].clause);
        assert((moved == 0) == (clauses->far[k].clause == 0));
        clauses->far[k].clause = moved;
    }
    for (size_t k = 0; k < (clauses->sets ? clauses->sets_capacity : 0); k++)
        for (ClauseRef *link = &clauses->sets[k]; *link != 0;
             link = &clause_at(clauses, *link)->next)
            *link = clauses_moved(old, *link);
    free(old);
}

#ifdef CHECKED
// Invariants.

// Each name leads to a clause of the row. For a name in the table, a search finds its entry, and
// the clause isn't deleted.
static void names_check(const Clauses *clauses) {
    size_t far = 0;
    for (size_t k = 0; k < clauses->near.length; k++)
        assert(clauses->near.items[k] < clauses->used || clauses->near.items[k] == 0);
    for (size_t k = 0; k < clauses->far_capacity; k++) {
        Named named = clauses->far[k];
        if (named.clause == 0) continue;
        assert(far_place(clauses, named.name) == k);
        assert(named.clause < clauses->used && !(clause_at(clauses, named.clause)->flags & DEAD));
        far++;
    }
    assert(far == clauses->far_length);
}

// Each list has only clauses whose sets belong in it, and no deleted clause.
static void sets_check(const Clauses *clauses) {
    size_t length = 0;
    for (size_t k = 0; clauses->sets && k < clauses->sets_capacity; k++)
        for (ClauseRef ref = clauses->sets[k]; ref != 0; ref = clause_at(clauses, ref)->next) {
            const Clause *clause = clause_at(clauses, ref);
            assert(ref < clauses->used && !(clause->flags & DEAD));
            assert(set_place(clauses, clauses_hash(clauses, ref)) == k);
            length++;
        }
    assert(length == clauses->sets_length);
}

// The row consists of clauses.
void clauses_check(const Clauses *clauses) {
    size_t dead = 0, at = 1;
    while (at < clauses->used) {
        const Clause *clause = clause_at(clauses, (ClauseRef)at);
        size_t words = words_of(clause->length);
        assert(((clause->flags & LONG) != 0) == (clause->length > MANY));
        assert(clause->length <= MANY || (clause->literals[clause->length] >= 2 &&
                                          clause->literals[clause->length] < (int)clause->length));
        dead += clause->flags & DEAD ? words : 0;
        at += words;
    }
    assert(at == clauses->used || clauses->used == 0);
    assert(dead == clauses->dead);
    names_check(clauses);
    sets_check(clauses);
}
#endif
