// Unverified: clauses in one row of words, the names that the proof gives them, and deletion by
// literals.
#ifndef CLAUSES_H
#define CLAUSES_H

#include <stdbool.h>
#include <stddef.h>
#include <stdint.h>

#include "literals.h"

typedef uint32_t ClauseRef;  // an index in the row; 0: none
typedef LIST_OF(ClauseRef) ClauseRefs;

enum { MANY = 1024 };  // a clause with more literals is long
// a clause is recent while a bit of RECENT is set
enum { DEAD = 1, TAUTOLOGY = 2, AGE = 4, RECENT = 3 * AGE, LONG = 16 };

enum { LENGTH_BITS = 27, FLAG_BITS = 5 };

// The literals are distinct, and the two watched ones come first. After a long clause's literals
// comes the index at which the search for another literal to watch begins.
typedef struct {
    uint64_t identity;  // in the stream
    uint32_t length : LENGTH_BITS, flags : FLAG_BITS;
    ClauseRef next;  // the next clause with the same index in `sets`
    Literal literals[];
} Clause;

typedef struct {
    uint64_t name;
    ClauseRef clause;
} Named;

typedef struct {
    uint64_t *row;
    size_t used, capacity, dead;  // in words; dead: those of deleted clauses
    ClauseRefs near;              // by name, as long as names are dense
    Named *far;                   // a hash table of the other names
    size_t far_length, far_capacity;
    size_t names;     // given so far
    ClauseRef *sets;  // a hash table; NULL: not needed so far
    size_t sets_length, sets_capacity;
} Clauses;

static inline Clause *clause_at(const Clauses *clauses, ClauseRef ref) {
    return (Clause *)(clauses->row + ref);
}

ClauseRef clauses_add(Clauses *clauses, uint64_t identity, const Literal *literals, size_t length,
                      bool tautology);
ClauseRef clauses_named_far(const Clauses *clauses, uint64_t name);
static inline ClauseRef clauses_named(const Clauses *clauses, uint64_t name) {
    if (name < clauses->near.length && clauses->near.items[name] != 0)
        return clauses->near.items[name];
    return clauses->far_length > 0 ? clauses_named_far(clauses, name) : 0;
}
void clauses_name(Clauses *clauses, uint64_t name, ClauseRef ref);
void clauses_forget_name(Clauses *clauses, uint64_t name);
void clauses_forget_names(Clauses *clauses);  // all of them
void clauses_keep_sets(Clauses *clauses);     // of the clauses present, and of later ones
uint64_t clauses_hash(const Clauses *clauses, ClauseRef ref);  // of its literals
void clauses_keep_set(Clauses *clauses, ClauseRef ref, uint64_t hash);
void clauses_forget_sets(Clauses *clauses);
ClauseRef clauses_take_set(Clauses *clauses, uint64_t hash, size_t length,
                           const unsigned char *marks);
void clauses_delete(Clauses *clauses, ClauseRef ref);
// the next clause that isn't deleted, or 0; after 0, the first one
ClauseRef clauses_after(const Clauses *clauses, ClauseRef ref);
void clauses_age(Clauses *clauses);
// moves the clauses to a new row, except deleted ones; returns the old row
uint64_t *clauses_begin_move(Clauses *clauses);
ClauseRef clauses_moved(const uint64_t *old, ClauseRef ref);  // 0 for a deleted clause
void clauses_end_move(Clauses *clauses, uint64_t *old);
void clauses_check(const Clauses *clauses);

#endif
