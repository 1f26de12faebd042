// Unverified: makes an exact chain from given hints.
#ifndef HINTS_H
#define HINTS_H

#include <stdbool.h>
#include <stddef.h>
#include <stdint.h>

#include "clauses.h"

enum { OPEN, GIVEN, TOUCHED, WANTED };  // marks of a literal, which is false unless OPEN

// the clause became unit, which made the literal false
typedef struct {
    ClauseRef clause;
    Literal literal;
} Step;
typedef struct {
    ClauseRef clause;
    uint32_t cursor, next[2];
    Literal watched[2];
} Held;

typedef struct {
    const Clauses *clauses;
    unsigned char *marks;  // by literal; all OPEN between two steps
    uint32_t *heads;       // by literal: the list of clauses held by it
    LIST_OF(Step) steps;
    LIST_OF(Held) held;
    Literals headed;
    bool are_right;  // the last hints that were given, in their order
} Hints;

typedef enum { NO_CHAIN, SOME_CHAIN, SAME_CHAIN } Found;

void hints_open(Hints *hints, const Clauses *clauses, int variables);
Found hints_chain(Hints *hints, const ClauseRefs *given, Identities *chain);
void hints_check(const Hints *hints, int variables);  // between two steps

#endif
