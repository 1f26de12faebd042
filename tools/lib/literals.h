// Unverified: literals, and the literals of a clause.
#ifndef LITERALS_H
#define LITERALS_H

#include <stdbool.h>
#include <stddef.h>

#include "lists.h"

#ifdef __cplusplus
extern "C" {
#endif

// With the first variable as number 0, 2 v is the literal of variable v, and 2 v + 1 its
// complement.
typedef int Literal;

static inline Literal complement_of(Literal literal) { return literal ^ 1; }
static inline int variable_of(Literal literal) { return literal >> 1; }
static inline Literal literal_of(int64_t written) {
    return (Literal)(written > 0 ? 2 * (written - 1) : 2 * (-written - 1) + 1);
}
static inline int as_written(Literal literal) {
    return literal & 1 ? -(variable_of(literal) + 1) : variable_of(literal) + 1;
}

typedef LIST_OF(Literal) Literals;

// also removes repeated literals; returns how many are left
size_t literals_sort(Literal *literals, size_t length);
// whether one of these sorted literals is the complement of another
bool literals_clash(const Literal *literals, size_t length);

#ifdef __cplusplus
}
#endif

#endif
