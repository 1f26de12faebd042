// Unverified: reads the formula, for the tools and the example solver.
#ifndef FORMULA_H
#define FORMULA_H

#include <stdbool.h>
#include <stddef.h>

#include "literals.h"

#ifdef __cplusplus
extern "C" {
#endif

enum { MOST_VARIABLES = 16777215 };  // also the most clauses: lrupd's limits

// The clauses are in the order of the file, so that clause k has the identity k + 1. Their literals
// are in the order of the file, too, including repeated ones.
typedef struct {
    int variables;
    size_t clauses;
    // clause k is literals.items[starts[k]] up to starts[k + 1]
    LIST_OF(size_t) starts;
    Literals literals;
} Formula;

void formula_read(Formula *formula, const char *path);
void formula_free(Formula *formula);  // only the counts are left
// sorted, each once
void formula_clause(const Formula *formula, size_t clause, Literals *literals);
// how a file that begins with these bytes can be unpacked, in words, or NULL
const char *unpacked_by(int first, int second);
// in lrupd's spelling; a number that is too large gets a magnitude above MOST_VARIABLES
bool number_read(const char *word, int *value);

#ifdef __cplusplus
}
#endif

#endif
