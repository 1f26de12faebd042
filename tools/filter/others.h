// Unverified: other solvers' streams, read as far as the proof cites them.
#ifndef OTHERS_H
#define OTHERS_H

#include <stddef.h>
#include <stdint.h>

#include "clauses.h"
#include "input.h"
#include "words.h"

typedef struct {
    uint64_t number, last;
    int variables;
    Input input;
    Words words;
    Literals literals;
    Clauses clauses;
} Other;

typedef LIST_OF(Other) Others;

void others_open(Others *others, uint64_t number, const char *path, int variables);
Other *others_find(const Others *others, uint64_t number);
ClauseRef other_clause(Other *other, Clauses *clauses, uint64_t identity);

#endif
