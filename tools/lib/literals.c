// Unverified, like every program that uses it. Sorts the literals of a clause.
#include <stdlib.h>

#include "literals.h"

enum { FEW = 16 };  // up to this many are sorted without qsort

static int by_number(const void *one, const void *other) {
    return *(const Literal *)one - *(const Literal *)other;
}

static void sort_few(Literal *literals, size_t length) {
    for (size_t k = 1; k < length; k++) {
        Literal literal = literals[k];
        size_t at = k;
        for (; at > 0 && literals[at - 1] > literal; at--) literals[at] = literals[at - 1];
        literals[at] = literal;
    }
}

size_t literals_sort(Literal *literals, size_t length) {
    size_t kept = 0;
    if (length <= FEW)
        sort_few(literals, length);
    else
        qsort(literals, length, sizeof *literals, by_number);
    for (size_t k = 0; k < length; k++)
        if (k == 0 || literals[k] != literals[kept - 1]) literals[kept++] = literals[k];
    return kept;
}

bool literals_clash(const Literal *literals, size_t length) {
    for (size_t k = 1; k < length; k++)
        if (literals[k] == complement_of(literals[k - 1])) return true;
    return false;
}
