// Unverified: lemmas, lines that the proof doesn't have.
#ifndef LEMMAS_H
#define LEMMAS_H

#include "filter.h"

#define ANY_LEMMAS UINT64_MAX

// Both write at most `most` lemmas. If these don't suffice, the first one gives units to some of the
// literals that need them, and the other one stops.

// a conflict whose chain fits a line; call after a trace
ClauseRef lemmas_for(Filter *filter, ClauseRef conflict, uint64_t most);
void lemmas_refute(Filter *filter, uint64_t most);  // call if the root has a conflict

#endif
