// Unverified: filters that share a proof.
#ifndef WINDOWS_H
#define WINDOWS_H

#include <stdint.h>

// Each filter reads the whole proof, but derives only the additions in its own windows, and adds the
// clauses of the others' windows without a chain. Window w belongs to filter w modulo `filters`. The
// identity of an addition follows from its number, so that filters needn't tell each other anything.
typedef struct {
    uint64_t filters;  // whose streams follow each other; 0 or 1: this filter derives all
    uint64_t number;   // this filter's, from 0
    uint64_t size;     // additions in a window
    uint64_t current;  // how many windows of this round are over
    uint64_t owner;    // whose the current window is
    uint64_t
        before;  // how many additions each filter derives in windows before `owner` had its turn
    uint64_t within;  // how many additions of the current window are over
} Windows;

enum { IDENTITIES_OF_AN_ADDITION = 2 };  // one for a lemma, and the addition's own

static inline void windows_begin_round(Windows *windows) {
    windows->current = windows->owner = windows->before = windows->within = 0;
}

// An addition is over.
static inline void windows_pass(Windows *windows) {
    if (++windows->within < windows->size) return;
    windows->within = 0;
    windows->current++;
    if (++windows->owner < windows->filters) return;
    windows->owner = 0;
    windows->before += windows->size;
}

// How many additions of this round the filter with this number derives before this step.
static inline uint64_t windows_own(const Windows *windows, uint64_t number) {
    uint64_t in_turn = number < windows->owner    ? windows->size
                       : number == windows->owner ? windows->within
                                                  : 0;
    return windows->before + in_turn;
}

#endif
