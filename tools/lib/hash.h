// Unverified: hash functions for numbers and for sets of literals.
#ifndef HASH_H
#define HASH_H

#include <stddef.h>
#include <stdint.h>

#include "literals.h"

static inline uint64_t hash_number(uint64_t number) {
    number = (number ^ number >> 31) * UINT64_C(0x9E3779B97F4A7C15);
    number = (number ^ number >> 29) * UINT64_C(0xBF58476D1CE4E5B9);
    return number ^ number >> 32;
}

// A set's hash is the sum of its literals' hashes. The upper half of the product goes into the lower
// one, so that sets with equal sums of literals have different hashes.
static inline uint64_t hash_literal(uint64_t literal) {
    uint64_t product = (literal + 1) * UINT64_C(0x9E3779B97F4A7C15);
    return product ^ product >> 32;
}

static inline uint64_t hash_literals(const Literal *literals, size_t length) {
    uint64_t sum = 0;
    for (size_t k = 0; k < length; k++) sum += hash_literal((uint64_t)literals[k]);
    return sum;
}

#endif
