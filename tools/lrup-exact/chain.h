// Unverified: writes a stream for each round of lrupd --rounds.
#ifndef CHAIN_H
#define CHAIN_H

#include <stdint.h>

#include "filter.h"

void chain_open(const char *folder);
void chain_begin(Filter *filter, uint64_t memory);
void chain_end(void);

#endif
