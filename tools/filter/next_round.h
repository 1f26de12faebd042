// Unverified: takes the filter from one round of lrupd to the next.
#ifndef NEXT_ROUND_H
#define NEXT_ROUND_H

#include <stdbool.h>
#include <stdint.h>

#include "checkpoint.h"
#include "filter.h"

void round_delete(Filter *filter, const Identities *kept, bool goes_on);
uint64_t round_clauses(const Filter *filter, uint64_t *literals);
void round_make_room(const Filter *filter, bool (*has_room)(uint64_t literals),
                     void (*next_round)(uint64_t literals));
void round_begin(Filter *filter, const Checkpoint *checkpoint, uint64_t stream, uint64_t streams);

#endif
