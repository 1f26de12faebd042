// Unverified: reads a checkpoint, which a run of lrupd saved for the next run.
#ifndef CHECKPOINT_H
#define CHECKPOINT_H

#include <stdint.h>

#include "lists.h"

#ifdef __cplusplus
extern "C" {
#endif

// The clauses' previous identities, in rising order. A clause's new identity is its index here,
// where the first index is 1.
typedef struct {
    Identities old;
    uint64_t literals;
} Checkpoint;

void checkpoint_read(Checkpoint *checkpoint, const char *path);
uint64_t checkpoint_place(const Checkpoint *checkpoint, uint64_t identity);  // 0: not saved
void checkpoint_free(Checkpoint *checkpoint);

#ifdef __cplusplus
}
#endif

#endif
